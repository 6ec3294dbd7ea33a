#!/usr/bin/env python3
"""Refuses each allocation of the program in turn, and compares what it answers and leaves with what docs/FORMATS.md says.

    refused.py MULTIVERSE SHIM FOLDER

Each command runs on three images of the documents: two instructions and a system call, one that traps where a counter stands before
it, and a small program of a compiler. The answer must be `no memory`, or done with the whole text; OUT then is as it was, or has a
front of the output, or all of it, and all of it where the command is done.
"""
import os, re, struct, subprocess, sys

import oracles

OLD = b"what OUT held before"
LIMIT = 4000


def third_image():
    """Three headers: code, a note, and the mark of the stack."""
    code = bytes.fromhex("f30f1efbe80c000000b801000000cd800f1f440000bb2a000000f3c3")
    image = bytearray(oracles.small_image(code, 0x08048094)[:52])
    struct.pack_into("<H", image, 44, 3)
    image += struct.pack("<8I", 1, 0x94, 0x08048094, 0x08048094, len(code), len(code), 5, 4096)
    image += struct.pack("<8I", 4, 0, 0, 0, 0, 0, 4, 4) + struct.pack("<8I", 0x6474E551, 0, 0, 0, 0, 0, 6, 16)
    return bytes(image) + code


IMAGES = {"two and a call": oracles.small_image(bytes.fromhex("b801000000bb07000000cd80")),
          "a trap": oracles.small_image(bytes.fromhex("f7f1")), "a compiler's": third_image()}
COMMANDS = (("rewrite", "in", "out"), ("rewrite", "in", "out", "--count=all"), ("rewrite", "in", "out", "--count=at:08048054"),
            ("rewrite", "in", "out", "--edges=all"), ("rewrite", "in", "out", "--count=all", "--edges=at:08048054"), ("check", "in", "whole"),
            ("trace", "in", "log", "100"), ("trace", "whole", "log", "100"), ("list", "in"), ("sample", "7", "64", "out"),
            ("extract", "whole", "out"), ("upgrade", "whole", "out"))


def run(command, shim, words, number):
    """The status, the text, and what OUT holds, where the allocation of that number is refused."""
    with open("out", "wb") as out:
        out.write(OLD)
    environment = dict(os.environ, LD_PRELOAD=shim, REFUSE=str(number), COUNTED="counted")
    ran = subprocess.run([command, *words], capture_output=True, env=environment, timeout=60)
    with open("out", "rb") as out:
        return ran.returncode, ran.stdout, out.read()


def agrees(found, whole):
    """Whether an answer is one of those that may come where memory runs out."""
    status, text, out = found
    _, all_text, output = whole
    if status == 0:
        return (text, out) == (all_text, output)
    message = b"multiverse: no memory\n"
    fronts = [text[:k] for k in range(len(text) + 1) if all_text.startswith(text[:k]) and message.startswith(text[k:])]
    return status == 8 and fronts and (out == OLD or output.startswith(out))


def main():
    multiverse, shim, folder = map(os.path.abspath, sys.argv[1:])
    os.chdir(folder)
    tried, refused, bad = 0, 0, []
    for name, image in IMAGES.items():
        with open("in", "wb") as file, open("log", "w") as log:
            file.write(image), log.write("log 1\narg 61\nret 00000004\nmap 40000000 00001000 w 6162\ndesc 00000006 40000000\ngone\n")
        run(multiverse, shim, ("rewrite", "in", "out", "--count=all"), 0), os.replace("out", "whole")
        for words in COMMANDS:
            whole = run(multiverse, shim, words, 0)
            if whole[0] != 0:
                bad.append(f"{name}, {' '.join(words)}: ended with {whole[0]} where nothing is refused")
                continue
            with open("counted") as file:
                most = int(file.read())
            if not 0 < most < LIMIT:
                bad.append(f"{name}, {' '.join(words)}: {most} allocations")
            for number in range(1, min(most, LIMIT) + 1):
                found = run(multiverse, shim, words, number)
                tried, refused = tried + 1, refused + (found[0] == 8)
                if not agrees(found, whole):
                    bad.append(f"{name}, {' '.join(words)}, allocation {number}: {found[0]}, {found[1][:200]}")
    for line in bad[:20]:
        print(f"checks/refused: {line}")
    print(f"checks/refused: {tried} allocations refused in turn; {refused} times no memory, {tried - refused} times done all the same; "
          f"{len(bad)} differ")
    return 1 if bad else 0


if __name__ == "__main__":
    sys.exit(main())
