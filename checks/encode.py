#!/usr/bin/env python3
"""Compares the loads of rewritten jumps and calls with objdump and with the assembler.

    encode.py MULTIVERSE

A jump or call through an operand is rewritten to code that loads the operand into EAX first, by the least of the spellings of that
`mov`. Of each operand of decode.py's samples of `jmp` and `call`, objdump shows the load as a `mov` of that operand, and the load is
as short as the assembler's, and not above it in byte order where both are equally long.
"""
import os, random, re, subprocess, sys, tempfile

from decode import BY_OPCODE, FIRST, GS, SEGMENTS, SHOWN, SLOT, body, dump, plain, slots
from oracles import read_frame, small_image

ROWS = [row for row in BY_OPCODE[0xFF] if row.modrm in (2, 4)]


def samples(rng):
    """Calls and jumps through each form of operand, some behind a segment prefix."""
    for row in ROWS:
        for modrm in [mod << 6 | rm for mod in range(4) for rm in range(8)]:
            for sib in [rng.randrange(256) for _ in range(24)] if modrm & 7 == 4 and modrm < 0xC0 else (None,) * 6:
                segment = rng.choice(SEGMENTS)
                front = bytes([segment]) if rng.random() < .3 and (segment != GS or modrm < 0xC0) else b""
                yield front + body(rng, row, modrm, sib)


def loads(multiverse, made):
    """The bytes of the load in the code that stands for each, or None where it isn't found."""
    image = small_image(slots(made), FIRST)
    with tempfile.TemporaryDirectory() as work:
        with open(f"{work}/in", "wb") as file:
            file.write(image)
        subprocess.run([multiverse, "rewrite", f"{work}/in", f"{work}/out"], check=True, capture_output=True)
        with open(f"{work}/out", "rb") as file:
            frame = read_frame(file.read())
    begins, ends = (b"\xA3" + (frame.private + k).to_bytes(4, "little") for k in (0, 4))
    for k in range(len(made)):
        entry = frame.entry(FIRST + SLOT * k) or frame.code
        piece = frame.code_bytes[entry - frame.code:][:40]
        end = piece.find(ends, 5)
        yield piece[5:end] if piece.startswith(begins) and end > 0 else None


def assembled(lines):
    """The assembler's bytes of each line, or None where there is no assembler for i386."""
    with tempfile.TemporaryDirectory() as work:
        text = ".intel_syntax noprefix\n" + "".join(f".p2align 5,0x90\n{line}\n" for line in lines)
        command = ["as", "--32", "-o", f"{work}/code.o", "-"]
        try:
            if subprocess.run(command, input=text, capture_output=True, text=True).returncode != 0:
                return None
            subprocess.run(["objcopy", "-O", "binary", "-j", ".text", f"{work}/code.o", f"{work}/code"], check=True)
        except FileNotFoundError:
            return None
        with open(f"{work}/code", "rb") as file:
            return [part for part in iter(lambda: file.read(SLOT), b"")]


def main():
    multiverse, bad = os.path.abspath(sys.argv[1]), []
    made = list(dict.fromkeys(samples(random.Random(20180218))))
    found = list(loads(multiverse, made))
    operands = [plain(line).split(" ", 1)[1] for _, line in dump(made)]
    ours = dump([load or b"" for load in found])
    theirs = assembled([f"mov eax, {operand.replace('dword', 'dword ptr')}" for operand in operands])
    lengths = [length for length, _ in dump(theirs)] if theirs else [None] * len(made)
    for index, (data, load, operand, (length, line), most) in enumerate(zip(made, found, operands, ours, lengths, strict=True)):
        if load is None or length != len(load) or plain(line) != f"mov eax,{operand}":
            bad.append(f"{data.hex()}: {load and load.hex()}, which objdump shows as {plain(line)}, loads {operand}")
        elif most and (length, load) > (most, theirs[index][:most]):
            bad.append(f"{data.hex()}: {load.hex()}, but the assembler {theirs[index][:most].hex()}")
    for line in bad[:SHOWN]:
        print(line)
    if bad:
        sys.exit(f"checks/encode: {len(bad)} loads differ")
    print(f"checks/encode: {len(made)} operands are loaded as objdump shows them; "
          + ("none above the assembler's spelling" if theirs else "no assembler to compare with"))


if __name__ == "__main__":
    main()
