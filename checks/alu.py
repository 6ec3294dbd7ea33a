#!/usr/bin/env python3
"""Traces a program of operations and compares values and flags with those of this machine's processor.

    alu.py MULTIVERSE ASKED WANTED FOLDER

Each line of ASKED is `alu`, the operation, its width (b, w or d), the flags before it and three operands; the same line of WANTED
has the processor's result, a second one of products and quotients, and the flags; or `trap`. One program runs all operations that
don't trap, and shows registers and flags after each by a system call; each that traps ends a program of its own.
"""
import os, subprocess, sys

NAMES = {"b": ("al", "bl", 8), "w": ("ax", "bx", 16), "d": ("eax", "ebx", 32)}
ONE = ("inc", "dec", "neg")
SHIFTS = ("shl", "shr", "sar", "rol", "ror", "rcl", "rcr")
PRODUCTS, QUOTIENTS = ("mul", "imul"), ("div", "idiv")
SHOWN, TRAPS = 20, 60


def instruction(name, width):
    a, b, _ = NAMES[width]
    if name in ONE:
        return f"{name} {a}"
    if name in SHIFTS:
        return f"{name} {a},cl"
    if name in ("shld", "shrd"):
        return f"{name} {a},{b},cl"
    if name in PRODUCTS + QUOTIENTS:
        return f"{name} {b}"
    return f"{name} {a},{b}"


def lines(name, width, flags, x, y, z):
    """The source of an operation, and of the call that shows EAX, EDX and, in ESI, the flags."""
    a, b, c, d = x, y, z if name in ("shld", "shrd") else y, 0
    if name in ("bsf", "bsr"):
        a, b = 0, x
    if name in QUOTIENTS:
        a, b, d = (x << 8 | y if width == "b" else y), z, x
    return (f"mov eax,{a:#x};mov ebx,{b:#x};mov ecx,{c:#x};mov edx,{d:#x};push {flags:#x};popfd;{instruction(name, width)};"
            "pushfd;pop esi;int 0x80\n")


def build(folder, source):
    file = os.path.join(folder, "program")
    with open(f"{file}.s", "w") as out:
        out.write(".intel_syntax noprefix\n.globl _start\n_start:\n" + source + "hlt\n")
    subprocess.run(["as", "--32", "-o", f"{file}.o", f"{file}.s"], check=True)
    subprocess.run(["ld", "-m", "elf_i386", "-s", "-o", file, f"{file}.o"], check=True)
    return file


def trace(multiverse, folder, source, calls):
    """The words of each call, and how the program ends."""
    log = os.path.join(folder, "log")
    with open(log, "w") as out:
        out.write("log 1\n" + "ret 00000000\n" * calls)
    ran = subprocess.run([multiverse, "trace", build(folder, source), log, "100000000"], capture_output=True, text=True, check=True)
    text = ran.stdout.splitlines()
    shown = [[int(word, 16) for word in line.split()[1:]] for line in text if line.startswith("call ")]
    return shown, next(line for line in text if line.startswith("end "))


def answer(name, width, found):
    """What a call shows, as a line of WANTED has it."""
    eax, _, _, edx, flags, _, _ = found
    mask = (1 << NAMES[width][2]) - 1
    if name == "test":
        return [flags]
    if name in PRODUCTS + QUOTIENTS:
        return [eax & mask, eax >> 8 & 0xFF if width == "b" else edx & mask, flags]
    return [eax & mask, flags]


def main():
    multiverse, asked, wanted, folder = sys.argv[1:]
    with open(asked) as first, open(wanted) as second:
        cases = [(line.split()[1:3], [int(word, 16) for word in line.split()[3:]], want.split()) for line, want in zip(first, second, strict=True)]
    traps = [case for case in cases if case[2] == ["trap"]]
    plain = [case for case in cases if case[2] != ["trap"]]
    shown, end = trace(multiverse, folder, "".join(lines(*which, *numbers) for which, numbers, _ in plain), len(plain))
    bad = [] if len(shown) == len(plain) and end == "end trap protection" else [f"{len(shown)} of {len(plain)} are shown, and then {end}"]
    for (which, numbers, want), found in zip(plain, shown):
        words = answer(*which, found)
        if want[0] == "none":
            words, want = words[1:], want[1:]
        if words != [int(word, 16) for word in want]:
            bad.append(f"{' '.join(which)} {[hex(n) for n in numbers]}: {[hex(n) for n in words]}, on the processor {want}")
    for which, numbers, _ in traps[::max(1, len(traps) // TRAPS)]:
        shown, end = trace(multiverse, folder, lines(*which, *numbers), 1)
        if (shown, end) != ([], "end trap divide"):
            bad.append(f"{' '.join(which)} {[hex(n) for n in numbers]}: {end}, a trap on the processor")
    for line in bad[:SHOWN]:
        print(f"checks/alu: {line}")
    if bad:
        sys.exit(f"checks/alu: {len(bad)} differ")
    print(f"checks/alu: {len(plain)} operations, and {min(len(traps), TRAPS)} or more that trap, all as the processor's")


if __name__ == "__main__":
    main()
