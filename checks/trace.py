#!/usr/bin/env python3
"""Traces programs and what they are rewritten to, and compares the two traces and how the programs end on this processor.

    trace.py MULTIVERSE FOLDER

The programs of checks/programs.d say in their first lines what they print and how they end. Their system calls are
answered as Linux answers them there: a write by its length, a read by what is left of the input, set_thread_area by a new
descriptor; and CPUID by a name. The random programs are
those of checks/machine: the registers and flags with which a trace ends are those that the processor stored last.
"""
import glob, os, re, struct, subprocess, sys

from machine import DATA, HALTS, INSTRUCTIONS, RECORD, DWORDS, SAVED, WRITES, build, run

HERE = os.path.dirname(os.path.abspath(__file__))
OPTIONS = ("-m32 -static -nostdlib -ffreestanding -fno-pic -fno-stack-protector -fcf-protection=none "
           "-mno-sse -mno-mmx -mno-80387").split()
LEVELS, RANDOM = ("-O0", "-Os"), range(1000, 1040)
INPUT = b"The quick brown fox\n  jumps over 13 lazy dogs.\n"
ARGUMENTS = b"program", b"one", b"two words", b""
EXIT, READ, WRITE, SET_THREAD_AREA = 1, 3, 4, 243
FIRST_DESCRIPTOR = 12
CPUID = "cpuid 00000016 756e6547 6c65746e 49656e69"
MOST_CALLS, STEPS = 4000, 50_000_000
# the status with which a shell names the signal of each end
SIGNALS = {"trap read": 139, "trap write": 139, "trap fetch": 139, "trap protection": 139,
           "trap divide": 136, "trap breakpoint": 133, "trap invalid": 132}


class Trace:
    """What `trace` prints of a file with these answers."""

    def __init__(self, multiverse, file, answers, log, arguments=ARGUMENTS):
        lines = ["log 1", *(f"arg {argument.hex() or '-'}" for argument in arguments), *answers]
        with open(log, "w") as out:
            out.write("\n".join(lines) + "\n")
        ran = subprocess.run([multiverse, "trace", file, log, str(STEPS)], capture_output=True, text=True, timeout=300)
        self.text, self.status = ran.stdout, ran.returncode
        self.calls = [[int(n, 16) for n in line.split()[1:]] for line in self.lines("call")]
        self.end = (self.lines("end") or ["end nothing"])[0][4:]

    def lines(self, word):
        return [line for line in self.text.splitlines() if line.split(" ")[0] == word]

    def apart_from_steps(self):
        return [line for line in self.text.splitlines() if not line.startswith("steps ")]


def answers_of(calls, names):
    """The answers to these calls, and to CPUID where so many calls were made before it; and whether the last ends the program."""
    answers, left, index = [], INPUT, FIRST_DESCRIPTOR
    for made, (number, structure, place, length, *_) in enumerate(calls):
        answers += [CPUID] * names.count(made)
        if number == EXIT:
            return answers + ["gone"], True
        if number == WRITE:
            answers.append(f"ret {length:08x}")
        elif number == READ:
            taken, left = left[:length], left[length:]
            answers.append(f"ret {len(taken):08x}")
            if taken:
                answers.append(f"write {place:08x} {taken.hex()}")
        elif number == SET_THREAD_AREA:
            entry = index.to_bytes(4, "little").hex()
            answers += ["ret 00000000", f"write {structure:08x} {entry}", f"desc {index:08x} {place:08x}"]
            index += 1
        else:
            answers.append("ret ffffffda")
    return answers + [CPUID] * names.count(len(calls)), False


def answered(multiverse, file, log):
    """The trace of a file whose calls are each answered as on Linux. A call is known once those before it are answered; that
    CPUID comes next is known where an answer to a call is a bad one."""
    known, names, answers = 0, [], []
    while True:
        trace = Trace(multiverse, file, answers + ["ret 00000000"] * (MOST_CALLS - known), log)
        told = [k for k, call in enumerate(trace.calls) if call[0] in (READ, SET_THREAD_AREA) and k >= known]
        known = told[0] + 1 if told else len(trace.calls)
        named = not told and trace.end == "badanswer"
        names += [known] * named
        answers, over = answers_of(trace.calls[:known], names)
        if over or not told and not named:
            return answers, Trace(multiverse, file, answers, log)


def ending(trace):
    """The status with which a shell would see the program end."""
    if trace.end == "gone":
        return trace.calls[-1][1] & 0xFF
    return SIGNALS.get(re.sub(r" [0-9a-f]{8}$", "", trace.end))


def compiled(multiverse, work):
    """The programs of checks/programs.d; how many agree, and what differs."""
    agree, differences = 0, []
    for source in sorted(glob.glob(os.path.join(HERE, "programs.d", "*.c"))):
        if os.path.basename(source) == "base.c":
            continue
        text = open(source).read()
        ends = int(re.search(r"^// ends (\d+)$", text, re.MULTILINE)[1])
        prints = "".join(line + "\n" for line in re.findall(r"^// > (.*)$", text, re.MULTILINE))
        for level in LEVELS:
            title, original = f"{os.path.basename(source)} {level}", os.path.join(work, "original")
            subprocess.run(["gcc", *OPTIONS, level, "-o", original, source, os.path.join(HERE, "programs.d", "base.c"),
                            os.path.join(HERE, "programs.d", "start.s")], check=True)
            answers, first = answered(multiverse, original, os.path.join(work, "log"))
            wrote = sum(call[3] for call in first.calls if call[0] == WRITE)
            if ending(first) != ends:
                differences.append(f"{title}: the trace ends by {first.end}, the processor with {ends}")
            elif wrote != len(prints.encode()):
                differences.append(f"{title}: {wrote} bytes are written, {len(prints)} on the processor")
            else:
                agree += same(multiverse, original, answers, first, title, work, differences)
    return agree, differences


def same(multiverse, original, answers, first, title, work, differences, arguments=ARGUMENTS):
    """Whether the output of a file traces as the file did."""
    output = os.path.join(work, "output")
    ran = subprocess.run([multiverse, "rewrite", original, output], capture_output=True, text=True)
    second = Trace(multiverse, output, answers, os.path.join(work, "log"), arguments)
    if ran.returncode or second.apart_from_steps() != first.apart_from_steps():
        differences.append(f"{title}: the output traces as {second.apart_from_steps()[-3:]}, {first.apart_from_steps()[-3:]} before")
        return 0
    return 1


def built(work, seed):
    """A random program that halts at its end, and what the processor stored last where it writes instead."""
    stored = run(build(work, seed, WRITES), f"random program {seed}")
    last = SAVED - DATA + RECORD * (INSTRUCTIONS - 1)
    return build(work, seed, HALTS), struct.unpack("<9I", stored[last:last + RECORD])


def randomly(multiverse, work):
    """Random programs; how many agree, and what differs."""
    agree, differences = 0, []
    for seed in RANDOM:
        file, (*registers, flags) = built(work, seed)
        trace = Trace(multiverse, file, [], os.path.join(work, "log"), ())
        wanted = ["regs " + " ".join(f"{n:08x}" for n in registers), f"flags {flags:08x}", "end trap protection"]
        if trace.apart_from_steps() != wanted:
            differences.append(f"random program {seed}: {trace.apart_from_steps()}, and {wanted} on the processor")
        else:
            agree += same(multiverse, file, [], trace, f"random program {seed}", work, differences, ())
    return agree, differences


def main():
    multiverse, work = sys.argv[1:]
    programs, differing = compiled(multiverse, work)
    sequences, more = randomly(multiverse, work)
    for line in (differing + more)[:10]:
        print(f"checks/trace: {line}")
    if differing or more:
        print(f"checks/trace: {programs + sequences} agree, {len(differing + more)} differ")
        return 1
    print(f"checks/trace: {programs} compiled programs and {sequences} random ones trace as they run, before and after")
    return 0


if __name__ == "__main__":
    sys.exit(main())
