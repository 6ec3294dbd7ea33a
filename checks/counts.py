#!/usr/bin/env python3
"""Compares the counters of traced outputs with how often this processor executes each instruction of the originals, and with how often
it jumps and doesn't at each branch and loop.

    counts.py MULTIVERSE STEPPER FOLDER

The programs of checks/programs.d, and some of branches alone, are rewritten with a counter at each site and two at each branch and loop,
and traced, with the answers that Linux gives. STEPPER runs the originals one instruction at a time. `check` must take each counted file
for a rewriting. Each also runs on this processor, and must end and print as before.
"""
import collections, glob, os, random, struct, subprocess, sys

from oracles import read_frame, small_image
from trace import ARGUMENTS, HERE, INPUT, LEVELS, OPTIONS, Trace, answered

MOST_STEPS, SHOWN, BRANCHES, PROGRAMS = 100_000, 5, 400, 4
WORDS = {"count": 0, "taken": 1, "nottaken": 2}


def executed(stepper, program, folder):
    """Of each address how often it is executed on this processor, by kind: all times, those that jump, and those that don't."""
    out = os.path.join(folder, "executed")
    ran = subprocess.run([stepper, out, program, *[a.decode() for a in ARGUMENTS[1:]]], input=INPUT, capture_output=True, timeout=300)
    if ran.returncode:
        sys.exit(f"checks/counts: {program}: {ran.stderr.decode()}")
    with open(out) as lines:
        return {(int(at, 16), kind): int(number) for at, *numbers in map(str.split, lines) for kind, number in enumerate(numbers)}


def shown(program):
    ran = subprocess.run([program, *ARGUMENTS[1:]], input=INPUT, capture_output=True, timeout=60)
    return ran.returncode, ran.stdout


def compare(multiverse, stepper, original, folder):
    """What differs, or None; and of each kind how many counters were compared that aren't 0."""
    log, output = os.path.join(folder, "log"), os.path.join(folder, "counted")
    answers, first = answered(multiverse, original, log)
    if int(first.text.split()[-1]) > MOST_STEPS:
        return None, {}
    subprocess.run([multiverse, "rewrite", original, output, "--count=all", "--edges=all"], check=True, capture_output=True)
    second = Trace(multiverse, output, answers, log)
    counters = {(int(at, 16), WORDS[word]): int(number) for kind in WORDS for word, at, number in map(str.split, second.lines(kind))}
    with open(output, "rb") as file:
        listed = set(read_frame(file.read()).list)
    wanted = {pair: number for pair, number in executed(stepper, original, folder).items() if pair in listed and number}
    if counters != wanted:
        differing = sorted(pair for pair in {*counters, *wanted} if counters.get(pair) != wanted.get(pair))
        return ", ".join(f"{at:08x}, kind {kind}, is counted {counters.get((at, kind), 0)} times and runs {wanted.get((at, kind), 0)}"
                         for at, kind in differing[:SHOWN]), {}
    if shown(output) != shown(original):
        return "the counted file ends or prints otherwise", {}
    sites = sum(kind == 0 for _, kind in listed)
    ran = subprocess.run([multiverse, "check", original, output], capture_output=True, text=True)
    if (ran.returncode, ran.stdout) != (0, f"checked {sites}\n"):
        return f"the counted file is checked with {ran.returncode}: {ran.stdout}", {}
    return None, collections.Counter(kind for _, kind in wanted)


def branches(rng):
    """A program of branches and loops with all sorts of flags and of ECX, many of which lead to one address both ways."""
    code = b""
    for _ in range(BRANCHES):
        flags = 0x202 | sum(1 << bit for bit in (0, 2, 4, 6, 7, 11) if rng.random() < .5)
        code += b"\x68" + struct.pack("<I", flags) + b"\x9D\xB9" + struct.pack("<I", rng.choice((0, 1, 2, 2**32 - 1, rng.getrandbits(32))))
        front, skipped = rng.choice((b"", b"", b"\x2E", b"\x3E")), rng.choice((0, 0, 1, 3))
        kind = rng.randrange(10)
        if kind < 4:
            code += front + bytes([0x70 + rng.randrange(16), skipped])
        elif kind < 7:
            code += front + bytes([0x0F, 0x80 + rng.randrange(16)]) + struct.pack("<I", skipped)
        elif kind < 9:
            code += front + bytes([0xE0 + rng.randrange(4), skipped])
        else:
            # from a few rounds back to itself
            code, skipped = code[:-5] + b"\xB9" + struct.pack("<I", rng.randrange(1, 9)) + bytes([0xE0 + rng.randrange(3), 0xFE]), 0
        code += b"\x90" * skipped
    return small_image(code + bytes.fromhex("b80100000031dbcd80"))


def main():
    multiverse, stepper, folder = sys.argv[1:]
    agree, compared, bad, original = 0, collections.Counter(), [], os.path.join(folder, "original")

    def judge(title):
        nonlocal agree, compared
        difference, counters = compare(multiverse, stepper, original, folder)
        if difference:
            bad.append(f"{title}: {difference}")
        agree, compared = agree + (len(counters) > 0), compared + collections.Counter(counters)

    for source in sorted(glob.glob(os.path.join(HERE, "programs.d", "*.c"))):
        if os.path.basename(source) == "base.c":
            continue
        for level in LEVELS:
            subprocess.run(["gcc", *OPTIONS, level, "-o", original, source, os.path.join(HERE, "programs.d", "base.c"),
                            os.path.join(HERE, "programs.d", "start.s")], check=True)
            judge(f"{os.path.basename(source)} {level}")
    for seed in range(PROGRAMS):
        with open(original, "wb") as file:
            file.write(branches(random.Random(seed)))
        judge(f"branches {seed}")
    for line in bad[:10]:
        print(f"checks/counts: {line}")
    print(f"checks/counts: the counters of {agree} programs, of {compared[0]} addresses, {compared[1]} taken and {compared[2]} passed ways, "
          f"are what the processor executes; {len(bad)} differ")
    return 1 if bad else 0


if __name__ == "__main__":
    sys.exit(main())
