#!/usr/bin/env python3
"""Compares the calls of traces by recorded logs with those that strace shows.

    record.py MULTIVERSE RECORD FOLDER

RECORD writes a log of each run. The traces of the program and of what it is rewritten to, by that log, must make the calls that
strace shows of the program run by itself: the same numbers, and the same arguments, but for addresses of the stack, which a trace
has elsewhere. The log's results must be strace's, but for times and numbers of processes. What no log can tell of must be said.
"""
import glob, os, re, struct, subprocess, sys

from trace import ARGUMENTS, HERE, INPUT, LEVELS, OPTIONS, STEPS

STACK_LO, STACK_HI = 0xBFEFF000, 0xBFFFF000  # of a trace
KERNEL_STACK = range(0xFFF00000, 1 << 32)  # of a program run by itself, without random addresses
# time, getpid, getppid, gettimeofday, getpgid, clock_gettime, getpgrp, set_tid_address: what they answer is another thing each time
EACH_TIME = {13, 20, 64, 78, 132, 265, 65, 258}
# klibc gives memory back by pages of a size that it asks the auxiliary values for; a trace's start has none, so it gives none back
MUNMAP = 91
CALL = re.compile(r"\[ *(\d+)\] \w+\((.*?)\) *(?:= (\?|-?\w+).*)?")
TEXT = b"some text\nand a second line of it\n" * 40
MKSH, LKSH, GUNZIP, BUSYBOX = "/usr/lib/klibc/bin/mksh", "/bin/lksh", "/usr/lib/klibc/bin/gunzip", "/bin/busybox"
SCRIPTS = ("echo hello", 'x=0; while [ "$x" -lt 50 ]; do x=$((x+1)); done; echo "$x"',
           'f() { echo "$1:$#"; }; f a b; case abc in a*) echo yes ;; esac', 'while read -r line; do echo "<$line>"; done',
           "cd /; pwd; echo $(( 7 * 6 )) ${HOME-none}; exit 5", "no_such_command", "echo $((1/0))")
REFUSED = (["/no/such/file"], 127), (["/dev/null"], 126), (["/bin/sh"], 126)  # what can't be run, and the status
# what can't be recorded, and the word by which that is said
CUTS = (('trap "echo t" USR1; kill -USR1 $$', "SIGUSR1"), ("echo a | read -r b; echo $b", "SIGCHLD"))


def shown(words, stdin, out):
    """The calls that strace shows of a run: number, arguments and result, which is None where there is none; and its status."""
    ran = subprocess.run(["setarch", "-R", "strace", "-n", "-e", "raw=all", "-e", "signal=none", "-o", out, *words], input=stdin,
                         capture_output=True, env={}, timeout=120, executable="/usr/bin/setarch")
    calls = []
    with open(out) as lines:
        for line in lines:
            if "+++" in line or "---" in line:
                continue
            found = CALL.fullmatch(line.rstrip("\n"))
            if not found:
                raise SystemExit(f"checks/record: strace says: {line}")
            number, arguments, result = found.groups()
            words = [int(word, 0) & 0xFFFFFFFF for word in arguments.split(", ") if word]
            calls.append((int(number), words, None if result in (None, "?") else int(result, 0)))
    return calls[1:], ran  # behind execve


def recorded(record, words, stdin, log):
    return subprocess.run([record, *words, log], input=stdin, capture_output=True, timeout=120)


def results(log):
    """The results of a log's calls, as strace shows them; None for its end."""
    with open(log) as lines:
        words = [line.split() for line in lines]
    return [struct.unpack("<i", bytes.fromhex(rest[0])[::-1])[0] if word == "ret" else None
            for word, *rest in words if word in ("ret", "gone")]


def traced(multiverse, file, log):
    """The calls of a trace, and how it ends."""
    ran = subprocess.run([multiverse, "trace", file, log, str(STEPS)], capture_output=True, text=True, timeout=600)
    lines = ran.stdout.splitlines()
    calls = [[int(n, 16) for n in line.split()[1:]] for line in lines if line.startswith("call ")]
    return calls, next((line for line in lines if line.startswith("end ")), ran.stdout.strip())


def is_same(ours, theirs):
    return ours == theirs or STACK_LO <= ours < STACK_HI and theirs in KERNEL_STACK


def is_result(number, ours, theirs):
    if ours is None or theirs is None or number in EACH_TIME:
        return (ours is None) == (theirs is None)
    return ours < 0 and theirs < 0 or ours & 0xFFFFFFFF == theirs & 0xFFFFFFFF


def difference(calls, end, log, seen, ends):
    """What is different between a trace and what strace shows, or None."""
    if end != ends:
        return f"it ends by {end!r}, not {ends!r}"
    for k, (call, (number, arguments, result)) in enumerate(zip(calls, seen)):
        if call[0] != number or not all(map(is_same, call[1:], arguments)):
            return f"call {k} is {[f'{n:x}' for n in call]}, and {number} {[f'{n:x}' for n in arguments]} for strace"
        if k >= len(log) or k < len(log) and not is_result(number, log[k], result):
            return f"call {k} ({number}) answers {log[k:k + 1]}, and {result} for strace"
    return None if len(calls) == len(seen) else f"{len(calls)} calls, and {len(seen)} for strace"


def compared(multiverse, record, words, stdin, folder, ends="end gone", without=None):
    """What differs for one run, or None. Strace's calls with the number `without` are left out."""
    log, out, output = (os.path.join(folder, name) for name in ("log", "calls", "output"))
    seen, alone = shown(words, stdin, out)
    seen = [call for call in seen if call[0] != without]
    ran = recorded(record, words, stdin, log)
    if ran.returncode != 0:
        return f"record ends with {ran.returncode}: {ran.stderr.decode().strip()}"
    if ran.stdout != alone.stdout:
        return "it prints otherwise while it is recorded"
    subprocess.run([multiverse, "rewrite", words[0], output], check=True, capture_output=True)
    for title, file in (("the original", words[0]), ("the output", output)):
        calls, end = traced(multiverse, file, log)
        found = difference(calls, end, results(log), seen, ends)
        if found:
            return f"{title}: {found}"
    return None


def ending(status, text):
    """How a trace ends that is to end as the program's first lines say."""
    traps = {133: "trap breakpoint", 136: "trap divide", 132: "trap invalid"}
    if status < 128:
        return ["end gone"]
    faults = "read", "write", "fetch", "protection"
    return [f"end {traps[status]}"] if status in traps else [f"end trap {fault}" for fault in faults]


def compiled(multiverse, record, folder):
    """Runs of the programs of checks/programs.d; how many agree, and what differs."""
    agree, bad = 0, []
    for source in sorted(glob.glob(os.path.join(HERE, "programs.d", "*.c"))):
        if os.path.basename(source) == "base.c":
            continue
        with open(source) as file:
            ends = int(re.search(r"^// ends (\d+)$", file.read(), re.MULTILINE)[1])
        for level in LEVELS:
            title, original = f"{os.path.basename(source)} {level}", os.path.join(folder, "original")
            subprocess.run(["gcc", *OPTIONS, level, "-o", original, source, os.path.join(HERE, "programs.d", "base.c"),
                            os.path.join(HERE, "programs.d", "start.s")], check=True)
            words = [original, *(word.decode() for word in ARGUMENTS[1:])]
            log = os.path.join(folder, "log")
            recorded(record, words, INPUT, log)
            end = traced(multiverse, original, log)[1]
            if not any(end.startswith(one) for one in ending(ends, end)):
                bad.append(f"{title}: a trace ends by {end!r}, and the program with {ends}")
                continue
            found = compared(multiverse, record, words, INPUT, folder, end)
            bad += [f"{title}: {found}"] if found else []
            agree += not found
    return agree, bad


def is_i386(name):
    """Whether a static executable for i386 lies there."""
    try:
        with open(name, "rb") as file:
            head = file.read(20)
    except OSError:
        return False
    return head[:5] == b"\x7fELF\x01" and head[16:20] == b"\x02\x00\x03\x00"


def tools(multiverse, record, folder):
    """Runs of installed programs; how many agree, what differs, and what is skipped."""
    agree, bad, skipped = 0, [], []
    packed = os.path.join(folder, "text.gz")
    with open(packed, "wb") as out:
        subprocess.run(["gzip", "-nc"], input=TEXT, stdout=out, check=True)
    runs = [[shell, "-c", script] for shell in (MKSH, LKSH) for script in SCRIPTS]
    runs += [[GUNZIP, "-c", packed], [GUNZIP, "-t", packed]]
    for words in runs:
        if not is_i386(words[0]):
            skipped += [words[0]] if words[0] not in skipped else []
            continue
        found = compared(multiverse, record, words, TEXT, folder, without=MUNMAP)
        bad += [f"{' '.join(words)}: {found}"] if found else []
        agree += not found
    for script, word in CUTS if is_i386(MKSH) else ():
        ran = recorded(record, [MKSH, "-c", script], TEXT, os.path.join(folder, "log"))
        calls, end = traced(multiverse, MKSH, os.path.join(folder, "log"))
        if ran.returncode != 1 or word not in ran.stderr.decode() or end != "end noanswer":
            bad.append(f"{script}: record ends with {ran.returncode} and {ran.stderr}, a trace by its log by {end!r}")
        else:
            agree += 1
    for words, status in REFUSED:
        ran = recorded(record, words, b"", os.path.join(folder, "log"))
        if ran.returncode != status or not ran.stderr.startswith(b"record: "):
            bad.append(f"{words}: record ends with {ran.returncode} and {ran.stderr}")
    if not is_i386(BUSYBOX):
        return agree, bad, skipped + [BUSYBOX]
    # its start code reads an auxiliary value that a trace's start doesn't have: both end by the same fault
    ran = recorded(record, [BUSYBOX, "echo", "hello"], b"", os.path.join(folder, "log"))
    end = traced(multiverse, BUSYBOX, os.path.join(folder, "log"))[1]
    if ran.returncode != 0 or b"SIGSEGV" not in ran.stderr or not end.startswith("end trap read"):
        bad.append(f"busybox: record ends with {ran.returncode} and {ran.stderr}, a trace by its log by {end!r}")
    else:
        agree += 1
    return agree, bad, skipped


def main():
    multiverse, record, folder = sys.argv[1:]
    programs, bad = compiled(multiverse, record, folder)
    runs, more, skipped = tools(multiverse, record, folder)
    for name in skipped:
        print(f"checks/record: {name} skipped, since no static i386 program lies there")
    for line in (bad + more)[:10]:
        print(f"checks/record: {line}")
    print(f"checks/record: {programs} compiled programs and {runs} runs of tools make the calls that strace shows, before and "
          f"after; {len(bad + more)} differ")
    return 1 if bad or more else 0


if __name__ == "__main__":
    sys.exit(main())
