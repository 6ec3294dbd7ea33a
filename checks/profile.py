#!/usr/bin/python3
"""Compares counts of native runs, and what native/profile makes of them, with what callgrind counts.

    profile.py MULTIVERSE NATIVE STEPPER FOLDER

Each program is rewritten with a counter at each instruction and two at each branch, and runs under NATIVE/launch. Callgrind
counts the original. Three differences are known, and are callgrind's: a repeated string instruction is one execution for a
counter and one for each turn for callgrind, so that of these only whether they ran is compared; a POP behind a call to it is none
of its own; and the last block, whose system call ends the program, isn't counted. mksh's allocator runs otherwise under valgrind,
so mksh is also compared with STEPPER, which runs it one instruction at a time. Then each of the profile's forms is read by the
tool that it is for, where that is installed, and what it says is compared with callgrind's counts.
"""
import glob, os, re, shutil, struct, subprocess, sys
from bisect import bisect_right
from collections import Counter, defaultdict
from html.parser import HTMLParser

from trace import ARGUMENTS, HERE, INPUT, OPTIONS

LEVELS, SHOWN = ("-O0", "-Os"), 15
REPEATED = re.compile(r"rep\w* ")
MKSH = "/usr/lib/klibc/bin/mksh"
SCRIPT = """f() { local n=$1; while [ "$n" -gt 0 ]; do n=$((n-1)); done; echo "$1 ${#2}"; }
for word in alpha beta gamma; do f 12 "$word"; case $word in b*) echo "${word%a}" ;; esac; done
set -- c a b; echo "$@" "$(( $# * 7 ))" ${HOME-none}; x=abcabc; echo "${x//b/_}" "${x#a}"
"""
KERNEL = 0xF0000000  # from here on code is the kernel's
MOST_LOOKS = 40  # instructions that may run up to three times more or less often in one of two runs
MOST_DIFFERENT = 3  # of 100 instructions of mksh, those of its allocator, which joins what lies side by side
SKIPPED = []


# prints the environment that a program has
ENVIRONMENT = """#include "base.h"
int run(int count, char **words) {
  for (char **each = words + count + 1; *each; each++) put(*each), put_char('\\n');
  return 0;
}
"""


class Theirs:
    """What callgrind counts: executions by address, and how often a branch jumped and ran."""

    def __init__(self, words, stdin, out):
        ran = subprocess.run(["setarch", "-R", "valgrind", "--tool=callgrind", "--dump-instr=yes", "--collect-jumps=yes",
                              "--compress-pos=no", "--compress-strings=no", f"--callgrind-out-file={out}", *words], input=stdin,
                             capture_output=True, env={}, executable="/usr/bin/setarch", timeout=600)
        self.status, self.printed = ran.returncode, ran.stdout
        self.ran, self.jumps = Counter(), defaultdict(list)
        with open(out) as lines:
            self.read(lines)

    def read(self, lines):
        passed_over, jump = False, None
        for line in lines:
            if line.startswith("calls="):  # the next line has what the called function costs
                passed_over = True
            elif line.startswith(("jump=", "jcnd=")):
                jump, passed_over = line, True
            elif line.startswith("0x"):
                address, _, *cost = line.split()
                if jump and jump.startswith("jcnd="):
                    ways, target, _ = jump[5:].split()
                    taken, ran = map(int, ways.split("/"))
                    self.jumps[int(address, 16)].append((taken, ran, int(target, 16)))
                elif not passed_over:
                    self.ran[int(address, 16)] += int(cost[0])
                passed_over, jump = False, None


class Ours:
    """The counts of a native run, in the launcher's files."""

    def __init__(self, native, output, words, stdin, environment, folder):
        shutil.rmtree(folder, ignore_errors=True)
        ran = subprocess.run(["setarch", "-R", os.path.join(native, "launch"), f"--counts={folder}", output, *words], input=stdin,
                             capture_output=True, env=environment, executable="/usr/bin/setarch", timeout=600)
        self.status, self.printed, self.folder = ran.returncode, ran.stdout, folder
        self.ran, self.taken, self.passed = Counter(), Counter(), Counter()
        kinds = {"count": self.ran, "taken": self.taken, "nottaken": self.passed}
        for name in glob.glob(os.path.join(folder, "*")):
            with open(name) as lines:
                for kind, address, number in map(str.split, lines):
                    kinds[kind][int(address, 16)] += int(number)


def listing(multiverse, file):
    """The lengths and the texts of a file's instructions."""
    lines = subprocess.run([multiverse, "list", file], capture_output=True, text=True, check=True).stdout.splitlines()
    sites = [line.split(" ", 2) for line in lines]
    return {int(at, 16): len(digits) // 2 for at, digits, _ in sites}, {int(at, 16): text for at, _, text in sites}


def last_block(ours, theirs, lengths, texts):
    """The block with which the program ends, which callgrind doesn't count: it ends with a system call."""
    block = []
    for at in sorted(ours.ran):
        block = block if block and block[-1] + lengths[block[-1]] == at else []
        block = block + [at] if ours.ran[at] == theirs.ran[at] + 1 else []
        if block and texts[at] == "int 0x80":
            return set(block)
    return set()


def is_taken_together(at, texts):
    """Whether valgrind takes the instruction for a part of the one before it: a POP behind a call to it."""
    return texts.get(at, "").startswith("pop e") and texts.get(at - 5) == f"call 0x{at:x}"


def executed_differently(ours, theirs, lengths, texts):
    """The addresses, as text, that don't run as often for callgrind."""
    found, last = [], last_block(ours, theirs, lengths, texts)
    for at in sorted({*ours.ran, *theirs.ran}):
        mine, other = ours.ran[at], theirs.ran[at] + (at in last)
        repeats = REPEATED.match(texts.get(at, ""))
        if is_taken_together(at, texts):
            mine, other = mine - ours.ran[at - 5], other
        if (bool(mine) != bool(other)) if repeats else mine != other:
            found.append(f"{at:08x} ({texts.get(at)}) is counted {ours.ran[at]} times, and {theirs.ran[at]} times by callgrind")
    return found


def jumped_differently(ours, theirs, texts):
    """The branches, as text, whose ways aren't those that callgrind tells of. It tells only of branches that jumped, of LOOP in
    parts, and in its code a condition may be turned round, so that its target is the next instruction: these are passed over."""
    found, compared = [], 0
    for at, ways in theirs.jumps.items():
        target = re.fullmatch(r"j\S+ 0x([0-9a-f]+)", texts.get(at, ""))
        if not target or at not in ours.taken and at not in ours.passed:
            continue
        if any(where != int(target[1], 16) for _, _, where in ways):
            continue
        compared += 1
        taken = sum(taken for taken, _, _ in ways)
        if ours.taken[at] != taken:
            found.append(f"{at:08x} ({texts[at]}) jumps {ours.taken[at]} times, and {taken} times for callgrind")
    for at in {*ours.taken, *ours.passed}:
        if ours.taken[at] + ours.passed[at] != theirs.ran[at]:
            found.append(f"{at:08x} ({texts[at]}) has {ours.taken[at]} + {ours.passed[at]} ways, and runs {theirs.ran[at]} times")
    return found, compared


def profiled(native, multiverse, form, *names):
    ran = subprocess.run([os.path.join(native, "profile"), f"--multiverse={multiverse}", f"--{form}", *names], capture_output=True,
                         timeout=300)
    if ran.returncode:
        raise SystemExit(f"checks/profile: --{form}: {ran.stderr.decode()}")
    return ran.stdout


def has(tool):
    if shutil.which(tool):
        return True
    if tool not in SKIPPED:
        SKIPPED.append(tool)
    return False


def text_differs(made, counts):
    """Whether a form as text has other counts: each instruction's line has its count and its address."""
    lines = re.findall(r"^ *[0-9.]+% +(\d+) ([0-9a-f]{8})  [0-9a-f]{2,}  *\S", made.decode(), re.M)
    return {int(at, 16): int(n) for n, at in lines} != counts


def annotate_differs(made, total, folder):
    """Whether callgrind_annotate reads other counts."""
    if not has("callgrind_annotate"):
        return False
    name = os.path.join(folder, "callgrind.out.profile")
    with open(name, "wb") as out:
        out.write(made)
    ran = subprocess.run(["callgrind_annotate", "--threshold=100", name], capture_output=True, text=True)
    found = re.search(r"^ *([0-9,]+).*PROGRAM TOTALS", ran.stdout, re.M)
    return ran.returncode != 0 or ran.stderr != "" or not found or int(found[1].replace(",", "")) != total


def blocks_differ(made, lengths, counts):
    """Whether a log of drcov has other bytes than those of the instructions that ran."""
    head, _, rest = made.partition(b"BB Table: ")
    number, _, records = rest.partition(b" bbs\n")
    base = int(re.search(rb"^ 0, 0x([0-9a-f]+), ", head, re.M)[1], 16)
    found = set()
    for at, size, module in struct.iter_unpack("<IHH", records):
        found.update(range(base + at, base + at + size))
    wanted = {at + k for at in counts for k in range(lengths[at])}
    return found != wanted or len(records) != 8 * int(number) or not head.startswith(b"DRCOV VERSION: 2\nDRCOV FLAVOR: ")


def lines_differ(made, original, counts, branches, folder):
    """Whether lcov's records have other counts of lines or branches than objdump's line table gives with the counts."""
    table = subprocess.run(["objdump", "--dwarf=decodedline", "-w", original], capture_output=True, text=True).stdout
    rows = re.findall(r"^(\S+)\s+(\d+)\s+0x([0-9a-f]+)(?:\[\d+\])?(?:\s+\d+)?\s+x", table, re.M)
    places = sorted((int(at, 16), line != "-") for line, at in re.findall(r"^\S+\s+(\d+|-)\s+0x([0-9a-f]+)", table, re.M))
    branches = [pair for at, pair in branches.items() if places[bisect_right(places, (at, True)) - 1][1]]
    wanted = defaultdict(dict)
    for file, line, at in rows:
        wanted[file][int(line)] = max(wanted[file].get(int(line), 0), counts.get(int(at, 16), 0))
    found, ways = {}, []
    for record in made.decode().split("end_of_record\n"):
        name = re.search(r"^SF:(.*)$", record, re.M)
        if name:
            found[os.path.basename(name[1])] = {int(a): int(b) for a, b in re.findall(r"^DA:(\d+),(\d+)$", record, re.M)}
            ways += re.findall(r"^BRDA:\d+,\d+,([01]),(\d+)$", record, re.M)
    if found != wanted:
        return f"lcov: lines {found} and {dict(wanted)}"
    if sorted((int(n) for _, n in ways)) != sorted(n for pair in branches for n in pair):
        return "lcov: other counts of branches"
    if has("genhtml"):
        name = os.path.join(folder, "profile.info")
        with open(name, "wb") as out:
            out.write(made)
        ran = subprocess.run(["genhtml", "--quiet", "--branch-coverage", "-o", os.path.join(folder, "genhtml"), name],
                             capture_output=True, text=True)
        if ran.returncode or not os.path.exists(os.path.join(folder, "genhtml", "index.html")):
            return f"genhtml ends with {ran.returncode}: {ran.stderr}"
    return None


class Rows(HTMLParser):
    """The rows of a page that a browser shows: the cells of each instruction that ran, and the numbers of functions."""

    def __init__(self):
        super().__init__()
        self.rows, self.functions, self.cell, self.inside = [], [], None, False

    def handle_starttag(self, tag, attributes):
        kind = dict(attributes).get("class")
        if tag == "tr":
            self.inside = kind == "run"
            if self.inside:
                self.rows.append([])
        elif tag == "td" and self.inside:
            self.rows[-1].append("")
            self.cell = self.rows[-1]
        elif tag == "summary":
            self.functions.append([])
            self.inside = False
        elif tag == "span" and kind in ("number", "name") and self.functions and not self.inside:
            self.functions[-1].append("")
            self.cell = self.functions[-1]

    def handle_endtag(self, tag):
        if tag in ("td", "span") and not (tag == "span" and self.inside):
            self.cell = None

    def handle_data(self, data):
        if self.cell is not None:
            self.cell[-1] += data


def page_differs(made, counts, ours, folder):
    """What is different on the page, as a browser has it, or None."""
    browser = next((name for name in ("chromium", "chromium-browser", "google-chrome") if shutil.which(name)), None)
    name = os.path.join(folder, "profile.html")
    with open(name, "wb") as out:
        out.write(made)
    if re.search(rb"(src|href)=|url\(|@import|fetch\(", made):
        return "page: it loads something"
    if browser:
        ran = subprocess.run([browser, "--headless", "--no-sandbox", "--disable-gpu", f"--user-data-dir={folder}/browser",
                              "--dump-dom", f"file://{name}"], capture_output=True, timeout=300)
        if ran.returncode == 0 and b"<html" in ran.stdout:
            made = ran.stdout
        elif "a browser that runs" not in SKIPPED:
            SKIPPED.append("a browser that runs")
    else:
        has("chromium")
    rows = Rows()
    rows.feed(made.decode())
    shown = {int(row[1], 16): int(row[0].replace(",", "")) for row in rows.rows}
    if shown != counts:
        return "page: other counts"
    for row in rows.rows:
        at, ways = int(row[1], 16), re.search(r"([0-9,]+) taken, ([0-9,]+) passed", row[4])
        pair = tuple(int(n.replace(",", "")) for n in ways.groups()) if ways else (0, 0)
        if pair != (ours.taken[at], ours.passed[at]):
            return f"page: {row}"
    if sum(int(part[1].replace(",", "")) for part in rows.functions) != sum(counts.values()):
        return "page: the functions' numbers don't add up"
    return None


def functions_differ(made, original, counts):
    """Whether a stripped file's functions begin elsewhere than where calls that ran go, by objdump."""
    code = subprocess.run(["objdump", "-d", original], capture_output=True, text=True, check=True).stdout
    calls = re.findall(r"^ *([0-9a-f]+):\t[0-9a-f ]+\tcall +([0-9a-f]+)", code, re.M)
    wanted = {int(to, 16) for at, to in calls if counts[int(at, 16)] and counts[int(to, 16)]}
    return {int(at, 16) for at in re.findall(r"  f_([0-9a-f]{8})$", made.decode(), re.M)} != wanted


class Check:
    def __init__(self, multiverse, native, stepper, folder):
        self.multiverse, self.native, self.stepper, self.folder = multiverse, native, stepper, folder
        self.addresses = self.branches = self.programs = 0
        self.environment = self.valgrinds()

    def path(self, name):
        return os.path.join(self.folder, name)

    def compile(self, source, level, *options):
        program = self.path("original")
        subprocess.run(["gcc", *options, *OPTIONS, level, "-I", os.path.join(HERE, "programs.d"), "-o", program, source,
                        os.path.join(HERE, "programs.d", "base.c"), os.path.join(HERE, "programs.d", "start.s")], check=True)
        return program

    def valgrinds(self):
        """The environment that a program has under valgrind where it is started without one."""
        with open(self.path("environment.c"), "w") as out:
            out.write(ENVIRONMENT)
        printed = Theirs([self.compile(self.path("environment.c"), "-O1")], b"", self.path("callgrind.out")).printed.decode()
        return dict(line.split("=", 1) for line in printed.splitlines())

    def counted(self, original, words, stdin):
        """Both counts of a run; and what differs. Both files run under one name, which the program may read."""
        subprocess.run(["cp", original, self.path("program")], check=True)
        theirs = Theirs([self.path("program"), *words], stdin, self.path("callgrind.out"))
        subprocess.run([self.multiverse, "rewrite", original, self.path("program"), "--count=all", "--edges=all"], check=True,
                       capture_output=True)
        ours = self.ours(words, stdin, self.environment)
        self.lengths, texts = listing(self.multiverse, original)
        if ours.printed != theirs.printed:
            return ours, theirs, ["it prints otherwise under valgrind"]
        found = executed_differently(ours, theirs, self.lengths, texts)
        more, compared = jumped_differently(ours, theirs, texts)
        self.addresses, self.branches, self.programs = self.addresses + len(ours.ran), self.branches + compared, self.programs + 1
        return ours, theirs, found + more

    def ours(self, words, stdin, environment):
        return Ours(self.native, self.path("program"), words, stdin, environment, self.path("counts"))

    def stepped(self, words):
        """What differs from the processor's own steps, each told by a signal, where the program has no environment."""
        subprocess.run(["cp", MKSH, self.path("stepped")], check=True)
        ours = self.ours(words, b"", {})
        os.rename(self.path("program"), self.path("counted"))
        os.rename(self.path("stepped"), self.path("program"))
        subprocess.run([self.stepper, self.path("executed"), self.path("program"), *words], input=b"", capture_output=True,
                       timeout=600)
        os.rename(self.path("counted"), self.path("program"))
        with open(self.path("executed")) as lines:
            wanted = Counter({int(at, 16): int(number) for at, number, *_ in map(str.split, lines)})
        _, texts = listing(self.multiverse, MKSH)
        differ = sorted(at for at in {*ours.ran, *wanted} if ours.ran[at] != wanted[at] and at < KERNEL)
        # the launcher takes two of the auxiliary values out, through which the start code looks, up to ten instructions; and so calls
        # don't go by the vDSO. In one of several runs 15 more, which step over a string's characters, ran 31 times and not 30: why
        # isn't known
        looks = [at for at in differ if abs(ours.ran[at] - wanted[at]) <= 3]
        calls = [at for at in differ if "int 0x80" in (texts.get(at), texts.get(at - 2))]
        left = [at for at in differ if at not in calls and (at not in looks or len(looks) > MOST_LOOKS)]
        self.addresses += len(ours.ran)
        return [f"{at:08x} is counted {ours.ran[at]} times and runs {wanted[at]} times" for at in left]

    def forms(self, original, ours):
        """What differs in the profile's forms, whose counts have been compared with callgrind's."""
        made = {form: profiled(self.native, self.multiverse, form, self.path("program"), ours.folder)
                for form in ("text", "callgrind", "drcov", "html")}
        bad = ["text: other counts"] * text_differs(made["text"], dict(ours.ran))
        bad += ["callgrind_annotate: another total"] * annotate_differs(made["callgrind"], sum(ours.ran.values()), self.folder)
        bad += ["drcov: other bytes"] * blocks_differ(made["drcov"], self.lengths, ours.ran)
        twice = profiled(self.native, self.multiverse, "text", original, ours.folder, ours.folder)
        bad += ["two runs don't add up"] * text_differs(twice, {at: 2 * n for at, n in ours.ran.items()})
        found = page_differs(made["html"], dict(ours.ran), ours, self.folder)
        return bad + ([found] if found else [])

    def lines(self, original, ours):
        made = profiled(self.native, self.multiverse, "lcov", self.path("program"), ours.folder)
        branches = {at: (ours.taken[at], ours.passed[at]) for at in {*ours.taken, *ours.passed}}
        found = lines_differ(made, original, dict(ours.ran), branches, self.folder)
        return [found] if found else []

    def stripped(self, original, ours):
        subprocess.run(["strip", "-o", self.path("stripped"), original], check=True)
        made = profiled(self.native, self.multiverse, "text", self.path("stripped"), ours.folder)
        return ["a stripped file's functions begin elsewhere"] * functions_differ(made, original, ours.ran)


def compiled(check):
    """The programs of checks/programs.d that end by themselves; what differs."""
    bad = []
    for source in sorted(glob.glob(os.path.join(HERE, "programs.d", "*.c"))):
        name = os.path.basename(source)
        if name == "base.c" or name.startswith("trap_"):
            continue
        for level in LEVELS:
            original = check.compile(source, level, "-g")
            words = [word.decode() for word in ARGUMENTS[1:]]
            ours, _, found = check.counted(original, words, INPUT)
            if name == "sorting.c":
                found += check.forms(original, ours)
            found += check.lines(original, ours) + check.stripped(original, ours)
            bad += [f"{name} {level}: {difference}" for difference in found[:SHOWN]]
    return bad


def shell(check):
    """klibc's mksh with a script; what differs."""
    if not os.path.exists(MKSH):
        SKIPPED.append(MKSH)
        return []
    words = ["-c", SCRIPT]
    ours, theirs, found = check.counted(MKSH, words, b"")
    differ = [at for at in {*ours.ran, *theirs.ran} if ours.ran[at] != theirs.ran[at]]
    if ours.printed == theirs.printed and len(differ) * 100 <= MOST_DIFFERENT * len(ours.ran):
        print(f"checks/profile: mksh: {len(differ)} of {len(ours.ran)} instructions run otherwise under valgrind, where memory "
              "lies elsewhere")
        found = []
    found += check.forms(MKSH, ours)
    found += check.stepped(words)
    return [f"mksh: {difference}" for difference in found[:SHOWN]]


def main():
    check = Check(*sys.argv[1:])
    bad = compiled(check) + shell(check)
    for name in SKIPPED:
        print(f"checks/profile: {name} skipped, since it isn't installed")
    for line in bad[:15]:
        print(f"checks/profile: {line}")
    print(f"checks/profile: {check.programs} runs, {check.addresses} instructions and {check.branches} branches are counted as by "
          f"callgrind; {len(bad)} differ")
    return 1 if bad else 0


if __name__ == "__main__":
    sys.exit(main())
