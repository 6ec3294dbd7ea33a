#!/usr/bin/env python3
"""Compares what `check` answers of an image and a file with what docs/FORMATS.md says.

    check.py MULTIVERSE FOLDER [NUMBER [SEED]]

What must be answered is worked out by outputs.py, which knows nothing of the program. Four sorts of files are judged:
- what the program writes by each rule and edge rule, of small images, of the programs of checks/programs.d and of real ones where they
  are installed: each is a rewriting. Outputs of small images, and of each program some in turn, are also compared with the one output
  that outputs.py writes;
- crafted files, each with the answer that stands here beside it: files that no program of ours would write and that are rewritings all
  the same, and files wrong in each way that has a part, or in several, of which the first is told;
- NUMBER outputs in each of which one byte is changed;
- real programs' outputs in which one byte of the head, the input or the code is changed.
Where a crafted or changed file is taken for a rewriting, it must also trace as its image does.
Random choices are from a fixed seed.
"""
import bisect, collections, glob, os, random, re, shutil, struct, subprocess, sys

import oracles, outputs
from hostile import bases, invented, short
from oracles import LOAD, PAGE, R, RULES, W, X, small_image, up
from outputs import Plan, View, image_of, plan_of, word, written
from trace import HERE, LEVELS, OPTIONS

SHOWN, REAL_CHANGES, STEPS = 15, 10, 2000
REAL = ("/usr/lib/klibc/bin/mksh", "/usr/lib/klibc/bin/gzip", "/bin/lksh", "/usr/lib/i386-linux-musl/bin/mksh", "/usr/lib/diet/bin/mksh",
        "/bin/sash", "/bin/busybox", "/usr/libexec/valgrind/memcheck-x86-linux")
FLOWS = "b801000000 75f9 e2f7 e800000000 ffd0 ff542404 ff2424 c3 c20800 cd80 7400 e3fe 40 ebf0 cc 0f84f0ffffff 90 f4"


class Check:
    def __init__(self, multiverse, folder, seed):
        self.multiverse, self.rng, self.bad, self.parts = multiverse, random.Random(seed), [], collections.Counter()
        self.asked = 0
        os.chdir(folder)

    def run(self, *words):
        """The status, and the text that is printed."""
        ran = subprocess.run([self.multiverse, *words], capture_output=True, timeout=300)
        return ran.returncode, ran.stdout.decode(errors="replace") + ran.stderr.decode(errors="replace")

    def rewritten(self, original, rule, edges):
        """The output of a file by two rules; None where it isn't rewritten."""
        options = [f"--count={rule}"] * (rule != "none") + [f"--edges={edges}"] * (edges != "none")
        status, text = self.run("rewrite", original, "out", *options)
        if status == 0:
            return read("out")
        if status != 6:
            self.differ(f"{original}: rewrite ended with {status}: {short(text)}")
        return None

    def answer(self, original, file):
        """What `check` answers of two files' bytes."""
        write("original", original), write("file", file)
        self.asked += 1
        return self.run("check", "original", "file")

    def differ(self, line):
        self.bad.append(line)

    def want(self, title, given, wanted):
        if given != wanted:
            self.differ(f"{title}: {short(given)}, not {short(wanted)}")
            keep = os.environ.get("CHECK_KEEP")
            if keep:
                for name in filter(os.path.exists, ("original", "file")):
                    shutil.copy(name, os.path.join(keep, f"{len(self.bad)}.{name}"))
        return given == wanted


def read(name):
    with open(name, "rb") as file:
        return file.read()


def write(name, data):
    with open(name, "wb") as file:
        file.write(data)


# What the program writes.

def rules_for(addresses, rng):
    """Each rule without an edge rule, each edge rule without a rule, and some of both."""
    some = lambda: "at:" + ",".join(f"{at:08x}" for at in sorted(rng.sample(addresses, min(len(addresses), 200)))) if addresses else "none"
    made = [(rule, "none") for rule in (*RULES[:-1], "at:00000000", some())]
    return made + [("none", "all"), ("none", some()), ("none", "at:00000000"), ("all", "all"), ("branches", some()), (some(), "all")]


def small_images(rng):
    """Images of a few hundred bytes: those of checks/hostile, one of each flow, two runs, none, random code and random headers."""
    yield from (data for data in bases() if len(data) < 3000)
    yield small_image(bytes.fromhex(FLOWS))
    yield two_runs()
    yield without_code()
    for number in range(12):
        yield oracles.sample(number, rng.randrange(1, 400))
    common = bytes.fromhex("e8e9ebff74750f84e2e3c3c2cd80f490100424d0d4e02e65")
    for _ in range(12):
        yield small_image(bytes(rng.choice(common) if rng.random() < .6 else rng.randrange(256) for _ in range(rng.randrange(20, 400))))
    for _ in range(40):
        data = invented(rng)
        if not oracles.fault(data) and sum(len(code) for _, code in oracles.runs(data)) <= 3000:
            yield data


def header_image(entry, segments):
    """An image of several segments: address, bytes, memory size and flags; the bytes lie at the same place in their pages."""
    place, body, headers = 52 + 32 * len(segments), b"", b""
    for address, data, memsz, flags in segments:
        offset = place + len(body)
        body += bytes((address - offset) % PAGE)
        headers += struct.pack("<8I", LOAD, place + len(body), address, address, len(data), memsz, flags, PAGE)
        body += data
    head = bytearray(small_image(b"")[:52])
    struct.pack_into("<I", head, 24, entry)
    struct.pack_into("<H", head, 44, len(segments))
    return bytes(head) + headers + body


def two_runs():
    return header_image(0x08048074, [(0x08048074, bytes.fromhex("687c000508ff2424"), 8, R | X), (0x0805007C, b"\xF4", 1, R | X)])


def without_code():
    image = bytearray(small_image(bytes.fromhex("b801000000bb07000000cd80")))
    image[76] = R
    return bytes(image)


def judged(check, title, data, output, listed):
    """One output of the program's: a rewriting by the program and by outputs.py; `listed` says whether it is compared byte by byte."""
    image = image_of(data)
    wanted = 0, f"checked {len(image.sites)}\n"
    check.want(f"{title}: outputs.py", outputs.checked(data, output), wanted)
    check.want(title, check.answer(data, output), wanted)
    check.parts["rewritings of ours"] += 1
    if listed:
        rule, edges = title.split(", ")[-2:]
        check.want(f"{title}: the output", outputs.first_difference(written(data, plan_of(image, rule, edges)), output), None)
        check.parts["compared byte by byte"] += 1


def small(check):
    """Outputs of small images; some of them are kept to be changed."""
    kept = []
    for number, data in enumerate(small_images(check.rng)):
        write("in", data)
        image = image_of(data)
        for rule, edges in rules_for(list(image.sites), check.rng):
            output, plan = check.rewritten("in", rule, edges), plan_of(image, rule, edges)
            if output is None or plan is None:
                check.want(f"small image {number}, {rule}, {edges}: no room", output is None, plan is None)
                continue
            judged(check, f"small image {number}, {rule}, {edges}", data, output, True)
            kept.append((data, output))
    return kept


def listed(check, name):
    """The addresses of a file's sites, as `list` has them."""
    status, text = check.run("list", name)
    if status != 0:
        check.differ(f"{name}: list ended with {status}")
    return [int(line[:8], 16) for line in text.splitlines()]


def compiled(check):
    """Outputs of the programs of checks/programs.d; some of them are kept to be changed."""
    kept, programs = [], 0
    for source in sorted(glob.glob(os.path.join(HERE, "programs.d", "*.c"))):
        name = os.path.basename(source)
        if name == "base.c":
            continue
        for level in LEVELS:
            subprocess.run(["gcc", *OPTIONS, level, "-o", "program", source, os.path.join(HERE, "programs.d", "base.c"),
                            os.path.join(HERE, "programs.d", "start.s")], check=True)
            data, programs = read("program"), programs + 1
            check.want(f"{name} {level}: list", listed(check, "program"), list(image_of(data).sites))
            for turn, (rule, edges) in enumerate(rules_for(list(image_of(data).sites), check.rng)):
                output = check.rewritten("program", rule, edges)
                if output is None:
                    check.differ(f"{name} {level}, {rule}, {edges}: no room")
                    continue
                judged(check, f"{name} {level}, {rule}, {edges}", data, output, (turn + programs) % 7 == 0)
                kept.append((data, output))
    return programs, kept


def real(check):
    """Outputs of programs that are installed. Their sites are those that `list` prints; a changed byte is judged by the place of its
    part alone."""
    programs = 0
    for name in REAL:
        if not os.path.isfile(name) or check.run("rewrite", name, "out")[0] == 5:
            continue
        addresses, programs = listed(check, name), programs + 1
        for rule, edges in rules_for(addresses, check.rng):
            output = check.rewritten(name, rule, edges)
            if output is not None:
                check.want(f"{name}, {rule[:40]}, {edges[:40]}", check.run("check", name, "out"), (0, f"checked {len(addresses)}\n"))
                check.parts["rewritings of ours"] += 1
            if (rule, edges) in (("none", "none"), ("none", "all")):
                changed_real(check, name, output)
    return programs


def changed_real(check, name, output):
    """An output of a real program in which one byte of the head, the input or the code is changed."""
    frame, data = oracles.read_frame(output), read(name)
    write("original", data)
    starts = sorted((entry, lo + k) for lo, made in outputs.all_entries(frame) for k, entry in enumerate(made) if entry)
    stub = len(outputs.stub(frame.private, frame.runs))
    spans = ((7, 0x900), (PAGE, frame.at), (frame.at, frame.at + stub)) + ((frame.at + stub, frame.at + frame.code_len),) * 5
    with open("file", "wb") as file:
        file.write(output)
    for _ in range(REAL_CHANGES):
        place, found = check.rng.randrange(*check.rng.choice(spans)), check.rng.randrange(256)
        if found == output[place]:
            continue
        address = frame.code + place - frame.at
        if place < frame.at:
            part, at = "file", place
        elif place < frame.at + stub:
            part, at = "stub", address
        else:
            part, at = "piece", starts[bisect.bisect(starts, (address, 2**32)) - 1][1]
        with open("file", "r+b") as file:
            file.seek(place), file.write(bytes([found])), file.flush()
            check.want(f"{name}, byte {place:#x} {found:#x}", check.run("check", "original", "file"),
                       (12, outputs.line_of((part, at, output[place], found))))
            file.seek(place), file.write(output[place:place + 1])
        check.parts["changed real outputs"] += 1


# Crafted files.

ROW, LOOPS, WAYS = (bytes.fromhex(code) for code in ("b801000000bb07000000cd80", "4040f4", "7400f4"))
AT = 0x08048054


def loose(image, rule, edges, base, order, gap):
    """A plan whose pieces stand in some order, each with a join of its own where its flow goes on, and with bytes between."""
    listed = outputs.counted(image, rule, edges)
    blank, at, entries = View(0, 0, listed, {}), 65 + 26 * len(image.runs) + len(gap), {}
    for site in order:
        entries[site.at] = base + at
        at += len(outputs.with_counter(site, 0, blank)) + 5 * (site.flow in outputs.FALLS) + len(gap)
    table, runs = outputs.table_of(image.runs, entries, base + up(at))
    private = base + up(at) + up(len(table) + 8 * len(listed))
    view = View(base, private, listed, entries)
    code = outputs.stub(private, runs) + gap
    for site in order:
        made = outputs.with_counter(site, entries[site.at], view)
        join = outputs.jump(entries[site.at] + len(made), view.moved(site.next)) if site.flow in outputs.FALLS else b""
        code += made + join + gap
    return Plan(base, code, table, listed, runs, view.moved(image.entry), outputs.number_of(rule), outputs.number_of(edges))


def put(data, at, fresh):
    return data[:at] + fresh + data[at + len(fresh):]


def entered(plan, address, entry):
    """The plan, with another entry of an address in its table."""
    table = plan.places()[0]
    lo, _, place = next(run for run in plan.runs if run[0] <= address < run[0] + run[1])
    page = struct.unpack_from("<I", plan.table, place - table + (address - lo) // 1024 * 4)[0]
    plan.table = put(plan.table, page - table + (address - lo) % 1024 * 4, word(entry))
    return plan


def entry_of(image, plan, address):
    return oracles.read_frame(written(image.data, plan)).entry(address)


def coded(image, plan, address, fresh, behind=0):
    """The plan, with other bytes behind the entry of a site."""
    plan.code = put(plan.code, entry_of(image, plan, address) - plan.base + behind, fresh)
    return plan


def changed(plan, **fields):
    for name, value in fields.items():
        setattr(plan, name, value)
    return plan


def rewritings(rng):
    """Files that the program doesn't write and that are rewritings all the same: a title, the image and the file."""
    for data in (small_image(bytes.fromhex(FLOWS)), two_runs(), without_code(), small_image(ROW)):
        image = image_of(data)
        sites = list(image.sites.values())
        for rule, edges in (("none", "none"), ("all", "all"), ("branches", "none"), ("none", "all")):
            made = lambda base=None: plan_of(image, rule, edges, base)
            yield "at a higher place", data, written(data, made(0x00400000))
            yield "at the highest place", data, written(data, made(0xB0000000 - made().places()[3]))
            yield "up to a segment", data, written(data, made(0x08048000 - made().places()[3]))
            yield "behind a segment", data, written(data, made(0x08051000))
            for gap in (b"", b"\xCC", b"\xE9junk"):
                yield "pieces in another order", data, written(data, loose(image, rule, edges, 0x20000000, rng.sample(sites, len(sites)), gap))
                yield "pieces backwards", data, written(data, loose(image, rule, edges, 0x20000000, sites[::-1], gap))
            yield "other rules in the record", data, written(data, changed(made(), rule=4, edge_rule=6))
            if len(made().code) % PAGE < PAGE - 3:
                yield "bytes behind the code", data, written(data, changed(made(), code=made().code + b"\x90" * 3))
            if image.runs:
                # the groups of these runs all have sites, so that nothing names the page of zeros
                yield "another page of zeros", data, written(data, changed(made(), table=put(made().table, 77, b"\x55")))
    for data in filter(lambda data: len(data) < 200, bases()):
        image = image_of(data)
        for rule, edges in (("none", "none"), ("all", "all")):
            order = rng.sample(list(image.sites.values()), len(image.sites))
            yield "other pieces in another order", data, written(data, loose(image, rule, edges, 0x20000000, order, b"\xE9"))
    data = small_image(b"\xF4\xF4")
    image = image_of(data)
    yield "two sites with one piece", data, written(data, entered(plan_of(image), AT + 1, entry_of(image, plan_of(image), AT)))
    data = small_image(b"\xF4" * 0xF4)
    image = image_of(data)
    plan = plan_of(image)
    inside = plan.base + plan.code.index(b"\x81\xF9\xF4") + 2
    for at in image.sites:
        entered(plan, at, inside)
    yield "pieces inside the stub", data, written(data, changed(plan, entry=inside))
    data = bytearray(header_image(AT, [(AT, ROW, len(ROW), R | X), (0x00102000, b"", 0, R | W)]))
    yield "a segment of no bytes inside the block", bytes(data), written(bytes(data), plan_of(image_of(bytes(data)), base=0x00100000))


def wrong(rng):
    """Files that aren't rewritings: a title, the image, the file, and the part, place and numbers that must be told."""
    row, loops, ways = (image_of(small_image(code)) for code in (ROW, LOOPS, WAYS))
    # the block and the segments
    for base in (0, PAGE, 0x000FF000):
        yield "a low place", row, plan_of(row, base=base), ("room", base, base, 0x00100000)
    yield "a page of the code", row, plan_of(row, base=0x08047000), ("room", 0x08048000, 0x08047000, AT)
    yield "the page of the code", row, plan_of(row, base=0x08048000), ("room", 0x08048000, 0x08048000, AT)
    yield "the block's last page", row, plan_of(row, base=0x08044000), ("room", 0x08048000, 0x08044000, AT)
    code = AT, ROW, len(ROW), R | X
    large = image_of(header_image(AT, [code, (0x20000054, b"", 0x5000, R | W)]))
    yield "a segment that begins below", large, plan_of(large, base=0x20003000), ("room", 0x20003000, 0x20003000, 0x20000054)
    yield "a segment's last page", large, plan_of(large, base=0x20005000), ("room", 0x20005000, 0x20005000, 0x20000054)
    several = image_of(header_image(AT, [code, (0x20001000, b"", 16, R), (0x20003FFF, b"", 2, R), (0x20007000, b"", 1, R)]))
    yield "several segments", several, plan_of(several, base=0x20000000), ("room", 0x20001000, 0x20000000, 0x20001000)
    yield "the later of them", several, plan_of(several, base=0x20002000), ("room", 0x20003000, 0x20002000, 0x20003FFF)
    low = image_of(header_image(0x000FE000, [(0x000FE000, b"", 1, R), code]))
    yield "a low place and a page shared", low, plan_of(low, base=0x000FD000), ("room", 0x000FE000, 0x000FD000, 0x000FE000)
    yield "a low place beside a segment", low, plan_of(low, base=0x000FF000), ("room", 0x000FF000, 0x000FF000, 0x00100000)
    yield "a low place and other runs", row, plan_of(ways, base=PAGE), ("room", PAGE, PAGE, 0x00100000)
    # runs
    two, none = image_of(two_runs()), image_of(without_code())
    for title, image, other, found in (
            ("more runs", row, two, (0, 1, 2)), ("no run", row, none, (0, 1, 0)), ("a run too many", none, row, (0, 0, 1)),
            ("another first address", row, image_of(small_image(ROW, AT + PAGE)), (1, AT, AT + PAGE)),
            ("a longer run", row, image_of(small_image(ROW + b"\0")), (2, 12, 13)),
            ("a shorter run", row, image_of(small_image(ROW[:-1])), (2, 12, 11)),
            ("a longer second run", two, image_of(header_image(0x08048074, [(0x08048074, bytes.fromhex("687c000508ff2424"), 8, R | X),
                                                                           (0x0805007C, b"\xF4", 2, R | X)])), (4, 1, 2))):
        yield title, image, plan_of(other), ("runs", *found)
        yield f"{title}, in version 1", image, changed(plan_of(other), version=1), ("runs", *found)
    # version 1, whatever else is wrong
    version = "file", 0x904, 2, 1
    yield "version 1", row, changed(plan_of(row), version=1), version
    yield "version 1, counted", loops, changed(plan_of(loops, "all"), version=1), version
    yield "version 1, another entry", row, changed(plan_of(row), version=1, entry=7), version
    yield "version 1, no stub", row, changed(plan_of(row), version=1, code=b"\xF4" * 200), version
    yield "version 1, another order", loops, changed(plan_of(loops, "all"), version=1, counters=[(AT + 1, 0), (AT, 0), (AT + 2, 0)]), version
    flat = b"".join(word(plan_of(row).base + 91) for _ in ROW)
    yield "form 1", row, changed(plan_of(row), version=1, form=1, table=flat, runs=[(AT, 12, 0x00101000)]), version
    # the file
    yield "another entry", row, changed(plan_of(row), entry=0x0010005C), ("file", 24, 0x5B, 0x5C)
    yield "the old entry", row, changed(plan_of(row), entry=AT), ("file", 24, 0x5B, 0x54)
    output = written(row.data, plan_of(row))
    places = {"the magic": 0, "the class": 4, "the input's ident": 9, "the flags": 36, "sections": 32, "the number of sections": 48,
              "the number of headers": 44, "a header's type": 52, "an added header's alignment": 80, "the private header's file size": 132,
              "an old header's flags": 0xAC, "an old header's place": 0x98, "an old header's alignment": 0xB0, "behind the headers": 180,
              "in front of the record": 0x8FF, "the input's length": 0x90C, "behind the record": 0x954, "the head's last byte": 0xFFF,
              "the input's first byte": 0x1000, "the input's code": 0x1054, "the input's last byte": 0x105F, "behind the input": 0x1060,
              "the input's last page": 0x1FFF, "behind the code": 0x2092, "the code's last page": 0x2FFF, "behind the table": 0x5004,
              "the last byte": 0x5FFF}
    for title, place in places.items():
        yield title, row, put(output, place, bytes([output[place] ^ 1])), ("file", place, output[place], output[place] ^ 1)
    yield "the file and the stub", row, put(put(output, 0x2000, b"\x90"), 0x2FFF, b"\1"), ("file", 0x2FFF, 0, 1)
    yield "another input", image_of(small_image(ROW[:-1] + b"\x81")), output, ("file", 0x105F, 0x81, 0x80)
    # the list
    counted = lambda pairs, image=loops: changed(plan_of(image, "all"), counters=pairs)
    one, next_, last = (AT, 0), (AT + 1, 0), (AT + 2, 0)
    yield "two pairs exchanged", loops, counted([next_, one, last]), ("counted", 1, AT + 1, AT)
    yield "the last two exchanged", loops, counted([one, last, next_]), ("counted", 2, AT + 2, AT + 1)
    yield "a pair twice", loops, counted([one, one, last]), ("counted", 1, AT, AT)
    yield "no site at first", loops, counted([(AT - 1, 0), next_, last]), ("counted", 0, 0, AT - 1)
    yield "no site at last", loops, counted([one, next_, (AT + 3, 0)]), ("counted", 2, AT + 1, AT + 3)
    yield "an address of nothing", loops, counted([one, next_, (0xFFFFFFFF, 0)]), ("counted", 2, AT + 1, 0xFFFFFFFF)
    yield "ways of a plain instruction", loops, counted([one, (AT, 1), (AT, 2)]), ("counted", 1, AT, AT)
    yield "ways of a stop", loops, counted([one, (AT + 2, 1), (AT + 2, 2)]), ("counted", 1, AT, AT + 2)
    edges = lambda *kinds: changed(plan_of(ways, "none", "all"), counters=[(AT, kind) for kind in kinds])
    for kinds, place in (((1,), 0), ((2,), 0), ((0, 1), 1), ((0, 2), 1), ((2, 1), 1), ((1, 1), 0), ((1, 2, 1), 2), ((1, 1, 2), 1),
                         ((1, 2, 0), 2), ((0, 2, 1), 2)):
        yield f"the kinds {kinds}", ways, edges(*kinds), ("counted", place, AT if place else 0, AT)
    yield "one way, another site's other", ways, changed(edges(1), counters=[(AT, 1), (AT + 1, 2)]), ("counted", 0, 0, AT)
    yield "the list and the stub", loops, changed(counted([one, one, last]), code=b"\xF4" * 400), ("counted", 1, AT, AT)
    # the stub
    yield "no stub", row, changed(plan_of(row), code=b"\xF4" * 0x92), ("stub", 0x00100000, 0x89, 0xF4)
    for length in (1, 10, 64, 90):
        yield "a stub cut short", row, changed(plan_of(row), code=plan_of(row).code[:length]), (
            "stub", 0x00100000 + length, plan_of(row).code[length], 256)
    table, _, private, _ = plan_of(row).places()
    yield "the stub of form 1", row, changed(plan_of(row), code=outputs.stub(private, plan_of(row).runs, 1).ljust(0x92)), (
        "stub", 0x0010002F, 0x16, 0x08)
    yield "the stub of no run", row, changed(plan_of(row), code=outputs.stub(private, []).ljust(0x92)), ("stub", 0x00100014, 0x89, 0xEB)
    yield "the stub and an entry", row, entered(changed(plan_of(row), code=put(plan_of(row).code, 90, b"\1")), AT + 6, 7), (
        "stub", 0x0010005A, 0, 1)
    # entries
    end = 0x00100092
    yield "an entry where no site is", row, entered(plan_of(row), AT + 6, 0x00100060), ("entry", AT + 6, 0, 0x00100060)
    ends = image_of(small_image(b"\xF4\x06"))
    yield "an entry of a last byte", ends, entered(plan_of(ends), AT + 1, 1), ("entry", AT + 1, 0, 1)
    yield "an entry that a join knows", row, entered(plan_of(row), AT + 11, 1), ("piece", AT + 9, 0x76, 0xD4)
    for found in (0, 1, 0x000FFFFF, end, end + 1, 0x00101000, table, private, AT + 1, 0xFFFFFFFF):
        yield "a site's entry out of the code", row, entered(plan_of(row), AT + 1, found), ("entry", AT + 1, 0x00100000, found)
        yield "the first site's", row, entered(changed(plan_of(row), entry=found or AT), AT, found), ("entry", AT, 0x00100000, found)
    yield "an entry and a later piece", row, entered(coded(row, plan_of(row), AT + 8, b"\1"), AT + 6, 1), ("entry", AT + 6, 0, 1)
    yield "an entry and an earlier piece", row, entered(coded(row, plan_of(row), AT + 2, b"\1"), AT + 6, 1), ("piece", AT + 2, 0, 1)
    # pieces
    yield "an entry in the stub", row, entered(plan_of(row), AT + 1, 0x00100000), ("piece", AT + 1, 1, 0x89)
    yield "an entry of another site", row, entered(plan_of(row), AT + 1, 0x0010005B), ("piece", AT + 1, 1, 0xB8)
    yield "a byte of a piece", row, coded(row, plan_of(row), AT, b"\xB9"), ("piece", AT, 0xB8, 0xB9)
    yield "a join's opcode", row, coded(row, plan_of(row), AT + 10, b"\xEB", 2), ("piece", AT + 10, 0xE9, 0xEB)
    yield "a join's distance", row, coded(row, plan_of(row), AT + 10, b"\xF5", 3), ("piece", AT + 10, 0xF4, 0xF5)
    yield "a join's last byte", row, changed(plan_of(row), code=plan_of(row).code[:-1] + b"\xFE"), ("piece", AT + 8, 0xFF, 0xFE)
    for cut in (1, 4, 5):
        yield "the code cut short", row, changed(plan_of(row), code=plan_of(row).code[:-cut]), (
            "piece", AT + 8, plan_of(row).code[-cut], 256)
    yield "two pieces", row, coded(row, coded(row, plan_of(row), AT + 8, b"\1"), AT + 5, b"\1"), ("piece", AT + 5, 0xBB, 1)
    sites = list(loops.sites.values())
    backwards = loose(loops, "none", "none", 0x00100000, sites[::-1], b"\xCC")
    yield "no join", loops, coded(loops, backwards, AT, b"\x90", 1), ("piece", AT, 0xE9, 0x90)
    for title, behind, kept, found in (("a counter's opcode", 0, 0x89, 0x8B), ("a counter's place", 8, 0x40, 0x48), ("a counter's step", 14, 1, 2),
                                       ("a counter's carry", 24, 0x0F, 0x0E), ("a piece behind a counter", 46, 0x40, 0x48)):
        yield title, loops, coded(loops, plan_of(loops, "all"), AT, bytes([found]), behind), ("piece", AT, kept, found)
    yield "counters that aren't listed", loops, changed(plan_of(loops, "all"), counters=[]), ("piece", AT, 0x40, 0x89)
    yield "a listed site without a counter", loops, changed(plan_of(loops), counters=[one]), ("piece", AT, 0x89, 0x40)
    edged = lambda: plan_of(ways, "none", "all")
    for title, behind, kept, found in (("another condition", 1, 0x84, 0x85), ("a branch past its counter", 2, 0x30, 0x5E),
                                       ("no jump over the taken counter", 52, 0xEB, 0x90), ("a jump into it", 53, 0x33, 0x32)):
        yield title, ways, coded(ways, edged(), AT, bytes([found]), behind), ("piece", AT, kept, found)
    start = entry_of(ways, edged(), AT) - edged().base
    passed, taken = (edged().code[start + k:start + k + 46] for k in (6, 54))
    exchanged = put(put(edged().code, start + 6, taken), start + 54, passed)
    yield "the ways exchanged", ways, changed(edged(), code=exchanged), ("piece", AT, 0x48, 0x40)
    yield "ways that aren't listed", ways, changed(edged(), counters=[]), ("piece", AT, 0x63, 0x30)
    yield "listed ways that aren't counted", ways, changed(plan_of(ways), counters=[(AT, 1), (AT, 2)]), ("piece", AT, 0x30, 0)
    jecxz = image_of(small_image(bytes.fromhex("e3fef4")))
    yield "another loop", jecxz, coded(jecxz, plan_of(jecxz, "none", "all"), AT, b"\xE2"), ("piece", AT, 0xE3, 0xE2)
    yield "a loop's short way", jecxz, coded(jecxz, plan_of(jecxz, "all"), AT, b"\x03", 47), ("piece", AT, 0x02, 0x03)


def trace(check, name, steps):
    """How a file's trace ends, and the lines that a rewriting shares; where bytes are no instruction, it stops by a fault of fetching."""
    status, text = check.run("trace", name, "log", str(steps))
    lines = [line for line in text.splitlines() if not line.startswith(("steps ", "count ", "taken ", "nottaken "))]
    end = next((line for line in lines if line.startswith("end ")), None)
    return end, (status, [re.sub(r"^end (outside|trap fetch .*)$", "end outside or fetch", line) for line in lines])


def traces_alike(check, title):
    """Whether the two files that `check` was just asked about trace alike, where the first comes to an end."""
    write("log", b"log 1\nret 00000001\nret 00000002\n")
    end, wanted = trace(check, "original", STEPS)
    if end not in (None, "end steps", "end nostack"):
        check.want(f"{title}: its trace", trace(check, "file", 100 * STEPS)[1], wanted)
        check.parts["traced"] += 1


def crafted(check):
    """Each crafted file is answered as it says, by outputs.py too."""
    row = small_image(ROW)
    for title, data, file in rewritings(check.rng):
        wanted = 0, f"checked {len(image_of(data).sites)}\n"
        check.want(f"{title}: outputs.py", outputs.checked(data, file), wanted)
        check.want(title, check.answer(data, file), wanted)
        traces_alike(check, title)
        check.parts["crafted rewritings"] += 1
    for title, image, made, found in wrong(check.rng):
        file = made if isinstance(made, bytes) else written(image.data, made)
        wanted = 12, outputs.line_of(found)
        check.want(f"{title}: outputs.py", outputs.checked(image.data, file), wanted)
        check.want(title, check.answer(image.data, file), wanted)
        check.parts["crafted wrong files"] += 1
    output = written(row, plan_of(image_of(row)))
    none = 13, "multiverse: no frame\n"
    for title, data, file, wanted in (
            ("a file twice", row, row, none), ("an output of no bytes", row, b"", none), ("an output cut short", row, output[:-1], none),
            ("a kind of 3", small_image(LOOPS), written(small_image(LOOPS), changed(plan_of(image_of(small_image(LOOPS))), counters=[(AT, 3)])), none),
            ("a bad image and no frame", b"", b"", (5, "multiverse: bad image: ShortHeader\n")),
            ("a bad image and an output", row[:80], output, (5, "multiverse: bad image: HeadersOutside\n")),
            ("an output twice", output, output, (12, "multiverse: differs: room 00100000 00100000 00100000\n"))):
        check.want(f"{title}: outputs.py", outputs.checked(data, file), wanted)
        check.want(title, check.answer(data, file), wanted)
    check.want("a missing IN", check.run("check", "missing", "none"), (3, "multiverse: cannot read missing\n"))
    check.want("a missing OUT", check.run("check", "original", "missing"), (3, "multiverse: cannot read missing\n"))


# Changed bytes.

def spans(frame, file):
    """The parts of an output, by name: first offset and the one behind the last."""
    words = oracles.VERSIONS[frame.version][0] + 3 * len(frame.runs)
    stub, table = len(outputs.stub(frame.private, frame.runs)), frame.at + up(frame.code_len)
    pages = PAGE + sum(4 * -(-length // 1024) for _, length, _ in frame.runs)
    found = {"headers": (0, 0x900), "record": (0x900, 0x900 + 4 * words), "head": (0x900 + 4 * words, PAGE),
             "input": (PAGE, PAGE + frame.input), "behind the input": (PAGE + frame.input, frame.at), "stub": (frame.at, frame.at + stub),
             "code": (frame.at + stub, frame.at + frame.code_len), "behind the code": (frame.at + frame.code_len, table),
             "zeros": (table, table + PAGE), "directories": (table + PAGE, table + pages),
             "entries": (table + pages, table + frame.before_list), "list": (table + frame.before_list, table + frame.table_len),
             "behind the table": (table + frame.table_len, len(file))}
    return {name: span for name, span in found.items() if span[0] < span[1]}


def entry_places(frame):
    """The offset of the entry of each address of the runs."""
    for _, length, place in frame.runs:
        for k in range(length):
            yield frame.at + up(frame.code_len) + frame.word(place + k // 1024 * 4) - frame.table + k % 1024 * 4


def changes(check, kept, number):
    """Outputs in each of which one byte is changed."""
    rng, frames = check.rng, {}
    for _ in range(number):
        k = rng.randrange(len(kept))
        data, file = kept[k]
        if k not in frames:
            frame = oracles.read_frame(file)
            starts = sorted((entry, lo + j) for lo, made in outputs.all_entries(frame) for j, entry in enumerate(made) if entry)
            frames[k] = frame, starts, spans(frame, file), list(entry_places(frame))
        frame, starts, parts, words = frames[k]
        name = rng.choice([*parts, "code", "entries"])
        if name not in parts:
            continue
        place = rng.randrange(*parts[name]) if name != "entries" else rng.randrange(4) + rng.choice(words)
        found = rng.choice((file[place] ^ 1 << rng.randrange(8), (file[place] + rng.randrange(1, 256)) % 256))
        other = put(file, place, bytes([found]))
        wanted, address = outputs.checked(data, other), frame.code + place - frame.at
        # what follows from the place alone
        told_at = {"stub": ("stub", address)}.get(name)
        if name in ("headers", "head", "input") or name.startswith("behind"):
            told_at = "file", place
        elif name == "code":
            told_at = "piece", starts[bisect.bisect(starts, (address, 2**32)) - 1][1]
        title = f"changed output {k}, {name}, byte {place:#x}, {found:#x}"
        if told_at:
            check.want(f"{title}: outputs.py", wanted, (12, outputs.line_of((*told_at, file[place], found))))
        check.want(title, check.answer(data, other), wanted)
        if wanted[0] == 0:
            traces_alike(check, title)
        part = re.match(r"multiverse: differs: (\w+)|multiverse: (no frame)|(checked)", wanted[1])
        check.parts["changed, " + next(filter(None, part.groups())).replace("checked", "a rewriting still")] += 1


def main():
    multiverse, folder, *more = sys.argv[1:]
    number, seed = (int(more[0]) if more else 3000), (int(more[1]) if len(more) > 1 else 20181201)
    check = Check(os.path.abspath(multiverse), folder, seed)
    crafted(check)
    kept, programs, found = small(check), 0, 0
    if makes_programs():
        programs, more_kept = compiled(check)
        kept += more_kept
    else:
        print("checks/check: compiled programs skipped, since no gcc makes i386 programs")
    changes(check, kept, number)
    found = real(check)
    if not found:
        print("checks/check: real programs skipped, since none is installed")
    for line in check.bad[:SHOWN]:
        print(f"checks/check: {line}")
    print(f"checks/check: {programs} compiled programs and {found} real ones; "
          + ", ".join(f"{part} {count}" for part, count in sorted(check.parts.items())) + f"; {len(check.bad)} differ")
    return 1 if check.bad else 0


def makes_programs():
    """Whether there is a compiler for i386."""
    write("end.s", b".globl _start\n_start: hlt\n")
    try:
        return subprocess.run(["gcc", *OPTIONS, "-o", "end", "end.s"], capture_output=True).returncode == 0
    except FileNotFoundError:
        return False


if __name__ == "__main__":
    sys.exit(main())
