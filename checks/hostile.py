#!/usr/bin/env python3
"""Gives the program hostile words, images and logs, and compares each answer with what docs/FORMATS.md says.

    hostile.py MULTIVERSE FOLDER [SECONDS [SEED]]

What must be answered is worked out by oracles.py, which knows nothing of the program. Of each image: whether it is refused, and by
which fault; that a refusal leaves OUT as it was; the sites, by the table of decode.py; the place of the block; the frame that is read
back, and that each site and nothing else has an entry of its own in its code; that image and output trace alike; that the image is
extracted from the output, and the output upgraded to itself. Of each output in which something was changed: whether it has a frame,
what is extracted from it, and that it is upgraded to what its input is rewritten to by the frame's rule. Of each log: the line at which
it is no log. Cases are from a fixed seed; the fixed ones come first, and then random ones until the time is over. Each tenth run has a
stack of 64 KiB.
"""
import glob, os, random, re, resource, struct, subprocess, sys, time

import oracles
from decode import expected
from oracles import BLOCK_FROM, CODE_LIMIT, FILE_LIMIT, LOAD, MAPPED_LIMIT, PAGE, R, RULES, VERSIONS, W, X
from outputs import checked

HERE = os.path.dirname(os.path.abspath(__file__))
STEPS, SHOWN, SMALL, LARGE = 20000, 20, 65536, 1 << 20
OLD = b"what OUT held before"
WRITTEN_VERSION = 2
SMALL_IMAGE = oracles.small_image(bytes.fromhex("b801000000bb07000000cd80"))


class Check:
    def __init__(self, multiverse, folder, seed):
        self.multiverse, self.folder, self.rng = multiverse, folder, random.Random(seed)
        self.runs, self.bad, self.kinds = 0, [], {}
        os.chdir(folder)

    def run(self, *words, out=subprocess.PIPE):
        """The status, and the text that is printed."""
        self.runs += 1
        small = None
        if self.runs % 10 == 0:
            small = lambda: resource.setrlimit(resource.RLIMIT_STACK, (SMALL, SMALL))
        ran = subprocess.run([self.multiverse, *words], stdout=out, stderr=subprocess.PIPE, timeout=120, preexec_fn=small)
        if ran.stderr or ran.returncode < 0:
            self.differ(f"{words}: ended with {ran.returncode}, {ran.stderr[-200:]}")
        return ran.returncode, (ran.stdout or b"").decode()

    def differ(self, line, *files):
        kept = [f"{name}.{len(self.bad)}" for name in files if os.path.exists(name)]
        self.bad.append(line + "".join(f" ({name})" for name in kept))
        for name, copy in zip(files, kept):
            keep(name, os.path.join(self.folder, "..", copy))

    def want(self, title, given, wanted):
        if given != wanted:
            self.differ(f"{title}: {short(given)}, not {short(wanted)}", "in", "log")
        return given == wanted

    def count(self, kind):
        self.kinds[kind] = self.kinds.get(kind, 0) + 1


def keep(name, copy):
    if os.environ.get("HOSTILE_KEEP"):
        os.replace(name, copy)


def short(value):
    text = repr(value)
    return text if len(text) < 300 else text[:300] + ".."


def write(name, data):
    with open(name, "wb") as file:
        file.write(data)


def read(name):
    with open(name, "rb") as file:
        return file.read()


# Images.

def bases():
    """Images to start from: the worked ones, the example, and small code of each flow."""
    codes = ("b801000000bb07000000cd80", "ebffc0", "e802000000f4908b1c24c3", "ffd4", "ff542404", "b07f0401f9fd6862800408c20800f4",
             "f9e301f4e201f4b901000000e201f4cc", "be54800408bff8efffbfb904000000f3a5", "b801", "f30fbcc1f4", "e9a77ffbf7", "ffe4",
             "68000100009d", "68000020009d6860800408c3f4", "f7f1", "cc", "cd80f4", "bc00000000e800000000", "bc00000000ffd0",
             "bc00000000c3", "bc00000000c20800", "bc00000000ffe0", "ff1500000000", "4040f4")
    made = [oracles.small_image(bytes.fromhex(code)) for code in codes]
    for path in (os.path.join(HERE, "..", "examples", "hello", "hello"), *glob.glob("/usr/lib/klibc/bin/*")[:3]):
        if os.path.exists(path):
            made.append(read(path))
    return made


def edge(rng):
    near = rng.choice((0, 1, 0x34, 0x54, PAGE, 0x100000, 0x08048000, 0x08048054, 0xB0000000, 0xBFEFF000, 0xBFFFF000, 0xFFFFF000, 2**32,
                       CODE_LIMIT, 2**31))
    return (near + rng.choice((-PAGE, -1, 0, 0, 0, 1, PAGE))) % 2**32


def mutated(rng, image):
    image = bytearray(image)
    for _ in range(rng.choice((1, 1, 1, 2, 3))):
        kind = rng.randrange(7)
        if kind == 0 and image:
            image[rng.randrange(min(len(image), 180))] = rng.choice((0, 1, 2, 3, 6, 7, 0xFF, rng.randrange(256)))
        elif kind == 1 and len(image) > 60:
            struct.pack_into("<I", image, rng.choice((24, 28, *range(52, min(len(image) - 4, 180), 4))), edge(rng))
        elif kind == 2:
            del image[rng.randrange(len(image) + 1):]
        elif kind == 3:
            image += rng.randbytes(rng.choice((1, 40, 4096)))
        elif kind == 4 and len(image) > 90:
            at = rng.randrange(84, len(image))
            image[at:at + 8] = rng.randbytes(8)
        elif kind == 5 and len(image) > 46:
            struct.pack_into("<H", image, 44, rng.choice((0, 1, 2, 3, 61, 62, 64, 65, 0xFFFF)))
        elif len(image) > 90:
            image[84:] = rng.randbytes(rng.randrange(1, 400))
            struct.pack_into("<II", image, 68, len(image) - 84, len(image) - 84)
    return bytes(image)


def invented(rng):
    """Headers at random, mostly ascending loads, over random code."""
    count, body = rng.choice((1, 2, 3, 4, 8, 61, 62, 64)), rng.randbytes(rng.randrange(1, 600))
    start, address, made = 52 + 32 * count, rng.choice((0x1000, 0x100000, 0x08048000, 0xAFFF0000)), []
    for _ in range(count):
        kind = rng.choice((LOAD,) * 12 + (4, 0x6474E551, 0, 6) + (2, 3) * (count < 4))
        filesz = rng.randrange(len(body) + 1)
        offset = start + rng.randrange(len(body) - filesz + 1)
        memsz = filesz + rng.choice((0, 0, 0, 1, 5000, 70000))
        address += rng.choice((PAGE, PAGE, 2 * PAGE, 16 * PAGE)) + oracles.up(memsz)
        flags = rng.choice((R | X, R | X, X, R, R | W, W) + (7, 0) * (count < 4))
        made.append(struct.pack("<8I", kind, offset, (address + offset % PAGE) % 2**32, 0, filesz, memsz, flags, PAGE))
    head = bytearray(oracles.small_image(b"")[:52])
    struct.pack_into("<H", head, 44, count)
    entry = struct.unpack_from("<I", rng.choice(made), 8)[0]
    struct.pack_into("<I", head, 24, (entry + rng.randrange(40)) % 2**32)
    return bytes(head) + b"".join(made) + body


def sites_of(image):
    """Each site's address and length, by the table of decode.py."""
    found = []
    for lo, code in oracles.runs(image):
        for at in range(len(code)):
            length = expected(code[at:at + 15])
            if length.isdigit():
                found.append((lo + at, int(length)))
    return found


def executable(image):
    return sum(len(code) for _, code in oracles.runs(image))


def judge(check, image, log=b"log 1\n"):
    """One image: rewritten, listed and traced, each answer compared."""
    write("in", image), write("out", OLD), write("log", log)
    fault = oracles.fault(image)
    chosen = check.rng.choice(([], [], ["--count=all"], ["--count=branches"], ["--edges=all"], ["--count=all", "--edges=all"],
                               ["--count=none", "--edges=none"]))
    if not fault and executable(image) > LARGE:
        chosen = []  # counters at each of millions of sites would make a file of a gigabyte
    status, text = check.run("rewrite", "in", "out", *chosen)
    check.count(fault.split()[0] if fault else "rewritten" if status == 0 else "no room")
    if fault:
        check.want("rewrite", (status, text), (5, f"multiverse: bad image: {fault}\n"))
        check.want("OUT of a refusal", read("out"), OLD)
        for words in (("list", "in"), ("check", "in", "out"), ("check", "in", "in")):
            check.want(words, check.run(*words), (5, f"multiverse: bad image: {fault}\n"))
        if not oracles.fault(image, 19):
            trace(check, image, "in")
        else:
            check.want("trace", check.run("trace", "in", "log", "9"), (5, f"multiverse: bad image: {fault}\n"))
    elif status == 6:
        size = re.fullmatch(r"multiverse: no room: (\d+)\n", text)
        if not size or int(size[1]) % PAGE or oracles.first_fit(image, int(size[1])) is not None:
            check.differ(f"no room: {text}", "in")
        check.want("OUT of a refusal", read("out"), OLD)
    else:
        rewritten(check, image, chosen, status, text)


def number_of(chosen, name):
    """The number of the rule that is chosen by the option of a name; 0 without it."""
    return next((RULES.index(option.split("=")[1]) for option in chosen if option.startswith(f"--{name}=")), 0)


def rewritten(check, image, chosen, status, text):
    output = read("out")
    frame = oracles.read_frame(output)
    printed = re.fullmatch(r"sites (\d+)\nadded ([0-9a-f]{8}) ([0-9a-f]{8})\ncounters (\d+)\n", text)
    if status != 0 or not printed or not frame:
        return check.differ(f"rewrite: {status}, {short(text)}, {'a' if frame else 'no'} frame", "in")
    sites, lo, length = int(printed[1]), int(printed[2], 16), int(printed[3], 16)
    check.want("added", (lo, length), (frame.lo, frame.length))
    check.want("place", lo, oracles.first_fit(image, length))
    check.want("counters", (int(printed[4]), sorted(set(frame.list))), (frame.counters, frame.list))
    check.want("input in OUT", output[0x1000:0x1000 + len(image)], image)
    check.want("runs", [(run, size) for run, size, _ in frame.runs], [(at, len(code)) for at, code in oracles.runs(image)])
    rule, edge_rule = number_of(chosen, "count"), number_of(chosen, "edges")
    check.want("version and rules", (frame.version, frame.form, frame.rule, frame.edge_rule), (WRITTEN_VERSION, 2, rule, edge_rule))
    check.want("kinds", {kind for _, kind in frame.list} <= {*[0] * (rule > 0), *[1, 2] * (edge_rule > 0)}, True)
    if executable(image) <= 3000:
        placed(check, image, frame, sites)
    if rule < 2:
        check.want("counters", sum(kind == 0 for _, kind in frame.list), sites if rule else 0)
    check.want("check", check.run("check", "in", "out"), (0, f"checked {sites}\n"))
    trace(check, image, "in", frame)
    check.want("extract", check.run("extract", "out", "back"), (0, f"input {len(image)}\n"))
    check.want("what is extracted", read("back") == image, True)
    check.want("upgrade", check.run("upgrade", "out", "back"), (0, text))
    check.want("what is upgraded", read("back") == output, True)


def placed(check, image, frame, sites):
    wanted = sites_of(image)
    check.want("sites", sites, len(wanted))
    entries = [frame.entry(at) for at, _ in wanted]
    if None in entries or len(set(entries)) != len(entries) or not all(
            frame.code < entry < frame.code + frame.code_len for entry in entries):
        check.differ("an entry is missing, outside the code, or another's", "in")
    others = sum(frame.entry(at) is not None for lo, size, _ in frame.runs for at in range(lo, lo + size))
    check.want("addresses with an entry", others, len(wanted))
    status, listed = check.run("list", "in")
    if status == 2:
        return
    code = dict(oracles.runs(image))
    lines = []
    for at, length in wanted:
        lo = max(lo for lo in code if lo <= at)
        lines.append(f"{at:08x} {code[lo][at - lo:at - lo + length].hex()}")
    check.want("list", (status, [" ".join(line.split(" ")[:2]) for line in listed.splitlines()]), (0, lines))


ENDS = re.compile(r"(steps|trap (read|write|fetch) [0-9a-f]{8}|trap (divide|breakpoint|invalid|protection)|outside|noanswer|badanswer|"
                  r"gone|nostack)")


def is_clear(image, frame, log):
    """Whether no effect of a log touches an added address or an executable one."""
    kept = [(frame.lo, frame.length)] + [(lo, len(code)) for lo, code in oracles.runs(image)]
    return not any(oracles.meets(effect, part) for effect in oracles.touched(log) for part in kept)


def trace(check, image, name, frame=None):
    """The trace of an image, and, where it has an output, of that."""
    status, text = check.run("trace", name, "log", str(STEPS))
    log, total = read("log"), oracles.mapped(image)
    if oracles.bad_line(log):
        return check.want("trace", (status, text), (7, f"multiverse: bad log: line {oracles.bad_line(log)}\n"))
    if total > MAPPED_LIMIT:
        return check.want("trace", (status, text), (10, f"multiverse: too large: mapped {total}\n"))
    if status == 10:
        return
    lines = text.splitlines()
    end = next((line[4:] for line in lines if line.startswith("end ")), "nothing")
    if status != 0 or not ENDS.fullmatch(end) or not re.fullmatch(r"steps \d+", lines[-1]):
        return check.differ(f"trace: {status}, {short(text)}", name)
    check.want("the stack", end == "nostack", oracles.takes_stack(image))
    if frame is None or end == "steps" or oracles.mapped(image) + frame.length > MAPPED_LIMIT:
        return
    stop = re.fullmatch(r"trap \w+ ([0-9a-f]{8})", end)
    if stop and frame.lo <= int(stop[1], 16) < frame.lo + frame.length or not is_clear(image, frame, log):
        return
    status, after = check.run("trace", "out", "log", str(100 * STEPS))
    without = lambda lines: [re.sub(r"^end (outside|trap fetch .*)$", "end outside or fetch", line) for line in lines
                             if not line.startswith(("steps ", "count ", "taken ", "nottaken "))]
    check.want("the output's trace", (status, without(after.splitlines())), (0, without(lines)))


# Outputs, and files that are like them.

def remade(file, version):
    """An output with its frame as another version has it; the code is left as it is."""
    frame = oracles.read_frame(file)
    _, listed, _, _ = VERSIONS[version]
    table = frame.table_bytes[:frame.before_list] + b"".join(struct.pack("<II", *counter)[:listed] for counter in frame.list)
    length = oracles.up(frame.code_len) + oracles.up(len(table)) + oracles.up(64 + 8 * frame.counters)
    private = frame.table + oracles.up(len(table))
    words = [oracles.MAGIC, version, frame.form, frame.input, frame.lo, length, frame.code, frame.code_len, frame.table, len(table),
             private, 64, private + 64, frame.counters, frame.table + len(table) - listed * frame.counters, len(frame.runs)]
    words += [frame.rule, frame.edge_rule] * (version == 2)
    words += [word for run in frame.runs for word in run]
    head = file[:0x900] + struct.pack(f"<{len(words)}I", *words)
    return b"".join(part + bytes(-len(part) % PAGE) for part in (head, frame.input_bytes, frame.code_bytes, table))


def without_entries(version, image, lengths):
    """A file with a frame over runs of so many addresses, none of which has an entry."""
    groups = [-(-length // 1024) for length in lengths]
    lo, table, private = 0x00200000, 0x00201000, 0x00202000 + oracles.up(4 * sum(groups))
    cells = bytes(PAGE) + struct.pack("<I", table) * sum(groups)
    words = [oracles.MAGIC, version, 2, len(image), lo, private + PAGE - lo, lo, 1, table, len(cells), private, 64, private + 64, 0,
             table + len(cells), len(lengths), *(0, 0) * (version == 2)]
    for k, length in enumerate(lengths):
        words += [0x08048000 + sum(lengths[:k]) + k, length, table + PAGE + 4 * sum(groups[:k])]
    head = bytes(0x900) + struct.pack(f"<{len(words)}I", *words)
    return b"".join(part + bytes(-len(part) % PAGE) for part in (head, image, b"\xF4", cells))


def changed_fields(file):
    """A file once for each word of its record, for the one behind it, and for each word of its list and of its runs' parts of the table,
    with each of some other numbers there."""
    frame = oracles.read_frame(file)
    table = frame.at + oracles.up(frame.code_len)
    places = [*range(0x900, 0x900 + 4 * (VERSIONS[frame.version][0] + 3 * len(frame.runs) + 1), 4),
              *(table + at - frame.table for _, _, at in frame.runs), *range(table + frame.before_list, table + frame.table_len, 4)]
    for place in places:
        word = struct.unpack_from("<I", file, place)[0]
        for other in {0, 1, 2, 3, 5, 6, 7, word + 1, word - 1, word + PAGE, word ^ 2**31} - {word}:
            yield file[:place] + struct.pack("<I", other % 2**32) + file[place + 4:]


def changed(rng, file):
    """An output with something changed: in the record, the table, the list or the input, or its length."""
    frame, file = oracles.read_frame(file), bytearray(file)
    table = frame.at + oracles.up(frame.code_len)
    for _ in range(rng.choice((1, 1, 2))):
        kind = rng.randrange(6)
        if kind < 4:
            first, most = ((0x900, 18 + 3 * len(frame.runs)), (table, frame.before_list // 4), (table + PAGE, 4),
                           (table + frame.before_list, (frame.table_len - frame.before_list) // 4))[kind]
            place = first + 4 * rng.randrange(max(most, 1))
            if place + 4 <= len(file):
                word = struct.unpack_from("<I", file, place)[0]
                word += rng.choice((1, -1, 2, 4, PAGE, -PAGE, 2**31, -word, edge(rng)))
                struct.pack_into("<I", file, place, word % 2**32)
        elif kind == 4:
            image = mutated(rng, frame.input_bytes)[:frame.input]
            file[0x1000:0x1000 + len(image)] = image
        else:
            del file[rng.choice((rng.randrange(len(file) + 1), len(file) - PAGE)):]
            file += bytes(rng.choice((0, 0, 1, PAGE)))
    return bytes(file)


def judge_output(check, file):
    """One file that may have a frame: what is in it is extracted and upgraded, each answer compared."""
    write("in", file), write("out", OLD)
    status, text, image = oracles.extracted(file)
    check.count("no frame" if image is None else "a frame")
    check.want("extract", check.run("extract", "in", "out"), (status, text))
    check.want("OUT of extract", read("out") == (OLD if image is None else image), True)
    fault = image is not None and oracles.fault(image)
    if image is None or fault:
        write("out", OLD)
        wanted = (5, f"multiverse: bad image: {fault}\n") if fault else (status, text)
        check.want("upgrade", check.run("upgrade", "in", "out"), wanted)
        check.want("OUT of a refusal", read("out"), OLD)
    elif executable(image) <= LARGE:
        upgraded(check, oracles.read_frame(file), image)
    if image is None or fault or executable(image) <= 3000:
        write("was", SMALL_IMAGE if image is None else image)
        check.want("check", check.run("check", "was", "in"), checked(read("was"), file))


def upgraded(check, frame, image):
    """An image without a fault, in a frame: upgraded to what it is rewritten to by the frame's rules."""
    options = oracles.options(frame)
    write("was", image), write("new", OLD), write("out", OLD)
    wanted = check.run("rewrite", "was", "new", *(options or ()))
    given = check.run("upgrade", "in", "out")
    output = bytearray(read("new"))
    if wanted[0] == 0:
        # listed addresses are a rule where none is listed, too
        struct.pack_into("<II", output, oracles.RULE_PLACE, frame.rule, frame.edge_rule)
    if options:
        check.want("upgrade", given, wanted)
        check.want("what is upgraded", read("out") == output, True)
    elif given[0] not in (0, 6):
        check.differ(f"upgrade: {given}", "in")


# Words and logs.

PARTS = ("rewrite", "trace", "list", "sample", "in", "out", "log", "", "-", "--", "--count", "--count=all", "--count=none", "--count=",
         "--count=at:", "--count=at:08048054", "--count=at:08048054,08048054", "--count=at:08048055,08048054", "--count=at:0804805A",
         "--count=calls", "--count=All", "--edges", "--edges=all", "--edges=none", "--edges=", "--edges=at:", "--edges=at:08048054",
         "--edges=at:08048054,08048055", "--edges=at:08048055,08048054", "--edges=calls", "--edges=branches", "0", "1", "00", "01", "-1", "+1", "1 ", "4", "1048576", "1048577", "4294967295", "4294967296",
         "18446744073709551615", "18446744073709551616", "184467440737095516150", "0x10", "\u0661", "a b", "extract", "upgrade",
         "check", "assemble", "in\n", "\u00e9")


def judge_words(check, words):
    write("in", oracles.small_image(bytes.fromhex("b801000000bb07000000cd80"))), write("log", b"log 1\ngone\n")
    status, text = check.run(*words)
    usage = (2, "multiverse: usage\n")
    if (words and words[0] in FREE) and oracles.is_command(words):
        if (status, text) == usage:
            check.differ(f"usage of {words}")
        check.count("a command")
    else:
        check.want(f"words {words}", (status, text), usage)
        check.count("no command")


FREE = ("rewrite", "trace", "list", "sample", "extract", "upgrade", "check", "assemble")


def some_words(rng):
    shape = rng.choice(("any", *FREE))
    if shape == "any":
        return rng.choices(PARTS, k=rng.randrange(6))
    words = {"rewrite": ["rewrite", "in", "out"], "trace": ["trace", "in", "log", "9"], "list": ["list", "in"],
             "sample": ["sample", "7", "100", "out"], "extract": ["extract", "in", "out"], "upgrade": ["upgrade", "in", "out"],
             "check": ["check", "in", "out"], "assemble": ["assemble", "log", "out"]}[shape]
    for option in ("--count", "--edges") if rng.random() < .9 else ("--edges", "--count"):
        if shape == "rewrite" and rng.random() < .6:
            words.append(rng.choice([part for part in PARTS if part.startswith(option)]))
    for _ in range(rng.choice((0, 1, 1, 2))):
        kind, at = rng.randrange(3), rng.randrange(1, len(words) + 1)
        if kind == 0 and at < len(words):
            words[at] = rng.choice(PARTS)
        elif kind == 1 and at < len(words):
            del words[at]
        else:
            words.insert(at, rng.choice(PARTS))
    return words


def some_log(rng):
    """Lines of a log, some of them wrong."""
    at = lambda: f"{rng.choice((rng.randrange(0xBFEFF000, 0xBFFFF000), 0x40000000 + PAGE * rng.randrange(4), edge(rng))):08x}"
    pairs = lambda: rng.randbytes(rng.randrange(1, 9)).hex()
    size = lambda: f"{rng.choice((0, 1, PAGE, PAGE, 3 * PAGE, edge(rng) % 0x100000)):08x}"
    forms = (lambda: f"ret {rng.getrandbits(32):08x}", lambda: f"ret {rng.getrandbits(8):08x}", lambda: f"write {at()} {pairs()}",
             lambda: f"map {at()} {size()} {rng.choice('rwwx')} {rng.choice(('-', pairs()))}", lambda: f"unmap {at()} {size()}",
             lambda: f"desc {rng.choice((0, 1, 6, 8191, 8192, edge(rng))):08x} {at()}",
             lambda: f"cpuid {at()} {at()} {at()} {at()}", lambda: "gone", lambda: f"arg {rng.choice(('-', pairs()))}")
    lines = ["log 1"] + [f"arg {rng.choice(('-', '61', '6162'))}" for _ in range(rng.randrange(3))]
    lines += [rng.choice(forms)() for _ in range(rng.choice((0, 1, 2, 4, 8)))]
    text = "".join(line + "\n" for line in lines)
    for _ in range(rng.choice((0, 0, 1, 1, 2))):
        k = rng.randrange(len(text) + 1)
        text = rng.choice((text[:k], text[:k] + rng.choice(("\n", " ", "0", "A", "\0", "x")) + text[k:], text[:k] + text[k + 1:],
                           text[:k] + text[k:].upper()[:1] + text[k + 1:]))
    return text.encode()


def judge_log(check, log):
    write("in", oracles.small_image(bytes.fromhex("cd80cd80ebfa"))), write("log", log)
    status, text = check.run("trace", "in", "log", "50")
    line = oracles.bad_line(log)
    check.count("no log" if line else "a log")
    if line:
        check.want(f"log {log}", (status, text), (7, f"multiverse: bad log: line {line}\n"))
    elif status != 0 and not text.startswith("multiverse: too large: mapped "):
        check.differ(f"log {log}: {status}, {text}")


# The fixed cases.

def devices(check):
    """Files and outputs that can't be had."""
    image = oracles.small_image(bytes.fromhex("b801000000bb07000000cd80"))
    write("in", image), write("log", b"log 1\ngone\n"), os.makedirs("folder", exist_ok=True)
    check.run("rewrite", "in", "whole")
    missing = "multiverse: cannot read {}\n".format
    for words, name in ((("rewrite", "no", "out"), "no"), (("rewrite", "folder", "out"), "folder"), (("list", "no"), "no"),
                        (("trace", "no", "nolog", "1"), "no"), (("trace", "in", "nolog", "1"), "nolog"), (("trace", "folder", "log", "1"), "folder"),
                        (("extract", "no", "out"), "no"), (("extract", "folder", "folder"), "folder"),
                        (("upgrade", "no", "no/out"), "no"), (("check", "no", "whole"), "no"), (("check", "in", "no"), "no"),
                        (("check", "no", "nolog"), "no"), (("check", "in", "folder"), "folder"), (("check", "folder", "no"), "folder")):
        check.want(words, check.run(*words), (3, missing(name)))
    for words in (("rewrite", "in"), ("sample", "1", "9"), ("extract", "whole"), ("upgrade", "whole")):
        for name in ("folder", "no/out"):
            check.want((*words, name), check.run(*words, name), (4, f"multiverse: cannot write {name}\n"))
    for words in (("extract", "in", "folder"), ("upgrade", "in", "no/out")):
        check.want(words, check.run(*words), (13, "multiverse: no frame\n"))
    with open("/dev/full", "wb") as full:
        for words in (("rewrite", "in", "out"), ("trace", "in", "log", "9"), ("list", "in"), ("sample", "1", "9", "out"),
                      ("extract", "whole", "out"), ("upgrade", "whole", "out"), ("check", "in", "whole")):
            write("out", OLD)
            check.want(f"{words} into /dev/full", check.run(*words, out=full)[0], 9)
            if "out" in words and not (read("out") == image if words[0] == "extract" else oracles.read_frame(read("out"))):
                check.differ(f"{words}: OUT isn't whole")
        for words, status in ((("rewrite",), 2), (("list", "no"), 3), (("rewrite", "in", "folder"), 4), (("extract", "in", "out"), 13),
                              (("upgrade", "in", "out"), 13), (("check", "in", "in"), 13), (("check", "whole", "whole"), 12)):
            check.want(f"{words} into /dev/full", check.run(*words, out=full)[0], status)
    for command, wanted in (("extract", image), ("upgrade", read("whole"))):
        write("out", read("whole"))
        check.want(f"{command} in place", check.run(command, "out", "out")[0], 0)
        check.want(f"OUT of {command} in place", read("out") == wanted, True)
    large_files(check, image)


def large_files(check, image):
    """Files at the limit of what is read, and above it."""
    with open("large", "wb") as large:
        large.truncate(FILE_LIMIT + 1)
    too_large = 10, f"multiverse: too large: large above {FILE_LIMIT}\n"
    for words in (("rewrite", "large", "out"), ("list", "large"), ("trace", "large", "log", "1"), ("trace", "in", "large", "1"),
                  ("extract", "large", "folder"), ("upgrade", "large", "folder"), ("check", "large", "in"), ("check", "in", "large"),
                  ("check", "large", "large")):
        check.want(words, check.run(*words), too_large)
    for words in (("trace", "large", "nolog", "1"), ("check", "large", "nolog")):
        check.want(words, check.run(*words), (3, "multiverse: cannot read nolog\n"))
    with open("large", "r+b") as large:
        large.truncate(FILE_LIMIT)
        large.write(image)
    check.want("the largest file", check.run("rewrite", "large", "out")[0], 0)
    os.replace("out", "large")
    check.want("its output", check.run("extract", "large", "out"), too_large)
    size = FILE_LIMIT - len(without_entries(WRITTEN_VERSION, b"", [12]))
    write("large", without_entries(WRITTEN_VERSION, image + bytes(size - len(image)), [12]))
    check.want("the largest input", check.run("extract", "large", "out"), (0, f"input {size}\n"))
    check.want("the length of the largest input", os.path.getsize("out"), size)
    os.remove("large"), os.remove("out")


def tables(check):
    """Fronts of two images and of a log, and images at the limits."""
    small, three = oracles.small_image(bytes.fromhex("b801000000bb07000000cd80")), read(os.path.join(HERE, "..", "examples", "hello", "hello"))
    for image in (small, three[:400]):
        for length in range(len(image) + 1):
            judge(check, image[:length])
    log = b"log 1\narg 61\n"
    for length in range(len(log) + 1):
        judge_log(check, log[:length])
    for memsz in (CODE_LIMIT, CODE_LIMIT + 1):
        judge(check, small[:72] + struct.pack("<I", memsz) + small[76:])
    for size, number in ((1, 0), (4, 0), (1048576, 7)):
        samples(check, number, size)


def framed(check, title):
    """The output that was just written, as both versions have it."""
    output = read("out")
    if oracles.read_frame(output):
        return [output, remade(output, 1)]
    check.differ(f"an output by {title} has no frame", "in")
    return []


def outputs(check):
    """Outputs to start from: one for each rule and some for edge rules, as both versions have it, and those of older programs."""
    image, made = oracles.small_image(bytes.fromhex("e802000000f490f9e301f4b80100000075fecd80c3")), []
    write("in", image)
    for rule in ("at:08048054,0804805b,08048061", *RULES[:-1]):
        check.run("rewrite", "in", "out", f"--count={rule}")
        made += framed(check, f"--count={rule}")
    for options in (["--edges=all"], ["--count=all", "--edges=at:0804805c"], ["--count=branches", "--edges=all"]):
        check.run("rewrite", "in", "out", *options)
        made += framed(check, " ".join(options))
    return made + [read(path) for path in sorted(glob.glob(os.path.join(HERE, "upgrade.d", "*.v1")))]


def cut_and_changed(check, made):
    """Fronts of an output, outputs with each field changed, and frames at the limits of their version."""
    small = oracles.small_image(bytes.fromhex("b801000000bb07000000cd80"))
    for file in made[:1]:
        for length in [*range(0, len(file), 512), *range(0x900, 0x960), len(file) - 1]:
            judge_output(check, file[:length])
        judge_output(check, file + b"\0")
    for file in (*made[:2], *[file for file in made if oracles.read_frame(file).form == 1][:1]):
        judge_output(check, file)
        for other in changed_fields(file):
            judge_output(check, other)
    for version, (_, _, most_input, most_code) in VERSIONS.items():
        for lengths in ([most_code], [most_code + 1], [17 << 20], [most_code - 2, 2], [most_code - 1, 2], [1] * 64, [1] * 65, []):
            judge_output(check, without_entries(version, small, lengths))
        for length in (most_input, most_input + 1) if most_input < FILE_LIMIT else ():
            judge_output(check, without_entries(version, small + bytes(length - len(small)), [12]))


def samples(check, number, size):
    status, text = check.run("sample", str(number), str(size), "out")
    image = oracles.sample(number, size)
    first = read("out") if status == 0 else b""
    write("in", image)
    _, printed = check.run("rewrite", "in", "out")
    sites = re.match(r"sites \d+\n", printed)[0]
    check.want(f"sample {number} {size}", (status, text), (0, f"{sites}input {len(image)}\noutput {len(first)}\n"))
    if first != read("out"):
        check.differ(f"sample {number} {size}: not what its image is rewritten to")


def main():
    multiverse, folder, *more = sys.argv[1:]
    seconds, seed = (float(more[0]) if more else 20), (int(more[1]) if len(more) > 1 else 20181201)
    check, started = Check(os.path.abspath(multiverse), folder, seed), bases()
    devices(check), tables(check)
    made = outputs(check)
    cut_and_changed(check, made)
    for image in started:
        judge(check, image), judge_output(check, image)
    end, rng = time.monotonic() + seconds, check.rng
    while time.monotonic() < end:
        kind = rng.randrange(12)
        if kind < 5:
            judge(check, mutated(rng, rng.choice(started)), some_log(rng) if rng.random() < .2 else b"log 1\n")
        elif kind < 7:
            judge(check, invented(rng))
        elif kind < 8:
            judge_words(check, some_words(rng))
        elif kind < 10:
            judge_log(check, some_log(rng))
        else:
            judge_output(check, changed(rng, rng.choice(made)) if rng.random() < .9 else mutated(rng, rng.choice(started)))
    for line in check.bad[:SHOWN]:
        print(f"checks/hostile: {line}")
    kinds = ", ".join(f"{kind} {n}" for kind, n in sorted(check.kinds.items()))
    print(f"checks/hostile: {check.runs} runs; {kinds}; {len(check.bad)} differ")
    return 1 if check.bad else 0


if __name__ == "__main__":
    sys.exit(main())
