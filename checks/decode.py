#!/usr/bin/env python3
"""Compares `list` with objdump: length and text of generated spellings, and of random bytes.

    decode.py MULTIVERSE

The spelling table stands here a second time, as rows of opcode bytes, ModRM and immediate, so that the lengths, and which
bytes begin no instruction, are compared with it too. Where `list` has no site and objdump shows an instruction, the bytes must be
of a class of docs/NARROWER.md. The table of docs/NARROWER.md says how the texts differ; `plain` is that table. Fronts of spellings
stand in segments of their own, where they are sites exactly as whole spellings. Random choices are from a fixed seed.
"""
import collections, os, random, re, struct, subprocess, sys, tempfile

from oracles import small_image

GS, WORD = 0x65, 0x66
SEGMENTS, REPEATS = (0x26, 0x2E, 0x36, 0x3E, GS), (0xF0, 0xF2, 0xF3)
PREFIXES = SEGMENTS + REPEATS + (WORD,)
SLOT, LONGEST, SHOWN = 32, 15, 40
FIRST, SEGMENTS_EACH, PAGE = 0x08048054, 61, 4096
IMMEDIATES = {"": (0, 0), "ib": (1, 1), "iw": (2, 2), "id": (4, 4), "iz": (4, 2)}


class Row:
    """Opcode bytes; `modrm` is None, "r" or the digit of ModRM's reg field; `mode` says which operands ModRM may name; `gs`
    whether it accesses an operand that GS's base can be added to."""

    def __init__(self, opcode, modrm=None, imm="", v=False, lock=False, rep="", mode="any", gs=None):
        self.opcode, self.modrm, self.imm = bytes(opcode), modrm, IMMEDIATES[imm]
        self.v, self.lock, self.rep, self.mode = v, lock, rep, mode
        self.gs = modrm is not None if gs is None else gs

    def takes(self, prefixes):
        return ((WORD not in prefixes or self.v) and (0xF0 not in prefixes or self.lock) and (GS not in prefixes or self.gs)
                and (0xF2 not in prefixes or self.rep == "repe")
                and (0xF3 in prefixes if self.rep == "must" else 0xF3 not in prefixes or self.rep != ""))

    def match(self, rest, prefixes):
        """Whether the bytes behind the prefixes begin with the row, and the length; None where they can't."""
        known, op = min(len(rest), len(self.opcode)), len(self.opcode)
        if rest[:known] != self.opcode[:known]:
            return None
        imm = self.imm[WORD in prefixes]
        if self.modrm is None:
            return len(rest) >= op + imm, op + imm
        if len(rest) <= op:
            return False, op + 1 + imm
        mod, reg, rm = rest[op] >> 6, rest[op] >> 3 & 7, rest[op] & 7
        memory = mod != 3
        if self.modrm not in ("r", reg) or {"any": False, "mem": not memory, "reg": memory}[self.mode] or (
                prefixes & {0xF0, GS} and not memory):
            return None
        length, base = op + 1, rm
        if memory and rm == 4:
            base, length = rest[length] & 7 if len(rest) > length else 0, length + 1
        length += 0 if not memory else 1 if mod == 1 else 4 if mod == 2 or base == 5 else 0
        return len(rest) >= length + imm, length + imm


def table():
    rows = []

    def row(*opcode, **marks):
        rows.append(Row(opcode, **marks))

    def pair(*opcode, **marks):
        row(*opcode, **marks)
        row(*opcode[:-1], opcode[-1] + 1, v=True, **marks)

    for k in range(8):
        pair(8 * k, modrm="r", lock=k != 7)
        pair(8 * k + 2, modrm="r")
        row(8 * k + 4, imm="ib")
        row(8 * k + 5, imm="iz", v=True)
        row(0x80, modrm=k, imm="ib", lock=k != 7)
        row(0x81, modrm=k, imm="iz", lock=k != 7, v=True)
        row(0x83, modrm=k, imm="ib", lock=k != 7, v=True)
        row(0x40 + k, v=True), row(0x48 + k, v=True), row(0x50 + k), row(0x58 + k)
        row(0xB0 + k, imm="ib"), row(0xB8 + k, imm="iz", v=True), row(0x0F, 0xC8 + k)
        if k != 0:
            row(0x90 + k, v=True)
        if k != 6:
            row(0xC0, modrm=k, imm="ib"), row(0xC1, modrm=k, imm="ib", v=True)
            pair(0xD0, modrm=k), pair(0xD2, modrm=k)
    for c in range(16):
        row(0x70 + c, imm="ib"), row(0x0F, 0x80 + c, imm="id")
        row(0x0F, 0x40 + c, modrm="r", v=True), row(0x0F, 0x90 + c, modrm=0)
    row(0x60), row(0x61), row(0x68, imm="id"), row(0x6A, imm="ib")
    row(0x69, modrm="r", imm="iz", v=True), row(0x6B, modrm="r", imm="ib", v=True)
    pair(0x84, modrm="r"), row(0xA8, imm="ib"), row(0xA9, imm="iz", v=True)
    row(0xF6, modrm=0, imm="ib"), row(0xF7, modrm=0, imm="iz", v=True)
    pair(0x86, modrm="r", lock=True), pair(0x88, modrm="r"), pair(0x8A, modrm="r")
    row(0x8D, modrm="r", v=True, mode="mem", gs=False), row(0x8F, modrm=0)
    row(0x90, v=True), row(0x90, rep="must"), row(0x98, v=True), row(0x99, v=True)
    for opcode in (0x9C, 0x9D, 0x9E, 0x9F, 0xC9, 0xCC, 0xD7, 0xF4, 0xF5, 0xF8, 0xF9, 0xFC, 0xFD):
        row(opcode)
    for opcode, rep in ((0xA4, "rep"), (0xA6, "repe"), (0xAA, "rep"), (0xAC, "rep"), (0xAE, "repe")):
        pair(opcode, rep=rep)
    pair(0xA0, imm="id", gs=True), pair(0xA2, imm="id", gs=True)
    row(0x8C, modrm=5, v=True), row(0x8E, modrm=5, v=True), row(0x0F, 0xA2)
    row(0xC2, imm="iw", rep="ret"), row(0xC3, rep="ret")
    row(0xC6, modrm=0, imm="ib"), row(0xC7, modrm=0, imm="iz", v=True), row(0xCD, 0x80)
    for opcode in (0xE0, 0xE1, 0xE2, 0xE3, 0xEB):
        row(opcode, imm="ib")
    row(0xE8, imm="id"), row(0xE9, imm="id")
    for digit in range(2, 8):
        pair(0xF6, modrm=digit, lock=digit < 4)
    pair(0xFE, modrm=0, lock=True), pair(0xFE, modrm=1, lock=True)
    row(0xFF, modrm=2), row(0xFF, modrm=4), row(0xFF, modrm=6)
    row(0x0F, 0x0B), row(0x0F, 0x1F, modrm=0, v=True, gs=False), row(0x0F, 0x1E, 0xFB, rep="must")
    for k, opcode in enumerate((0xA3, 0xAB, 0xB3, 0xBB)):
        row(0x0F, opcode, modrm="r", v=True, mode="reg")
        row(0x0F, 0xBA, modrm=4 + k, imm="ib", v=True, lock=k != 0)
    for opcode in (0xA4, 0xAC):
        row(0x0F, opcode, modrm="r", imm="ib"), row(0x0F, opcode + 1, modrm="r")
    row(0x0F, 0xAF, modrm="r", v=True), row(0x0F, 0xBC, modrm="r", v=True), row(0x0F, 0xBD, modrm="r", v=True)
    pair(0x0F, 0xB0, modrm="r", lock=True), pair(0x0F, 0xC0, modrm="r", lock=True)
    for opcode in (0xB6, 0xBE):
        row(0x0F, opcode, modrm="r", v=True), row(0x0F, opcode + 1, modrm="r")
    return rows


ROWS = table()
BY_OPCODE = collections.defaultdict(list)
for each in ROWS:
    BY_OPCODE[each.opcode[0]].append(each)


def rows_for(rest):
    return BY_OPCODE[rest[0]] if rest else ROWS


def expected(data):
    """The length of the instruction that the bytes begin; `short` or `unknown` where they begin none."""
    count = next((i for i, byte in enumerate(data) if byte not in PREFIXES), len(data))
    prefixes, rest, short = set(data[:count]), data[count:], False
    if len(prefixes & set(SEGMENTS)) > 1 or len(prefixes & set(REPEATS)) > 1:
        return "unknown"
    for row in rows_for(rest):
        found = row.match(rest, prefixes) if row.takes(prefixes) else None
        if found and count + found[1] <= LONGEST:
            if found[0]:
                return str(count + found[1])
            short = True
    return "short" if short else "unknown"


def number(rng, count):
    """Bytes of an immediate or a displacement: random, all alike, or all 0 but the last."""
    edge = rng.choice((b"\x00", b"\x01", b"\x7f", b"\x80", b"\xff"))
    return rng.choice((rng.randbytes(count), edge * count, (bytes(count) + edge)[1:] if count else b""))


def body(rng, row, modrm=None, sib=None, word=False):
    """Opcode and operand bytes of a row; ModRM's mod and rm fields, and SIB, as given or random."""
    made = row.opcode
    if row.modrm is not None:
        modrm = rng.randrange(256) if modrm is None else modrm
        modrm = modrm & 0xC7 | 8 * (rng.randrange(8) if row.modrm == "r" else row.modrm)
        if row.mode != "any":
            modrm = modrm | 0xC0 if row.mode == "reg" else modrm if modrm < 0xC0 else modrm & 0x3F
        made += bytes([modrm])
        mod, base = modrm >> 6, modrm & 7
        if mod != 3 and base == 4:
            sib = rng.randrange(256) if sib is None else sib
            made, base = made + bytes([sib]), sib & 7
        made += number(rng, 0 if mod == 3 else 1 if mod == 1 else 4 if mod == 2 or base == 5 else 0)
    return made + number(rng, row.imm[word])


def samples(rng):
    for row in ROWS:
        for word in (False, True)[:1 + row.v]:
            front = ([0xF3] if row.rep == "must" else []) + [WORD] * word
            for modrm in ([a << 6 | b for a in range(4) for b in range(8)] if row.modrm is not None else (None,) * 4):
                yield bytes(front) + body(rng, row, modrm, word=word)
        for prefix in PREFIXES + (0x64, 0x67):
            for modrm in (0x00, 0xC0):
                yield bytes([prefix]) + body(rng, row, modrm | rng.randrange(8), word=prefix == WORD)
        for _ in range(8):
            some = rng.choices(PREFIXES, k=rng.choice((2, 2, 3, 4)))
            yield bytes(some) + body(rng, row, word=WORD in some)
        for length in range(13, 18):
            some = rng.sample((rng.choice(SEGMENTS), WORD, rng.choice(REPEATS)), k=rng.choice((1, 1, 2)))
            end = body(rng, row, word=WORD in some)
            yield bytes(rng.choices(some, k=max(0, length - len(end)))) + end
    for sib in range(256):
        for mod in (0x00, 0x40, 0x80):
            yield body(rng, Row([0x8B], modrm="r"), mod | 4, sib)
    for front in (b"", b"", b"\x0F", b"\x66", b"\xF3", b"\x2E\x0F"):
        for _ in range(1500):
            yield front + rng.randbytes(16)


NAMES = {"pusha": "pushad", "popa": "popad", "pushf": "pushfd", "popf": "popfd"}
IDLE = {"cs", "ds", "es", "ss", "gs", "data16", "notrack"}
REPEAT = {"lock": "lock ", "rep": "rep ", "repz": "repe ", "repnz": "repne ", "repe": "repe ", "repne": "repne "}
WIDTHS = {"al": "byte", "ax": "word", "eax": "dword"}


def address(match):
    """Base, index and displacement; objdump writes an index that is none, and negative displacements."""
    parts = [part for part in re.findall(r"[+-]?[^+-]+", match.group(1)) if "eiz" not in part]
    displacement = sum(int(part, 16) for part in parts if "0x" in part) % 2**32
    shown = [part.lstrip("+") for part in parts if "0x" not in part]
    return "[" + "+".join(shown + [hex(displacement)] * (displacement != 0 or not shown)) + "]"


def plain(text):
    """objdump's text in the words of the SDM, without prefixes that have no effect."""
    words, repeat = text.split(), ""
    while words and words[0] in IDLE | set(REPEAT):
        repeat = REPEAT.get(words.pop(0), repeat)
    text = re.sub(r"^(j\w+),p[nt]\b", r"\1", " ".join(words))
    string = re.match(r"(movs|cmps|stos|lods|scas) .*\b([BWD])[A-Z]* PTR", text)
    if string:
        return repeat + string.group(1) + string.group(2).lower()
    if re.match(r"xlat|nop|xchg ax,ax", text):
        return text.split()[0].replace("xchg", "nop").replace("xlat", "xlatb")
    text = re.sub(r"\b[cdes]s:(0x[0-9a-f]+)", r"[\1]", re.sub(r"\b[cdes]s:\[", "[", text))
    text = re.sub(r"\bgs:(0x[0-9a-f]+)", r"gs:[\1]", text)
    text = re.sub(r"\b(BYTE|WORD|DWORD) PTR ", lambda size: size.group(1).lower() + " ", text)
    text = re.sub(r"\[([^\]]*)\]", address, text)
    text = re.sub(r"^mov (al|ax|eax),((gs:)?\[)", lambda mov: f"mov {mov.group(1)},{WIDTHS[mov.group(1)]} {mov.group(2)}", text)
    text = re.sub(r"^mov ((gs:)?\[.*),(al|ax|eax)$", lambda mov: f"mov {WIDTHS[mov.group(3)]} {mov.group(1)},{mov.group(3)}", text)
    text = re.sub(r"^mov gs,e(\w\w)$", r"mov gs,\1", text)
    text = re.sub(r",1$", ",0x1", text)
    if text.startswith(("ret", "pause", "endbr32")):
        return text.removesuffix(" 0x0")
    return repeat + re.sub(r"^\w+", lambda name: NAMES.get(name.group(0), name.group(0)), text)


def mnemonic(text):
    return next((word for word in text.split() if word not in REPEAT), "")


# Why objdump shows an instruction where the profile has none: an opcode behind the prefixes, by a pattern of the hexadecimal
# digits, where the mnemonic alone doesn't tell. Each is a line of docs/NARROWER.md.
FORMS = (
    ("segment, control and debug registers", "8c|8e|06|07|0e|16|17|1e|1f|0fa[0189]|0f2[0-46]"),
    ("a second spelling: 82", "82"),
    ("a second spelling: the digits 1 of F6, F7 and 6 of shifts", "f[67][048c][89a-f]|(c[01]|d[0-3])[37bf][0-7]"),
    ("a second spelling: a digit that SETcc and NOP ignore", "0f9.|0f1f"),
    ("reserved NOPs", "0f0d|0f1[89a-e]"),
    ("BT and its kin with a register index in memory", "0f(a3|ab|b3|bb)"),
    ("far transfers", "9a|ea|ff"),
    ("software interrupts but 80", "cd"),
)


def narrower(data, text, names):
    """Why the profile, whose mnemonics are `names`, has no such instruction where objdump has this one; None where there is
    no reason."""
    if "(bad)" in text:
        return "none by objdump"
    count = next(i for i, byte in enumerate(data) if byte not in PREFIXES + (0x64, 0x67))
    prefixes, rest = set(data[:count]), data[count:]
    if prefixes & {0x64, 0x67}:
        return "the prefixes 64 and 67"
    found = [row.match(rest, prefixes - {0xF0, GS}) for row in rows_for(rest)]
    if any(match and match[0] for match in found):
        if all(not match or count + match[1] > LONGEST for match in found):
            return "more than 15 bytes"
        return "prefixes that an instruction has no use for"
    if mnemonic(plain(text)) not in names:
        return "instructions outside the profile"
    return next((why for why, pattern in FORMS if re.match(pattern, rest.hex())), None)


def listed(multiverse, image):
    """What `list` shows of an image: by address, the bytes and the text of each site."""
    with tempfile.NamedTemporaryFile() as file:
        file.write(image)
        file.flush()
        text = subprocess.run([multiverse, "list", file.name], capture_output=True, check=True, text=True).stdout
    lines = [line.split(" ", 2) for line in text.splitlines()]
    return {int(at, 16): (shown, rest) for at, shown, rest in lines}


def slots(made):
    return b"".join(data.ljust(SLOT, b"\x90") for data in made)


def ask(multiverse, made):
    """What `list` shows at the first address of each slot: the length and the text, or None where there is no site."""
    sites = listed(multiverse, small_image(slots(made), FIRST))
    found = [sites.get(FIRST + SLOT * k) for k in range(len(made))]
    return [site and (len(site[0]) // 2, site[1]) for site in found]


def ask_fronts(multiverse, fronts):
    """What `list` shows of bytes behind which a run ends, in the same way."""
    answers = []
    for begin in range(0, len(fronts), SEGMENTS_EACH):
        part = fronts[begin:begin + SEGMENTS_EACH]
        head = bytearray(small_image(b"")[:52])
        struct.pack_into("<H", head, 44, len(part))
        start, body, headers = 52 + 32 * len(part), b"", b""
        places = []
        for k, data in enumerate(part):
            offset = start + len(body)
            places.append(FIRST // PAGE * PAGE + 2 * PAGE * k + offset % PAGE)
            headers += struct.pack("<8I", 1, offset, places[-1], 0, len(data), len(data), 5, PAGE)
            body += data
        sites = listed(multiverse, bytes(head) + headers + body)
        answers += [sites[at] and (len(sites[at][0]) // 2, sites[at][1]) if at in sites else None for at in places]
    return answers


def dump(made):
    """By slot, the length and text of what objdump shows of slots that begin with the samples and end with NOPs."""
    with tempfile.NamedTemporaryFile() as file:
        file.write(slots(made))
        file.flush()
        words = f"objdump -D -z -w --insn-width=16 -b binary -m i386 -M intel --adjust-vma={FIRST:#x}".split()
        text = subprocess.run(words + [file.name], capture_output=True, check=True, text=True).stdout
    found = re.findall(r"^ *([0-9a-f]+):\t([0-9a-f ]+)\t?(.*)$", text, re.MULTILINE)
    shown = {int(at, 16) - FIRST: (len(data.split()), line) for at, data, line in found}
    return [shown[SLOT * k] for k in range(len(made))]


def main():
    rng = random.Random(20180218)
    multiverse = os.path.abspath(sys.argv[1])
    made = list(dict.fromkeys(samples(rng)))
    cut = [data[:rng.randrange(1, len(data))] for data in (rng.choice(made) for _ in range(3000)) if len(data) > 1]
    answers, names = ask(multiverse, made), set()
    bad, classes, good = [], collections.Counter(), 0
    names = {mnemonic(text) for _, text in filter(None, answers)}
    for data, answer in zip(cut, ask_fronts(multiverse, cut), strict=True):
        want = expected(data)
        if (str(answer[0]) if answer else "none") != (want if want.isdigit() else "none"):
            bad.append(f"{data.hex()} at a run's end: {answer}, but by the table {want}")
    for data, answer, (theirs, line) in zip(made, answers, dump(made), strict=True):
        want = expected(data.ljust(SLOT, b"\x90"))
        if (str(answer[0]) if answer else "none") != (want if want.isdigit() else "none"):
            bad.append(f"{data.hex()}: {answer}, but by the table {want}")
        elif not answer:
            why = narrower(data.ljust(SLOT, b"\x90"), line, names)
            classes[why] += 1
            if why is None:
                bad.append(f"{data.hex()}: no site, but objdump {theirs} {line}")
        elif all(byte in PREFIXES for byte in data[:14]):
            classes["fourteen prefixes"] += 1  # objdump shows these as a line of their own
        else:
            good += 1
            if (theirs, plain(line)) != answer:
                bad.append(f"{data.hex()}: {answer}, but objdump {theirs} {plain(line)}")
    for line in bad[:SHOWN]:
        print(line)
    if bad:
        sys.exit(f"checks/decode: {len(bad)} answers differ")
    print(f"checks/decode: {good} instructions as objdump shows them; {sum(classes.values())} times none, for a reason "
          f"that is named; {len(cut)} cut short")


if __name__ == "__main__":
    main()
