"""What docs/FORMATS.md says of words, images, logs, frames and places, once more and apart from the program: each function here
says what the program must answer, and reads nothing of the program's."""
import re, struct

PAGE, FILE_LIMIT, CODE_LIMIT, MAPPED_LIMIT, TOP = 4096, 268435456, 16777216, 67108864, 0xFFFFF000
BLOCK_FROM, BLOCK_TO, STACK_FROM, STACK_TO = 0x00100000, 0xB0000000, 0xBFEFF000, 0xBFFFF000
LOAD, DYNAMIC, INTERP, X, W, R = 1, 2, 3, 1, 2, 4
RULES, EDGE_RULES = ("none", "all", "calls", "returns", "branches", "system", "at"), ("none", "all", "at")


def up(n):
    return -(-n // PAGE) * PAGE


# Words.

def is_name(word):
    return word != "" and not word.startswith("--")


def is_decimal(word, most):
    return re.fullmatch(r"0|[1-9][0-9]{0,25}", word) is not None and int(word) <= most


def is_rule(word, named=RULES[:-1]):
    if word in named:
        return True
    if not re.fullmatch(r"at:[0-9a-f]{8}(,[0-9a-f]{8})*", word):
        return False
    addresses = [int(address, 16) for address in word[3:].split(",")]
    return len(addresses) <= 1024 and all(a < b for a, b in zip(addresses, addresses[1:]))


def is_command(words):
    """Whether the words are a command."""
    name, rest = (words[0], words[1:]) if words else (None, [])
    if name == "rewrite":
        options = rest[2:]
        if options and options[0].startswith("--count=") and is_rule(options[0][8:]):
            del options[0]
        if options and options[0].startswith("--edges=") and is_rule(options[0][8:], EDGE_RULES[:-1]):
            del options[0]
        return len(rest) >= 2 and all(map(is_name, rest[:2])) and not options
    if name == "trace":
        return len(rest) == 3 and is_name(rest[0]) and is_name(rest[1]) and is_decimal(rest[2], 2**64 - 1)
    if name == "list":
        return len(rest) == 1 and is_name(rest[0])
    if name in ("extract", "upgrade", "check", "assemble"):
        return len(rest) == 2 and all(map(is_name, rest))
    if name == "sample":
        return (len(rest) == 3 and is_decimal(rest[0], 2**32 - 1) and is_decimal(rest[1], 1048576) and rest[1] != "0"
                and is_name(rest[2]))
    return False


# Images.

def headers(image):
    """The program headers that the ELF header names and the file has: type, offset, address, _, filesz, memsz, flags, align."""
    start, count = struct.unpack_from("<I", image, 28)[0], struct.unpack_from("<H", image, 44)[0]
    return [struct.unpack_from("<8I", image, start + 32 * k) for k in range(count)]


def fault(image, judged=21):
    """The first of the faults that are judged, as the message has it; None where there is none."""
    if len(image) < 52:
        return "ShortHeader"
    kind, machine, version, _, start = struct.unpack_from("<HHIII", image, 16)
    sizes, count = struct.unpack_from("<HH", image, 40), struct.unpack_from("<H", image, 44)[0]
    for holds, name in ((image[:4] != b"\x7fELF", "NotElf"), (image[4:6] != b"\1\1", "NotElf32Little"), (machine != 3, "NotI386"),
                        (kind != 2, "NotExecutable"), (image[6] != 1 or version != 1, "BadVersion"), (sizes != (52, 32), "BadSizes"),
                        (not 1 <= count <= 64, "HeaderCount"), (start + 32 * count > len(image), "HeadersOutside")):
        if holds:
            return name
    found = headers(image)
    free = 0
    for index, (kind, offset, address, _, filesz, memsz, flags, _) in enumerate(found):
        load = kind == LOAD
        mapped = load and memsz > 0
        for holds, name in ((kind == INTERP, "Interpreter"), (kind == DYNAMIC, "Dynamic"),
                            (load and filesz > 0 and offset + filesz > len(image), "FileRange"),
                            (load and memsz < filesz, "MemorySmaller"), (mapped and address + memsz > TOP, "AddressRange"),
                            (mapped and not flags & 7, "NoPermission"), (mapped and flags & W and flags & X, "WritableCode"),
                            (mapped and (offset - address) % PAGE != 0, "NotCongruent"),
                            (mapped and address // PAGE < free, "SharedPage")):
            if holds:
                return f"{name} header {index}"
        if mapped:
            free = up(address + memsz) // PAGE
    if not any(kind == LOAD for kind, *_ in found):
        return "NoLoad"
    if judged > 19 and sum(h[5] for h in found if h[0] == LOAD and h[6] & X) > CODE_LIMIT:
        return "CodeTooLarge"
    return "HeadersFull" if judged > 20 and len(found) > 61 else None


def segments(image):
    """Where the loaded segments lie: first address, length, flags and bytes of the file."""
    return [(h[2], h[5], h[6], image[h[1]:h[1] + h[4]]) for h in headers(image) if h[0] == LOAD and h[5] > 0]


def pages(image):
    return [(lo // PAGE, up(lo + length) // PAGE) for lo, length, _, _ in segments(image)]


def mapped(image):
    """How many bytes the trace of an image would map, with its stack."""
    return PAGE * sum(b - a for a, b in pages(image)) + (STACK_TO - STACK_FROM)


def takes_stack(image):
    return any(lo < STACK_TO and lo + length > STACK_FROM for lo, length, _, _ in segments(image))


def first_fit(image, size):
    """The lowest place for a block of so many bytes that shares no page with a segment; None where there is none."""
    base = BLOCK_FROM
    for a, b in pages(image):
        if base + size > a * PAGE and base < b * PAGE:
            base = b * PAGE
    return base if base + size <= BLOCK_TO else None


def runs(image):
    """The executable addresses of the loaded image: each run's first address and its bytes, runs that meet joined."""
    made = []
    for lo, length, flags, data in segments(image):
        if flags & X:
            code = data + bytes(length - len(data))
            if made and made[-1][0] + len(made[-1][1]) == lo:
                made[-1] = made[-1][0], made[-1][1] + code
            else:
                made.append((lo, code))
    return made


# Logs.

WORD = rb"[0-9a-f]{8}"
PAIRS = rb"(?:[0-9a-f]{2})+"
ARGUMENT = re.compile(rb"arg (-|%s)" % PAIRS)
EFFECTS = (re.compile(rb"(write) (%s) (%s)()()" % (WORD, PAIRS)), re.compile(rb"(unmap) (%s)() (%s)()" % (WORD, WORD)),
           re.compile(rb"(map) (%s)() (%s) [rwx] (-|%s)" % (WORD, WORD, PAIRS)))
DESCRIPTOR = re.compile(rb"desc (%s) %s" % (WORD, WORD))
RETURN, IDENTITY = re.compile(rb"ret %s" % WORD), re.compile(rb"cpuid %s %s %s %s" % (WORD, WORD, WORD, WORD))


def is_effect(line):
    descriptor = DESCRIPTOR.fullmatch(line)
    if descriptor:
        return 1 <= int(descriptor[1], 16) <= 8191
    for form in EFFECTS:
        found = form.fullmatch(line)
        if found:
            kind, at, data, length, fresh = found.groups()
            length = len(data) // 2 if kind == b"write" else int(length, 16)
            return length > 0 and int(at, 16) + length <= TOP and (kind != b"map" or len(fresh) // 2 * (fresh != b"-") <= length)
    return False


def touched(log):
    """The ranges of a log's effects: first address and length."""
    found = []
    for line in log.split(b"\n"):
        words = line.split(b" ")
        if words[0] == b"write":
            found.append((int(words[1], 16), len(words[2]) // 2))
        elif words[0] in (b"map", b"unmap"):
            found.append((int(words[1], 16), int(words[2], 16)))
    return found


def meets(one, other):
    """Whether two ranges have an address in common."""
    return one[0] < other[0] + other[1] and other[0] < one[0] + one[1]


def bad_line(log):
    """The number of the first line up to which no log goes; None where the bytes are a log."""
    lines = log.split(b"\n")
    ended, rest = lines[:-1], lines[-1]
    arguments, taken, answered, returned, gone = 0, 0, False, False, False
    for number, line in enumerate(ended, 1):
        argument = ARGUMENT.fullmatch(line)
        if number == 1:
            good = line == b"log 1"
        elif gone:
            good = False
        elif argument:
            data = b"" if argument[1] == b"-" else bytes.fromhex(argument[1].decode())
            arguments, taken = arguments + 1, taken + len(data) + 1
            good = not answered and 0 not in data and arguments <= 1024 and taken <= 65536
        elif line == b"gone" or RETURN.fullmatch(line) or IDENTITY.fullmatch(line):
            good, answered, returned, gone = True, True, line.startswith(b"ret"), line == b"gone"
        else:
            good = returned and is_effect(line)
        if not good:
            return number
    return len(ended) + 1 if rest or not ended else None


# Frames.

MAGIC, RULE_AT = 0x5246564D, RULES.index("at")
RULE_PLACE = 0x900 + 4 * 16  # the edge rule's number stands behind it
# of a version: the words in front of the runs, a counter's bytes in the list, the most bytes of an input and of all runs together
VERSIONS = {1: (16, 4, 67108864, 4194304), 2: (18, 8, 268435456, 16777216)}


class Frame:
    """The frame of a file. Its list has the address and the kind of each counter."""

    def __init__(self, words, file):
        (self.version, self.form, self.input, self.lo, self.length, self.code, self.code_len, self.table, self.table_len,
         self.private, _, self.first, self.counters, self.list_at, count) = words[1:16]
        fixed, listed, _, _ = VERSIONS[self.version]
        self.rule, self.edge_rule = words[16:18] if self.version == 2 else (RULE_AT, 0)
        self.runs = [tuple(words[fixed + 3 * k:fixed + 3 * k + 3]) for k in range(count)]
        self.at = 0x1000 + up(self.input)
        self.input_bytes = file[0x1000:0x1000 + self.input]
        self.code_bytes = file[self.at:self.at + self.code_len]
        table = self.at + up(self.code_len)
        self.table_bytes = file[table:table + self.table_len]
        self.before_list = self.table_len - listed * self.counters
        list_words = struct.unpack(f"<{listed * self.counters // 4}I", self.table_bytes[self.before_list:])
        self.list = list(zip(list_words[::2], list_words[1::2])) if self.version == 2 else [(at, 0) for at in list_words]

    def word(self, address):
        return struct.unpack_from("<I", self.table_bytes, address - self.table)[0]

    def entry(self, address):
        """To where an address is moved; None where it is no site."""
        for lo, length, place in self.runs:
            if lo <= address < lo + length:
                k = address - lo
                found = self.word(place + 4 * k if self.form == 1 else self.word(place + 4 * (k // 1024)) + 4 * (k % 1024))
                return found or None
        return None


def inside(frame, place, length):
    return frame.table <= place and place + length <= frame.table + frame.before_list


def read_frame(file):
    """The frame of a file, or None where it has none."""
    if len(file) < 0x1000:
        return None
    words = list(struct.unpack("<448I", file[0x900:0x1000]))
    magic, version, form, size, lo, length, code, code_len, table, table_len, private, room, first, counters, list_at, count = words[:16]
    if magic != MAGIC or (version, form) not in ((1, 1), (1, 2), (2, 2)):
        return None
    _, listed, most_input, most_code = VERSIONS[version]
    places = (lo == code and lo % PAGE == 0 and table == lo + up(code_len) and private == table + up(table_len) and room == 64
              and first == private + 64 and length == up(code_len) + up(table_len) + up(64 + 8 * counters)
              and lo + length <= BLOCK_TO and list_at == table + table_len - listed * counters and listed * counters <= table_len
              and len(file) == 0x1000 + up(size) + up(code_len) + up(table_len))
    if count > 64 or size > most_input or not places:
        return None
    frame, free = Frame(words, file), 0
    if frame.rule > 6 or frame.edge_rule not in (0, 1, 6) or any(kind > 2 for _, kind in frame.list):
        return None
    for k, (run, bytes_, place) in enumerate(frame.runs):
        if bytes_ == 0 or run + bytes_ > TOP or (k > 0 and run <= free):
            return None
        free = run + bytes_
        groups = -(-bytes_ // 1024)
        if not inside(frame, place, 4 * (bytes_ if form == 1 else groups)):
            return None
        if form == 2 and not all(inside(frame, frame.word(place + 4 * k), 4096) for k in range(groups)):
            return None
    return frame if sum(length for _, length, _ in frame.runs) <= most_code else None


def extracted(file):
    """What `extract` answers of a file: status, text, and what OUT then has; None where that is what it had."""
    frame = read_frame(file)
    return (0, f"input {frame.input}\n", frame.input_bytes) if frame else (13, "multiverse: no frame\n", None)


def option(name, rule, addresses):
    """The option for a frame's rule, of which `addresses` are those that it lists; None where an option may not have so many."""
    if rule != RULE_AT:
        return f"--{name}={RULES[rule]}"
    if not addresses:
        return f"--{name}=none"
    return f"--{name}=at:" + ",".join(f"{at:08x}" for at in sorted(addresses)) if len(addresses) <= 1024 else None


def options(frame):
    """The options by which `rewrite` counts what a frame's rules pick; None where there are none."""
    made = [option("count", frame.rule, {at for at, kind in frame.list if kind == 0}),
            option("edges", frame.edge_rule, {at for at, kind in frame.list if kind == 1})]
    return None if None in made else made


# Samples.

def small_image(code, address=0x08048054):
    """The image with one header that maps only the code, read-only and executable."""
    head = b"\x7fELF\1\1\1" + bytes(9) + struct.pack("<HHIIIIIHHHHHH", 2, 3, 1, address, 52, 0, 0, 52, 32, 1, 0, 0, 0)
    return head + struct.pack("<8I", LOAD, 0x54, address, address, len(code), len(code), R | X, PAGE) + code


def sample(number, size):
    code = bytearray()
    for _ in range(size):
        number = (1664525 * number + 1013904223) % 2**32
        code.append(number >> 24)
    return small_image(bytes(code))
