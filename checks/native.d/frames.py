"""Makes files with frames after docs/FORMATS.md, and files that break one rule each, and compares what the program `show_frame`
(its path is the first word) reads of them. Reads nothing of this project's outputs."""
import itertools
import random
import struct
import subprocess
import sys
import tempfile

PAGE, RECORD, BASE, RUN_LIMIT = 0x1000, 0x900, 0x00200000, 0xFFFFF000
NAMES = ["magic", "version", "form", "input", "added", "added_length", "code", "code_length", "table", "table_length",
         "private", "private_length", "first_counter", "counters", "list", "runs"]
RULES = ["rule", "edge_rule"]  # only in version 2
FORMS = [(1, 1), (1, 2), (2, 2)]  # version and form
LIMITS = {1: (67108864, 4194304), 2: (268435456, 16777216)}  # of a version: an input's bytes, and those of all runs


def words(*numbers):
    return b"".join(struct.pack("<I", n & 0xFFFFFFFF) for n in numbers)


def filled(data):
    return data + bytes(-len(data) % PAGE)


def original(offset, address):
    """an ELF file whose program headers stand at 52, in its second segment, from `offset` on at `address`"""
    header = b"\x7fELF" + bytes([1, 1, 1]) + bytes(9) + struct.pack("<HHI", 2, 3, 1) + words(0x08049123, 52, 0, 0)
    header += struct.pack("<6H", 52, 32, 2, 0, 0, 0)
    segments = words(1, 0x1000, 0x08050000, 0, 16, 16, 5, PAGE) + words(1, offset, address, 0, 0x74, 0x74, 4, PAGE)
    return header + segments + b"rest"


def table_of(form, runs, entries, at, listed):
    """the table's bytes, and the address of each run's part"""
    if form == 1:
        parts, data = [], b""
        for lo, length in runs:
            parts.append(at + len(data))
            data += words(*(entries.get(lo + k, 0) for k in range(length)))
        return data + listed, parts
    groups = [[(lo + k, min(1024, length - k)) for k in range(0, length, 1024)] for lo, length in runs]
    place = at + PAGE + 4 * sum(map(len, groups))
    directories, pages, parts = b"", b"", []
    for run in groups:
        parts.append(at + PAGE + len(directories))
        for lo, length in run:
            page = [entries.get(lo + k, 0) if k < length else 0 for k in range(1024)]
            directories += words(place + len(pages) if any(page) else at)
            pages += words(*page) if any(page) else b""
    return bytes(PAGE) + directories + pages + listed, parts


def build(version, form, runs, entries, code_length, counted, image, rules=(0, 0)):
    """the record, the runs, the table and the image; a counter is an address and a kind, which version 1 doesn't have"""
    up = lambda n: -(-n // PAGE) * PAGE
    at = BASE + up(code_length)
    listed = b"".join(words(*counter[:version]) for counter in counted)
    table, parts = table_of(form, runs, entries, at, listed)
    private = at + up(len(table))
    end = private + up(64 + 8 * len(counted))
    record = dict(zip(NAMES, [0x5246564D, version, form, len(image), BASE, end - BASE, BASE, code_length, at, len(table), private,
                              64, private + 64, len(counted), at + len(table) - len(listed), len(runs)]))
    record.update(zip(RULES, rules if version == 2 else ()))
    return record, [[*run, part] for run, part in zip(runs, parts)], table, image


def file_of(record, runs, table, image):
    head = bytes(RECORD) + words(*record.values()) + b"".join(words(*run) for run in runs)
    return filled(head) + filled(image) + filled(bytes([0xCC]) * record["code_length"]) + filled(table)


def shown(program, data, *addresses):
    with tempfile.NamedTemporaryFile() as file:
        file.write(data)
        file.flush()
        done = subprocess.run([program, file.name, *(f"{a:x}" for a in addresses)], capture_output=True, text=True, timeout=60)
    return done.stdout.splitlines()


def compare(title, got, wanted):
    if got != wanted:
        sys.exit(f"frames: {title}: {got[:4]} in place of {wanted[:4]}")


def random_frame(version, form, count):
    runs, at = [], random.randrange(0x400000, 0x10000000)
    for _ in range(count):
        runs.append((at, random.choice([1, 7, 1024, 1025, random.randrange(1, 3000)])))
        at += runs[-1][1] + random.choice([1, 2, 5000])
    sites = sorted(random.sample([a for lo, n in runs for a in range(lo, lo + n)], min(400, sum(n for _, n in runs))))
    entries = {a: BASE + 91 + 16 * k for k, a in enumerate(sites)}
    counted = [(a, random.randrange(3)) for a in sites[:random.choice([0, 3])]]
    rules = random.randrange(7), random.choice([0, 1, 6])
    frame = build(version, form, runs, entries, 91 + 16 * len(sites) + 5, counted, original(0, 0x08048000), rules)
    return frame, runs, entries


def row(at, entry, code_length, starts):
    in_code = BASE <= at < BASE + code_length
    below = [s for s in starts if s <= at] if in_code else []
    return f"{at:x} {entry:x} {int(in_code)} {int(at in starts)} {max(below) if below else at:x}"


def reads(program):
    """random tables, each with the entries that it was made of; how many"""
    tables = 0
    for version, form in FORMS:
        for count in (1, 2, 5, 64):
            frame, runs, entries = random_frame(version, form, count)
            length, starts = frame[0]["code_length"], set(entries.values())
            asked = random.sample(sorted(entries), min(20, len(entries)))
            asked += [a for lo, n in runs[:9] for a in (lo - 1, lo, lo + n - 1, lo + n)]
            asked += [BASE - 1, BASE, BASE + 90, BASE + length - 1, BASE + length, 0, 0xFFFFFFFF]
            asked += random.sample(range(BASE, BASE + length), 20)
            wanted = ["8048034 2 8049123"] + [row(a, entries.get(a, 0), length, starts) for a in asked]
            compare(f"version {version}, form {form}, {count} runs", shown(program, file_of(*frame), *asked), wanted)
            tables += 1
    return tables


def places_of_headers(program):
    for offset, address, wanted in [(0, 0x08048000, 0x08048034), (0x34, 0x09000034, 0x09000034), (0x35, 0x09000035, 0)]:
        for version in (1, 2):
            frame = build(version, 2, [(0x8050000, 16)], {0x8050000: BASE + 91}, 200, [], original(offset, address))
            compare(f"headers from {offset:x}", shown(program, file_of(*frame)), [f"{wanted:x} 2 8049123"])


def at_limits():
    """files at the limits of their version, each with a title and whether it keeps the rules"""
    image, at = original(0, 0x08048000), 0x8050000
    for version, (most_input, most_code) in LIMITS.items():
        for length, keeps in [(most_code, True), (most_code + 1, False), (17 << 20, False)]:
            yield f"version {version}, {length} bytes of runs", keeps, file_of(*build(version, 2, [(at, length)], {}, 200, [], image))
        for length, keeps in [(most_input, True), (most_input + 1, False)]:
            frame = build(version, 2, [(at, 16)], {}, 200, [], image + bytes(length - len(image)))
            yield f"version {version}, input of {length} bytes", keeps, file_of(*frame)


def of_version_2():
    """files of version 2 with other rules and kinds, each with a title and whether it keeps the rules of a frame"""
    def made(version=2, form=2, kind=0, rules=(0, 0)):
        counted = [(0x8050000, 0), (0x8050000, kind)]
        return build(version, form, [(0x8050000, 16)], {0x8050000: BASE + 91}, 200, counted, original(0, 0x08048000), rules)
    for kind in (0, 1, 2, 3, 0x100, 0xFFFFFFFF):
        yield f"kind {kind}", kind <= 2, file_of(*made(kind=kind))
    for rule in (*range(9), 0x106, 0xFFFFFFFF):
        yield f"rule {rule}", rule <= 6, file_of(*made(rules=(rule, 0)))
        yield f"edge rule {rule}", rule in (0, 1, 6), file_of(*made(rules=(0, rule)))
    yield "form 1", False, file_of(*made(form=1))
    for like, version in [(1, 0), (1, 3), (2, 0), (2, 3)]:
        record, *rest = made(like)
        yield f"version {version}, a record as of version {like}", False, file_of({**record, "version": version}, *rest)


def judges(program):
    """files that keep the rules of a frame, and files that just don't; how many don't"""
    broken = 0
    for title, keeps, data in itertools.chain(of_version_2(), at_limits()):
        compare(title, shown(program, data), ["8048034 2 8049123"] if keeps else ["none"])
        broken += not keeps
    return broken


def refuses(program):
    """each word of the record changed by itself; runs and parts of the table that break a rule; other lengths"""
    broken = 0
    def none(title, data):
        nonlocal broken
        broken += 1
        compare(title, shown(program, data), ["none"])
    for version, form in FORMS:
        (record, runs, table, image), _, _ = random_frame(version, form, 5)
        data = file_of(record, runs, table, image)
        for k, name in enumerate(record):
            for change in (1, -1, 0x1000, 0x80000000, 64):
                if (abs(change) < PAGE and name in ("input", "code_length") or abs(change) == 1 and name in RULES
                        or change == -1 and name in ("runs", "form" if version == 1 else "")):
                    continue  # these may keep the rules
                at = RECORD + 4 * k
                none(f"{name} + {change:x}", data[:at] + words(record[name] + change) + data[at + 4:])
        end = record["list"]
        for title, run in [("length 0", [runs[1][0], 0, runs[1][2]]), ("meets", [runs[0][0] + runs[0][1], 1, runs[1][2]]),
                           ("descends", [runs[0][0] - 1, 1, runs[1][2]]), ("end", [runs[1][0], RUN_LIMIT, runs[1][2]]),
                           ("part below", [*runs[1][:2], record["table"] - 4]), ("part above", [*runs[1][:2], end - 2])]:
            none(f"run: {title}", file_of(record, [runs[0], run, *runs[2:]], table, image))
        none("shorter", data[:-1])
        none("longer", data + b"\0")
        none("no page", data[:PAGE - 1])
        none("headers outside the input", data[:PAGE + 44] + b"\x40\x00" + data[PAGE + 46:])
        if form == 2:
            at = runs[0][2] - record["table"]
            for page in (record["table"] - 4, end - 4092, 0, 0xFFFFFFFC):
                none("page outside", file_of(record, runs, table[:at] + words(page) + table[at + 4:], image))
    return broken


random.seed(1)
tables = reads(sys.argv[1])
places_of_headers(sys.argv[1])
print(f"frames: {tables} tables read, and {refuses(sys.argv[1]) + judges(sys.argv[1])} files refused that break a rule")
