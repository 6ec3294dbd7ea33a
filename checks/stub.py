#!/usr/bin/env python3
"""Makes the lookup stub, its table and addresses to look up, after docs/DEFINITIONS.md and docs/FORMATS.md. It reads nothing
of this project's.

    stub.py plan FORM COUNT OUT     to OUT, for a table of form FORM and COUNT runs, what stub.c reads
    stub.py image COUNT OUT         to OUT an ELF executable of COUNT executable segments
    stub.py begins COUNT FILE       ends with 0 where the code of FILE, that image rewritten, begins with the stub
"""
import struct
import sys

PAGE = 0x1000
GROUP = 1024


def words(*numbers):
    return struct.pack(f"<{len(numbers)}I", *(n & 0xFFFFFFFF for n in numbers))


def up(length):
    return -(-length // PAGE) * PAGE


def stub(form, runs, dirs, private):
    """The stub's bytes; a run is its first address and its length."""
    tail = {1: "8b0c8a 85c9 0f45c1",
            2: "51 c1e90a 8b148a 59 81e1ff030000 8b0c8a 85c9 0f45c1"}[form]
    head = (b"\x89\x25" + words(private + 8) + b"\xbc" + words(private + 64) + bytes.fromhex("9c 50 51 52")
            + b"\xa1" + words(private + 4))
    part = 26
    code = head
    for k, ((low, length), place) in enumerate(zip(runs, dirs)):
        to_tail = part * (len(runs) - 1 - k) + 2
        code += (b"\x89\xc1\x81\xe9" + words(low) + b"\x81\xf9" + words(length) + b"\x73\x0a"
                 + b"\xba" + words(place) + b"\xe9" + words(to_tail))
    tail = bytes.fromhex(tail)
    return (code + b"\xeb" + bytes([len(tail)]) + tail + b"\xa3" + words(private + 4) + bytes.fromhex("5a 59 58 9d")
            + b"\x8b\x25" + words(private + 8) + b"\xff\x25" + words(private + 4))


def mixed(number):
    """A fixed number of 32 bits for each number."""
    number = (number ^ number >> 16) * 0x7FEB352D & 0xFFFFFFFF
    number = (number ^ number >> 15) * 0x846CA68B & 0xFFFFFFFF
    return number ^ number >> 16


def groups(run):
    low, length = run
    return [(low + k, min(GROUP, length - k)) for k in range(0, length, GROUP)]


def sites(runs):
    """The new place of about half of the addresses; every third group has none. No two are the same."""
    places = {}
    number = 0
    for run in runs:
        for low, length in groups(run):
            number += 1
            if number % 3:
                for address in range(low, low + length):
                    if mixed(address) & 1:
                        places[address] = 0x50000001 + 3 * len(places)
    return places


def table(form, runs, places, start):
    """The table's bytes from `start` on, and each run's place in it."""
    if form == 1:
        parts = [words(*(places.get(a, 0) for a in range(low, low + length))) for low, length in runs]
        dirs = [start + sum(len(p) for p in parts[:k]) for k in range(len(parts))]
        return b"".join(parts), dirs
    dirs, pages, names = [], b"", b""
    at = start + PAGE
    for run in runs:
        dirs.append(at)
        at += 4 * len(groups(run))
    for run in runs:
        for low, length in groups(run):
            if any(a in places for a in range(low, low + length)):
                names += words(at + len(pages))
                pages += words(*(places.get(a, 0) if a < low + length else 0 for a in range(low, low + GROUP)))
            else:
                names += words(start)
    return bytes(PAGE) + names + pages, dirs


def runs_of(count):
    """Runs for the processor: one, the two at both ends of the addresses, or many of all sorts."""
    if count == 1:
        return 0x00100000, [(0x08048054, 5003)]
    if count == 2:
        return 0x70000000, [(0, PAGE), (0xFFFFE801, 0x7FF)]
    lengths = [1, 1025, 2, 1024, 3000, 1023, 5, 2048, 2049, 1, 4097, 3, 700]
    gaps = [1, 2, PAGE, 1, 17, 100000, 1, 1023]
    runs, low = [], 0x30000001
    for k in range(count):
        runs.append((low, lengths[k % len(lengths)]))
        low += lengths[k % len(lengths)] + gaps[k % len(gaps)]
    return 0x70000000, runs


def targets(runs):
    chosen = {0, 1, 0xFFFFFFFF, 0xFFFFF000, 0x7FFFFFFF, 0x80000000}
    for low, length in runs:
        steps = [-2, -1, 0, 1, 2, length // 2, 1022, 1023, 1024, 1025, 2047, 2048, length - 2, length - 1, length,
                 length + 1, length + 8]
        steps += [mixed(low + k) % length for k in range(6)]
        chosen |= {(low + step) & 0xFFFFFFFF for step in steps}
        chosen.add(low ^ 0x80000000)
    # the stack and Linux's own code may stand here
    return sorted(a for a in chosen if not (0xB0000000 <= a < 0xC0000000 or 0xF0000000 <= a < 0xFFFFE000))


def plan(form, count, name):
    base, runs = runs_of(count)
    places = sites(runs)
    size = len(stub(form, runs, [0] * count, 0))
    start = base + up(size)
    cells, dirs = table(form, runs, places, start)
    private = start + up(len(cells))
    code = stub(form, runs, dirs, private)
    rows = []
    for address in targets(runs):
        inside = [k for k, (low, length) in enumerate(runs) if low <= address < low + length]
        steps = {1: 19, 2: 24}[form] + 4 * (inside[0] + 1) if inside else 15 + 4 * count
        rows += [address, places.get(address, address), steps]
    # each address is looked up so often at full speed, and as often step by step
    rounds = max(1, 1200 // len(rows))
    with open(name, "wb") as out:
        out.write(words(base, len(code), start, len(cells), private, len(rows) // 3, rounds)
                  + words(*rows) + code + bytes(-len(code) % 4) + cells)


def segments(count):
    return [(0x08048000 + 0x10000 * k + 7 * k, 60 + 97 * k) for k in range(count)]


def image(count, name):
    body = 52 + 32 * count
    heads, data = b"", b""
    for low, length in segments(count):
        data += bytes((low - body - len(data)) % PAGE)
        heads += words(1, body + len(data), low, low, length, length, 5, PAGE)
        data += b"\xf4" * length
    with open(name, "wb") as out:
        out.write(bytes.fromhex("7f454c46010101") + bytes(9) + struct.pack("<HH", 2, 3)
                  + words(1, 0x08048000, 52, 0, 0) + struct.pack("<6H", 52, 32, count, 0, 0, 0) + heads + data)


def begins(count, name):
    """The code, table and private area are the three segments that were added; only the code can be executed."""
    with open(name, "rb") as file:
        data = file.read()
    many = struct.unpack_from("<H", data, 44)[0]
    heads = [struct.unpack_from("<8I", data, 52 + 32 * k) for k in range(many)]
    at = next(k for k, head in enumerate(heads) if head[6] == 5)
    code, cells, private = heads[at:at + 3]
    runs = segments(count)
    dirs, place = [], cells[2] + PAGE
    for run in runs:
        dirs.append(place)
        place += 4 * len(groups(run))
    wanted = stub(2, runs, dirs, private[2])
    return data[code[1]:code[1] + len(wanted)] == wanted


def main(words_given):
    match words_given:
        case ["plan", form, count, name]:
            plan(int(form), int(count), name)
        case ["image", count, name]:
            image(int(count), name)
        case ["begins", count, name]:
            return 0 if begins(int(count), name) else 1
        case _:
            return 2
    return 0


if __name__ == "__main__":
    sys.exit(main(sys.argv[1:]))
