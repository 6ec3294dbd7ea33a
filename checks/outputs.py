"""What docs/FORMATS.md says of an output's bytes, once more and apart from the program: its sites, the pieces and the stub, the one
output of an image by two rules, and where `check` says that a file differs from a rewriting of an image. Nothing here reads what the
program makes; instructions are found by the table of decode.py."""
import struct

import oracles
from decode import GS, PREFIXES, expected
from oracles import BLOCK_FROM, LOAD, MAGIC, PAGE, R, RULES, X, up

PLAIN, JUMP, BRANCH, LOOP, CALL, JUMP_VIA, CALL_VIA, RETURN, TRAP, SYSTEM = range(10)
FALLS = PLAIN, BRANCH, LOOP, SYSTEM
PICKED = {"calls": (CALL, CALL_VIA), "returns": (RETURN,), "branches": (BRANCH, LOOP), "system": (SYSTEM,), "all": range(10), "none": ()}
ABSENT, GROUP = 256, 1024


def word(number):
    return struct.pack("<I", number % 2**32)


def signed(data):
    return int.from_bytes(data, "little", signed=True)


# Sites.

class Site:
    """An address at which an instruction lies: its bytes, how the flow leaves it, the condition or the loop's opcode, the target of a
    direct transfer, what loads the operand of one through an operand, and what a return drops."""

    __slots__ = "at", "data", "next", "flow", "code", "target", "load", "drop"

    def __init__(self, at, data):
        self.at, self.data, self.next = at, data, at + len(data)
        self.flow, self.code, self.target, self.load, self.drop = PLAIN, 0, None, None, 0
        count = next(i for i, byte in enumerate(data) if byte not in PREFIXES)
        rest = data[count:]
        first, distance = rest[0], None
        if first in (0xE9, 0xEB):
            self.flow, distance = JUMP, rest[1:]
        elif first & 0xF0 == 0x70:
            self.flow, self.code, distance = BRANCH, first & 15, rest[1:]
        elif first == 0x0F and rest[1] & 0xF0 == 0x80:
            self.flow, self.code, distance = BRANCH, rest[1] & 15, rest[2:]
        elif 0xE0 <= first <= 0xE3:
            self.flow, self.code, distance = LOOP, first, rest[1:]
        elif first == 0xE8:
            self.flow, distance = CALL, rest[1:]
        elif first == 0xFF and rest[1] >> 3 & 7 in (2, 4):
            self.flow = CALL_VIA if rest[1] >> 3 & 7 == 2 else JUMP_VIA
            self.load = load(rest[1:], GS in data[:count])
        elif first in (0xC2, 0xC3):
            self.flow, self.drop = RETURN, int.from_bytes(rest[1:], "little")
        elif first in (0xCC, 0xF4) or rest[:2] == b"\x0F\x0B":
            self.flow = TRAP
        elif first == 0xCD:
            self.flow = SYSTEM
        if distance is not None:
            self.target = (self.next + signed(distance)) % 2**32


def load(operand, gs):
    """The least of the shortest spellings of `mov eax,` and the operand that ModRM and what follows it name."""
    mode, base, index, scale = operand[0] >> 6, operand[0] & 7, 4, 0
    if mode == 3:
        return bytes([0x89, 0xC0 | base << 3])
    rest = operand[1:]
    if base == 4:
        scale, index, base, rest = rest[0] >> 6, rest[0] >> 3 & 7, rest[0] & 7, rest[1:]
    if mode == 0:
        base, rest = (None, rest[:4]) if base == 5 else (base, b"")
    distance, front = signed(rest[:1 if mode == 1 else 4]), bytes([GS] * gs)
    if base is None:
        return front + (b"\xA1" if index == 4 else bytes([0x8B, 4, scale << 6 | index << 3 | 5])) + word(distance)
    if distance == 0 and base != 5:
        mode, tail = 0, b""
    else:
        mode, tail = (1, bytes([distance % 256])) if -128 <= distance < 128 else (2, word(distance))
    if index == 4 and base != 4:
        return front + bytes([0x8B, mode << 6 | base]) + tail
    return front + bytes([0x8B, mode << 6 | 4, (scale << 6 if index != 4 else 0) | index << 3 | base]) + tail


KNOWN = {}


class Image:
    """An image without a fault: its runs, and its sites in ascending order."""

    def __init__(self, data):
        self.data, self.runs, self.sites = data, oracles.runs(data), {}
        self.entry = struct.unpack_from("<I", data, 24)[0]
        for lo, code in self.runs:
            for k in range(len(code)):
                length = expected(code[k:k + 15])
                if length.isdigit():
                    self.sites[lo + k] = Site(lo + k, code[k:k + int(length)])


def image_of(data):
    """The image, which is remembered."""
    if data not in KNOWN:
        if len(KNOWN) > 200:
            KNOWN.clear()
        KNOWN[data] = Image(data)
    return KNOWN[data]


def picks(rule, site):
    if rule.startswith("at:"):
        return site.at in {int(address, 16) for address in rule[3:].split(",")}
    return site.flow in PICKED[rule]


def counted(image, rule, edges):
    """The list of counters: each picked site's, and two for the ways of each branch and loop that the edge rule picks."""
    made = []
    for site in image.sites.values():
        made += [(site.at, 0)] * picks(rule, site)
        made += [(site.at, 1), (site.at, 2)] * (site.flow in (BRANCH, LOOP) and picks(edges, site))
    return made


# Code.

class View:
    """What pieces are written by: where the stub, the private area and the counters are, and where addresses are moved to."""

    def __init__(self, stub, private, counters, entries):
        self.stub, self.private, self.entries = stub, private, entries
        self.counters = {pair: private + 64 + 8 * k for k, pair in enumerate(counters)}

    def moved(self, address):
        return self.entries.get(address, address)


def jump(here, to):
    return b"\xE9" + word(to - here - 5)


def counter(private, place):
    """What adds one to the counter at a place."""
    low, high, kept = word(place), word(place + 4), word(private)
    add = b"\x8D\x49\x01"
    return (b"\x89\x0D" + kept + b"\x8B\x0D" + low + add + b"\x89\x0D" + low + b"\xE3\x02\xEB\x0F"
            + b"\x8B\x0D" + high + add + b"\x89\x0D" + high + b"\x8B\x0D" + kept)


def piece(site, here, view):
    """The piece of a site whose piece stands at `here`."""
    flow, p = site.flow, view.private
    if flow in (BRANCH, LOOP) and (site.at, 1) in view.counters:
        front = bytes([0x0F, 0x80 | site.code, 0x30, 0, 0, 0]) if flow == BRANCH else bytes([site.code, 0x30])
        made = (front + counter(p, view.counters[site.at, 2]) + b"\xEB\x33" + counter(p, view.counters[site.at, 1]))
        return made + jump(here + len(made), view.moved(site.target))
    if flow == JUMP:
        return jump(here, view.moved(site.target))
    if flow == BRANCH:
        return bytes([0x0F, 0x80 | site.code]) + word(view.moved(site.target) - here - 6)
    if flow == LOOP:
        return bytes([site.code, 2, 0xEB, 5]) + jump(here + 4, view.moved(site.target))
    if flow == CALL:
        return b"\x68" + word(site.next) + jump(here + 5, view.moved(site.target))
    if flow in (CALL_VIA, JUMP_VIA):
        made = b"\xA3" + word(p) + site.load + b"\xA3" + word(p + 4) + b"\xA1" + word(p)
        made += b"\x68" + word(site.next) if flow == CALL_VIA else b""
        return made + jump(here + len(made), view.stub)
    if flow == RETURN:
        made = b"\x8F\x05" + word(p + 4) + (b"\x8D\xA4\x24" + word(site.drop) if site.drop else b"")
        return made + jump(here + len(made), view.stub)
    return site.data


def with_counter(site, here, view):
    """The piece of a site that is mapped to `here`, behind its counter where it has one."""
    made = counter(view.private, view.counters[site.at, 0]) if (site.at, 0) in view.counters else b""
    return made + piece(site, here + len(made), view)


def whole(site, here, view):
    """All that must stand from `here` on for a site that is mapped there: a join too, where its successor isn't mapped to its end."""
    made = with_counter(site, here, view)
    end = here + len(made)
    if site.flow in FALLS and view.entries.get(site.next) != end:
        made += jump(end, view.moved(site.next))
    return made


def stub(private, runs, form=2):
    """The lookup stub; a run has its first address, its length and the address of its part of the table."""
    made = b"\x89\x25" + word(private + 8) + b"\xBC" + word(private + 64) + b"\x9C\x50\x51\x52\xA1" + word(private + 4)
    for k, (lo, length, place) in enumerate(runs):
        made += b"\x89\xC1\x81\xE9" + word(lo) + b"\x81\xF9" + word(length) + b"\x73\x0A\xBA" + word(place)
        made += b"\xE9" + word(26 * (len(runs) - 1 - k) + 2)
    tail = bytes.fromhex("51 c1e90a 8b148a 59 81e1ff030000 8b0c8a 85c9 0f45c1" if form == 2 else "8b0c8a 85c9 0f45c1")
    return (made + bytes([0xEB, len(tail)]) + tail + b"\xA3" + word(private + 4) + b"\x5A\x59\x58\x9D\x8B\x25" + word(private + 8)
            + b"\xFF\x25" + word(private + 4))


def chains(image):
    """The sites in chains, and where the flow goes on behind each chain, or None."""
    taken, made = set(), []
    for site in image.sites.values():
        if site.at in taken:
            continue
        links = []
        while site and site.at not in taken:
            links.append(site)
            taken.add(site.at)
            site = image.sites.get(site.next) if site.flow in FALLS else None
        made.append((links, links[-1].next if links[-1].flow in FALLS else None))
    return made


# The file.

class Plan:
    """What a file is written from."""

    def __init__(self, base, code, table, counters, runs, entry, rule=0, edge_rule=0, version=2, form=2):
        self.base, self.code, self.table, self.counters, self.runs = base, code, table, counters, runs
        self.entry, self.rule, self.edge_rule, self.version, self.form = entry, rule, edge_rule, version, form

    def places(self):
        """The addresses of table, list and private area, and the block's length."""
        table = self.base + up(len(self.code))
        listed = table + len(self.table)
        length = len(self.table) + (8 if self.version == 2 else 4) * len(self.counters)
        private = table + up(length)
        return table, listed, private, private + up(64 + 8 * len(self.counters)) - self.base


def filled(data, length=None):
    return data + bytes((up(len(data)) if length is None else length) - len(data))


def written(image, plan):
    """The file of a plan: head, input, code, table with the list."""
    table, listed, private, size = plan.places()
    listing = b"".join(word(at) + word(kind) * (plan.version == 2) for at, kind in plan.counters)
    cells = plan.table + listing
    place = PAGE + up(len(image))
    added = [(LOAD, place, plan.base, plan.base, len(plan.code), len(plan.code), R | X, PAGE),
             (LOAD, place + up(len(plan.code)), table, table, len(cells), len(cells), R, PAGE),
             (LOAD, place + up(len(plan.code)) + up(len(cells)), private, private, 0, 64 + 8 * len(plan.counters), 6, PAGE)]
    made = []
    for kind, offset, address, other, filesz, memsz, flags, align in oracles.headers(image):
        if kind == LOAD and memsz > 0 and address > plan.base:
            made, added = made + added, []
        if kind == LOAD:
            flags, align = flags & ~X | R, PAGE
        made.append((kind, (offset + PAGE) % 2**32, address, other, filesz, memsz, flags, align))
    made += added
    head = b"\x7fELF\1\1\1" + image[7:16] + struct.pack("<HHIIIIIHHHHHH", 2, 3, 1, plan.entry, 52, 0, struct.unpack_from("<I", image, 36)[0],
                                                       52, 32, len(made), 0, 0, 0)
    head += b"".join(struct.pack("<8I", *header) for header in made)
    words = [MAGIC, plan.version, plan.form, len(image), plan.base, size, plan.base, len(plan.code), table, len(cells), private, 64,
             private + 64, len(plan.counters), listed, len(plan.runs)]
    words += [plan.rule, plan.edge_rule] * (plan.version == 2) + [number for run in plan.runs for number in run]
    record = struct.pack(f"<{len(words)}I", *words)
    return filled(filled(head, 0x900) + record, PAGE) + filled(image) + filled(plan.code) + filled(cells)


def table_of(runs, entries, at):
    """The table at an address for entries of some addresses, and the runs with the places of their directories."""
    groups = [[entries_of(entries, lo, len(code), k) for k in range(0, len(code), GROUP)] for lo, code in runs]
    named = [page for one in groups for page in one if any(page)]
    first = at + PAGE + 4 * sum(map(len, groups))
    names, placed, place, used = b"", [], at + PAGE, 0
    for (lo, code), one in zip(runs, groups):
        placed.append((lo, len(code), place))
        for page in one:
            names += word(first + PAGE * used if any(page) else at)
            used += any(page)
        place += 4 * len(one)
    return bytes(PAGE) + names + b"".join(struct.pack(f"<{GROUP}I", *page) for page in named), placed


def entries_of(entries, lo, length, k):
    return [entries.get(lo + j, 0) if j < length else 0 for j in range(k, k + GROUP)]


def table_length(runs, sites):
    groups = [[(lo + k, min(GROUP, len(code) - k)) for k in range(0, len(code), GROUP)] for lo, code in runs]
    used = sum(any(lo + j in sites for j in range(length)) for one in groups for lo, length in one)
    return PAGE + 4 * sum(map(len, groups)) + PAGE * used


def number_of(rule):
    return RULES.index(rule.split(":")[0])


def plan_of(image, rule="none", edges="none", base=None):
    """The plan of an image's output by two rules, at its place or at another; None where no place has room."""
    listed, parts = counted(image, rule, edges), chains(image)
    blank, places, at = View(0, 0, listed, {}), {}, 65 + 26 * len(image.runs)
    for links, behind in parts:
        for site in links:
            places[site.at] = at
            at += len(with_counter(site, 0, blank))
        at += 5 * (behind is not None)
    cells = table_length(image.runs, image.sites)
    size = up(at) + up(cells + 8 * len(listed)) + up(64 + 8 * len(listed))
    base = oracles.first_fit(image.data, size) if base is None else base
    if base is None:
        return None
    entries = {address: base + place for address, place in places.items()}
    table, runs = table_of(image.runs, entries, base + up(at))
    private = base + up(at) + up(cells + 8 * len(listed))
    view, code = View(base, private, listed, entries), [stub(private, runs)]
    for links, behind in parts:
        code += [with_counter(site, entries[site.at], view) for site in links]
        if behind is not None:
            last = links[-1]
            code.append(jump(entries[last.at] + len(with_counter(last, entries[last.at], view)), view.moved(behind)))
    return Plan(base, b"".join(code), table, listed, runs, view.moved(image.entry), number_of(rule), number_of(edges))


# Where a file differs from a rewriting.

def first_difference(wanted, found):
    """The first place at which two byte lists differ, and their bytes there; None where they don't."""
    if wanted == found:
        return None
    length, step = max(len(wanted), len(found)), 4096
    at = next(k for k in range(0, length, step) if wanted[k:k + step] != found[k:k + step])
    at = next(k for k in range(at, length) if wanted[k:k + 1] != found[k:k + 1])
    return at, *(data[at] if at < len(data) else ABSENT for data in (wanted, found))


def room(image, frame):
    """The pages that the block shares with segments, or that it begins too low."""
    block = frame.lo // PAGE, (frame.lo + frame.length) // PAGE
    shared = [(max(block[0], lo // PAGE), lo) for lo, length, _, _ in oracles.segments(image.data)
              if lo // PAGE < block[1] and block[0] < up(lo + length) // PAGE]
    if shared:
        return min(page for page, _ in shared) * PAGE, frame.lo, min(lo for _, lo in shared)
    return (frame.lo, frame.lo, BLOCK_FROM) if frame.lo < BLOCK_FROM else None


def run_list(runs):
    return [len(runs)] + [number for lo, length in runs for number in (lo, length)]


def bad_counter(image, frame):
    """The first pair of the list that no list of counters has at its place."""
    before, pairs = None, set(frame.list)
    for k, (at, kind) in enumerate(frame.list):
        site = image.sites.get(at)
        if (before is not None and (at, kind) <= before or site is None
                or kind and (site.flow not in (BRANCH, LOOP) or (at, 3 - kind) not in pairs)):
            return k, before[0] if before else 0, at
        before = at, kind
    return None


def all_entries(frame):
    """Of each run its first address and the table's entry of each of its addresses, 0 where it has none."""
    for lo, length, place in frame.runs:
        made = []
        for k in range(0, length, GROUP):
            page = frame.word(place + k // GROUP * 4) - frame.table
            made += struct.unpack_from(f"<{GROUP}I", frame.table_bytes, page)
        yield lo, made[:length]


def difference(image, frame, file):
    """Where a file with a frame differs from a rewriting of an image: a part, a place and two numbers; None where nowhere."""
    found = room(image, frame)
    if found:
        return "room", *found
    ours, theirs = run_list([(lo, len(code)) for lo, code in image.runs]), run_list([run[:2] for run in frame.runs])
    for k, (one, other) in enumerate(zip(ours, theirs)):
        if one != other:
            return "runs", k, one, other
    if frame.version == 1:
        return "file", 0x904, 2, 1
    entries = {lo + k: entry for lo, made in all_entries(frame) for k, entry in enumerate(made) if entry}
    plan = Plan(frame.code, frame.code_bytes, frame.table_bytes[:frame.before_list], frame.list, frame.runs,
                entries.get(image.entry, image.entry), frame.rule, frame.edge_rule)
    found = first_difference(written(image.data, plan), file)
    if found:
        return "file", *found
    found = bad_counter(image, frame)
    if found:
        return "counted", *found
    wanted = stub(frame.private, frame.runs)
    found = first_difference(wanted, frame.code_bytes[:len(wanted)])
    if found:
        return "stub", frame.code + found[0], *found[1:]
    return pieces(image, frame, View(frame.code, frame.private, frame.list, entries))


def pieces(image, frame, view):
    """Address by address: an entry where none may be or out of the code, or a site whose bytes aren't there."""
    code, sites, entries, first = frame.code_bytes, image.sites, view.entries, frame.code
    for lo, run in image.runs:
        for at in range(lo, lo + len(run)):
            site, entry = sites.get(at), entries.get(at, 0)
            if site is None:
                if entry:
                    return "entry", at, 0, entry
            elif not first <= entry < first + len(code):
                return "entry", at, first, entry
            else:
                wanted = whole(site, entry, view)
                place = entry - first
                if code[place:place + len(wanted)] != wanted:
                    return "piece", at, *first_difference(wanted, code[place:place + len(wanted)])[1:]
    return None


def line_of(found):
    return "multiverse: differs: {} {:08x} {:08x} {:08x}\n".format(*found)


def checked(original, file):
    """What `check` answers of two files: status and text."""
    fault = oracles.fault(original)
    if fault:
        return 5, f"multiverse: bad image: {fault}\n"
    frame = oracles.read_frame(file)
    if frame is None:
        return 13, "multiverse: no frame\n"
    image = image_of(original)
    found = difference(image, frame, file)
    return (12, line_of(found)) if found else (0, f"checked {len(image.sites)}\n")
