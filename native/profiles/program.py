"""What a profile asks of an executable: its instructions, by the program that lists them, its functions and its lines."""
import functools
import io
import os
import re
import struct
import subprocess
import tempfile
from bisect import bisect_right
from collections import namedtuple

from elftools.common.exceptions import ELFError
from elftools.elf.elffile import ELFFile

PAGE, HEAD, RECORD = 0x1000, 0x1000, 0x900
EXECUTABLE = 1  # PF_X
CONDITIONAL = re.compile(r"(j(?!mp\b)|loop)")
DIRECT = re.compile(r"\S+ 0x([0-9a-f]+)")
MARKS = ".L", "__end", "_end", "_etext", "etext"  # symbols that begin no function
LEAVES = ("jmp ", "ret", "hlt", "ud2")


class Site(namedtuple("Site", "address bytes text")):
    """An instruction: its address, its bytes as digits, its text."""

    @property
    def length(self):
        return len(self.bytes) // 2

    @property
    def is_branch(self):
        """Whether it goes one of two ways."""
        return CONDITIONAL.match(self.text) is not None

    @property
    def ends_block(self):
        return self.is_branch or self.text.startswith(LEAVES + ("call ",))

    @property
    def is_direct_call(self):
        return self.text.startswith("call ") and self.target is not None

    @property
    def target(self):
        """Where a direct jump, branch or call goes, else None."""
        if not (self.is_branch or self.text.startswith(("jmp ", "call "))):
            return None
        parts = DIRECT.fullmatch(self.text)
        return int(parts[1], 16) if parts else None


Function = namedtuple("Function", "start end name")
Row = namedtuple("Row", "address file line")  # of a line table; file is None behind a sequence's end
NONE = Row(0, None, 0)


def up(n):
    return -(-n // PAGE) * PAGE


def asked(words):
    """What a command of the program prints."""
    ran = subprocess.run(words, capture_output=True, text=True)
    if ran.returncode:
        raise ValueError(f"{os.path.basename(words[0])} {words[1]}: {ran.stdout.strip() or ran.stderr.strip() or ran.returncode}")
    return ran.stdout


def counted_of(data):
    """The addresses that an output counts: of executions, and of the ways of branches."""
    record = struct.unpack_from("<18I", data, RECORD)
    version, length, code, table, listed, count = record[1], record[3], record[7], record[8], record[14], record[13]
    place = HEAD + up(length) + up(code) + listed - table
    if version == 1:
        return set(struct.unpack_from(f"<{count}I", data, place)), set()
    pairs = list(struct.iter_unpack("<2I", data[place:place + 8 * count]))
    return {at for at, kind in pairs if kind == 0}, {at for at, kind in pairs if kind == 1}


class Sites:
    """The instructions of a listing by their addresses. A listing has millions of lines, of which few are looked at."""

    def __init__(self, text):
        self.lines = {int(line[:8], 16): line for line in text.splitlines()}

    def __contains__(self, address):
        return address in self.lines

    def __getitem__(self, address):
        return Site(address, *self.lines[address].split(" ", 2)[1:])


class Program:
    def __init__(self, name, multiverse, symbols=None):
        self.name, self.counted, self.counted_ways = name, None, None
        with open(name, "rb") as file:
            data = file.read()
        with tempfile.TemporaryDirectory() as folder:
            if data[RECORD:RECORD + 4] == b"MVFR":
                self.counted, self.counted_ways = counted_of(data)
                name = os.path.join(folder, "input")
                asked([multiverse, "extract", self.name, name])
                with open(name, "rb") as file:
                    data = file.read()
            self.sites = Sites(asked([multiverse, "list", name]))
        try:
            elf = ELFFile(io.BytesIO(data))
            self.entry = elf.header["e_entry"]
            loads = list(elf.iter_segments("PT_LOAD"))
            self.runs = [(part["p_vaddr"], part["p_memsz"]) for part in loads if part["p_flags"] & EXECUTABLE]
            self.base = min(part["p_vaddr"] for part in loads)
            self.end = max(part["p_vaddr"] + part["p_memsz"] for part in loads)
            if symbols:
                with open(symbols, "rb") as file:
                    elf = ELFFile(io.BytesIO(file.read()))
            self.functions = self.symbols_of(elf)
            self.begins, self.rows = rows_of(elf)
        except ELFError as fault:
            raise ValueError(f"{symbols or self.name}: {fault}") from None
        self.row_places = [row.address for row in self.rows]

    def symbols_of(self, elf):
        """The functions by the symbols, ascending, none in another; empty where there is none."""
        best = {}
        table = elf.get_section_by_name(".symtab")
        for symbol in table.iter_symbols() if table else ():
            kind, at = symbol["st_info"]["type"], symbol["st_value"]
            if kind not in ("STT_FUNC", "STT_NOTYPE", "STT_GNU_IFUNC") or not symbol.name or not self.is_code(at):
                continue
            if symbol["st_shndx"] == "SHN_ABS" or kind == "STT_NOTYPE" and symbol.name.startswith(MARKS):
                continue
            rank = kind != "STT_NOTYPE", symbol["st_size"] > 0, symbol["st_info"]["bind"] == "STB_GLOBAL", symbol.name
            if at not in best or rank > best[at][0]:
                best[at] = rank, symbol["st_size"], symbol.name
        return self.apart([(at, size, name) for at, (_, size, name) in best.items()])

    def is_code(self, address):
        return any(lo <= address < lo + length for lo, length in self.runs)

    def apart(self, starts):
        """Functions from starts, sizes and names: each ends by its size, at the next, or with its run."""
        starts, made = sorted(starts), []
        for k, (at, size, name) in enumerate(starts):
            end = min([lo + length for lo, length in self.runs if lo <= at < lo + length] +
                      [other for other, *_ in starts[k + 1:k + 2]])
            made.append(Function(at, min(end, at + size) if size else end, name))
        return made

    def row(self, address):
        """The row of the line table in which an address lies; its file is None where it lies in none."""
        place = bisect_right(self.row_places, address) - 1
        return self.rows[place] if place >= 0 else NONE

    def line(self, address):
        """FILE:LINE of an address, or an empty text."""
        row = self.row(address)
        return f"{row.file}:{row.line}" if row.file else ""


def rows_of(elf):
    """The rows of all line tables with which a line begins; and all rows, ascending, the last one of each address."""
    begins, rows = [], []
    if not elf.has_dwarf_info():
        return begins, rows
    dwarf = elf.get_dwarf_info()
    for unit in dwarf.iter_CUs():
        table = dwarf.line_program_for_CU(unit)
        if table is None:
            continue
        names = names_of(table, unit)
        for entry in table.get_entries():
            state = entry.state
            if state is None:
                continue
            if state.end_sequence:
                rows.append(Row(state.address, None, 0))
            elif state.line:
                rows.append(Row(state.address, names(state.file), state.line))
                begins += rows[-1:] if state.is_stmt else []
    rows.sort(key=lambda row: (row.address, row.file is not None))  # a sequence may begin at another's end
    return begins, [row for row, after in zip(rows, rows[1:] + [NONE]) if row.address != after.address or row is rows[-1]]


def names_of(table, unit):
    """A function from a file's number to its name."""
    header, top = table.header, unit.get_top_DIE()
    folder = text_of(top.attributes.get("DW_AT_comp_dir"))
    first = 0 if header["version"] >= 5 else 1

    def name(number):
        file = header["file_entry"][number - first]
        index = file["dir_index"]
        if header["version"] < 5:
            place = header["include_directory"][index - 1] if index else b""
        else:
            place = header["include_directory"][index]
        return os.path.normpath(os.path.join(folder, decoded(place), decoded(file["name"])))

    return functools.cache(name)


def decoded(text):
    return text.decode("utf-8", "replace") if isinstance(text, bytes) else text


def text_of(attribute):
    return decoded(attribute.value) if attribute else ""
