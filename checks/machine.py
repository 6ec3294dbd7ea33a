#!/usr/bin/env python3
"""Traces random straight-line programs and runs them on this processor, and compares the memory that they leave.

    machine.py MULTIVERSE FOLDER

Each program sets registers and flags, runs some two hundred data instructions with operands in registers and in its data, and
stores registers and flags after each. On the processor it then writes its data and what it stored to standard output; where it
is traced it makes system calls instead, with the next seven words of them in the registers that a trace prints. What the Intel
manual leaves undefined is hidden after each instruction: such flags are cleared, and such a register is set anew. Each tenth
program is rewritten too, and what it is rewritten to must trace alike. The programs are from a fixed seed.
"""
import os, random, struct, subprocess, sys

PROGRAMS, INSTRUCTIONS = 300, 200
DATA, STACK, SAVED, RECORD = 0x08060000, 0x08060400, 0x08060800, 36
# the data and what is stored, in whole system calls of seven words
CALL = 28
CALLS = -(-(SAVED - DATA + RECORD * INSTRUCTIONS) // CALL)
SIZE = CALL * CALLS
STEPS = 1_000_000
CF, PF, AF, ZF, SF, DF, OF, ID = 0x1, 0x4, 0x10, 0x40, 0x80, 0x400, 0x800, 0x200000
DWORDS = "eax ecx edx ebx esp ebp esi edi".split()
REGISTERS = {8: "al cl dl bl ah ch dh bh".split(), 16: [name[1:] for name in DWORDS], 32: DWORDS}
SIZES = {8: "byte ptr ", 16: "word ptr ", 32: "dword ptr "}
CONDITIONS = "o no b ae e ne be a s ns p np l ge le g".split()


class Program:
    def __init__(self, seed):
        self.rng, self.lines, self.made, self.esp, self.labels = random.Random(seed), [], [], None, 0
        for name in DWORDS:
            self.add(f"mov {name}, {self.number(32):#x}")
        self.popfd()
        for i in range(INSTRUCTIONS):
            begun = len(self.lines)
            self.rng.choice(KINDS)(self)
            self.made.append("; ".join(self.lines[begun:]))
            self.store(SAVED + RECORD * i)

    def add(self, *lines):
        self.lines += lines

    def store(self, at):
        """Stores registers and flags, and changes none."""
        self.add(*(f"mov dword ptr [{at + 4 * i:#x}], {name}" for i, name in enumerate(DWORDS)))
        self.add(f"mov esp, {at + RECORD:#x}", "pushfd", f"mov esp, dword ptr [{at + 4 * DWORDS.index('esp'):#x}]")

    def text(self, end):
        """The source of the program with these last lines."""
        self.rng.seed(len(self.lines))
        data = b"".join(self.rng.choice((self.rng.randbytes(16), self.rng.randbytes(1) * 16)) for _ in range(0x80))
        return "\n".join([".intel_syntax noprefix", ".globl _start", "_start:", *self.lines, *end, ".data",
                          ".byte " + ",".join(map(str, data)), f".space {SIZE - len(data)}", ""])

    # Operands.

    def number(self, width):
        edge = 1 << self.rng.randrange(width)
        return self.rng.choice((self.rng.randrange(1 << width), self.rng.randrange(8), edge, edge - 1, -edge, -1)) % (1 << width)

    def width(self, *of):
        return self.rng.choice(of or (8, 16, 32, 32))

    def register(self, width, but=()):
        """A register none of whose bits are in those of `but`, which are named as of 32 bits."""
        names = [name for i, name in enumerate(REGISTERS[width]) if DWORDS[i % 4 if width == 8 else i] not in but]
        return self.rng.choice(names)

    def written(self, *names):
        if "esp" in names or "sp" in names:
            self.esp = None

    def memory(self, width, but=(), size=True):
        """A place in the data, with registers of the address set to suit."""
        at, form = DATA + self.rng.randrange(32, 0x3C0), self.rng.randrange(5)
        base, index = self.register(32, but), self.register(32, (*but, "esp"))
        factor, displacement = self.rng.choice((1, 2, 4, 8)), self.rng.choice((self.rng.randrange(-128, 128), self.number(32)))
        text = {0: f"[{at:#x}]", 1: f"[{base}]", 2: f"[{base}{self.signed(displacement)}]"}.get(form)
        if form == 1:
            displacement = 0
        if form >= 3 and base == index:
            form, text = 2, f"[{base}{self.signed(displacement)}]"
        if form in (1, 2):
            self.add(f"mov {base}, {(at - displacement) % 2**32:#x}")
            self.written(base)
        if form >= 3:
            value = self.number(32)
            self.add(f"mov {index}, {value:#x}")
            rest = (at - factor * value) % 2**32
            if form == 3:
                self.add(f"mov {base}, {(rest - displacement) % 2**32:#x}")
                self.written(base)
                text = f"[{base}+{index}*{factor}{self.signed(displacement)}]"
            else:
                text = f"[{index}*{factor}{self.signed(rest)}]"
        return SIZES[width] * size + text

    def signed(self, value):
        value = (value + 2**31) % 2**32 - 2**31
        return f"{'+' if value >= 0 else '-'}{abs(value):#x}"

    def place(self, width, but=()):
        """A register or memory."""
        if self.rng.random() < .5:
            return self.memory(width, but)
        name = self.register(width, but)
        self.written(name)
        return name

    def lock(self, place):
        return "lock " if " ptr " in place and self.rng.random() < .2 else ""

    def stack(self):
        """Sets ESP where it isn't known to be in the stack."""
        if self.esp is None or not STACK + 0x80 <= self.esp < STACK + 0x380 or self.rng.random() < .1:
            self.esp = STACK + self.rng.randrange(0x100, 0x300)
            self.add(f"mov esp, {self.esp:#x}")

    def hide(self, flags):
        if flags:
            self.stack()
            self.add("pushfd", f"and dword ptr [esp], {~flags % 2**32:#x}", "popfd")

    def label(self):
        self.labels += 1
        return f"l{self.labels}"

    # Moves and the stack.

    def mov(self):
        w = self.width()
        to = self.place(w)
        if " ptr " in to or self.rng.random() < .5:
            self.add(f"mov {to}, {self.rng.choice((self.register(w), hex(self.number(w))))}")
        else:
            self.add(f"mov {to}, {self.memory(w, size=True)}")

    def mov_accumulator(self):
        w, at = self.width(), DATA + self.rng.randrange(0x3F0)
        pair = [REGISTERS[w][0], f"{SIZES[w]}[{at:#x}]"]
        self.rng.shuffle(pair)
        self.add(f"mov {pair[0]}, {pair[1]}")

    def xchg(self):
        w = self.width()
        place, other = self.place(w), self.register(w)
        self.written(other)
        self.add(f"{self.lock(place)}xchg {place}, {other}")

    def lea(self):
        w = self.width(16, 32)
        source, to = self.memory(w, size=False), self.register(w)
        self.written(to)
        self.add(f"lea {to}, {source}")

    def movx(self):
        w, to = self.rng.choice(((8, 16), (8, 32), (16, 32)))
        source, name = self.place(w), self.register(to)
        self.written(name)
        self.add(f"{self.rng.choice(('movzx', 'movsx'))} {name}, {source}")

    def cmov(self):
        w = self.width(16, 32)
        source, to = self.place(w), self.register(w)
        self.written(to)
        self.add(f"cmov{self.rng.choice(CONDITIONS)} {to}, {source}")

    def set(self):
        self.add(f"set{self.rng.choice(CONDITIONS)} {self.place(8)}")

    def extend(self):
        self.add(self.rng.choice(("cbw", "cwde", "cwd", "cdq")))

    def bswap(self):
        to = self.register(32)
        self.written(to)
        self.add(f"bswap {to}")

    def push(self):
        source = self.rng.choice((self.register(32), "esp", hex(self.number(32)), self.memory(32)))
        self.stack()
        if source.startswith("dword") and "esp" in source or self.rng.random() < .1:
            source = f"dword ptr [esp+{self.rng.randrange(0x40):#x}]"
        self.add(f"push {source}")
        self.esp -= 4

    def pop(self):
        to = self.rng.choice((self.register(32), "esp", self.memory(32)))
        self.stack()
        if to.startswith("dword") and "esp" in to or self.rng.random() < .1:
            to = f"dword ptr [esp+{self.rng.randrange(0x40):#x}]"
        self.add(f"pop {to}")
        self.esp = None if to == "esp" else self.esp + 4

    def pushad(self):
        self.stack()
        self.add("pushad")
        self.esp -= 32

    def popad(self):
        self.stack()
        self.add("popad")
        self.esp += 32

    def leave(self):
        self.esp = STACK + self.rng.randrange(0x100, 0x300)
        self.add(f"mov ebp, {self.esp:#x}", "leave")
        self.esp += 4

    def pushfd(self):
        self.stack()
        self.add("pushfd")
        self.esp -= 4

    def popfd(self):
        self.stack()
        self.add(f"push {self.rng.getrandbits(32) & (CF | PF | AF | ZF | SF | DF | OF | ID | 0x322A):#x}", "popfd")

    def ah(self):
        self.add(self.rng.choice(("lahf", "sahf")))

    def flag(self):
        self.add(self.rng.choice(("cmc", "clc", "stc", "cld", "std")))

    def idle(self):
        self.add(self.rng.choice(("nop", "pause", "endbr32", "nop dword ptr [eax+eax*1+0x0]", "nop word ptr [ebx-0x1]")))

    def xlat(self):
        self.add(f"mov ebx, {DATA + self.rng.randrange(0x2F0):#x}", "xlat")

    # Arithmetic.

    def alu(self):
        op, w = self.rng.choice("add or adc sbb and sub xor cmp".split()), self.width()
        to = self.place(w)
        if " ptr " in to or self.rng.random() < .6:
            source = self.rng.choice((self.register(w), hex(self.number(w))))
        else:
            source = self.memory(w)
        self.add(f"{'' if op == 'cmp' else self.lock(to)}{op} {to}, {source}")
        self.hide(AF * (op in ("and", "or", "xor")))

    def test(self):
        w = self.width()
        self.add(f"test {self.place(w)}, {self.rng.choice((self.register(w), hex(self.number(w))))}")
        self.hide(AF)

    def unary(self):
        to = self.place(self.width())
        self.add(f"{self.lock(to)}{self.rng.choice(('inc', 'dec', 'not', 'neg'))} {to}")

    def mul(self):
        self.add(f"{self.rng.choice(('mul', 'imul'))} {self.place(self.width())}")
        self.hide(SF | ZF | AF | PF)

    def imul(self):
        w = self.width(16, 32)
        source, to = self.place(w), self.register(w)
        self.written(to)
        immediate = self.rng.choice(("", f", {self.number(w):#x}", f", {self.rng.randrange(-128, 128)}"))
        self.add(f"imul {to}, {source}{immediate}")
        self.hide(SF | ZF | AF | PF)

    def div(self):
        """A quotient is chosen, and then the dividend, so that none traps."""
        w, signed = self.width(8, 16, 32), self.rng.random() < .5
        half = 1 << w - 1
        by, quotient = self.number(w) or 1, self.number(w)
        if signed:
            by, quotient = (by + half) % (2 * half) - half, (quotient + half) % (2 * half) - half
        sign = -1 if (by < 0) != (quotient < 0) else 1
        dividend = quotient * by + sign * self.rng.randrange(abs(by)) * (signed or 1)
        place = self.place(w, ("eax", "edx"))
        if w == 8:
            self.add(f"mov ax, {dividend % 2**16:#x}")
        else:
            self.add(f"mov {REGISTERS[w][0]}, {dividend % 2**w:#x}", f"mov {REGISTERS[w][2]}, {(dividend >> w) % 2**w:#x}")
        self.add(f"mov {place}, {by % 2**w:#x}", f"{'idiv' if signed else 'div'} {place}")
        self.hide(CF | OF | SF | ZF | AF | PF)

    def count(self):
        """How far a shift goes, as text and modulo 32; CL is set."""
        count = self.rng.choice((self.rng.randrange(256), self.rng.randrange(33), 1))
        if self.rng.random() < .5:
            return f"{count}", count % 32
        self.add(f"mov cl, {count}")
        return "cl", count % 32

    def shift(self):
        op, w = self.rng.choice("rol ror rcl rcr shl shr sar".split()), self.width()
        place = self.place(w, ("ecx",))
        text, n = self.count()
        self.add(f"{op} {place}, {text}")
        undefined = (AF if op[0] == "s" else 0) | (OF if n != 1 else 0) | (CF if n >= w and op in ("shl", "shr") else 0)
        self.hide(undefined if n else 0)

    def double(self):
        place, source = self.place(32, ("ecx",)), self.register(32)
        text, n = self.count()
        self.add(f"{self.rng.choice(('shld', 'shrd'))} {place}, {source}, {text}")
        self.hide((AF | (OF if n != 1 else 0)) if n else 0)

    def bit(self):
        w, op = self.width(16, 32), self.rng.choice(("bt", "bts", "btr", "btc"))
        place = self.place(w)
        index = self.rng.randrange(256) if " ptr " in place or self.rng.random() < .5 else self.register(w)
        self.add(f"{'' if op == 'bt' else self.lock(place)}{op} {place}, {index}")
        self.hide(OF | SF | AF | PF)

    def scan(self):
        """The source is 0, or has a bit set; for 0 the destination is undefined."""
        w = self.width(16, 32)
        place, to = self.place(w), self.register(w)
        value = self.number(w) * (self.rng.random() < .7)
        self.written(to)
        self.add(f"mov {place}, {value:#x}", f"{self.rng.choice(('bsf', 'bsr'))} {to}, {place}")
        if value == 0:
            self.add(f"mov {to}, {self.number(w):#x}")
        self.hide(CF | OF | SF | AF | PF)

    def cmpxchg(self):
        w = self.width()
        place = self.place(w, ("eax",))
        if self.rng.random() < .5:
            self.add(f"mov {REGISTERS[w][0]}, {place}")
        self.add(f"{self.lock(place)}cmpxchg {place}, {self.register(w)}")

    def xadd(self):
        w = self.width()
        place, other = self.place(w), self.register(w)
        self.written(other)
        self.add(f"{self.lock(place)}xadd {place}, {other}")

    # Strings and transfers.

    def string(self):
        op, w = self.rng.choice(("movs", "cmps", "stos", "lods", "scas")), self.width(8, 16, 32)
        rep = self.rng.choice(("", "repe ", "repne ") if op in ("cmps", "scas") else ("", "rep "))
        down = self.rng.random() < .5
        for name in ("esi", "edi"):
            self.add(f"mov {name}, {DATA + self.rng.randrange(0x80, 0x100) + 0x200 * down:#x}")
        if op == "cmps" and self.rng.random() < .3:
            self.add("mov esi, edi")
        if op == "scas" and self.rng.random() < .7:
            self.add("mov eax, dword ptr [edi]")
        if rep or self.rng.random() < .5:
            self.add(f"mov ecx, {self.rng.choice((0, 1, self.rng.randrange(24)))}")
        self.add("std" if down else "cld", rep + op + {8: "b", 16: "w", 32: "d"}[w])

    def branch(self):
        """A forward jump over one instruction, which may be taken."""
        label = self.label()
        jump = self.rng.choice([f"j{c}" for c in CONDITIONS] + ["loop", "loope", "loopne", "jecxz", "jmp"])
        if jump[0] == "l" or jump == "jecxz":
            self.add(f"mov ecx, {self.rng.choice((0, 1, 2, self.number(32)))}")
        self.add(f"{jump} {label}", f"lea {self.register(32, ('esp',))}, [eax+ecx*2]", f"{label}:")

    def call(self):
        """A call, by each kind of operand, of code that is reached by it alone."""
        to, over, slot = self.label(), self.label(), DATA + self.rng.randrange(0x3F0)
        self.stack()
        drop = self.rng.choice(("", "", " 4", " 0x10"))
        name = self.register(32, ("esp",))
        made = self.rng.choice(("near", "register", "memory", "ret"))
        if made == "register":
            self.add(f"mov {name}, offset {to}")
        if made == "memory":
            self.add(f"mov dword ptr [{slot:#x}], offset {to}")
        if made == "ret":
            self.add(f"push offset {over}", f"push offset {to}", "ret")
        else:
            target = {"near": to, "register": name, "memory": f"dword ptr [{slot:#x}]"}[made]
            self.add(f"call {target}", f"jmp {over}")
        self.add(f"{to}:", "lea eax, [eax+ebx*4+0x1]", f"ret{drop}", f"{over}:")
        self.esp += int(drop or "0", 16)


KINDS = [kind for name, kind in vars(Program).items() if callable(kind) and name not in (
    "__init__", "add", "store", "text", "number", "width", "register", "written", "memory", "signed", "place", "lock", "stack", "hide",
    "label", "count")]


# The ends of a program: it writes its data, it shows them by system calls, or it stops with its registers and flags as they are.
WRITES = ("mov eax, 4", "mov ebx, 1", f"mov ecx, {DATA:#x}", f"mov edx, {SIZE:#x}", "int 0x80", "mov eax, 1", "xor ebx, ebx", "int 0x80")
SHOWS = (f"mov esp, {DATA:#x}", "shows:", *(f"pop {name}" for name in "eax ebx ecx edx esi edi ebp".split()), "int 0x80",
         f"cmp esp, {DATA + SIZE:#x}", "jb shows", "hlt")
HALTS = ("hlt",)


def build(folder, seed, end):
    """Assembles and links a program with these last lines; its file."""
    source, unlinked, file = (os.path.join(folder, f"{seed}{name}") for name in (".s", ".o", f".{end[-1][:3]}"))
    with open(source, "w") as out:
        out.write(Program(seed).text(end))
    subprocess.run(["as", "--32", "-o", unlinked, source], check=True)
    subprocess.run(["ld", "-m", "elf_i386", "-s", f"-Tdata={DATA:#x}", "-o", file, unlinked], check=True)
    return file


def run(file, title):
    """What a program writes on this processor."""
    written = subprocess.run([file], capture_output=True, timeout=60).stdout
    if len(written) != SIZE:
        sys.exit(f"checks/machine: {title} ended early on the processor")
    return written


def shown(text):
    """The words of the calls that a trace prints, as bytes."""
    calls = [line.split()[1:] for line in text.splitlines() if line.startswith("call ")]
    return b"".join(struct.pack("<I", int(word, 16)) for call in calls for word in call)


def difference(seed, want, found):
    """The first instruction after which registers or flags differ, or the first byte of the data."""
    places = range(2 * (SAVED - DATA), len(want), 8)
    place = next((i for i in places if want[i:i + 8] != found[i:i + 8]), None)
    if place is None:
        place = next((i for i in range(0, len(want), 2) if want[i:i + 2] != found[i:i + 2]), 0)
        return f"the data differ at {DATA + place // 2:#x}"
    made, word = divmod(place // 2 - (SAVED - DATA), RECORD)
    return (f"{(*DWORDS, 'flags')[word // 4]} is {bytes.fromhex(want[place:place + 8])[::-1].hex()} on the processor, "
            f"{bytes.fromhex(found[place:place + 8])[::-1].hex()} on the machine after: {Program(seed).made[made]}")


def main():
    multiverse, folder = sys.argv[1:]
    log, output, bad, rewritten = os.path.join(folder, "log"), os.path.join(folder, "output"), 0, 0
    with open(log, "w") as out:
        out.write("log 1\n" + "ret 00000000\n" * CALLS)
    for seed in range(PROGRAMS):
        file, want = build(folder, seed, SHOWS), run(build(folder, seed, WRITES), f"program {seed}").hex()
        traced = lambda name: subprocess.run([multiverse, "trace", name, log, str(STEPS)], capture_output=True, text=True).stdout
        text = traced(file)
        if shown(text).hex() != want:
            found = shown(text).hex()
            print(f"program {seed}:", difference(seed, want, found) if len(found) == len(want) else text.splitlines()[-2:])
            bad += 1
        elif seed % 10 == 0:
            subprocess.run([multiverse, "rewrite", file, output], check=True, capture_output=True)
            if traced(output).splitlines()[:-1] != text.splitlines()[:-1]:
                print(f"program {seed}: what it is rewritten to traces otherwise")
                bad += 1
            rewritten += 1
    if bad:
        sys.exit(f"checks/machine: {bad} of {PROGRAMS} programs end differently")
    print(f"checks/machine: {PROGRAMS} programs of {INSTRUCTIONS} instructions leave the memory that the processor leaves, "
          f"{rewritten} of them rewritten too")


if __name__ == "__main__":
    main()
