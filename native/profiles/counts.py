"""Counts, as a trace's report and the launcher's files have them."""
import os
import re
import sys
from collections import Counter

LINE = re.compile(r"(count|taken|nottaken) ([0-9a-f]{8}) ([0-9]{1,20})")
WORDS = "count ", "taken ", "nottaken "


class Counts:
    """How often each address ran, jumped, and passed. Several runs add up."""

    def __init__(self):
        self.ran, self.taken, self.passed = Counter(), Counter(), Counter()

    def add(self, lines, name):
        kinds = {"count": self.ran, "taken": self.taken, "nottaken": self.passed}
        for number, line in enumerate(lines, 1):
            if not line.startswith(WORDS):
                continue
            parts = LINE.fullmatch(line.rstrip("\n"))
            if not parts:
                raise ValueError(f"{name}: line {number} is no count")
            kinds[parts[1]][int(parts[2], 16)] += int(parts[3])

    def total(self, address):
        """How often the instruction ran; where only its ways are counted, by them."""
        return self.ran.get(address) or self.taken[address] + self.passed[address]

    def addresses(self):
        return sorted({*self.ran, *self.taken, *self.passed})


def files_of(name):
    if not os.path.isdir(name):
        return [name]
    return sorted(path for path in (os.path.join(name, each) for each in os.listdir(name)) if os.path.isfile(path))


def read_counts(names):
    counts = Counts()
    for name in names:
        if name == "-":
            counts.add(sys.stdin, "standard input")
            continue
        for file in files_of(name):
            with open(file, encoding="ascii", errors="replace") as lines:
                counts.add(lines, file)
    return counts
