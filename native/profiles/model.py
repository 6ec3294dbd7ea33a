"""A profile: counts joined with a program, function by function."""
from bisect import bisect_right
from collections import namedtuple

from .program import Function

Part = namedtuple("Part", "function total sites")  # a function that ran, its executions, and its instructions that ran
NOWHERE = "(no function)"


class Profile:
    def __init__(self, program, counts):
        self.program, self.counts = program, counts
        self.ran = [at for at in counts.addresses() if counts.total(at)]
        for at in self.ran:
            if at not in program.sites:
                raise ValueError(f"{at:08x} is no instruction of {program.name}: these are counts of another program")
        self.functions = program.functions or self.called()
        self.starts = [function.start for function in self.functions]
        self.total = sum(counts.total(at) for at in self.ran)
        self.parts = self.parted()

    def called(self):
        """Functions of a program without symbols: its entry, and where direct calls that ran go."""
        sites, counts = self.program.sites, self.counts
        targets = {sites[at].target for at in self.ran if sites[at].is_direct_call}
        starts = {at for at in targets if at in sites and counts.total(at)} - {self.program.entry}
        return self.program.apart([(self.program.entry, 0, "entry")] + [(at, 0, f"f_{at:08x}") for at in starts])

    def function(self, address):
        """The function in which an address lies."""
        place = bisect_right(self.starts, address) - 1
        if place >= 0 and address < self.functions[place].end:
            return self.functions[place]
        return Function(0, 0, NOWHERE)

    def parted(self):
        """The functions that ran, those with most executions first."""
        sites = {}
        for at in self.ran:
            sites.setdefault(self.function(at), []).append(self.program.sites[at])
        parts = [Part(function, sum(self.counts.total(site.address) for site in its), its) for function, its in sites.items()]
        return sorted(parts, key=lambda part: (-part.total, part.function.start))

    def ways(self, site):
        """How often a branch jumped and passed; None where that isn't counted."""
        taken, passed = self.counts.taken[site.address], self.counts.passed[site.address]
        return (taken, passed) if taken or passed else None

    def is_counted(self, address):
        """Whether a count of 0 of the address is known to be one."""
        program = self.program
        return program.counted is None or address in program.counted or address in program.counted_ways


def amount(n, word):
    """1 word, 2 words."""
    return f"{n:,} {word}" + "s" * (n != 1)


def share(part, whole):
    return 100 * part / whole if whole else 0.0
