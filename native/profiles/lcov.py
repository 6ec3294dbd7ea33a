"""A profile as lcov's records. A line's count is the highest among the addresses at which the line table has it begin."""
from collections import defaultdict


class Source:
    """What is known of one file of source."""

    def __init__(self):
        self.lines, self.functions, self.branches = {}, {}, []


def instructions(program, start, end):
    """The instructions that stand one behind the other from an address of the line table on."""
    while start < end and start in program.sites and start + program.sites[start].length <= end:
        yield program.sites[start]
        start += program.sites[start].length


def branch(profile, site):
    """The counts of a branch as words, `-` where it never ran; None where its ways aren't counted."""
    ways = profile.ways(site)
    if ways:
        return tuple(map(str, ways))
    counted = profile.program.counted_ways
    is_counted = site.address in counted if counted is not None else bool(profile.counts.taken or profile.counts.passed)
    return ("-", "-") if is_counted and not profile.counts.total(site.address) else None


def sources(profile):
    program, counts, found = profile.program, profile.counts, defaultdict(Source)
    for row in program.begins:
        if row.address in program.sites and profile.is_counted(row.address):
            lines = found[row.file].lines
            lines[row.line] = max(lines.get(row.line, 0), counts.total(row.address))
    for row, after in zip(program.rows, program.rows[1:]):
        for site in instructions(program, row.address, after.address) if row.file else ():
            words = branch(profile, site) if site.is_branch else None
            if words:
                found[row.file].branches.append((row.line, site.address, words))
    for function in program.functions:
        row = program.row(function.start)
        if row.file in found and row.address == function.start:
            found[row.file].functions[function.name] = row.line, counts.total(function.start)
    return found


def records(name, source):
    functions = sorted((line, name, count) for name, (line, count) in source.functions.items())
    branches = sorted(source.branches)
    lines = ["TN:", f"SF:{name}"]
    lines += [f"FN:{line},{function}" for line, function, _ in functions]
    lines += [f"FNDA:{count},{function}" for _, function, count in functions]
    lines += [f"FNF:{len(functions)}", f"FNH:{sum(count > 0 for *_, count in functions)}"]
    block = defaultdict(int)
    for line, _, words in branches:
        lines += [f"BRDA:{line},{block[line]},{way},{word}" for way, word in enumerate(words)]
        block[line] += 1
    if branches:
        ways = [word for *_, words in branches for word in words]
        lines += [f"BRF:{len(ways)}", f"BRH:{sum(word not in '-0' for word in ways)}"]
    lines += [f"DA:{line},{count}" for line, count in sorted(source.lines.items())]
    lines += [f"LF:{len(source.lines)}", f"LH:{sum(count > 0 for count in source.lines.values())}", "end_of_record"]
    return lines


def written(profile):
    if not profile.program.rows:
        raise ValueError(f"{profile.program.name} has no line numbers: compile it with -g, or name a file with them by --symbols")
    return "".join(line + "\n" for name, source in sorted(sources(profile).items()) for line in records(name, source)).encode()
