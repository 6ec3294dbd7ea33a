"""A profile in callgrind's format, version 1: a line for each instruction that ran, with its address and its source line."""


def written(profile):
    program, counts = profile.program, profile.counts
    lines = ["# callgrind format", "version: 1", "creator: multiverse profile", f"cmd: {program.name}", "positions: instr line",
             "events: Ir", f"summary: {profile.total}", "", f"ob={program.name}"]
    for part in profile.parts:
        file = None
        for site in part.sites:
            row = program.row(site.address)
            if file is None:
                file = row.file or "???"
                lines += [f"fl={file}", f"fn={part.function.name}"]
            elif (row.file or "???") != file:
                file = row.file or "???"
                lines.append(f"fe={file}" if file == lines_file(lines) else f"fi={file}")
            lines.append(f"0x{site.address:x} {row.line} {counts.total(site.address)}")
            ways = profile.ways(site)
            if ways:
                target = program.row(site.target)
                if target.file and target.file != file:
                    lines.append(f"jfi={target.file}")
                lines += [f"jcnd={ways[0]}/{sum(ways)} 0x{site.target:x} {target.line}", f"0x{site.address:x} {row.line}"]
    return "".join(line + "\n" for line in lines + ["", f"totals: {profile.total}"]).encode()


def lines_file(lines):
    """The file with which the last function begins."""
    return next(line[3:] for line in reversed(lines) if line.startswith("fl="))
