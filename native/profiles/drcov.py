"""A profile as drcov's log, version 2: one module, and the blocks of it that ran. A block is what ran one behind the other with
one count, up to a jump, a branch, a call or a return."""
import os
import struct

MOST = 0xFFFF


def blocks(profile):
    start = end = None
    last = None
    for at in profile.ran:
        site, count = profile.program.sites[at], profile.counts.total(at)
        goes_on = start is not None and at == end and count == last[1] and not last[0].ends_block
        if not goes_on or at + site.length - start > MOST:
            if start is not None:
                yield start, end - start
            start = at
        end, last = at + site.length, (site, count)
    if start is not None:
        yield start, end - start


def written(profile):
    program, found = profile.program, list(blocks(profile))
    head = ["DRCOV VERSION: 2", "DRCOV FLAVOR: drcov", "Module Table: version 2, count 1", "Columns: id, base, end, entry, path",
            f" 0, 0x{program.base:08x}, 0x{program.end:08x}, 0x{program.entry:08x}, {os.path.realpath(program.name)}",
            f"BB Table: {len(found)} bbs"]
    return ("\n".join(head) + "\n").encode() + b"".join(struct.pack("<IHH", at - program.base, size, 0) for at, size in found)
