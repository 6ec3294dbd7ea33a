"""A profile as text."""
from .model import amount, share


def written(profile):
    program, counts = profile.program, profile.counts
    lines = [f"{amount(profile.total, 'execution')} of {amount(len(profile.ran), 'instruction')} in "
             f"{amount(len(profile.parts), 'function')} of {program.name}", "",
             f"{'share':>7} {'executions':>14} {'at':>8}  function"]
    for part in profile.parts:
        place = program.line(part.function.start) if part.function.end else ""
        lines.append(f"{share(part.total, profile.total):6.2f}% {part.total:14} {part.function.start:08x}  {part.function.name}"
                     + (f"  {place}" if place else ""))
    for part in profile.parts:
        lines += ["", f"{part.function.name}: {amount(part.total, 'execution')}"]
        last = ""
        for site in part.sites:
            place = program.line(site.address)
            if place and place != last:
                lines.append(f"{'':23}{place}")
            last = place or last
            count = counts.total(site.address)
            text = f"{share(count, profile.total):6.2f}% {count:14} {site.address:08x}  {site.bytes:<16} {site.text}"
            ways = profile.ways(site)
            if ways:
                text = f"{text:<72}  taken {ways[0]}, passed {ways[1]} ({share(ways[0], sum(ways)):.0f}% taken)"
            lines.append(text)
    return "".join(line + "\n" for line in lines).encode()
