"""A profile as one HTML page, which loads nothing: functions as bars, code as lines with heat, and how branches went."""
import math
from html import escape
from os.path import basename

from .model import amount, share

STYLE = """
:root { color-scheme: light dark; --ground: #fff; --text: #1c1e21; --faint: #5f6670; --line: #dfe2e6; --bar: #3b76c4;
  --heat: 224 96 32; --taken: #2f8f5b; --passed: #b9bfc7; }
@media (prefers-color-scheme: dark) { :root { --ground: #16181b; --text: #e4e6e9; --faint: #9aa1ab; --line: #33373d;
  --bar: #5c93dd; --heat: 240 120 50; --taken: #55b982; --passed: #565d67; } }
body { margin: 0 auto; max-width: 72rem; padding: 1rem; background: var(--ground); color: var(--text);
  font: 15px/1.45 system-ui, sans-serif; }
h1 { font-size: 1.3rem; margin: 0 0 .2rem; } p { color: var(--faint); margin: 0 0 1rem; }
input { width: 100%; box-sizing: border-box; padding: .5rem .7rem; font: inherit; color: inherit; background: transparent;
  border: 1px solid var(--line); border-radius: 6px; margin-bottom: .8rem; }
details { border-top: 1px solid var(--line); } summary { display: grid; cursor: pointer; padding: .35rem 0; gap: .8rem;
  grid-template-columns: 4.5rem 9rem minmax(0, 1fr) 12rem; align-items: center; list-style: none; }
summary:hover, summary:focus-visible { background: rgb(var(--heat) / .1); }
.number { text-align: right; font-variant-numeric: tabular-nums; } .name { overflow-wrap: anywhere; }
.track { height: .6rem; } .track i { display: block; height: 100%; min-width: 1px; background: var(--bar); border-radius: 3px; }
.code { overflow-x: auto; margin: 0 0 1rem; }
table { border-collapse: collapse; font: 13px/1.5 ui-monospace, monospace; width: 100%; }
td { padding: 0 .7rem; white-space: pre; } tr.run { background: rgb(var(--heat) / calc(var(--h) * .55)); }
.bytes, .gap, .source { color: var(--faint); } .source td { padding-top: .4rem; white-space: pre-wrap; }
.ways { display: inline-block; width: 5rem; height: .6rem; background: var(--passed); border-radius: 3px; overflow: hidden;
  vertical-align: middle; }
.ways i { display: block; height: 100%; background: var(--taken); } .none { padding: 1rem 0; color: var(--faint); }
[hidden] { display: none !important; }
@media (max-width: 45rem) { summary { grid-template-columns: 4rem 1fr; } .track { display: none; } }
"""
SCRIPT = """
const field = document.querySelector('input'), none = document.querySelector('.none');
const parts = [...document.querySelectorAll('details')].map(part => ({
  part, name: part.querySelector('.name').textContent.toLowerCase(), rows: [...part.querySelectorAll('tr')],
  code: part.querySelector('table').textContent.toLowerCase() }));
function search() {
  const wanted = field.value.trim().toLowerCase();
  let shown = 0;
  for (const { part, name, rows, code } of parts) {
    const named = name.includes(wanted), inside = !named && code.includes(wanted);
    part.hidden = !named && !inside;
    part.open = inside || part.open && named;
    for (const row of rows) row.hidden = inside && !row.textContent.toLowerCase().includes(wanted);
    shown += !part.hidden;
  }
  none.hidden = shown > 0;
}
field.addEventListener('input', search);
if (location.hash.length > 1) { field.value = decodeURIComponent(location.hash.slice(1)); search(); }
"""


def number(n):
    return f"{n:,}"


class Sources:
    """The texts of source files, where they can be read."""

    def __init__(self):
        self.files = {}

    def line(self, file, line):
        if file not in self.files:
            try:
                with open(file, encoding="utf-8", errors="replace") as text:
                    self.files[file] = text.read().splitlines()
            except OSError:
                self.files[file] = []
        lines = self.files[file]
        return lines[line - 1] if 0 < line <= len(lines) else ""


def ways_cell(ways):
    if not ways:
        return ""
    taken, passed = ways
    part = share(taken, taken + passed)
    return (f'<span class="ways" title="taken {number(taken)}, passed {number(passed)}"><i style="width:{part:.1f}%"></i></span>'
            f" {number(taken)} taken, {number(passed)} passed ({part:.0f}%)")


def rows(profile, part, sources, hottest):
    program, last, end = profile.program, None, None
    for site in part.sites:
        if end is not None and site.address > end:
            yield f'<tr class="gap"><td></td><td></td><td colspan="3">{site.address - end} bytes that did not run</td></tr>'
        row = program.row(site.address)
        if row.file and (row.file, row.line) != last:
            last = row.file, row.line
            text = f"{basename(row.file)}:{row.line}  {sources.line(*last).strip()}"
            yield f'<tr class="source"><td></td><td></td><td colspan="3">{escape(text)}</td></tr>'
        count = profile.counts.total(site.address)
        heat = math.log1p(count) / math.log1p(hottest) if hottest else 0
        yield (f'<tr class="run" style="--h:{heat:.3f}"><td class="number">{number(count)}</td><td>{site.address:08x}</td>'
               f'<td class="bytes">{site.bytes}</td><td>{escape(site.text)}</td><td>{ways_cell(profile.ways(site))}</td></tr>')
        end = max(end or 0, site.address + site.length)


def section(profile, part, sources, hottest, most):
    portion = share(part.total, profile.total)
    place = f" {part.function.start:08x}" if part.function.end else ""
    lines = [f'<details><summary><span class="number">{portion:.2f}%</span><span class="number">{number(part.total)}</span>'
             f'<span><span class="name">{escape(part.function.name)}</span><span class="bytes">{place}</span></span>'
             f'<span class="track"><i style="width:{share(part.total, most):.2f}%"></i></span></summary>',
             '<div class="code"><table>', *rows(profile, part, sources, hottest), "</table></div></details>"]
    return "\n".join(lines)


def written(profile):
    title = f"{basename(profile.program.name)}: where it ran"
    hottest = max((profile.counts.total(at) for at in profile.ran), default=0)
    most = max((part.total for part in profile.parts), default=0)
    sources = Sources()
    lines = ["<!doctype html>", '<html lang="en"><head><meta charset="utf-8">',
             '<meta name="viewport" content="width=device-width,initial-scale=1">',
             f"<title>{escape(title)}</title><style>{STYLE}</style></head><body>", f"<h1>{escape(title)}</h1>",
             f"<p>{amount(profile.total, 'execution')} of {amount(len(profile.ran), 'instruction')} in "
             f"{amount(len(profile.parts), 'function')}</p>",
             '<input type="search" placeholder="function, address or instruction" aria-label="search">',
             *(section(profile, part, sources, hottest, most) for part in profile.parts),
             '<div class="none" hidden>Nothing has this text.</div>', f"<script>{SCRIPT}</script></body></html>", ""]
    return "\n".join(lines).encode()
