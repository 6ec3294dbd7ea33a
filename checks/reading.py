"""Which files of specs/ the clauses of `run` rest on, found by following names, and whether the documented list has them.

reading.py FILE: FILE has the list, a table whose rows name a crate and files of its specs/. Prints what differs: files that are
reached and not listed, files that are listed and not reached, and rows that cite a file below them.
"""

import pathlib
import re
import sys

TOP = pathlib.Path(__file__).resolve().parent.parent
NAME = re.compile(r"[^\s(){}\[\],;.λ→×]+")
IMPORT = re.compile(r"^(?:ghost )?use Rattle\.(\w+)\.specs\.([\w.]+?)(?:\.\{(.*?)\})?(?: as (\S+?))?;?$")


def imports(text):
    """The names that a file imports from specs/ of the repository's crates: name, then crate, file and name there."""
    names, modules = {}, {}
    for line in text.splitlines():
        found = IMPORT.match(line)
        if not found or not (TOP / "crates" / found[1]).is_dir():
            continue
        crate, path, listed, alias = found.groups()
        if path.startswith("declared"):
            continue
        path = path.replace(".", "/")
        for item in (listed or "").split(","):
            name, _, other = item.strip().partition(" as ")
            if name:
                names[(other or name).strip()] = (crate, path, name.strip())
        if listed is None:
            modules[alias or path.split("/")[-1]] = (crate, path)
    return names, modules


def blocks(text):
    """The definitions of a file: each name that one defines, constructors too, and the names that it cites."""
    found, name, is_data = {}, None, False
    for line in text.splitlines():
        code = line.split("--")[0] if line.startswith("--") else line
        head = re.match(r"^(?:abbrev )?(?:pub )?(?:(?:abbrev|record|data) )*(?:pub )?([^\s:(){}=]+)", code)
        if code[:1].strip() and head and not code.startswith("use "):
            name, is_data = head[1], bool(re.match(r"^(?:pub )?data ", code))
        if name and code.strip():
            found.setdefault(name, set()).update(NAME.findall(code))
            inner = re.match(r"^  ([^\s:(){}=]+) ?:", code)
            if inner and is_data:
                found.setdefault(inner[1], set()).add(name)
    return found


def load():
    files = {}
    for path in sorted((TOP / "crates").glob("*/specs/**/*.antt")):
        crate = path.relative_to(TOP / "crates").parts[0]
        inside = path.relative_to(TOP / "crates" / crate / "specs").with_suffix("")
        text = path.read_text(encoding="utf-8")
        files[(crate, str(inside))] = (blocks(text), *imports(text))
    return files


def cited(files, place, name):
    """The definitions that a definition of a file cites, its own file's too."""
    defined, names, modules = files[place]
    for token in defined.get(name, ()):
        if token in names:
            crate, path, other = names[token]
            yield (crate, path), other
        elif token in defined and token != name:
            yield place, token
        elif token in modules:
            yield modules[token], None


def reached(files):
    text = (TOP / "crates/multiverse_cli/src/run.rt").read_text(encoding="utf-8")
    names, _ = imports(text)
    clauses = set(NAME.findall(text[text.index("pub fn run") : text.index("\n{\n")]))
    todo = [((crate, path), name) for item, (crate, path, name) in names.items() if item in clauses]
    seen, edges = set(), {}
    while todo:
        place, name = todo.pop()
        if (place, name) in seen or place not in files:
            continue
        seen.add((place, name))
        for other in cited(files, place, name):
            todo.append(other)
            if other[0] != place:
                edges.setdefault(place, set()).add(other[0])
    return {place for place, _ in seen}, edges


def listed(path):
    """The table's files in order, each with its row."""
    rows, crate, inside = [], None, False
    for line in path.read_text(encoding="utf-8").splitlines():
        cells = [it.strip() for it in line.strip("|").split("|")] if line.startswith("|") else []
        if len(cells) >= 3 and cells[1] == "Files of `specs/`":
            inside = True
        elif inside and not cells:
            break
        elif inside and not cells[0].startswith("---"):
            crate = cells[0].strip("`") or crate
            rows += [((crate, it), line) for it in re.findall(r"`([\w/]+)`", cells[1])]
    return rows


def main(path):
    files = load()
    found, edges = reached(files)
    rows = listed(pathlib.Path(path))
    order = [place for place, _ in rows]
    faults = [f"{crate}: {file} is reached and isn't listed" for crate, file in sorted(found - set(order))]
    faults += [f"{crate}: {file} is listed and isn't reached" for crate, file in sorted(set(order) - found)]
    faults += [f"{place[0]}: {place[1]} is listed twice" for place in sorted(set(order)) if order.count(place) > 1]
    line_of = {place: at for at, place in enumerate(order)}
    row_of = dict(rows)
    for place in order:
        for other in sorted(edges.get(place, ())):
            if line_of.get(other, -1) > line_of[place] and row_of[other] != row_of[place]:
                faults.append(f"{place[0]}: {place[1]} cites {other[1]} of {other[0]}, which stands below it")
    print("\n".join(faults) if faults else f"{len(found)} files")
    return 1 if faults else 0


if __name__ == "__main__":
    sys.exit(main(sys.argv[1]))
