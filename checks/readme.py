#!/usr/bin/env python3
"""Runs README's commands, and compares what they print with what it says.

    readme.py TOP FOLDER

A block of lines that are indented is one of commands where each line begins with a path of the repository, and else what the last
command of the block before it prints; there a line `..` stands for any further ones. A paragraph behind a block of commands that
begins with "prints `TEXT`" is such a block of one line. The commands run in FOLDER, where the repository's files are links. What
a link in the text names must be there.
"""
import os, re, subprocess, sys

COMMANDS = "./multiverse", "native/", "make ", ".ci/run"
NEVER = ".ci/run", "make install", "make check"  # they run this check, or write elsewhere
NATIVE = "native/", "make -C native"  # need a C compiler, and leave to trace


def blocks(text):
    """The paragraphs of a text: whether one is indented, and its lines."""
    for part in text.split("\n\n"):
        lines = part.splitlines()
        is_code = all(line.startswith("    ") for line in lines)
        yield is_code, [line[4:] for line in lines] if is_code else lines


def joined(text):
    """Indented blocks with an empty line between them, as one paragraph each: what is printed may have empty lines."""
    return re.sub(r"(?m)^(    .*)\n\n(?=    )", r"\1\n    \n", text)


def can_trace(top):
    made = subprocess.run(["make", "-s", "-C", os.path.join(top, "native")], capture_output=True)
    hello = os.path.join(top, "examples", "hello", "hello")
    words = [os.path.join(top, "native", "launch"), hello]
    return made.returncode == 0 and subprocess.run(words, capture_output=True).returncode == 7


def has_elftools():
    return subprocess.run(["/usr/bin/python3", "-c", "import elftools"], capture_output=True).returncode == 0


def agrees(printed, wanted):
    lines = printed.splitlines()
    if wanted[-1] == "..":
        return lines[:len(wanted) - 1] == wanted[:-1]
    return lines == wanted


def main():
    top, folder = sys.argv[1:]
    for name in os.listdir(top):
        if not name.startswith("."):
            os.symlink(os.path.join(top, name), os.path.join(folder, name))
    with open(os.path.join(top, "README.md")) as file:
        text = file.read()
    traces, elftools = can_trace(top), has_elftools()
    bad, ran, compared, skipped, last = [], 0, 0, set(), None
    for is_code, lines in blocks(joined(text)):
        if is_code and all(line.startswith(COMMANDS) for line in lines):
            last = None
            for line in lines:
                if line.startswith(NEVER):
                    continue
                if line.startswith(NATIVE) and not traces or line.startswith("native/profile") and not elftools:
                    skipped.add(line.split()[0])
                    last = None
                    continue
                done = subprocess.run(["bash", "-c", line], capture_output=True, text=True, cwd=folder)
                ran, last = ran + 1, (line, done)
                if done.returncode not in (0, 7) or done.returncode == 7 and not line.startswith("native/launch"):
                    bad.append(f"{line}: ends with {done.returncode}: {done.stdout}{done.stderr}")
            continue
        said = re.match(r"(?:and )?prints `([^`]+)`", lines[0]) if not is_code and lines else None
        wanted = lines if is_code else [said[1]] if said else None
        if wanted and last:
            compared += 1
            if not agrees(last[1].stdout, wanted):
                bad.append(f"{last[0]}: prints {last[1].stdout!r}")
            last = None
    for name in re.findall(r"\b(?:docs|checks|examples|native|bench)/[A-Za-z_]+(?:\.md)?\b", text):
        if not os.path.exists(os.path.join(top, name)):
            bad.append(f"there is no {name}")
    for name in sorted(skipped):
        print(f"checks/readme: {name} skipped, since it can't run here")
    for line in bad:
        print(f"checks/readme: {line}")
    print(f"checks/readme: {ran} commands of README run, and {compared} print what it says; {len(bad)} differ")
    return 1 if bad or ran < 8 else 0


if __name__ == "__main__":
    sys.exit(main())
