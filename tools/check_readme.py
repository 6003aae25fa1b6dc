#!/usr/bin/env python3
"""Runs the commands that the documents and the manual page show, and compares what they print.

In a document a command is a line that begins with four blanks, a dollar sign and a blank; the indented lines below it, up to
the next command or the end of the block, are what it prints on standard output. A block of Python is run as one program, and
what it prints stands behind its lines as comments. In the manual page commands stand between .nf and .fi and call `rinv`.
Each is run by bash at the top of the repository, those of the manual page in examples/systems, so the program is best built
before: `./rinv laws < examples/systems/signs.rinv` does that.

The tables of docs/ARCHITECTURE.md say in which file a name stands; that it does is tested too.

usage: tools/check_readme.py [FILE..]      README.md and the documents that show commands, where no file is named
"""

import pathlib
import re
import subprocess
import sys

TOP = pathlib.Path(__file__).resolve().parent.parent
SHOWN = ["README.md", "examples/README.md", "docs/FORMATS.md", "docs/GUIDE.md", "man/rinv.1"]
PROMPT = "$ "
INDENT = "    "
SECONDS = 120


def indented(text):
    """The lines of a document with four blanks before them, each with its number; None for the others."""
    for number, line in enumerate(text.splitlines(), 1):
        yield number, line[len(INDENT):] if line.startswith(INDENT) else None


def unfilled(text):
    """The lines of a manual page between .nf and .fi, without the signs of roff; None for the others."""
    at_work = False
    for number, line in enumerate(text.splitlines(), 1):
        at_work = line == ".nf" or at_work and line != ".fi"
        plain = re.sub(r"\\(.)", lambda found: {"e": "\\", "&": ""}.get(found[1], found[1]), line)
        yield number, plain if at_work and not line.startswith(".") else None


def commands(lines):
    """The commands among the lines, each with its number and the output that is shown."""
    found = []
    at_work = False
    for number, line in lines:
        if line is not None and line.startswith(PROMPT):
            found.append((number, line[len(PROMPT):], []))
            at_work = True
        elif at_work and line is not None:
            found[-1][2].append(line)
        else:
            at_work = False
    return found


def programs(text):
    """The blocks of Python, each with its line, a command that runs it, and what is shown that it prints."""
    for block in re.finditer(r"^```python\n(.*?)^```$", text, re.DOTALL | re.MULTILINE):
        shown = [line.split("#", 1)[1].strip() for line in block[1].splitlines() if "print(" in line and "#" in line]
        yield text.count("\n", 0, block.start()) + 1, f"python3 - <<'END'\n{block[1]}END", shown


def examples(name):
    """The commands of a file, each with its line, the folder in which it is run, and what is shown that it prints."""
    text = (TOP / name).read_text(encoding="utf-8")
    if name.endswith(".1"):
        folder = TOP / "examples/systems"
        return [(number, f'rinv() {{ "{TOP}/rinv" "$@"; }}; {command}', folder, shown)
                for number, command, shown in commands(unfilled(text))]
    return [(number, command, TOP, shown) for number, command, shown in [*commands(indented(text)), *programs(text)]]


def printed(command, folder):
    ran = subprocess.run(
        ["bash", "-c", command], cwd=folder, stdin=subprocess.DEVNULL, stdout=subprocess.PIPE, timeout=SECONDS, check=False
    )
    return ran.stdout.decode("utf-8", "replace").splitlines()


def places(text):
    """The rows of a table that end with a name and the file under crates/ in which it is said to stand."""
    for number, line in enumerate(text.splitlines(), 1):
        if found := re.search(r"\| `(\w+)` \| `(rinv_\w+/\S+)` \|$", line):
            yield number, found[1], found[2]


def misplaced(name):
    """How many names a document has, and those that do not stand in their file."""
    found = list(places((TOP / name).read_text(encoding="utf-8")))
    return len(found), [place for place in found if not is_defined(*place[1:])]


def is_defined(name, file):
    path = TOP / "crates" / file
    kind = r"(fn|const|enum|struct|trait|type)\s+" if file.endswith(".rt") else r"^(pub )?"
    return path.is_file() and bool(re.search(rf"{kind}{name}\b", path.read_text(encoding="utf-8"), re.MULTILINE))


def main():
    run = failed = 0
    count, lost = misplaced("docs/ARCHITECTURE.md")
    for number, place, file in lost:
        print(f"docs/ARCHITECTURE.md:{number}: {place} does not stand in crates/{file}")
    print(f"places named: {count}, not found: {len(lost)}")
    for name in sys.argv[1:] or SHOWN:
        for number, command, folder, shown in examples(name):
            run += 1
            found = printed(command, folder)
            if found != shown:
                failed += 1
                print(f"{name}:{number}: {command}")
                print("  shown:", *shown, sep="\n    ")
                print("  found:", *found, sep="\n    ")
    print(f"commands run: {run}, with other output: {failed}")
    return 1 if failed or lost or not run else 0


if __name__ == "__main__":
    sys.exit(main())
