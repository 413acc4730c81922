#!/usr/bin/env python3
"""Holds the papers' definitions apart from the workings.

In each crate specs/Paper/ has what a reader must believe: document 01's definitions and the statements of the theorems.
With --check: a Paper file may use Paper files of its own and other crates, the program's declared types, the kit's specs
and its logic, and nothing else; and the table of docs/GUARANTEES.md must name every one of them with its lines. Without, the
table's lines are printed.
"""
import pathlib
import re
import sys

ROOT = pathlib.Path(__file__).resolve().parent.parent
PAGE = ROOT / "docs" / "GUARANTEES.md"
USE = re.compile(r"\s*(?:pub |unfoldable )*use (Rattle\.\S+?)(\.\{.*| .*)?$")
ALLOWED = re.compile(r"Rattle\.(std|core)\.specs\.|Rattle\.\w+\.specs\.(Paper|declared)\.")


def files():
    return sorted((ROOT / "crates").glob("*/specs/Paper/*.antt"))


def name(path):
    return f"{path.parts[-4]}/{path.stem}"


def strangers(path):
    """The modules that a Paper file uses and may not."""
    found = []
    for line in path.read_text().splitlines():
        use = USE.match(line)
        if use and not ALLOWED.match(use[1] + "."):
            found.append(use[1])
    return found


def believed(path):
    """Its lines that are neither blank, nor comments, nor imports: what there is to believe."""
    lines = path.read_text().splitlines()
    return sum(1 for line in lines if line.strip() and not line.lstrip().startswith(("--", "use ")))


def faults():
    listed = dict(re.findall(r"^\| `(\w+/\w+)` \| (\d+) \|", PAGE.read_text(), re.M))
    for path in files():
        for module in strangers(path):
            yield f"{path.relative_to(ROOT)} uses {module}, which is no Paper file"
        if name(path) not in listed:
            yield f"docs/GUARANTEES.md does not list {name(path)}"
        elif int(listed.pop(name(path))) != believed(path):
            yield f"docs/GUARANTEES.md: {name(path)} has {believed(path)} lines"
    for other in listed:
        yield f"docs/GUARANTEES.md lists {other}, which is no Paper file"


def main():
    if sys.argv[1:] == ["--check"]:
        found = list(faults())
        print("\n".join(found) or f"{len(files())} Paper files, {sum(map(believed, files()))} lines to believe")
        sys.exit(1 if found else 0)
    elif sys.argv[1:]:
        sys.exit(__doc__)
    for path in files():
        print(f"| `{name(path)}` | {believed(path)} |")


if __name__ == "__main__":
    main()
