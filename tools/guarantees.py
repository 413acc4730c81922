#!/usr/bin/env python3
"""Holds docs/GUARANTEES.md and docs/BENCHMARKS.md to the tree.

GUARANTEES: the must-fail edits that it names are there, those of "The weight of a contract" and "Misreadings .." in the gate, and
its table of lines is right. A cell of a column `must-fail edit(s)` names them as `crate: `edit`, `edit`; crate, crate: all`, where
`*` in an edit's name stands for any letters.
BENCHMARKS: of the table of crates the columns of edits are right, and so is the sentence that adds them up.
With --check nothing is written; without, the table of lines, the columns and the sentence are written anew.
"""
import pathlib
import re
import sys

ROOT = pathlib.Path(__file__).resolve().parent.parent
PAGE = ROOT / "docs" / "GUARANTEES.md"
TIMES = ROOT / "docs" / "BENCHMARKS.md"
GATE = ("The weight of a contract", "Misreadings that the script has shown us")
EDITS = "| crate | s | edits in the gate | further ones in audit |\n|---|---|---|---|\n"
SUM = re.compile(r"\d+ edits stand in the gate and \d+ in audit")
HEAD = "| crate | code | specs | proofs | proofs for each line of code |\n|---|---|---|---|---|\n"
PARTS = (("src", "rt", "//"), ("specs", "antt", "--"), ("proofs", "antt", "--"))


def lines_of(crate, folder, ending, comment):
    """Lines that are neither blank nor comments."""
    texts = (path.read_text() for path in (crate / folder).rglob(f"*.{ending}"))
    return sum(1 for text in texts for line in text.splitlines() if line.strip() and not line.lstrip().startswith(comment))


def row(name, code, specs, proofs):
    return f"| {name} | {code} | {specs} | {proofs} | {f'{proofs / code:.1f}' if code else ''} |\n"


def table():
    """Every crate but those that only start the program or export a library's functions."""
    counted = {c.name: [lines_of(c, *part) for part in PARTS] for c in sorted((ROOT / "crates").iterdir())}
    counted = {name: lines for name, lines in counted.items() if sum(lines[1:])}
    total = [sum(lines[k] for lines in counted.values()) for k in range(3)]
    return HEAD + "".join(row(name, *lines) for name, lines in counted.items()) + row("all", *total)


def standing(page):
    """Where the table of lines stands in the page."""
    found = re.search(re.escape(HEAD) + r"(\|.*\n)*", page)
    return found.span() if found else sys.exit("docs/GUARANTEES.md has no table of lines")


def cells(page):
    """The cells of the columns of must-fail edits, each with the heading that it stands under."""
    column, heading = None, ""
    for line in page.splitlines():
        fields = [field.strip() for field in line.split("|")] if line.startswith("|") else []
        if line.startswith("## "):
            heading = line[3:]
        if any(field.startswith("must-fail edit") for field in fields):
            column = next(k for k, field in enumerate(fields) if field.startswith("must-fail edit"))
        elif not fields:
            column = None
        elif column is not None and not fields[column].startswith("---"):
            yield heading, fields[column].replace("\\", "")


def missing(page):
    """The edits that a cell names and the tree does not have, or not in the gate where they must stand there."""
    for heading, cell in cells(page):
        folders = ("must-fail",) if heading in GATE else ("must-fail", "audit")
        for group in cell.split(";"):
            named = re.fullmatch(r"\s*([a-z_, ]+): (.*)", group)
            for crate in re.split(r",\s*", named[1].strip()) if named else []:
                for edit in re.findall(r"`([^`]+)`", named[2]) or ["*"]:
                    if not any(list((ROOT / "crates" / crate / folder).glob(f"{edit}.edit")) for folder in folders):
                        yield f"docs/GUARANTEES.md, {heading}: the edit {crate}: {edit} is not in {' or '.join(folders)}"


def edits(crate):
    """How many edits of a crate the gate tries, and how many stand in audit."""
    return [len(list((ROOT / "crates" / crate / folder).glob("*.edit"))) for folder in ("must-fail", "audit")]


def counted(times):
    """docs/BENCHMARKS.md with the columns of edits and their sum as the tree has them. The seconds stay: they are measured."""
    found = re.search(re.escape(EDITS) + r"(\|.*\n)*", times)
    if not found or not SUM.search(times):
        sys.exit("docs/BENCHMARKS.md has no table of the crates' edits, or no sentence that adds them up")
    rows = [[field.strip() for field in line.split("|")[1:3]] for line in found[0].splitlines()[2:]]
    crates = {path.name for path in (ROOT / "crates").iterdir()}
    if {name for name, _ in rows} != crates:
        sys.exit(f"docs/BENCHMARKS.md: its table of edits has other crates than the tree: {', '.join(sorted({name for name, _ in rows} ^ crates))}")
    lines = "".join(f"| {name} | {seconds} | {edits(name)[0]} | {edits(name)[1]} |\n" for name, seconds in rows)
    gate, audit = (sum(edits(name)[k] for name in crates) for k in (0, 1))
    times = times[: found.start()] + EDITS + lines + times[found.end() :]
    return SUM.sub(f"{gate} edits stand in the gate and {audit} in audit", times)


def main():
    page, times = PAGE.read_text(), TIMES.read_text()
    start, end = standing(page)
    if sys.argv[1:] == ["--check"]:
        found = list(missing(page))
        if page[start:end] != table():
            found.append("docs/GUARANTEES.md: the table of lines is stale: run tools/guarantees.py")
        if times != counted(times):
            found.append("docs/BENCHMARKS.md: the counts of edits are stale: run tools/guarantees.py")
        print("\n".join(found) or "docs/GUARANTEES.md: every edit that it names is there, its lines are right; docs/BENCHMARKS.md: so are the counts of edits")
        sys.exit(1 if found else 0)
    PAGE.write_text(page[:start] + table() + page[end:])
    TIMES.write_text(counted(times))


if __name__ == "__main__":
    main()
