#!/usr/bin/env python3
"""Draws the families of crates, docs/families.svg, from crates.txt.

A family is a heading in crates.txt, `# name: what it is`, and the crates below it. An arrow goes from a family to one
that it rests on, and is left out where a longer way shows the same. With --check nothing is written: the picture must
be as it would be drawn, and every crate must stand under a heading and rest on crates above it only.
"""
import pathlib
import re
import sys

ROOT = pathlib.Path(__file__).resolve().parent.parent
PICTURE = ROOT / "docs" / "families.svg"
KIT = {"io", "bytes"}
WIDE, HIGH, GAP, LINE = 250, 46, 56, 15


def read():
    """The families in their order: name, what it is, crates; and what each crate rests on."""
    families, rests = [], {}
    for line in (ROOT / "crates.txt").read_text().splitlines():
        heading = re.fullmatch(r"# (\w+): (.+)", line)
        crate = re.fullmatch(r"(\w+)(?: +staticlib)?:\s*(.*)", line)
        if heading:
            families.append((heading[1], heading[2], []))
        elif crate:
            if not families:
                sys.exit(f"crates.txt: {crate[1]} stands under no heading")
            below = [name for name in crate[2].split() if name not in KIT]
            for name in below:
                if name not in rests:
                    sys.exit(f"crates.txt: {crate[1]} rests on {name}, which does not stand above it")
            rests[crate[1]] = below
            families[-1][2].append(crate[1])
    return families, rests


def arrows(families, rests):
    """For each family those it rests on, without those that a longer way shows."""
    family = {crate: name for name, _, crates in families for crate in crates}
    below = {
        name: {family[other] for crate in crates for other in rests[crate]} - {name}
        for name, _, crates in families
    }
    reach = {}
    for name, _, _ in families:
        reach[name] = set(below[name]).union(*(reach[other] for other in below[name]))
    return {
        name: sorted(other for other in below[name] if not any(other in reach[way] for way in below[name]))
        for name in below
    }


def levels(families, below):
    """The families of each level: one above the highest that it rests on."""
    level = {}
    for name, _, _ in families:
        level[name] = 1 + max((level[other] for other in below[name]), default=-1)
    return [[f for f in families if level[f[0]] == at] for at in range(max(level.values()) + 1)]


def lines(crates):
    """The crates' names in lines that fit a box."""
    rows = [""]
    for name in crates:
        if len(rows[-1]) + len(name) > 36:
            rows.append("")
        rows[-1] += (" " if rows[-1] else "") + name
    return rows


def box(name, meaning, crates, x, y):
    """One family as SVG, and its height."""
    rows = lines(crates)
    high = HIGH + LINE * len(rows)
    text = [
        f'<rect x="{x}" y="{y}" width="{WIDE}" height="{high}" rx="6"/>',
        f'<text class="name" x="{x + 10}" y="{y + 19}">{name}</text>',
        f'<text class="what" x="{x + 10}" y="{y + 35}">{meaning}</text>',
    ]
    text += [f'<text x="{x + 10}" y="{y + 53 + LINE * i}">{row}</text>' for i, row in enumerate(rows)]
    return text, high


def drawn():
    families, rests = read()
    below = arrows(families, rests)
    stages = levels(families, below)
    wide = max(len(stage) for stage in stages) * (WIDE + 24) + 24
    boxes, places, y = [], {}, 16
    for stage in reversed(stages):
        left = (wide - len(stage) * (WIDE + 24) + 24) // 2
        tallest = 0
        for at, (name, meaning, crates) in enumerate(stage):
            x = left + at * (WIDE + 24)
            text, high = box(name, meaning, crates, x, y)
            boxes += text
            places[name] = (x + WIDE // 2, y, y + high)
            tallest = max(tallest, high)
        y += tallest + GAP
    strokes = []
    for name, others in below.items():
        for other in others:
            (x, _, bottom), (x2, top, _) = places[name], places[other]
            middle = (bottom + top) // 2
            strokes.append(f'<path d="M{x} {bottom} C{x} {middle} {x2} {middle} {x2} {top}" marker-end="url(#tip)"/>')
    style = (
        "text{font:11px sans-serif;fill:#222}.name{font-size:14px;font-weight:bold}.what{fill:#666}"
        "rect{fill:#f7f7f2;stroke:#888}path{fill:none;stroke:#99a;stroke-width:1.2}"
    )
    return "\n".join(
        [
            f'<svg xmlns="http://www.w3.org/2000/svg" width="{wide}" height="{y - GAP + 16}">',
            f"<style>{style}</style>",
            '<marker id="tip" markerWidth="8" markerHeight="8" refX="7" refY="3" orient="auto">'
            '<path d="M0 0L7 3L0 6" style="fill:#99a"/></marker>',
            f'<rect width="{wide}" height="{y}" style="fill:white;stroke:none"/>',
            *strokes,
            *boxes,
            "</svg>",
            "",
        ]
    )


def main():
    picture = drawn()
    if sys.argv[1:] == ["--check"]:
        if not PICTURE.exists() or PICTURE.read_text() != picture:
            sys.exit("docs/families.svg does not show crates.txt: run tools/families.py")
    elif sys.argv[1:]:
        sys.exit(__doc__)
    else:
        PICTURE.write_text(picture)


if __name__ == "__main__":
    main()
