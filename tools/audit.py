#!/usr/bin/env python3
"""Tells the must-fail edits that show something from those that show nothing.

An edit is worth something where it is refused because a fact no longer holds. It shows nothing where it is refused because
the proof no longer fits the edited text: such an edit would be refused also if it meant the same. `rt must-fail` prints one line
for each edit, with the beginning of the first complaint, and a line is of one of these kinds:

- `fact`: there are values at which what is claimed is false. The edit has shown what it is for.
- `nothing`: the text or the proof does not fit the edit, or the edit was not refused or not tried. The edit has to be written
  anew, or tried again.
- `reader`: what is claimed does not follow by the step that the proof takes. That can be either, so a reader has looked at the
  edit, and its header says in plain words which fact is then false: a line `# fails: ..` above the first `file:`.

Run it at the top of the repository with --log FILE, what `rt must-fail` or `rt ci` printed: it lists the edits that show nothing,
and those whose complaint is a reader's and whose header says nothing. `make audit` does so for all of them.
With --headers no log is read: each edit must apply, as each `old:` stands in its file exactly once, and say which fact fails.
With --log FILE --kinds the kind and the complaint of each edit are listed.
"""
import pathlib
import re
import sys

LINE = re.compile(r"^rt: must-fail (\w+)/([\w.-]+)\.edit: (refused, as it must be|BAD EDIT|NOT REFUSED|NOT TRIED)( \(only [^)]*\))?:? ?(.*)")
# A crate that may not prove as it stands: then each of its edits reads as refused.
UNPROVED = re.compile(r"^rt: (\w+): the check that its must-fail edits begin with did not end well")
VERDICT = re.compile(r"^# fails: \S")


def kind_of(said, only, complaint):
    """The kind of a line, and why. A complaint is cut short, so that one that has values can read as one that has none."""
    if said != "refused, as it must be":
        return "nothing", said
    if "only because a proof file names" in only:
        return "nothing", "the proof names what the edit took away"
    if "the facts known there allow values at" in complaint:
        return "fact", "there are values at which it is false"
    return "reader", "a limit of the prover" if only else "it does not follow"


def edits():
    return sorted(p for folder in ("must-fail", "audit") for p in pathlib.Path("crates").glob(f"*/{folder}/*.edit"))


def verdict(edit):
    """Whether the header says which fact is false."""
    head = edit.read_text().split("file: ", 1)[0]
    return any(VERDICT.match(line) for line in head.splitlines())


def misfits(edit):
    """What keeps an edit from being applied."""
    crate, file, old, texts = edit.parent.parent, None, None, {}
    for line in edit.read_text().splitlines():
        if line.startswith("file: "):
            file = crate / line[6:]
            if not file.is_file():
                return f"there is no {file}"
            texts.setdefault(file, file.read_text())
        elif line.startswith("old: "):
            old = line[5:]
        elif line.startswith("new:"):
            if file is None or old is None:
                return "a `new:` without `file:` and `old:`"
            if texts[file].count(old) != 1:
                return f"its `old:` stands {texts[file].count(old)} times in {file}: {old.strip()[:60]}"
            texts[file] = texts[file].replace(old, line[4:].removeprefix(" "))
            old = None
        elif line and not line.startswith("#"):
            return f"a line that is no part of an edit: {line[:60]}"
    return None if texts else "it changes nothing"


def headers():
    bad = [(e, m) for e in edits() for m in [misfits(e) or (not verdict(e) and "it has no line `# fails: ..`")] if m]
    for edit, what in bad:
        print(f"- {edit}: {what}")
    print(f"{len(edits())} edits, {len(bad)} of them do not apply or say no fact")
    return 1 if bad else 0


def lines(log, listed):
    """Looks at each edit's line in a log."""
    counts, idle, open_ = {"fact": 0, "reader": 0, "nothing": 0}, [], []
    files = {(e.parent.parent.name, e.stem): e for e in edits()}
    text = pathlib.Path(log).read_text(errors="replace").splitlines()
    for crate, name, said, only, complaint in (found.groups("") for found in map(LINE.match, text) if found):
        edit = files.get((crate, name))
        if edit is None:
            continue
        kind, why = kind_of(said, only, complaint)
        counts[kind] += 1
        if listed:
            print(f"{kind}\t{crate}/{name}\t{why}\t{complaint}")
        if kind == "nothing":
            idle.append((crate, name, why, complaint))
        elif kind == "reader" and not verdict(edit):
            open_.append((crate, name, why, complaint))
    unproved = [found[1] for found in map(UNPROVED.match, text) if found]
    print(f"{sum(counts.values())} edits: {counts['fact']} refused at values, {counts['reader']} by a reader's verdict, {len(idle)} show nothing")
    for crate, name, why, complaint in idle:
        print(f"- {crate}/{name} shows nothing ({why}): {complaint}")
    for crate, name, why, complaint in open_:
        print(f"- {crate}/{name} has no line `# fails: ..` ({why}): {complaint}")
    for crate in unproved:
        print(f"- {crate} itself may not be proved, and then its edits show nothing: see that `rt check` passes there")
    return 1 if idle or open_ or unproved or not sum(counts.values()) else 0


def main(words):
    if words == ["--headers"]:
        return headers()
    if words[:1] == ["--log"] and words[2:] in ([], ["--kinds"]) and len(words) > 1:
        return lines(words[1], len(words) > 2)
    return __doc__


if __name__ == "__main__":
    sys.exit(main(sys.argv[1:]))
