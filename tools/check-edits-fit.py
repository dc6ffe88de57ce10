#!/usr/bin/env python3
"""Says of each must-fail edit whether it can be applied: whether each `old:` text stands exactly once in its file.

    tools/check-edits-fit.py [NAME..]

Run at the top of the repository, for all crates or those named. The pairs of an edit are applied one after another, as `rt must-fail` does,
and nothing is written. Each pair that doesn't fit is printed with the number of places where its text stands. Ends with status 1 if there is one.
"""
import pathlib
import sys

ROOT = pathlib.Path(".")


def pairs(text):
    """The triples of an edit, in order: the file, the old text and the new one."""
    path, old = "", None
    for line in text.split("\n"):
        if line.startswith("file: "):
            path = line.removeprefix("file: ").strip()
        elif line.startswith("old: "):
            old = line.removeprefix("old: ")
        elif line.startswith("new:"):
            yield path, old, line.removeprefix("new:").removeprefix(" ")
            old = None


def misfits(edit):
    """What is wrong with an edit, a line each."""
    crate, texts, count = edit.parent.parent, {}, 0
    for path, old, new in pairs(edit.read_text()):
        count += 1
        if path not in texts:
            file = crate / path
            if not file.is_file():
                yield f"there is no file {path}"
                continue
            texts[path] = file.read_text()
        places = texts[path].count(old) if old else 0
        if places != 1:
            yield f"in {path} {places} times: {old}"
        elif old == new:
            yield f"in {path} nothing changes: {old}"
        else:
            texts[path] = texts[path].replace(old, new)
    if not count:
        yield "has no pair"


def main():
    names = sys.argv[1:]
    edits = sorted(ROOT.glob("crates/*/must-fail/*.edit"))
    edits = [it for it in edits if not names or it.parent.parent.name in names]
    bad = 0
    for edit in edits:
        wrong = list(misfits(edit))
        bad += bool(wrong)
        for it in wrong:
            print(f"{edit.parent.parent.name}/{edit.name}: {it}")
    print(f"{len(edits)} edits, {bad} that do not fit")
    return 1 if bad else 0


sys.exit(main())
