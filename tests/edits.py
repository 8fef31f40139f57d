#!/usr/bin/env python3
"""Tests that every wrong body, crates/NAME/wrong/*.edit, can still be made: each text behind `old: ` is in its file exactly once, as
the pairs before it leave that file, and the pairs change something. An edit that can't be applied is refused by no check, and says
nothing any more.

    tests/edits.py [FOLDER]

prints what can't be applied, a line each, in the checkout FOLDER or in this one, and ends with status 1 if there is anything.
"""
import pathlib
import sys

ROOT = pathlib.Path(sys.argv[1] if len(sys.argv) > 1 else pathlib.Path(__file__).resolve().parent.parent)


def fault_of(edit):
    """Why an edit can't be applied, or None."""
    crate = edit.parent.parent
    texts, before = {}, {}
    path = old = function = None
    for line in edit.read_text().split("\n"):
        word, _, text = line.partition(" ")
        if word == "function:":
            function = text.strip()
        elif word == "file:":
            path, old = text.strip(), None
            if not (crate / path).is_file():
                return f"there is no {path}"
            texts.setdefault(path, (crate / path).read_text())
            before.setdefault(path, texts[path])
        elif word == "old:":
            old = text
        elif word == "new:":
            if not path or not old:
                return "a line `new:` without a line `file:` or `old:` before it"
            count = texts[path].count(old)
            if count != 1:
                return f"{path} has {count} times, and not once: {old}"
            texts[path], old = texts[path].replace(old, text), None
        elif word != "goal:" and line.strip() and not line.startswith(("#", "--", "//")):
            return f"a line that isn't read: {line}"
    if old is not None:
        return "a line `old:` without a line `new:` behind it"
    if not function:
        return "no line `function:`"
    return None if texts != before else "it changes nothing"


edits = sorted(ROOT.glob("crates/*/wrong/*.edit"))
faults = [(edit, fault) for edit in edits if (fault := fault_of(edit))]
for edit, fault in faults:
    print(f"{edit.relative_to(ROOT)}: {fault}")
print(f"edits: {len(edits)} wrong bodies, {len(faults)} to mend")
sys.exit(bool(faults) or not edits)
