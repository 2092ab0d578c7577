#!/usr/bin/env python3
"""Each must-fail edit names files of its crate, and each old text stands in its file exactly once. Else: the edit's name, and status 1."""
import pathlib
import sys


def fault(edit):
    """What is wrong with an edit, or None. A `file:` line holds for the `old:` lines after it, and each pair is read in what the pairs before it made."""
    path, old, pairs, texts = None, None, 0, {}
    for line in edit.read_text().split("\n"):
        if line.startswith("file: "):
            path = edit.parent.parent / line[6:]
            if not path.is_file():
                return f"there is no {line[6:]}"
            texts.setdefault(path, path.read_text())
        elif line.startswith("old: "):
            if path is None:
                return "it names no file"
            if old is not None:
                return "an old text has no new one"
            old = line[5:]
            times = texts[path].count(old)
            if times != 1:
                return f"its old text stands {times} times in {path}"
        elif line.startswith("new: "):
            if old is None:
                return "a new text has no old one"
            if line[5:] == old:
                return "its new text is the old one"
            texts[path] = texts[path].replace(old, line[5:])
            old, pairs = None, pairs + 1
    if old is not None:
        return "an old text has no new one"
    return None if pairs else "it has no old text"


edits = sorted(pathlib.Path("crates").glob("*/must-fail/*.edit"))
faults = [(edit, why) for edit in edits if (why := fault(edit))]
for edit, why in faults:
    print(f"{edit}: {why}", file=sys.stderr)
if faults:
    sys.exit(1)
print(f"{len(edits)} must-fail edits apply")
