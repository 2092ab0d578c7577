#!/usr/bin/env python3
"""moved.py WAS IS: says which figures of the tables moved by more than the tolerance, and fails if one did.

The Rust's figures depend on the compiler: where the two were made by different ones, only the port's columns are compared."""

import re
import sys
from pathlib import Path

TOLERANCE = 0.01


def figures(path):
    """Each number of each table, by its section, row and column."""
    section, head, found = "", None, {}
    for line in Path(path).read_text().splitlines():
        if line.startswith("#"):
            section, head = line.strip("# "), None
        elif line.startswith("|"):
            cells = [cell.strip() for cell in line.strip("|").split("|")]
            if head is None:
                head = cells
            elif not cells[0].startswith("---"):
                for column, cell in zip(head[1:], cells[1:]):
                    number = re.match(r"\**([\d,]+(?:\.\d+)?)", cell)
                    if number:
                        found[section, cells[0], column] = float(number[1].replace(",", ""))
        else:
            head = None
    return found


def compiler(path):
    made = re.search(r"by rustc ([\d.]+)", Path(path).read_text())
    return made[1] if made else None


def main():
    was, now = map(figures, sys.argv[1:])
    same = compiler(sys.argv[1]) == compiler(sys.argv[2])
    skipped = 0
    moved = 0
    for key in [*was, *(key for key in now if key not in was)]:
        old, new = was.get(key), now.get(key)
        if not same and "Rust" in key[2]:
            skipped += 1
        elif old is None or new is None or abs(new - old) > TOLERANCE * max(old, 1):
            moved += 1
            print(f"{key[0]}: {key[1]}, {key[2]}: {'none' if old is None else f'{old:g}'}, now {'none' if new is None else f'{new:g}'}")
    if skipped:
        print(f"{skipped} figures of the Rust not compared: another compiler, or none")
    print(f"{len(was) - skipped} figures, {moved} moved by more than {TOLERANCE:.0%}")
    sys.exit(1 if moved else 0)


main()
