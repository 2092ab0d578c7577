#!/usr/bin/env python3
"""Runs the scripts of docs/DIFFERENCES.md through ./calls and holds each answer after `=>` to what the program says."""
import re
import subprocess
import sys
from pathlib import Path

TOP = Path(__file__).resolve().parent.parent
NUMBERS = {"eight": 8}


def scripts(page):
    """The indented blocks, each a list of (line, expected answer or None). An answer may stand on the line below its call."""
    for block in re.findall(r"(?:^ {4,}(?! ).*\n)+", page, re.M):
        script = []
        for text in block.splitlines():
            line, _, said = (part.strip() for part in text.partition("=>"))
            expected = said.split("Rust:")[0].strip() or None
            if not line:
                script[-1] = (script[-1][0], expected)
                continue
            times = re.search(r"\((\w+) times\)$", line)
            repeat = (NUMBERS.get(times[1]) or int(times[1])) if times else 1
            line = line.split("  ")[0]
            script += [(line, expected)] * repeat
        yield script


def main():
    wrong = tried = 0
    for script in scripts((TOP / "docs/DIFFERENCES.md").read_text()):
        lines = "".join(line + "\n" for line, _ in script)
        run = subprocess.run([TOP / "calls"], input=lines, capture_output=True, text=True, check=True)
        for (line, expected), answer in zip(script, run.stdout.splitlines(), strict=True):
            if answer == "bad line" or expected not in (None, answer):
                print(f"{line}: {answer}, and the page says {expected}")
                wrong += 1
            tried += expected is not None
    print(f"docs/DIFFERENCES.md: {tried} answers, {wrong} wrong")
    return 1 if wrong or not tried else 0


if __name__ == "__main__":
    sys.exit(main())
