#!/usr/bin/env python3
"""Draws the crates and what they stand on: docs/stack.svg.

    tools/stack.py            writes the picture
    tools/stack.py --check    says whether it is the one that crates.txt gives

A crate stands in a row above all that it depends on, or in the same row to the right of it. A crate that is in no row, or a dependency that
goes upwards, is an error: the picture can't be out of date.
"""
import pathlib
import sys

TOP = pathlib.Path(__file__).resolve().parent.parent
# Rows from the ground up: a name, what it is, its crates from left to right.
ROWS = [
    ("ground", "no tables yet", ["laws", "time", "grammar"]),
    ("one graph: words", "what a table and a run say", ["graph_tables", "graph_edits", "graph_checks", "run_steps"]),
    ("one graph: calls", "build it, run it", ["graph_builder", "program_graph"]),
    ("a system: words", "channels, queues, states", ["queues", "system_tables", "system_state"]),
    ("a system: calls", "build it, run it", ["system_builder", "channel_system"]),
    ("above a system", "recordings, causes", ["recordings", "replays", "explainer"]),
    ("in users' hands", "for C and Rust", ["c_words", "export", "export_c"]),
    ("lines", "text in, answers out", ["text", "graph_text", "building_lines", "running_lines", "system_lines", "why_lines"]),
    ("programs", "run and compared", ["runner", "calls"]),
]
WIDTH, LEFT, ROW, HIGH, GAP = 860, 190, 64, 40, 12
COLOURS = ["#eceff4", "#dbeafe", "#bfdbfe", "#d1fae5", "#a7f3d0", "#fecaca", "#fde68a", "#f3e8ff", "#e9d5ff"]


def crates():
    """Each crate of crates.txt with the crates of this repository that it names: what the file does not list is the kit's."""
    found = {}
    for line in (TOP / "crates.txt").read_text().splitlines():
        line = line.split("#")[0].strip()
        if line:
            name, _, needs = line.partition(":")
            found[name.split()[0]] = needs.split()
    return {name: [need for need in needs if need in found] for name, needs in found.items()}


def look(needs):
    """Every crate has its place, and stands on what is below it or to its left."""
    place = {name: (level, at) for level, (_, _, names) in enumerate(ROWS) for at, name in enumerate(names)}
    for name in sorted(set(needs) ^ set(place)):
        sys.exit(f"tools/stack.py: {name} is {'in no row' if name in needs else 'no crate'}")
    for name, below in needs.items():
        for other in below:
            if place[other] >= place[name]:
                sys.exit(f"tools/stack.py: {name} stands on {other}, which is drawn above it")


def picture(needs):
    high = ROW * len(ROWS) + 2 * GAP
    out = [
        f'<svg xmlns="http://www.w3.org/2000/svg" viewBox="0 0 {WIDTH} {high}" font-family="Helvetica, Arial, sans-serif" role="img">',
        "<title>The crates, each above those that it stands on</title>",
        f'<rect width="{WIDTH}" height="{high}" rx="8" fill="#ffffff"/>',
    ]
    for level, (title, said, names) in enumerate(ROWS):
        top = high - GAP - ROW * (level + 1) + (ROW - HIGH) // 2
        out.append(f'<text x="16" y="{top + 17}" font-size="14" font-weight="bold" fill="#1f2937">{title}</text>')
        out.append(f'<text x="16" y="{top + 34}" font-size="12" fill="#6b7280">{said}</text>')
        wide = (WIDTH - LEFT - GAP * len(names)) / len(names)
        for at, name in enumerate(names):
            x = LEFT + at * (wide + GAP)
            out.append(f'<rect x="{x:.1f}" y="{top}" width="{wide:.1f}" height="{HIGH}" rx="6" fill="{COLOURS[level]}" stroke="#64748b"/>')
            out.append(f'<text x="{x + wide / 2:.1f}" y="{top + 25}" font-size="11" text-anchor="middle" fill="#111827" font-family="monospace">{name}</text>')
    return "\n".join([*out, "</svg>"]) + "\n"


def main():
    needs = crates()
    look(needs)
    path = TOP / "docs" / "stack.svg"
    drawn = picture(needs)
    if "--check" not in sys.argv:
        path.write_text(drawn)
    elif not path.exists() or path.read_text() != drawn:
        sys.exit("tools/stack.py: docs/stack.svg is another picture: run tools/stack.py")


main()
