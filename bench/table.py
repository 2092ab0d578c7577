#!/usr/bin/env python3
"""table.py WORK RUSTC: the tables, from the driver's lines, the plugin's counts and the port's object file."""

import re
import sys
from collections import Counter
from pathlib import Path

from object import Object

SMALL, LARGE = 2, 128
SIZES = (2, 8, 32, 128)
GRAPHS = (1, 2, 4, 8)
LAST_PASS = "2"

# A row is behind where the port takes more by this much; below it the two are level.
LEVEL = 1.03

# Why the port takes more than the Rust, by the letter in the tables.
REASONS = {
    "a": "The test behind 32: a public call reads the whole table and the run or the state before anything else. The Rust's types keep "
    "its graphs and runs sound, so it asks nothing.",
    "b": "A public call on one graph puts the run into words and reads it back.",
    "c": "Transitions are looked for from the first to the last, and where none fits all are passed over. The Rust has those of each "
    "location apart, and finds an action among them by halving.",
    "d": "Entry k is looked for from the first entry on, for each k anew. The Rust's iterator goes on where it was.",
    "e": "A system's step answers with an event that has room for four values, and writes it whole, also where there is none: some 50.",
    "f": "The time and the clocks of all graphs are asked first whether they pass the last time (26). The Rust does not ask.",
    "g": "The clocks after an action's resets are put into words of their own before a transition is looked for.",
    "h": "A message is handed by value, its four places taken apart and put together from the graph to the queue and the event.",
    "i": "A building call asks the test behind 32 of all that was built before it, and a transition that is put in its place moves the "
    "rows of all later ones.",
}

# Of each row the letters that may hold for the inner call; c holds from some size on, e for systems.
INNER = {
    "step": "ce",
    "step by EPSILON": "ce",
    "refused 8, no candidate": "ceg",
    "refused 8, by a limit": "ce",
    "wait, with an invariant": "f",
    "wait, without": "f",
    "wait refused 9": "f",
    "`can_wait`": "f",
    "`is_waiting`, yes": "c",
    "`is_waiting`, no": "c",
    "listing, first entry": "c",
    "listing, all entries and the end": "cd",
    "send": "eh",
    "receive": "eh",
    "refused 20, a full queue": "e",
    "refused 21, an empty queue": "e",
}

STEPS = ["new", "step", "step by EPSILON", "refused 8, no candidate", "refused 8, by a limit", "wait, with an invariant", "wait, without",
         "wait refused 9", "`can_wait`", "`is_waiting`, yes", "`is_waiting`, no", "listing, first entry",
         "listing, all entries and the end"]
TALKS = ["send", "receive", "refused 20, a full queue", "refused 21, an empty queue"]
AT_THE_END = ["step", "step by EPSILON", "refused 8, no candidate", "`is_waiting`, yes", "listing, all entries and the end"]
LATER = ["building", "test of the table", "test behind 32"]

NAMES = {"new": {"graph": "a fresh run", "system": "a fresh state"}}


def shown(number):
    return "" if number is None else f"{number:,}"


class Counts:
    """What each stretch of the last time through took, less what an export takes that only hands on."""

    def __init__(self, work, port):
        told = [line.split("\t") for line in (work / "lines").read_text().splitlines()]
        self.used = {tuple(words[1:-1]): int(words[-1]) for words in told if words[0] == "used"}
        lines = [words for words in told if words[0] != "used"]
        counts = [tuple(map(int, line.split())) for line in (work / "counts").read_text().splitlines()]
        if len(lines) != len(counts):
            sys.exit(f"{len(lines)} stretches were named and {len(counts)} counted")
        self.all = {}
        for (layer, family, graphs, transitions, row, side, time, called, times), (count, stack) in zip(lines, counts):
            if time == LAST_PASS and row:
                own = port.handing_on(called) * int(times)
                self.all[layer, family, int(graphs), int(transitions), row, side] = count - own, stack
        self.rust = any(key[-1] == "rust" for key in self.all)

    def of(self, layer, family, graphs, transitions, row, side):
        count = self.all.get((layer, family, graphs, transitions, row, side))
        return None if count is None else count[0]

    def deepest(self, layer, side):
        return max((count[1], key[4]) for key, count in self.all.items() if key[0] == layer and key[-1] == side)


def is_behind(port, rust):
    return None not in (port, rust) and port > LEVEL * rust


def ratio(port, rust):
    if port is None or rust is None:
        return ""
    times = f"{port / rust:.2f}" if port < 10 * rust else f"{port / rust:,.0f}"
    return f"**{times}**" if is_behind(port, rust) else times


def reasons(layer, transitions, row, inner, public, rust):
    """The letters of a row: those of the inner call where it is behind, and of the public one where that is."""
    letters = set()
    if is_behind(inner, rust):
        letters |= set(INNER[row])
        if transitions == SMALL:
            letters -= {"c"}
        if layer == "graph":
            letters -= {"e"}
        assert letters, f"no reason why {row} is behind"
    if is_behind(public, rust):
        letters |= {"i"} if row == "building" else {"a"} if row == "new" or layer == "system" else {"a", "b"}
    return ", ".join(sorted(letters))


def rows_of(layer, transitions):
    yield from (("steps", row) for row in STEPS)
    if transitions == LARGE:
        yield from (("steps at the end", row) for row in AT_THE_END)
    yield from (("talks", row) for row in TALKS)
    for row in LATER:
        yield from ((family, row) for family in ("steps", "talks"))


def name(layer, family, row):
    row = NAMES.get(row, {}).get(layer, row)
    if row in LATER or family == "steps at the end":
        return f"{row}, {'at the last locations' if family == 'steps at the end' else 'of what ' + family}"
    return row


def calls(counts, layer, graphs, transitions):
    head = ["Call", "Inner", "Public"] + (["The Rust", "Inner : Rust", "Public : Rust", "Why"] if counts.rust else [])
    yield "| " + " | ".join(head) + " |"
    yield "|" + "---|" * len(head)
    for family, row in rows_of(layer, transitions):
        inner, public, rust = (counts.of(layer, family, graphs, transitions, row, side) for side in ("inner", "public", "rust"))
        if inner is None and public is None:
            continue
        cells = [name(layer, family, row), shown(inner), shown(public)]
        if counts.rust:
            why = reasons(layer, transitions, row, inner, public, rust)
            cells += [shown(rust), ratio(inner, rust), ratio(public, rust), why]
        yield "| " + " | ".join(cells) + " |"


def growth(counts, layer, sizes, of, rows, more):
    """How rows grow: the inner call, or the public one where there is no inner, and the Rust beside it."""
    sides = ["port", "the Rust"] if counts.rust else ["port"]
    head = ["Call"] + [f"{side}, {size}" for side in sides for size in [*map(str, sizes), more]]
    yield "| " + " | ".join(head) + " |"
    yield "|" + "---|" * len(head)
    for family, row in rows:
        cells = [name(layer, family, row)]
        for side in sides:
            kinds = ("rust",) if side == "the Rust" else ("inner", "public")
            found = [next((n for n in (of(family, row, size, kind) for kind in kinds) if n is not None), None) for size in sizes]
            cells += map(shown, found)
            if None in found:
                cells.append("")
            else:
                grown = (found[-1] - found[-2]) / (sizes[-1] - sizes[-2])
                cells.append(f"{grown:,.1f}".removesuffix(".0"))
        yield "| " + " | ".join(cells) + " |"


def expressions(counts):
    found = {(key[1], key[3]): counts.of(*key[:4], "evaluate", "public") for key in counts.all if key[4] == "evaluate"}
    first = found["none", 0]
    yield "| Expression | Items | `evaluate` | An item, above the call | `type_of` |"
    yield "|---|---|---|---|---|"
    for (text, items), count in found.items():
        kind = counts.of("expressions", text, 0, items, "type_of", "public")
        yield f"| {text} | {items} | {count} | {f'{(count - first) / items:.0f}' if items else ''} | {kind} |"


def used(counts):
    yield "| Table | Used words | Instructions | A used word |"
    yield "|---|---|---|---|"
    for (layer, family, graphs, transitions, row), words in counts.used.items():
        count = counts.of(layer, family, int(graphs), int(transitions), row, "public")
        if family != "steps at the end":
            many = "a graph" if layer == "graph" else "a system of 1 graph" if graphs == "1" else f"a system of {graphs} graphs"
            yield f"| {many} of {transitions} transitions that {family} | {words:,} | {count:,} | {count / words:.1f} |"


PARTS = [
    ("expressions", "e"),
    ("building a graph", "g"),
    ("running a graph", "p"),
    ("building a system", "s"),
    ("running a system", "t"),
    ("all public calls", "egpst"),
]
# An export has the code of the calls that the compiler put into it: it counts for the crate whose calls it makes.
CRATES = {"e": "grammar", "g": "graph_builder", "p": "program_graph", "i": "program_graph", "s": "system_builder", "t": "channel_system",
          "u": "channel_system"}


def exports(port, letters):
    return [name for name in port.frame if re.fullmatch(f"bench_[{letters}]_\\w+", name)]


def code(port):
    yield "| Public calls | Bytes of code | Deepest stack | By |"
    yield "|---|---|---|---|"
    for part, letters in PARTS:
        names = exports(port, letters)
        deepest, chain = max(port.deepest(name) for name in names)
        path = " > ".join(f"`{name}`" for name in chain[1:])
        yield f"| {part} | {port.bytes_of(port.reached(names)):,} | {deepest:,} | {path or chain[0].removeprefix('bench_')} |"


def by_crate(port):
    sums = Counter()
    for name in port.reached(exports(port, "egpst")):
        export = re.fullmatch(r"bench_([a-z])_\w+", name)
        crate = CRATES[export[1]] if export else name.split("::")[0]
        sums["handed in" if crate.startswith("bench") else crate] += port.size.get(name, 0)
    yield "| Crate | Bytes |"
    yield "|---|---|"
    yield from (f"| `{crate}` | {size:,} |" for crate, size in sums.most_common() if crate != "handed in")


def behind(counts):
    """How many rows are behind, and which are not."""
    for layer, graphs, title in (("graph", 1, "One graph"), ("system", 4, "Four graphs")):
        for transitions in (SMALL, LARGE):
            for side in ("inner", "public"):
                rows = []
                for family, row in rows_of(layer, transitions):
                    port, rust = (counts.of(layer, family, graphs, transitions, row, who) for who in (side, "rust"))
                    if None not in (port, rust):
                        rows.append((is_behind(port, rust), name(layer, family, row)))
                others = [row for late, row in rows if not late]
                said = f"- {title} of {transitions} transitions, {side} calls: {len(rows) - len(others)} of {len(rows)} rows are behind the Rust"
                yield said + (f". The others: {'; '.join(others)}." if others else ".")


def main():
    work, rustc = Path(sys.argv[1]), sys.argv[2]
    port = Object(work / "port.o")
    counts = Counts(work, port)
    out = ["# Instructions, bytes of code and stack", ""]
    out.append("Written by `bench/run --write`; bench/README.md says what is counted and how." +
               (f" The Rust by rustc {rustc}." if counts.rust else " The Rust's text was not at hand, so its columns are missing."))
    if counts.rust:
        out.append("A ratio in bold is a row that is behind: the port takes over 3 % more than the Rust. The letters say why.")
    for layer, graphs, title in (("graph", 1, "One graph"), ("system", 4, "Four graphs")):
        for transitions in (SMALL, LARGE):
            out += ["", f"## {title} of {transitions} transitions{' each' if graphs > 1 else ''}", ""]
            out += calls(counts, layer, graphs, transitions)
    if counts.rust:
        out += ["", "## Why a row is behind", ""]
        out += [f"- **{letter}** {text}" for letter, text in REASONS.items()]
        out += [""]
        out += behind(counts)
    out += ["", "## With the number of graphs, of 2 transitions each", ""]
    out.append("Inner calls, and public ones where there is no inner. What one more takes is between the last two sizes.")
    out.append("")
    out += growth(counts, "system", GRAPHS, lambda family, row, graphs, side: counts.of("system", family, graphs, SMALL, row, side),
                  [("steps", row) for row in STEPS] + [("talks", row) for row in TALKS] + [("steps", "building"), ("steps", "test behind 32"),
                                                                                         ("talks", "test behind 32")], "a graph more")
    out += ["", "## With the number of transitions, of one graph", ""]
    out.append("Two transitions are one at each of two locations; from 8 on there are four at each location.")
    out.append("")
    out += growth(counts, "graph", SIZES, lambda family, row, n, side: counts.of("graph", family, 1, n, row, side),
                  [("steps", row) for row in STEPS] + [("steps at the end", row) for row in AT_THE_END] + [("talks", row) for row in TALKS[:2]] +
                  [("steps", "building"), ("steps", "test of the table"), ("steps", "test behind 32")], "a transition more")
    out += ["", "## The test behind 32, by what is used", ""]
    out.append("Of a graph its table, of a system its table and a fresh state.")
    out.append("")
    out += used(counts)
    out += ["", "## Expressions", ""]
    out += expressions(counts)
    out += ["", "## Code and stack of the port", ""]
    out.append(f"In bytes, for x86-64. Read-only data: {port.data:,}. The stack is computed from the machine code, for any call with any words.")
    out.append("")
    out += code(port)
    out.append("")
    out.append("By the crate in which the code stands; what the compiler put in place of a call counts where it was put.")
    out.append("")
    out += by_crate(port)
    out += ["", "The deepest stack that was measured, in bytes below the caller:", ""]
    sides = ["inner", "public"] + (["rust"] if counts.rust else [])
    out += ["| Layer | Inner | Public |" + (" The Rust |" if counts.rust else ""), "|" + "---|" * (1 + len(sides))]
    for layer, title in (("graph", "one graph"), ("system", "a system")):
        cells = [f"{depth:,} ({row})" for depth, row in (counts.deepest(layer, side) for side in sides)]
        out.append(f"| {title} | " + " | ".join(cells) + " |")
    print("\n".join(out))


main()
