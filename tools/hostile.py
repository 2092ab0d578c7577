#!/usr/bin/env python3
"""Puts hostile lines to `calls` and looks at the words before and after each call.

    tools/hostile.py [--port COMMAND] [--rounds N] [--seed S]

Each round builds a system and makes its state, then spoils words of both (`poke s`, `poke t`), hands over tables that have changed under
their state, and makes calls with any numbers. A refusal, and a call that only reads, has to leave every word; no call may write a table by
running, or a state by building; every line has to be answered. The lines are put twice: the second time the sum of a table's or a state's words is
asked before and behind each row of calls that have to leave it, and the two have to be the same. Rounds follow each other on the same words, so
that each finds what others left. The last line says how many calls there were.
"""
import argparse
import collections
import random
import subprocess
import sys

WORDS = 375434
STATE = 1417
GRAPH_START, GRAPH_WORDS = 58, 46922
LAST = 2**32 - 1
TOGETHER = 50
READERS = ("can", "waiting", "list", "pg", "solo", "time", "run", "queue", "show", "build", "capacity")


def number(chance):
    """A number of a part, mostly a small one."""
    return chance.choice([0, 0, 0, 1, 1, 2, 3, 7, 8, 31, 32, 255, LAST - 1, LAST])


def word(chance):
    """Any word, mostly one that is a count, a kind or an edge."""
    few = [0, 1, 2, 3, 4, 5, 7, 8, 16, 64, 65, 255, 256, 257, 259, 260, 2**31, LAST, LAST + 1, 2**63, 2**64 - 1]
    return chance.choice(few) if chance.random() < 0.8 else chance.getrandbits(64)


def place_of_table(chance):
    kind = chance.random()
    if kind < 0.3:
        return chance.randrange(GRAPH_START)
    graph = GRAPH_START + GRAPH_WORDS * chance.choice([0, 0, 0, 1, 1, 2, 7])
    if kind < 0.5:
        return graph + chance.randrange(64)
    if kind < 0.8:
        return graph + 32 + chance.randrange(2500)
    return chance.randrange(WORDS)


def poke(chance):
    if chance.random() < 0.15:
        return f"poke s {chance.choice([0, 1])} {chance.randrange(10)}"
    if chance.random() < 0.4:
        return f"poke s {place_of_table(chance)} {word(chance)}"
    place = chance.choice([0, chance.randrange(100), chance.randrange(370, 400), chance.randrange(STATE)])
    return f"poke t {place} {word(chance)}"


def value(chance):
    return chance.choice(["b0", "b1", "i0", "i1", "i-1", "i2147483647", "i-2147483648"])


def limits(chance):
    some = [f"{chance.choice([0, 0, 0, 1, 9])} {lo} {hi}" for lo, hi in [("*", "=5"), ("=3", "*"), ("!2", "!9"), ("*", "=4000000000")]]
    return " ".join(["[", *chance.sample(some, chance.choice([0, 0, 1, 2])), "]"])


def expression(chance):
    return chance.choice(["{ v0 #1 + }", "{ #7 }", "{ t }", "{ v0 #3 < }", "{ v9 }", "{ #1 #0 / }", "{ ? }", "{ }", "{ v0 }", "{ #2147483647 v0 + }"])


def build(chance, graph):
    """The lines that make one graph: it starts, talks on the channels and waits."""
    lines = ["s graph", f"s {graph} var i{chance.choice([0, 1, 2147483647])}", f"s {graph} clock", f"s {graph} initial", f"s {graph} location [ 0 * =5 ]"]
    lines += [f"s {graph} action", f"s {graph} send 0 {{ v0 }}", f"s {graph} receive 0 0", f"s {graph} empty 0", f"s {graph} full 0"]
    lines += [f"s {graph} send 1", f"s {graph} receive 1", f"s {graph} effect 0 0 {{ v0 #1 + }}", f"s {graph} reset 0 0"]
    lines += [f"s {graph} transition {pre} {a} {post} -" for a in range(7) for pre, post in chance.sample([(0, 0), (0, 1), (1, 0), (1, 1)], 3)]
    lines += [f"s {graph} auto 1 0 {{ v0 #1000 < }} [ 0 =3 * ]"]
    return lines


def system(chance):
    lines = ["s new", f"s channel i {chance.choice(['q*', 'q2', 'q0', 'sink', 'q64'])}", f"s channel - {chance.choice(['q*', 'q2', 'sink'])}"]
    for graph in range(chance.choice([1, 1, 2, 3])):
        lines += build(chance, graph)
    return lines + ["s build", "t new"]


def posts(chance, graph):
    count = chance.choice([0, 1, 1, 1, 1, 1, 1, 2, 4, 5, 8])
    own = [chance.choice([graph, graph, graph, graph, graph, number(chance)]) for _ in range(count)]
    return "( " + "".join(f"{g}:{chance.choice([0, 1, 0, 1, number(chance)])} " for g in own) + ")"


def running(chance):
    graph = chance.choice([0, 0, 0, 1, number(chance)])
    kind = chance.random()
    if kind < 0.5:
        action = chance.choice(["e", *range(7), *range(7), number(chance)])
        owner = graph if chance.random() < 0.95 else number(chance)
        return f"t step {graph} {owner}:{action} {posts(chance, graph)} {word(chance)}"
    if kind < 0.65:
        return f"t wait {chance.choice([0, 1, 2, 5, 6, 1000, number(chance)])}"
    lines = ["t new", f"t can {number(chance)}", "t waiting", f"t list {number(chance)}", f"t pg {graph} {number(chance)}", f"t solo {graph} {number(chance)}"]
    return chance.choice([*lines, "t time", f"t run {graph}", f"t queue {number(chance)} {number(chance)}", "t show"])


def building(chance):
    g, n = chance.choice([0, 0, 1, number(chance)]), lambda: number(chance)
    lines = ["s graph", f"s channel {chance.choice(['-', 'i', 'bi', 'iiii', 'bbbbb'])} {chance.choice(['q*', f'q{n()}', 'sink'])}", f"s capacity {n()}", "s build"]
    lines += [f"s {g} var {value(chance)}", f"s {g} clock", f"s {g} action", f"s {g} send {n()} {expression(chance)}", f"s {g} receive {n()} {n()}"]
    lines += [f"s {g} empty {n()}", f"s {g} full {n()}", f"s {g} reset {n()} {n()}", f"s {g} effect {n()} {n()} {expression(chance)}"]
    lines += [f"s {g} location {limits(chance)}", f"s {g} initial {limits(chance)}", f"s {g} process {n()}", f"s {g} kind {n()}"]
    lines += [f"s {g} transition {n()} {n()} {n()} - {limits(chance)}", f"s {g} auto {n()} {n()} {expression(chance)} {limits(chance)}"]
    return chance.choice(lines)


def round_of(chance):
    """Of two systems the later stands on words of the earlier: its counts, when they are poked, mix the two."""
    lines = system(chance) if chance.random() < 0.5 else []
    lines += system(chance)
    if chance.random() < 0.3:
        lines += [poke(chance) for _ in range(chance.choice([1, 2, 20]))]
    for _ in range(30):
        if chance.random() < 0.15:
            lines.append(poke(chance))
        lines.append(running(chance) if chance.random() < 0.8 else building(chance))
    return lines


def leaves(words, line, answer):
    """Whether a line has to leave the words of the table (s) or of the state (t)."""
    first, *rest = line.split()
    if line == "s new":  # starts both anew
        return False
    if first == "poke":
        return rest[0] != words
    if first != words:
        return True
    return not answer.startswith("ok") or rest[0] in READERS or rest[-2:-1] == ["kind"]


def answers(port, lines):
    told = subprocess.run(port.split(), input="".join(f"{line}\n" for line in lines), capture_output=True, text=True, check=False)
    if told.returncode != 0:
        sys.exit(f"it ended with {told.returncode} on:\n" + "\n".join(lines))
    if len(told.stdout.splitlines()) != len(lines):
        sys.exit("it stopped at a line of:\n" + "\n".join(lines))
    return told.stdout.splitlines()


def with_sums(lines, told):
    """The lines, with a sum where a row of those that have to leave its words begins and where it ends."""
    left = {words: [leaves(words, *pair) for pair in zip(lines, told)] for words in "st"}
    out = []
    for at, line in enumerate(lines):
        out.append(line)
        out += [f"sum {words}" for words in "st" if at + 1 == len(lines) or left[words][at] != left[words][at + 1]]
    return out, left


def look(port, lines, counts):
    told = answers(port, lines)
    put, left = with_sums(lines, told)
    again = answers(port, put)
    if [answer for line, answer in zip(put, again) if not line.startswith("sum")] != told:
        sys.exit("it answered otherwise when it was asked for sums:\n" + "\n".join(put))
    at, sums = -1, {"s": None, "t": None}
    for line, answer in zip(put, again):
        if not line.startswith("sum"):
            at += 1
            continue
        words = line[-1]
        if left[words][at] and sums[words] not in (None, answer):
            sys.exit(f"up to line {at + 1} a call changed words of {words} that it has to leave:\n" + "\n".join(lines[: at + 1]))
        sums[words] = answer
    for line, answer in zip(lines, told):
        if not line.startswith("poke"):
            counts[" ".join(answer.split()[:2]) if answer.startswith("refused") else answer.split()[0]] += 1


def main():
    options = argparse.ArgumentParser()
    options.add_argument("--port", default="./calls")
    options.add_argument("--rounds", type=int, default=100)
    options.add_argument("--seed", type=int, default=0)
    given = options.parse_args()
    counts = collections.Counter()
    last = given.seed + given.rounds
    for seed in range(given.seed, last, TOGETHER):
        rounds = [round_of(random.Random(each)) for each in range(seed, min(seed + TOGETHER, last))]
        look(given.port, [line for lines in rounds for line in lines], counts)
    for answer, times in sorted(counts.items(), key=lambda pair: -pair[1]):
        print(f"{answer}: {times}")
    print(f"{sum(counts.values())} calls: every line was answered, and no refusal changed a word")


main()
