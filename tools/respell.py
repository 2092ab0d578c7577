#!/usr/bin/env python3
"""Respells the project's own definitions and lemmas as today's Rattle spells them: words in snake case.

usage: tools/respell.py [--check]      at the top of a repository that port.py has turned

`wordAt` becomes `word_at`, and `all-kept` becomes `all_kept`. A lemma that would so get the name of a definition gets `_lem` behind it. Types, modules,
names of Rust, library names and strings stay. What a Proof.antt declares is turned in that file alone. It was run once (docs/PORT.md) and is kept to show
what it did; a tree in which no Proof.antt is left it leaves alone, since it would turn the names of goals too.
"""
import os
import re
import subprocess
import sys

NAME = r"[^\s(){}.;,@\"«»]+"
TOKEN = re.compile(rf"(?<![^\s(){{}}.;,@\"«»`]){NAME}")
WORDS = r"(?:pub |abbrev |unfoldable |private |data |record )*"
DECLARED = re.compile(rf"(?m)^ *{WORDS}((?:{NAME} )*?{NAME})((?: \{{[^{{}}\n]*\}}| \([^()\n]*\))*) :(?= |$)")
USE = re.compile(r"\buse ([^\s;{]+)\.\{([^}]*)\}|\buse ([^\s;{]+)(?: as (\S+?))?;?$", re.M)
OWN = None
STRING = re.compile(r'"(?:\\.|[^"\\\n])*"')


def texts():
    for folder, dirs, files in os.walk("crates"):
        dirs[:] = sorted(d for d in dirs if d != "out")
        for f in sorted(files):
            if f.endswith((".rt", ".antt")):
                yield os.path.join(folder, f)


def read(path):
    with open(path, encoding="utf-8") as f:
        return f.read()


def snake(name):
    name = re.sub(r"(?<=[a-z0-9])[A-Z]", lambda m: "_" + m[0].lower(), name)
    return name.replace("-", "_")


def own(module):
    return module.startswith("Rattle.") and module.split(".")[1] in OWN


def code(text):
    """The text without comments of antt, each blotted out."""
    return re.sub(r"(?m)(?<![^\s(){}])--.*$", lambda m: " " * len(m[0]), text)


def declared(text):
    text = code(text)
    for m in DECLARED.finditer(text):
        line = text[text.rfind("\n", 0, m.start()) + 1 : m.end()]
        for n in m[1].split():
            yield n


def wanted(n):
    return re.match(r"[a-z]", n) and "◌" not in n and (("-" in n) or re.search(r"[a-z0-9][A-Z]", n)) and "·" not in n


def main():
    global OWN
    OWN = set(os.listdir("crates"))
    check = "--check" in sys.argv[1:]
    files = {p: read(p) for p in texts()}
    if not any(p.endswith("/Proof.antt") for p in files):
        print("respell: no proof walks the code here: nothing to do", file=sys.stderr)
        return 2
    names, lent = {}, {}
    for p, t in files.items():
        if p.endswith(".antt") and not p.endswith("Proof.antt"):
            for n in declared(t):
                names.setdefault(n, set()).add(p)
        for m in USE.finditer(t if p.endswith(".rt") else code(t)):
            if m[2] and not own(m[1]):
                for it in re.split(r",\s*", m[2].strip()):
                    for w in it.split(" as "):
                        lent.setdefault(w, set()).add(p)
    table = {}
    for n in sorted(names):
        if wanted(n):
            if n in lent:
                print(f"stays: {n}, a library has it too: {sorted(lent[n])[:2]}")
                continue
            table[n] = snake(n)
    taken = {}
    for n in names:
        if n not in table:
            taken.setdefault(n, n)
    for n in lent:
        taken.setdefault(n, n)
    # Definitions first: a lemma that meets one gets another name, where it is declared and where it is imported.
    moved = {}
    for n in sorted(table, key=lambda it: ("-" in it, it)):
        there = table[n]
        if there in taken and "-" not in n and there in names:
            print(f"meets: {n} and {there}: {there}_lem for what was {there}")
            moved[there] = there + "_lem"
        elif there in taken:
            print(f"meets: {n} and {taken[there]}: {there}_lem")
            table[n] = there + "_lem"
        taken[table[n]] = n

    def local(path, text):
        """What is turned in this file alone, where no dot stands before it."""
        here = {n: snake(n) for n in declared(text) if wanted(n)} if path.endswith("Proof.antt") else {}
        imported = {w for m in USE.finditer(text) if m[2] and own(m[1]) for it in re.split(r",\s*", m[2].strip()) for w in it.split(" as ")}
        for n in moved:
            if path.endswith(".antt") and (n in imported or path in names[n]):
                here[n] = moved[n]
        return here

    for p, t in files.items():
        here = set(TOKEN.findall(code(t) if p.endswith(".antt") else STRING.sub('""', t)))
        bare = {m[0] for m in TOKEN.finditer(t) if t[m.start() - 1 : m.start()] != "."}
        for n in here & set(table):
            if table[n] in bare:
                print(f"look: {p}: {n} becomes {table[n]}, which is there")
    if check:
        return 0

    def turned(text, here={}):
        def one(m):
            if m[0] in here and text[m.start() - 1 : m.start()] != ".":
                return here[m[0]]
            return table.get(m[0], m[0])

        return TOKEN.sub(one, text)

    def outside_strings(text):
        out, at = [], 0
        for m in STRING.finditer(text):
            out += [turned(text[at : m.start()]), m[0]]
            at = m.end()
        return "".join(out + [turned(text[at:])])

    for p, t in files.items():
        new = turned(t, local(p, t)) if p.endswith(".antt") else outside_strings(t)
        if new != t:
            with open(p, "w", encoding="utf-8") as f:
                f.write(new)
    more = subprocess.run(["git", "ls-files", "crates/*.edit", "*.md"], capture_output=True, text=True).stdout.split()
    for p in more:
        t = read(p)
        new = outside_strings(t) if p.endswith(".edit") else re.sub(r"`[^`\n]*`", lambda m: turned(m[0]), t)
        if new != t:
            with open(p, "w", encoding="utf-8") as f:
                f.write(new)
    print(f"{len(table)} names")
    return 0


if __name__ == "__main__":
    raise SystemExit(main())
