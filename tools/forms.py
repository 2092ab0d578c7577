"""Counts the places in crates/*/src that keep older forms, by the eight points of docs/DESIGN-PASS.md.

    python3 tools/forms.py [--list POINT] [ROOT]
"""
import collections
import os
import re
import sys

TOKEN = re.compile(r"[A-Za-z_]\w*|\d\w*|b?'(?:\\.|[^'\\])'|b?\"(?:\\.|[^\"\\])*\"|::|->|=>|[-+*/%&|^!=<>]=|&&|\|\||<<|>>|\.\.=?|\S")
KEYWORDS = set("fn pub let mut if else match return for in while loop break continue as struct enum impl self Self true false const use crate move ref where u8 u32 u64 usize i32 bool".split())
# The variants that say "nothing" or "refused".
NOTHING = set("Bad Refused NoValue End Nothing Plain IllTyped Past".split())


def sources(root):
    for folder, folders, files in os.walk(os.path.join(root, "crates")):
        folders[:] = sorted(f for f in folders if f not in ("out", "target", "proofs", "specs", "must-fail"))
        for f in sorted(files):
            if f.endswith(".rt") and os.sep + "src" in folder:
                path = os.path.join(folder, f)
                yield os.path.relpath(path, root), re.sub(r"//[^\n]*", lambda m: " " * len(m.group(0)), open(path).read())


def closing(s, i):
    depth = 0
    for j in range(i, len(s)):
        depth += s[j] in "{(["
        depth -= s[j] in "})]"
        if depth == 0:
            return j
    return len(s) - 1


def line(s, i):
    return s.count("\n", 0, i) + 1


class Function:
    def __init__(self, path, s, m):
        self.path, self.name, self.at = path, m.group(1), line(s, m.start())
        i = s.index("(", m.end(1))
        j = closing(s, i)
        self.params = [re.sub(r"\s+", " ", p).strip() for p in re.split(r",(?![^<\[(]*[>\])])", s[i + 1:j]) if p.strip()]
        k = j + 1
        self.clauses = []
        while True:
            c = re.compile(r"[^{]*?\b(requires|ensures)\b[^{]*").match(s, k)
            if not c or ";" in c.group(0):
                break
            e = closing(s, c.end())
            self.clauses.append((c.group(1), re.sub(r"\s+", " ", s[c.end() + 1:e]).strip()))
            k = e + 1
        b = s.find("{", k)
        e = closing(s, b)
        self.body = s[b + 1:e]
        self.start = b + 1


def functions(path, s):
    for m in re.finditer(r"\bfn (\w+)", s):
        if s.find("(", m.end()) < 0:
            continue
        yield Function(path, s, m)


def blocks(s, word):
    for m in re.finditer(r"\b%s (\w+)[^{;(]*\{" % word, s):
        yield m.group(1), line(s, m.start()), s[m.end():closing(s, m.end() - 1)]


def own_enums(path, s):
    for name, at, body in blocks(s, "enum"):
        names = re.findall(r"^\s*([A-Z]\w*)", body, re.M)
        # What stands behind `Err` is no answer of its own.
        if NOTHING & set(names) and not name.endswith(("Error", "Fault")):
            yield at, "enum " + name


def flags(path, s):
    for name, at, body in blocks(s, "struct"):
        fields = re.findall(r"(\w+): ([^,\n]+)", body)
        if len(fields) > 1 and any(n in ("answer", "found", "known") or t.strip() in ("bool", "Done", "Evaluated", "Typed", "Placed") for n, t in fields):
            yield at, "struct " + name


def passed_on(path, s):
    for m in re.finditer(r"if let [\w:]+\((\w+)\) = [^{;]*\{\s*return [\w:]+\(\1\);\s*\}", s):
        yield line(s, m.start()), "an error passed on by hand"


def numbered(path, s):
    if "layout" in path or "sizes" in path:
        return
    for m in re.finditer(r"^(?:pub )?const ([A-Z_]+): u(?:8|32|64) = \d+;", s, re.M):
        yield line(s, m.start()), "const " + m.group(1)


def by_hand(path, s):
    for m in re.finditer(r"\b(while|loop)\b[^{;]*\{", s):
        yield line(s, m.start()), "while"
    for m in re.finditer(r"\bfor (\w+) in ([^{]*?)\.\.([^{]*?)\{", s):
        body = s[m.end():closing(s, m.end() - 1)]
        i = m.group(1)
        if ".rev()" in m.group(3) and not re.search(r"\[[^\]]*\b%s\b" % i, body):
            continue
        indexed = re.search(r"\[[^\]]*\b%s\b[^\]]*\]" % i, body)
        scan = re.search(r"return (true|false);", body) and len(re.findall(r";", body)) <= 1
        if indexed or scan or ".len()" in m.group(3):
            yield line(s, m.start()), "for, " + ("an index" if indexed else "a scan" if scan else "a length")


def conversions(path, s):
    for f in functions(path, s):
        m = re.fullmatch(r"\s*match [^{]*\{(.*)\}\s*", f.body, re.S)
        if not m:
            continue
        arms = [a for a in re.split(r",\s*\n", m.group(1)) if "=>" in a]
        plain = [a for a in arms if re.match(r"\s*[\w:| ()]+ => [\w:]+(\([\w:]*\))?,?\s*$", a)]
        if len(arms) >= 3 and len(plain) == len(arms):
            yield f.at, "fn " + f.name
    for m in re.finditer(r"\bfn (same\w*|equal\w*|is_same\w*)\b", s):
        yield line(s, m.start()), "fn " + m.group(1)


def buffers(path, s):
    for name, at, body in blocks(s, "struct"):
        if re.search(r": \[[^\]]*\]", body) and re.search(r"\b(count|n|len|processes|variables|clocks): usize", body):
            yield at, "struct " + name


def switches(path, s):
    for m in re.finditer(r"\bmatch [^{;]*\{", s):
        body = s[m.end():closing(s, m.end() - 1)]
        calls = re.findall(r"=> (?:\{\s*)?([a-z_:]+)\(([^()]*)\)", body)
        if len(calls) >= 3 and len({c[1] for c in calls}) == 1 and len({c[0] for c in calls}) == len(calls):
            yield line(s, m.start()), "match over %d calls" % len(calls)


def shape(f):
    return " ".join(t if t in KEYWORDS or not re.match(r"[\w\"'b]", t) else "_" for t in TOKEN.findall(f.body))


def twins(root):
    groups = collections.defaultdict(list)
    for path, s in sources(root):
        for f in functions(path, s):
            k = shape(f)
            if len(k.split()) >= 25:
                groups[k].append(f)
    for k, fs in groups.items():
        if len(fs) > 1:
            for f in fs[1:]:
                yield f.path, f.at, "fn %s, of the shape of %s (%s)" % (f.name, fs[0].name, fs[0].path)


def together(root):
    sets = collections.defaultdict(set)
    facts = collections.defaultdict(set)
    for path, s in sources(root):
        crate = path.split(os.sep)[1]
        for f in functions(path, s):
            ps = [p for p in f.params if ":" in p]
            if len(ps) >= 3:
                for i in range(len(ps) - 2):
                    sets[crate, tuple(ps[i:i + 3])].add((path, f.at))
            for kind, text in f.clauses:
                if kind == "requires":
                    for part in text.split(" × "):
                        facts[crate, part.strip("() ")].add((path, f.at))
    for (crate, ps), where in sorted(sets.items()):
        if len(where) >= 3:
            yield "crates/" + crate, len(where), "parameters %s" % ", ".join(ps)
    for (crate, part), where in sorted(facts.items()):
        if len(where) >= 3:
            yield "crates/" + crate, len(where), "fact %s" % part


def answers(root):
    for folder, folders, files in os.walk(os.path.join(root, "crates")):
        folders[:] = [f for f in folders if f not in ("out", "target")]
        for f in files:
            if f in ("Answers.antt", "Invariants.antt"):
                path = os.path.join(folder, f)
                yield os.path.relpath(path, root), 0, "%d lines" % len(open(path).read().split("\n"))


POINTS = {
    "1 own Option and Result": own_enums, "1 a flag beside a value": flags, "1 an error passed on by hand": passed_on, "1 numbers for kinds": numbered,
    "2 twins": twins, "3 loops by hand": by_hand, "4 conversions by hand": conversions, "5 facts and parameters together": together,
    "6 buffers with a length": buffers, "7 switches on a step": switches, "8 files of answers": answers,
}


def main():
    args = sys.argv[1:]
    listed = args[args.index("--list") + 1] if "--list" in args else None
    rest = [a for i, a in enumerate(args) if a != "--list" and (i == 0 or args[i - 1] != "--list")]
    root = rest[0] if rest else "."
    for name, find in POINTS.items():
        if find in (twins, together, answers):
            found = list(find(root))
        else:
            found = [(path, at, what) for path, s in sources(root) for at, what in find(path, s)]
        if listed is None or name.startswith(listed):
            print("%5d  %s" % (len(found), name))
        if listed is not None and name.startswith(listed):
            for path, at, what in found:
                print("       %s:%s: %s" % (path, at, what))


main()
