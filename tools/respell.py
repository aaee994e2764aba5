#!/usr/bin/env python3
"""Respells this repository's own definitions and lemmas as today's Rattle has them: words in snake case, a dash
between two names that stand for definitions, an underscore before a plain word; fields and constructors in snake case.

usage: python3 tools/respell.py [--show]     in the repository, once, right after the kit's script

It renames what specs/ and the files of lemmas in proofs/ declare, wherever it is cited: in .antt files, in the clauses and
ghost items of .rt files, in must-fail edits and, in backticks, in README and docs/. Names of Rust's own, names that the check
makes and names of the library keep their spelling. With --show it only says what it would do, and which names fall together.
"""
import os
import re
import sys

TOKEN = re.compile(r"[^\s(){}\[\];,.\"«»|`]+")
DECLARED = re.compile(r"^(\s*)((?:unfoldable\s+|abbrev\s+|pub\s+)*)([^\s:(){}]+(?:\s+[^\s:(){}]+)*)\s+:(?:\s|$)")
BLOCK = re.compile(r"^\s*(?:pub\s+)?(data|record)\s+(\S+)")
IMPORT = re.compile(r"^\s*(?:pub\s+)?(?:ghost\s+)?use\s+(Rattle\.[^\s{;]+?)(?:\.\{([^}]*)\}|\s+as\s+(\S+?))?;?\s*$")
MADE = {"Answers.antt", "Invariants.antt", "Proof.antt"}


def files(*endings):
    for top in ("crates",):
        for d, ds, fs in os.walk(top):
            ds[:] = sorted(x for x in ds if x != "out")
            for f in sorted(fs):
                if f.endswith(endings):
                    yield os.path.join(d, f)


def read(p):
    with open(p, encoding="utf-8") as f:
        return f.read()


def declared():
    """Each declared name, and whether it is a field or a constructor somewhere."""
    names, members = {}, set()
    for p in files(".antt"):
        if os.path.basename(p) in MADE or os.path.basename(p) == "Lib.antt":
            continue
        block = None
        for line in read(p).split("\n"):
            line = re.sub(r"--.*", "", line)
            b = BLOCK.match(line)
            if b:
                block = b[1]
                names.setdefault(b[2], set()).add(p)
                continue
            m = DECLARED.match(line)
            if m:
                if not m[1]:
                    block = None
                for n in m[3].split():
                    names.setdefault(n, set()).add(p)
                    if block and m[1]:
                        members.add(n)
            elif line and not line[0].isspace():
                block = None
    return names, members


def snake(part):
    part = re.sub(r"(?<=[a-z0-9])([A-Z])(?=[a-z])", lambda m: "_" + m[1].lower(), part)
    return part


def words_of_library():
    said = set()
    for p in files(".antt", ".rt"):
        for line in read(p).split("\n"):
            m = IMPORT.match(line)
            if m and m[1].startswith("Rattle.std") and m[2]:
                said |= {w.strip() for w in m[2].split(",")}
    return said


def new_names():
    names, members = declared()
    own = {snake(n) for n in names if re.match(r"^[a-z]", n) and "-" not in n}
    words = own | words_of_library()
    to = {}
    for n in names:
        if re.match(r"^[A-Z][a-z]\w*(-[A-Za-z]\w*)+$", n) and n.split("-")[0] not in ("All", "IfOk", "Decides"):
            to[n] = "".join(x[0].upper() + x[1:] for x in n.split("-"))
            continue
        if n == "isHandle" or not re.match(r"^[a-z][A-Za-z0-9_'-]*$", n):
            continue
        if "-" not in n:
            new = snake(n)
        else:
            parts = [snake(x) for x in n.split("-")]
            new = parts[0]
            for a, b in zip(parts, parts[1:]):
                joined = n not in members and a in words and b in words
                new += ("-" if joined else "_") + b
        if new != n:
            to[n] = new
    # A lemma, or a field for one, that would have a definition's name gets `_lem`.
    taken = {new: n for n, new in to.items() if "-" not in n} | {n: n for n in names if n not in to}
    for n in sorted(names):
        new = to.get(n, n)
        first = taken.get(new)
        if first not in (None, n) and ("-" in n or first in to and n not in to):
            to[n] = new + "_lem"
        elif first not in (None, n) and n in to and "-" not in n and first not in to:
            to[first] = new + "_lem"
    for n in ("nodes-in", "properties-in"):  # ghost fields of the live store have these names
        if n in to:
            to[n] += "_lem"
    return names, to


# Facts that were spelled as words (a fact is spelled as a type), and a name given by an import.
FACTS = [
    ("crates/ledger/", r"\bpathParts\b", "path_parts"),
    ("crates/packed/", r"(?<=All )full\b|(?<=abbrev pub )full(?= :)|(?m:^full)(?= [A-Z(])|(?<=[{ ])full(?=[,}])", "IsFull"),
    ("crates/overlay_rules/", r"\bisHandle\b", "IsHandle"),
]


def spans(t, kind):
    """The parts of a text in which names are respelled: (start, end)."""
    if kind == ".antt":
        at = 0
        for line in t.split("\n"):
            end = line.find("--")
            yield at, at + (len(line) if end < 0 else end)
            at += len(line) + 1
        return
    if kind == ".md":
        for m in re.finditer(r"`[^`\n]+`", t):
            yield m.span()
        return
    if kind == ".edit":
        yield 0, len(t)
        return
    # .rt: ghost items, and what stands between the braces of clauses
    for m in re.finditer(r"\bghost use [^;]*;", t):
        yield m.span()
    for m in re.finditer(r"(?:\b(?:requires|ensures)\*?(?:\s+\w+)?\s*|\bghost(?:\s+\w+)*\s*[:=]?\s*)\{", t):
        deep, i = 0, m.end() - 1
        while i < len(t):
            deep += (t[i] == "{") - (t[i] == "}")
            i += 1
            if not deep:
                break
        yield m.end(), i


def library_names(t):
    names, aliases = set(), set()
    for line in t.split("\n"):
        m = IMPORT.match(line)
        if m and not m[1].startswith(tuple("Rattle." + c + "." for c in CRATES)):
            if m[2]:
                names |= {w.strip() for w in m[2].split(",")}
            if m[3]:
                aliases.add(m[3])
    return names, aliases


def respell(p, t, to):
    kind = os.path.splitext(p)[1]
    made = set(re.findall(r"^\s*(?:abbrev\s+)?(?:pub\s+)?(\S+) : (?:need|goal)\.\1\s*$", t, re.M))
    lib, aliases = library_names(t)
    skip = made | {n for n in lib if not re.search(r"^\s*(?:unfoldable |abbrev |pub )*" + re.escape(n) + r" :", t, re.M)}
    steps = {"c", "l", "need", "goal"} if os.path.basename(p) in MADE else set()  # what the check names
    out, done = [], 0
    for a, b in sorted(set(spans(t, kind))):
        if a < done:
            continue
        out.append(t[done:a])
        last = a
        for m in TOKEN.finditer(t, a, b):
            w = m[0]
            before = t[max(0, m.start() - 40):m.start()]
            head = re.search(r"(?:^|[\s(\[,;])([^\s(){}\[\];,.]+)\.$", before)
            if w not in to or w in skip or (head and head[1] in (steps | aliases)):
                continue
            out.append(t[last:m.start()])
            out.append(to[w])
            last = m.end()
        out.append(t[last:b])
        done = b
    out.append(t[done:])
    return "".join(out)


CRATES = [x for x in sorted(os.listdir("crates")) if os.path.isdir(os.path.join("crates", x))] if os.path.isdir("crates") else []


def main():
    names, to = new_names()
    together = {}
    for n in names:
        together.setdefault(to.get(n, n), []).append(n)
    for new, olds in sorted(together.items()):
        if len(olds) > 1:
            print("falls together:", new, "<-", ", ".join(olds), "|", ", ".join(sorted({p for o in olds for p in names[o]})))
    if "--show" in sys.argv:
        for n, new in sorted(to.items()):
            print(n, "->", new)
        return
    changed = 0
    docs = [os.path.join("docs", f) for f in sorted(os.listdir("docs")) if f.endswith(".md")] + ["README.md"]
    for p in list(files(".antt", ".rt", ".edit")) + docs:
        t = read(p)
        new = respell(p, t, to)
        for where, old, fact in FACTS:
            if p.startswith(where) and p.endswith(".antt"):
                new = re.sub(old, fact, new)
        if new != t:
            with open(p, "w", encoding="utf-8") as f:
                f.write(new)
            changed += 1
    print(len(to), "names respelled,", changed, "files changed")


if __name__ == "__main__":
    main()
