#!/usr/bin/env python3
"""Lists places in the sources that today's Rattle may say better: places.py [ROOT] [-v].

Each search prints how many places it finds; with -v the places too. It reads src/*.rt as text, and knows no types: a place
is somewhere to look, no verdict.
"""
import re
import sys
from collections import defaultdict
from pathlib import Path

args = [a for a in sys.argv[1:] if not a.startswith("-")]
ROOT = Path(args[0] if args else ".")
FILES = {p.relative_to(ROOT).as_posix(): p.read_text() for p in sorted(ROOT.glob("crates/*/src/**/*.rt"))}
FN = re.compile(r"^( *)(?:pub(?:\(crate\))? )?fn (\w+)(.*?)(?:^\1\{\}?$|;$| \{$)", re.M | re.S)
CLAUSE = re.compile(r"(?:requires|ensures)(?: \w+)? (\{.*\})$")


def line(text, at):
    return text.count("\n", 0, at) + 1


def lines(pattern, only=lambda f: True):
    """Each line that fits, as (file, line, text)."""
    fits = re.compile(pattern)
    return [(f, i, s.strip()) for f, t in FILES.items() if only(f) for i, s in enumerate(t.split("\n"), 1) if fits.search(s)]


def functions():
    """Each function, as (file, line, name, signature, body)."""
    for f, t in FILES.items():
        for m in FN.finditer(t):
            end = re.compile(r"^%s\}" % m.group(1), re.M).search(t, m.end())
            body = t[m.end() : end.start()] if end and t[m.end() - 1] in "{\n" else ""
            yield f, line(t, m.start()), m.group(2), m.group(3), body


def heads(sig):
    """The signature without its clauses."""
    return " ".join(s.strip() for s in sig.split("\n") if not CLAUSE.search(s))


def bool_for_change():
    return [(f, n, name) for f, n, name, sig, _ in functions() if "&mut " in heads(sig) and heads(sig).rstrip().endswith("-> bool")]


def same_constants():
    at = defaultdict(list)
    for f, n, s in lines(r"^(pub )?const \w+: (u8|u32|usize) ="):
        at[re.sub(r"b'/'", "47", re.sub(r"^(pub )?const \w+: ", "", s))].append((f, n, s))
    return [x for v in at.values() if len({f for f, _, _ in v}) > 1 for x in v]


def same_shape(least=14):
    """Functions that differ in names and numbers alone."""
    word = re.compile(r"[A-Za-z_]\w*|\d\w*|[^\s\w]")
    kept = {"if", "else", "for", "while", "let", "loop", "return", "match", "in", "mut", "self", "Some", "None", "Ok", "Err"}
    at = defaultdict(list)
    for f, n, name, sig, body in functions():
        w = word.findall(body)
        if len(w) >= least:
            at[" ".join(x if x in kept or not x[0].isalnum() else "x" for x in w)].append((f, n, name))
    return [x for v in at.values() if len(v) > 1 for x in v]


def in_three(at):
    """What three or more functions of a crate have, each with the first of them; a key begins with the crate."""
    return [(min(v)[0], min(v)[1], "%d functions: %s" % (len(v), ", ".join(k[1:]))) for k, v in at.items() if len(v) >= 3]


def repeated_clauses():
    at = defaultdict(set)
    for f, n, name, sig, _ in functions():
        for s in sig.split("\n"):
            m = CLAUSE.search(s)
            if m and "requires" in s:
                at[(f.split("/")[1], re.sub(r"\b(self|t|m|x|seen|counts|trail)\.(old|now)", "v", m.group(1)))].add((f, n, name))
    return in_three(at)


def travelling():
    """Two parameters that three or more functions of a crate take together."""
    at = defaultdict(set)
    for f, n, name, sig, _ in functions():
        head = heads(sig)
        inside = head[head.find("(") + 1 :]
        ps = sorted({p.strip() for p in re.findall(r"(?:mut )?(\w+: [^,()]+(?:\[[^\]]*\])?)[,)]", inside)})
        for i, p in enumerate(ps):
            for q in ps[i + 1 :]:
                at[(f.split("/")[1], p, q)].add((f, n, name))
    return in_three(at)


SEARCHES = [
    ("1 functions that only name a theorem and answer a number", lambda: lines(r"^pub fn \w+\(\) -> u8$")),
    ("1 a bool that says whether a change was made", bool_for_change),
    ("1 numbers for kinds of tokens", lambda: lines(r"^const (BEGIN|END|PROPERTY|NOP|FINISH): u32|(put|append)32\((xs, used|out|&mut self.structure), [0-9]\)")),
    ("1 verdicts and kinds as numbers in tests", lambda: lines(r"(-> .*|Option<)\(u32, usize")),
    ("1 flags beside values", lambda: lines(r"^ *(pub(\(crate\))? )?\w+: bool,|let mut \w+ = (true|false);")),
    ("2 constants that stand in two files", same_constants),
    ("2 functions of one shape", same_shape),
    ("3 loops that count or step by hand", lambda: lines(r"^\s*(while (?!let )|for \w+ in .*\.\.)")),
    ("3 loops without a head, and loops on a call that hands out", lambda: lines(r"^\s*(loop \{|while let )")),
    ("4 matches that only map an Option or a Result", lambda: lines(r"None => (Ok\((None|false|true)\)|None|false|true|0),|Err\(e\) => (Err|Some)\(e\)|(None|Err\(_\)) => (return )?Err\(")),
    ("4 order by hand", lambda: lines(r"Ordering::\w+( \| Ordering::\w+)? =>")),
    ("4 equality by hand", lambda: lines(r"Class::\w+( \| Class::\w+)? => (true|false)|^    a == b$")),
    ("4 narrowing casts of numbers", lambda: lines(r"(?<!Tag::Begin)(?<!Tag::Property)(?<!Tag::End)(?<!Tag::Nop)(?<!Tag::Finish) as u(8|16|32)\b")),
    ("4 printing by hand", lambda: lines(r"fn (push_hex|push_shown|digit)\b")),
    ("5 facts that three or more functions require", repeated_clauses),
    ("5 parameters that travel together", travelling),
    ("6 arrays and lent slices with a length beside", lambda: lines(r"^ *pub(\(crate\))? \w+: (\[\w+; \w+\]|&'a mut \[\w+\]),|used: usize, |let mut \w+ = \[0u8; \w+\];")),
    ("6 sorted lists by hand", lambda: lines(r"fn (seat|put|arrange)\b")),
    ("7 tables of functions, function pointers, dyn", lambda: lines(r"\bdyn |: \[?fn\(")),
]


def main():
    for title, search in SEARCHES:
        found = search()
        print("%4d  %s" % (len(found), title))
        if "-v" in sys.argv:
            for place in found:
                print("        %s:%s  %s" % place)


main()
