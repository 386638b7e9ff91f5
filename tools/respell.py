#!/usr/bin/env python3
"""Respells the repository's own definitions and lemmas: words in snake case, types and modules in upper camel case.

usage: python3 tools/respell.py [--check]     at the top, once, right after port.py

A name is turned if it is declared in a file of specs/ or proofs/ (a definition, lemma, field, constructor or helper, or
a name that `let` binds) and has a dash or, behind a small letter, a capital. A dash becomes '_', also behind a type
(`Kept-best` becomes `Kept_best`); a capital behind a small letter in a name that begins small becomes '_' and the small
letter. Names that today's library declares keep their spelling, and so do functions of src/, strings, inputs and outputs.
In .rt files only clauses and `ghost use` items are turned, in pages (.md) and comments only what is spelled alike as a
whole word and is no word of plain text (it has a dash or a capital inside).
--check prints the names, those that would fall together, and writes nothing.
"""

import collections
import glob
import re
import sys

WORD = re.compile(r"[^\s(){}.;,@\"«»`]+")
DECLARED = re.compile(
    r"^\s*(?:(?:abbrev|unfoldable|pub|data|record|mutual|where) )*([^\s:(){}=]+)(?: [({\[].*?[)}\]]| ℓ| \{ℓ\})* :(?:\s|$)"
)
ONE_LINE = re.compile(r"(?:where|record \{|;)\s+(?:pub )?([^\s:(){}=]+) :\s")
LET = re.compile(r"\blet ([^\s:(){}=]+) (?::|=)")
ALIAS = re.compile(r"\bas ([^\s:(){}=;,]+)")
SPAN = re.compile(r"`[^`\n]+`")


def texts(*patterns):
    for p in patterns:
        for f in sorted(glob.glob(p, recursive=True)):
            if "/out/" not in f:
                yield f, open(f, encoding="utf-8").read()


def turned(name):
    out = name.replace("-", "_")
    if out[0].islower():
        out = re.sub(r"([a-z0-9])([A-Z])(?=[a-z]|$|_|[A-Z])", lambda m: m[1] + "_" + m[2].lower(), out)
    return out


# Names that would fall together: a lemma with its function's name gets `_lem`, and these three the word that their left side has.
APART = {
    "column-of": "column_of_lem",
    "ends-path": "ends_path_lem",
    "every-bool": "every_bool_lem",
    "every-mark": "every_mark_lem",
    "every-thing": "every_thing_lem",
    "every-three": "every_three_lem",
    "graph-of": "graph_of_lem",
    "in_reach": "in_reach_lem",
    "quad_at": "quad_at_lem",
    "row-edge": "row_edge_lem",
    "run-tries": "run_tries_lem",
    "same-repair": "same_repair_lem",
    "threshold-off": "threshold_off_lem",
    "too_short": "too_short_lem",
    "is_free": "is_free_lem",
    "bit-and": "bit_of_and",
    "bit-or": "bit_of_or",
    "bit-xor": "bit_of_xor",
}


def own():
    names = collections.defaultdict(set)
    for f, t in texts("crates/*/specs/**/*.antt", "crates/*/proofs/**/*.antt"):
        if f.endswith("/Proof.antt"):
            continue
        for line in t.split("\n"):
            for m in [DECLARED.match(line)] + list(ONE_LINE.finditer(line)) + list(LET.finditer(line)):
                if m:
                    names[m[1]].add(f)
    return names


def library():
    """The names that our files import from the library: they stay."""
    kept = set()
    for f, t in texts("crates/**/*.antt", "crates/**/*.rt"):
        for m in re.finditer(r"use ((?:Rattle\.std|native|lib|borrow|mathlib|Prim|denote|seplogic)\S*?)\.\{([^}]*)\}", t):
            for w in m[2].split(","):
                kept |= set(w.split(" as ")[0].split())
    return kept


def table():
    kept = library()
    names = {n: APART.get(n, turned(n)) for n in own() if n not in kept and not re.search(r"[◌≡→λ∀]", n)}
    return {old: new for old, new in names.items() if new != old}


def behind(names):
    """What port.py turned itself, for the pages and edits, which it leaves: a word there whose turned form is declared now."""
    now = {names.get(n, n) for n in own()}
    out = dict(names)
    for _, t in texts("crates/**/*.edit", "README.md", "docs/**/*.md", "samples/*.md", "tests/**/*.md"):
        for w in WORD.findall(t):
            w = w.rstrip("'") if w.rstrip("'") else w
            if turned(w) in now and w not in names:
                out[w] = turned(w)
    return out


def words(names, text):
    return WORD.sub(lambda m: names.get(m[0], m[0]), text)


# Goals' names and steps in a proof that walks the code by hand are Rattle's, and are turned with that proof.
MADE = re.compile(r"(?:\btie|\bc|\bgoal)(?:\.[^\s(){};,]+)+")


def antt(names, text):
    out, at = [], 0
    for m in MADE.finditer(text):
        out.append(words(names, text[at : m.start()]))
        parts = m[0].split(".")
        out.append(".".join(parts[:1] + [names.get(w, w) if parts[0] == "c" and i > 1 else w for i, w in enumerate(parts[1:], 1)]))
        at = m.end()
    return "".join(out) + words(names, text[at:])


RUST = re.compile(
    r"(?P<ghost>ghost\s+use\b[^;]*;|(?:requires|ensures)\s*\*?\s*(?:\w+\s*)?\{|#\[tactic[^\]]*\])|(?P<note>//[^\n]*)|(?P<text>[bc]?\"(?:\\.|[^\"\\])*\")"
)


def rust(names, text):
    out, at = [], 0
    while True:
        m = RUST.search(text, at)
        if not m:
            return "".join(out) + text[at:]
        out.append(text[at : m.start()])
        end = m.end()
        if m["ghost"] and m["ghost"].endswith("{"):
            deep = 1
            while deep:
                deep += {"{": 1, "}": -1}.get(text[end], 0)
                end += 1
        piece = text[m.start() : end]
        out.append(words(names, piece) if m["ghost"] else prose(names, piece) if m["note"] else piece)
        at = end


def prose(names, text):
    return WORD.sub(lambda m: names.get(m[0], m[0]) if re.search(r"[a-z0-9][-A-Z]", m[0]) else m[0], text)


def page(names, text):
    return SPAN.sub(lambda m: "`" + words(names, m[0][1:-1]) + "`", text)


def edit(names, text):
    return "\n".join(words(names, l) if re.match(r"(old|new):", l) else prose(names, l) if l.startswith("#") else l for l in text.split("\n"))


def main():
    names = table()
    check = "--check" in sys.argv
    back = collections.defaultdict(list)
    for old, new in names.items():
        back[new].append(old)
    there = collections.Counter()
    for f, t in texts("crates/**/*.antt"):
        there.update(WORD.findall(t))
    for new, olds in sorted(back.items()):
        if len(olds) > 1 or there[new]:
            print("falls together:", new, "of", ", ".join(olds), f"({there[new]} there)")
    if check:
        for old in sorted(names):
            print(old, names[old], sep="\t")
        return
    n, late = 0, behind(names)
    for patterns, turn in [
        (["crates/**/*.antt"], antt),
        (["crates/**/*.rt"], rust),
        (["crates/**/*.edit"], edit),
        (["README.md", "docs/**/*.md", "samples/*.md", "tests/**/*.md"], page),
    ]:
        for f, t in texts(*patterns):
            new = turn(late if f.endswith((".edit", ".md")) else names, t)
            if new != t:
                n += 1
                open(f, "w", encoding="utf-8").write(new)
    print(f"respelled: {len(names)} names in {n} files")


main()
