#!/usr/bin/env python3
"""Brings the repository's own names in specs/, proofs/, clauses and must-fail edits to the spelling of today's Rattle.

usage: python3 tools/respell.py            once, at the top, right after the kit's port.py
       python3 tools/respell.py names      prints what was renamed, one `old new` a line, and renames nothing

- A name that begins with a small letter is in snake case: `isDigit` becomes `is_digit`.
- A dash joins two names of definitions, as in `length-line`; a dash between plain words is a `_`: `number-empty` becomes `number_empty`.
- Plain types that were `Copy` without a word derive `Clone` and `Copy`, in place of the `Drop` that port.py writes.

Strings, Rust's items, exported names, inputs and outputs keep their names. A lemma whose new spelling stands already in a file with the old one gets `_lem`, and is
printed.
"""
import os
import re
import sys

ROOT = "crates"
IDENT = re.compile(r"[^\s(){}\[\];,.λ\"⟦⟧@:=|↦?]+")
SEGMENT = re.compile(r"(?<![A-Za-z0-9_%])[a-z][a-z0-9_]*(?:[A-Z][a-z0-9_]*)+(?![A-Za-z0-9_])")
SIGNATURE = re.compile(r"^\s*(?:(?:abbrev|unfoldable|pub|record|data|module)\s+)*([^\s(){}:;,λ]+)\s*(?:[({].*?[)}]\s*)*:\s")
SPECIAL = {"getD-three": "get_or-three"}


def files(*ends):
    for folder, dirs, names in os.walk(ROOT):
        dirs[:] = sorted(d for d in dirs if d != "out")
        for n in sorted(names):
            if n.endswith(ends):
                yield os.path.join(folder, n)


def read(p):
    with open(p, encoding="utf-8") as f:
        return f.read()


def is_law(p):
    parts = p.split(os.sep)
    return p.endswith(".antt") and os.path.basename(p) not in ("Proof.antt", "Answers.antt", "Invariants.antt") and parts[2] in ("specs", "proofs")


def snake(word):
    return re.sub(r"(?<=[a-z0-9])([A-Z])", lambda m: "_" + m.group(1).lower(), word)


def outside_strings(text, turn):
    pieces = re.split(r"(b?\"(?:\\.|[^\"\\\n])*\")", text)
    return "".join(p if i % 2 else turn(p) for i, p in enumerate(pieces))


def camel(text):
    def turn(m):
        w = m.group()
        if re.search(r"_[A-Z]", w) or not re.search(r"[a-z0-9][A-Z]", w):
            return w
        return snake(w)

    return outside_strings(text, lambda t: SEGMENT.sub(turn, t))


def declared():
    laws, defs = {}, set()
    for p in files(".antt"):
        if not is_law(p):
            continue
        spec = p.split(os.sep)[2] == "specs"
        for line in read(p).splitlines():
            m = SIGNATURE.match(line)
            if m and not line.lstrip().startswith("--"):
                n = camel(SPECIAL.get(m.group(1), m.group(1)))
                if "-" in n and not re.search(r"[◌∷≡+*<>]", n):
                    laws.setdefault(n, set()).add(p)
                elif "-" not in n and (spec or re.match(r"\s*(abbrev|unfoldable|record|data|pub record|pub data)", line)):
                    defs.add(n)
    return laws, defs


def imported():
    names = set()
    for p in files(".antt"):
        for m in re.finditer(r"^\s*use ((?!Rattle\.)[\w.·]+|Rattle\.std[\w.]+)\.\{([^}]*)\}", read(p), re.M):
            names.update(x.strip() for x in m.group(2).split(","))
    return names


def dashes(laws, known):
    out = {}
    for n in laws:
        parts = n.split("-")
        if "" in parts:
            continue
        new = parts[0]
        for a, b in zip(parts, parts[1:]):
            new += ("-" if a in known and b in known else "_") + b
        if new != n:
            out[n] = new
    return out


def main():
    only_names = sys.argv[1:] == ["names"]
    texts = {p: read(p) for p in files(".antt", ".rt", ".edit")}
    old_tokens = {p: set(IDENT.findall(t)) for p, t in texts.items()}
    laws, defs = declared()
    kit = imported()
    turn = dashes([n for n in laws if n not in kit], defs | {n for n in kit if "-" not in n})
    done = {}
    for p, t in texts.items():
        for w in old_tokens[p]:
            n = camel(SPECIAL.get(w, w))
            if n != w:
                done[w] = n
    after = {}
    for p, t in texts.items():
        for a, b in SPECIAL.items():
            t = t.replace(a, b)
        after[p] = camel(t)
    tokens = {p: set(IDENT.findall(t)) for p, t in after.items()}
    # names that fall together
    for w, n in sorted(done.items()):
        both = [p for p in texts if w in old_tokens[p] and n in old_tokens[p]]
        if both and re.fullmatch(r"[A-Za-z0-9_]+", w):
            print(f"look: {w} and {n} stand both in {both[0]} and {len(both) - 1} more", file=sys.stderr)
    news = {}
    for a, b in sorted(turn.items()):
        clash = [p for p in tokens if a in tokens[p] and b in tokens[p]]
        if clash or b in news:
            print(f"look: {a} becomes {b}_lem, since {b} stands beside it: {clash[:1] or news[b]}", file=sys.stderr)
            b += "_lem"
        news[b] = a
    turn = {a: b for b, a in news.items()}
    if only_names:
        for a, b in sorted({**{w: turn.get(n, n) for w, n in done.items()}, **turn}.items()):
            print(a, b)
        return
    swap = lambda m: turn.get(m.group(), m.group())
    for p, t in after.items():
        if turn:
            t = outside_strings(t, lambda s: IDENT.sub(swap, s))
        if p.endswith(".rt"):
            t = t.replace("#[derive(Drop)]", "#[derive(Clone, Copy)]")
        if t != texts[p]:
            with open(p, "w", encoding="utf-8") as f:
                f.write(t)


main()
