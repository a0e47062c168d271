#!/usr/bin/env python3
"""Texts with accents, and what Python's unicodedata.normalize("NFD", ..) makes of them, as oracle/judged/accents.txt.

Every character of a text is ASCII or of U+00C0 to 024F, 0300 to 036F or 1E00 to 1EFF: over such texts NFD is the mapping and ordering of document 02, N3.
No text has a pipe, a comma, CR or LF, so that each can be a name. A second run gives the same bytes.

    python3 oracle/judge_accents.py     run from the repository's root
"""
import unicodedata

RANGES = [(0xC0, 0x24F), (0x300, 0x36F), (0x1E00, 0x1EFF)]
MARKS = range(0x300, 0x370)
PLAIN = "aeiouyAEIOUYcdghlnstzCSZ .'-1"
TO = "oracle/judged/accents.txt"


class Chance:
    """Numbers from a fixed seed (SplitMix64), the same on every machine."""

    def __init__(self, seed):
        self.state = seed

    def below(self, n):
        self.state = self.state + 0x9E3779B97F4A7C15 & 2**64 - 1
        z = self.state
        z = (z ^ z >> 30) * 0xBF58476D1CE4E5B9 & 2**64 - 1
        z = (z ^ z >> 27) * 0x94D049BB133111EB & 2**64 - 1
        return (z ^ z >> 31) % n

    def pick(self, items):
        return items[self.below(len(items))]

    def shuffled(self, items):
        left = list(items)
        return [left.pop(self.below(len(left))) for _ in items]


def in_ranges(c):
    return any(a <= c <= b for a, b in RANGES)


def step(c):
    """The characters of one canonical mapping, or nothing."""
    field = unicodedata.decomposition(chr(c))
    return [int(x, 16) for x in field.split()] if field and not field.startswith("<") else []


def judged(text):
    return [ord(c) for c in unicodedata.normalize("NFD", "".join(map(chr, text)))]


def mapped_texts(mapped):
    """Each mapped character alone, and before, behind and between marks; the same with what one mapping and what all mappings give in its place. The marks
    go round, so that each of the 112 stands beside some."""
    for i, c in enumerate(mapped):
        m, n = MARKS[5 * i % 112], MARKS[(9 * i + 40) % 112]
        for t in [[c], step(c), judged([c])]:
            yield t
            yield t + [m]
            yield [m] + t
            yield [m] + t + [n]
            yield t + [n, m]


def pair_texts():
    """Every two marks, in this order, behind a letter."""
    for m in MARKS:
        for n in MARKS:
            yield [0x61, m, n]


def marked(chance, letters, marks, most):
    """A letter, of ASCII or of the ranges, with a run of marks behind it."""
    letter = ord(chance.pick(PLAIN)) if chance.below(2) == 0 else chance.pick(letters)
    return [letter] + [chance.pick(marks) for _ in range(1 + chance.below(most))]


def mapped_once(chance, text):
    """The text with some of its characters mapped once."""
    return [x for c in text for x in (chance.below(2) == 0 and step(c) or [c])]


def reordered(chance, text):
    """The text with each of its runs of marks in another order, by which it may be another text."""
    out, run = [], []
    for c in text:
        if c in MARKS:
            run.append(c)
        else:
            out, run = out + chance.shuffled(run) + [c], []
    return out + chance.shuffled(run)


def same(chance, text):
    """The same by the rule: the result with neighbours of rising classes exchanged, now and then."""
    out = judged(text)
    for i in range(1, len(out)):
        a, b = (unicodedata.combining(chr(c)) for c in out[i - 1:i + 1])
        if 0 < a < b and chance.below(2) == 0:
            out[i - 1:i + 1] = out[i], out[i - 1]
    return out


def near(chance, text):
    """The text without one of its characters, or with a mark more."""
    i = chance.below(len(text))
    return text[:i] + (text[i + 1:] if chance.below(2) == 0 and len(text) > 1 else [chance.pick(MARKS)] + text[i:])


def family(chance, text):
    """The text and its result; the same spelled otherwise; its marks in other orders; nearly the same."""
    yield text
    yield judged(text)
    yield from (same(chance, text) for _ in range(2))
    yield from (reordered(chance, mapped_once(chance, text)) for _ in range(3))
    yield near(chance, text)


def run_texts(chance, families):
    """Families of one to three letters with runs of 1 to 12 marks, every other with runs of at most 4. The marks are of all, or in half of the families of
    a few, so that equal classes and equal marks are frequent."""
    letters = [c for a, b in RANGES for c in range(a, b + 1) if c not in MARKS]
    for f in range(families):
        marks = MARKS if f % 4 < 2 else [chance.pick(MARKS) for _ in range(2 + chance.below(5))]
        most = 12 if f % 2 == 0 else 4
        text = sum((marked(chance, letters, marks, most) for _ in range(1 + chance.below(3))), [])
        yield from family(chance, text)


def allowed(text):
    """Whether its characters are all ASCII or of the ranges: U+0292, which U+01EF is mapped to, is not."""
    return text and all(in_ranges(c) or c < 128 and chr(c) not in "|,\r\n" for c in text)


def line(text):
    """The text and its NFD. A character of the result that is in no range has no mapping and the class 0, as it has by the rule."""
    result = judged(text)
    assert all(in_ranges(c) or not step(c) and unicodedata.combining(chr(c)) == 0 for c in result)
    return ";".join(" ".join("%X" % c for c in t) for t in (text, result)) + "\n"


def kept(texts):
    """Those that are allowed, each once."""
    return [list(t) for t in dict.fromkeys(tuple(t) for t in texts if allowed(t))]


def main():
    mapped = [c for a, b in RANGES for c in range(a, b + 1) if step(c)]
    assert len(mapped) == 501
    kinds = [("mapped", mapped_texts(mapped)), ("pairs", pair_texts()), ("runs", run_texts(Chance(3), 500))]
    lines = [(kind, [line(t) for t in kept(texts)]) for kind, texts in kinds]
    with open(TO, "w") as out:
        out.write("# Texts with accents, and what Python makes of each by unicodedata.normalize(\"NFD\", text): the code points of the text in hex, and\n"
                  "# behind the semicolon those of the result. Nothing of this repository answered.\n"
                  "# Made by: python3 oracle/judge_accents.py\n"
                  "# unicodedata.unidata_version: " + unicodedata.unidata_version + "\n"
                  "# Lines: " + ", ".join("%s %d" % (kind, len(of_kind)) for kind, of_kind in lines) + "\n")
        for _, of_kind in lines:
            out.writelines(of_kind)


if __name__ == "__main__":
    main()
