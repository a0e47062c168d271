#!/usr/bin/env python3
"""The table of canonical mappings and of combining classes, from UnicodeData.txt (Debian's package unicode-data, 15.0.0), as
crates/accents/specs/Table.antt and crates/accents/src/table.rt for the library, and as bench/src/model/names/table.rs for the model in
plain Rust. Mappings of U+00C0 to 024F, 0300 to 036F and 1E00 to 1EFF, compatibility mappings (those with a tag) left out; classes of
U+0300 to 036F. A second run gives the same bytes.

    python3 oracle/accents.py [/usr/share/unicode/UnicodeData.txt]     run from the repository's root
"""
import itertools
import sys

RANGES = [(0xC0, 0x24F), (0x300, 0x36F), (0x1E00, 0x1EFF)]


def read(path):
    mappings, classes = [], {}
    for line in open(path):
        field = line.split(";")
        c = int(field[0], 16)
        if any(a <= c <= b for a, b in RANGES) and field[5] and not field[5].startswith("<"):
            mappings.append((c, [int(x, 16) for x in field[5].split()]))
        if 0x300 <= c <= 0x36F:
            classes[c] = int(field[3])
    return mappings, [classes[c] for c in range(0x300, 0x370)]


def rows(items, n):
    return [items[i:i + n] for i in range(0, len(items), n)]


def antt(mappings, classes):
    line = [("two" if len(to) == 2 else "one") + " " + " ".join("0x%X" % x for x in [c] + to) for c, to in mappings]
    out = """-- The canonical mappings and the combining classes that sameness takes: an extract of UnicodeData.txt, 15.0.0, modified. Made by oracle/accents.py.
-- (02: N3, "UnicodeData's canonical mappings for U+00C0 to U+024F, U+0300 to U+036F and U+1E00 to U+1EFF")
use Prim.Native.Nat.{ℕ}
use mathlib.Core.List.{List, [], _∷_}

-- a line of the table: a character, and the one character or the two that it is mapped to
pub data Mapping : Type 0 where
  one : (c a : ℕ) → Mapping
  two : (c a b : ℕ) → Mapping

unfoldable pub mappingTable : List Mapping
mappingTable =
"""
    out += "\n".join("    " + ("∷ " if i else "") + " ∷ ".join(r) for i, r in enumerate(rows(line, 5))) + "\n    ∷ []\n"
    out += """
-- the classes of U+0300 to U+036F, one after the other
unfoldable pub classes : List ℕ
classes =
"""
    out += "\n".join("    " + ("∷ " if i else "") + " ∷ ".join(map(str, r)) for i, r in enumerate(rows(classes, 16))) + "\n    ∷ []\n"
    return out


def rattle(mappings, classes):
    out = "// An extract of UnicodeData.txt, 15.0.0, modified: the table of crates/accents/specs/Table.antt in numbers. Made by oracle/accents.py.\n\n"
    out += "// A word for each line, of 16 bits each: the character, the first and the second that it is mapped to; 0 where there is no second.\n"
    out += "pub(crate) const MAPPINGS: [u64; %d] = [\n" % len(mappings)
    out += "".join("    0x%04X_%04X_%04X,\n" % tuple(([c] + to + [0])[:3]) for c, to in mappings) + "];\n\n"
    out += "// The classes of U+0300 to U+036F, one after the other.\n"
    out += "pub(crate) const CLASSES: [u8; %d] = [\n" % len(classes)
    out += "".join("    %d,\n" % x for x in classes) + "];\n"
    return out


def char(c):
    return "'%c'" % c if c < 0x80 else "'\\u{%X}'" % c


def model(mappings, classes):
    out = "//! Canonical mappings and combining classes: an extract of UnicodeData.txt, 15.0.0,\n//! modified. Made by `oracle/accents.py`.\n\n"
    out += "use std::ops::RangeInclusive;\n\n"
    out += "/// The characters that have a mapping, ascending, and what each is mapped to.\n"
    out += "pub const MAPPINGS: &[(char, &[char])] = &[\n"
    out += "".join("    (%s, &[%s]),\n" % (char(c), ", ".join(map(char, to))) for c, to in mappings) + "];\n\n"
    out += "/// Runs of marks of one class, ascending; a character in none of them has class 0.\n"
    out += "pub const CLASSES: &[(RangeInclusive<char>, u8)] = &[\n"
    for k, run in itertools.groupby(range(0x300, 0x370), lambda c: classes[c - 0x300]):
        run = list(run)
        out += "    (%s..=%s, %d),\n" % (char(run[0]), char(run[-1]), k) if k else ""
    return out + "];\n"


if __name__ == "__main__":
    m, k = read(sys.argv[1] if len(sys.argv) > 1 else "/usr/share/unicode/UnicodeData.txt")
    open("crates/accents/specs/Table.antt", "w").write(antt(m, k))
    open("crates/accents/src/table.rt", "w").write(rattle(m, k))
    open("bench/src/model/names/table.rs", "w").write(model(m, k))
