//! Names with accents: which are the same and which are not, the places of work space that
//! the finder needs, and its refusals with their order. (Document 02, N3; document 01,
//! names)

use super::*;

/// A file, and the names that are sought in it, each with the number of its boards and of
/// the places that are needed.
type Sought = (&'static str, &'static [(&'static str, usize, usize)]);

/// The numbers of places, the refusals and their order have groups of their own.
const PLACES: usize = 3;
const REFUSALS: usize = 4;
const ORDER: usize = 5;

fn lend(s: &mut Steps, text: &[u8], name: &[u8]) {
    s.lend(TEXT, text);
    s.lend(TEXT2, name);
}

/// Each name in its file, with places to spare, with exactly enough and with one less.
fn found(s: &mut Steps, all: &[Sought]) {
    for (text, names) in all {
        s.lend(TEXT, text.as_bytes());
        names.iter().for_each(|(name, having, places)| {
            s.lend(TEXT2, name.as_bytes());
            finder::finds_in(s, *having, *places);
        });
    }
}

/// Letters with an accent, composed and not.
const ACCENTS: &[Sought] = &[
    (
        "pn|José|\npn|Jose\u{301}|\npn|Jose|\npn|JOSÉ|\npn|Ann,José,Jose\u{301}|\npn|José |",
        &[
            ("José", 3, 11),
            ("Jose\u{301}", 3, 11),
            ("Jose", 1, 10),
            ("JOSÉ", 1, 11),
            ("JOSE\u{301}", 1, 11),
            ("josé", 0, 11),
            ("José ", 1, 12),
            (" José", 0, 12),
            ("José\u{301}", 0, 12),
            ("Jos\u{301}e", 0, 11),
            ("Ann", 1, 9),
        ],
    ),
    ("pn|José|", &[("Jose\u{301}", 1, 10)]),
    ("pn|Jose\u{301}|", &[("José", 1, 10)]),
    // One mapping is not enough, and neither are all of them without the ordering.
    (
        "pn|\u{1EF1}|\npn|\u{1B0}\u{323}|\npn|u\u{31B}\u{323}|\npn|\u{1EE5}\u{31B}|\n\
         pn|u\u{323}\u{31B}|\npn|\u{1B0}|\npn|\u{1EE5}|\npn|\u{1EF0}|",
        &[
            ("\u{1EF1}", 5, 6),
            ("\u{1B0}\u{323}", 5, 6),
            ("u\u{31B}\u{323}", 5, 6),
            ("\u{1EE5}\u{31B}", 5, 6),
            ("u\u{323}\u{31B}", 5, 6),
            ("\u{1B0}", 1, 5),
            ("u\u{31B}", 1, 5),
            ("\u{1EE5}", 1, 5),
            ("U\u{323}\u{31B}", 1, 6),
            ("u", 0, 4),
        ],
    ),
    // 1E9B is a long s with a dot, and no s.
    (
        "pn|\u{1E9B}|\npn|\u{17F}\u{307}|\npn|\u{1E61}|\npn|s\u{307}|\npn|\u{17F}|\npn|s|",
        &[
            ("\u{1E9B}", 2, 4),
            ("\u{17F}\u{307}", 2, 4),
            ("\u{1E61}", 2, 4),
            ("s\u{307}", 2, 4),
            ("\u{17F}", 1, 3),
            ("s", 1, 3),
            ("\u{1E9B}\u{323}", 0, 5),
        ],
    ),
    (
        "pn|\u{1E9B}\u{323}|\npn|\u{17F}\u{323}\u{307}|\npn|\u{1E69}|",
        &[("\u{17F}\u{307}\u{323}", 2, 6), ("\u{1E63}\u{307}", 1, 6)],
    ),
    // What 01EF is mapped to begins outside the ranges.
    (
        "pn|\u{1EF}|\npn|\u{292}\u{30C}|\npn|\u{1EE}|",
        &[
            ("\u{1EF}", 2, 4),
            ("\u{292}\u{30C}", 2, 4),
            ("\u{1B7}\u{30C}", 1, 4),
            ("\u{292}", 0, 3),
        ],
    ),
    // Four marks that are mapped themselves: 0344 gives two.
    (
        "pn|a\u{340}|\npn|a\u{300}|\npn|à|",
        &[("a\u{340}", 3, 4), ("a\u{300}", 3, 4), ("à", 3, 4)],
    ),
    (
        "pn|a\u{341}|\npn|a\u{301}|\npn|á|",
        &[("a\u{341}", 3, 4), ("a\u{301}", 3, 4), ("á", 3, 4)],
    ),
    (
        "pn|n\u{343}|\npn|n\u{313}|",
        &[("n\u{343}", 2, 4), ("n\u{313}", 2, 4)],
    ),
    (
        "pn|u\u{344}|\npn|u\u{308}\u{301}|\npn|ü\u{301}|\npn|\u{1D8}|\npn|u\u{301}\u{308}|",
        &[
            ("u\u{344}", 4, 6),
            ("u\u{308}\u{301}", 4, 6),
            ("ü\u{341}", 4, 6),
            ("\u{1D8}", 4, 6),
            ("u\u{301}\u{308}", 1, 6),
            ("\u{344}", 0, 5),
        ],
    ),
    // The case counts.
    (
        "pn|Åsa|\npn|åsa|\npn|A\u{30A}sa|",
        &[("Åsa", 2, 8), ("åsa", 1, 8), ("a\u{30A}sa", 1, 8)],
    ),
    // Letters that have no mapping, though they look so.
    (
        "pn|ø|\npn|o\u{338}|\npn|đ|\npn|ł|\npn|İ|\npn|ı\u{307}|\npn|I\u{307}|",
        &[
            ("ø", 1, 3),
            ("o\u{338}", 1, 4),
            ("d\u{335}", 0, 4),
            ("đ", 1, 3),
            ("l\u{337}", 0, 4),
            ("İ", 2, 4),
            ("I\u{307}", 2, 4),
            ("ı\u{307}", 1, 4),
            ("i\u{307}", 0, 4),
        ],
    ),
];

/// The order of marks.
const MARKS: &[Sought] = &[
    // Equal classes keep their order.
    (
        "pn|a\u{300}\u{301}|\npn|a\u{301}\u{300}|\npn|à\u{301}|",
        &[
            ("a\u{300}\u{301}", 2, 6),
            ("a\u{301}\u{300}", 1, 6),
            ("à\u{301}", 2, 6),
            ("á\u{300}", 1, 6),
            ("a\u{340}\u{341}", 2, 6),
            ("a\u{300}\u{300}", 0, 6),
            ("a\u{300}", 0, 5),
        ],
    ),
    // Others are ordered, and each stays as often as it came.
    (
        "pn|a\u{301}\u{323}\u{300}\u{31B}|\npn|a\u{31B}\u{323}\u{301}\u{300}|\n\
         pn|a\u{31B}\u{323}\u{300}\u{301}|\npn|a\u{323}\u{301}\u{31B}\u{301}|",
        &[
            ("a\u{31B}\u{323}\u{301}\u{300}", 2, 10),
            ("á\u{300}\u{323}\u{31B}", 2, 10),
            ("à\u{323}\u{301}\u{31B}", 1, 10),
            ("á\u{301}\u{323}\u{31B}", 1, 10),
            ("á\u{323}\u{323}\u{31B}", 0, 10),
            ("á\u{323}\u{31B}", 0, 9),
        ],
    ),
    // A mark of each of the nine classes, falling; rising in the name that is sought.
    (
        "pn|a\u{345}\u{35D}\u{35C}\u{315}\u{300}\u{316}\u{31B}\u{321}\u{334}|",
        &[
            (
                "a\u{334}\u{321}\u{31B}\u{316}\u{300}\u{315}\u{35C}\u{35D}\u{345}",
                1,
                20,
            ),
            (
                "a\u{334}\u{321}\u{31B}\u{316}\u{300}\u{315}\u{35C}\u{345}\u{35D}",
                1,
                20,
            ),
            (
                "a\u{334}\u{321}\u{31B}\u{316}\u{301}\u{315}\u{35C}\u{35D}\u{345}",
                0,
                20,
            ),
            (
                "\u{334}a\u{321}\u{31B}\u{316}\u{300}\u{315}\u{35C}\u{35D}\u{345}",
                0,
                20,
            ),
        ],
    ),
    // Marks behind any letter, and behind none.
    (
        "pn|\u{438}\u{306}\u{323}|\npn|\u{438}\u{323}\u{306}|\npn|\u{439}\u{323}|",
        &[
            ("\u{438}\u{306}\u{323}", 2, 6),
            ("\u{438}\u{323}\u{306}", 2, 6),
            ("\u{439}\u{323}", 1, 5),
        ],
    ),
    (
        "pn|\u{6771}\u{301}\u{323}|\npn|\u{6771}\u{323}\u{301}|",
        &[
            ("\u{6771}\u{301}\u{323}", 2, 6),
            ("\u{6771}\u{323}\u{301}", 2, 6),
        ],
    ),
    (
        "pn|\u{301}\u{323},a|\npn|b,\u{323}\u{301}|\npn|\u{301}|",
        &[
            ("\u{301}\u{323}", 2, 4),
            ("\u{323}\u{301}", 2, 4),
            ("\u{301}", 1, 3),
            ("\u{341}", 1, 3),
            ("\u{323}", 0, 3),
            ("", 3, 2),
        ],
    ),
    (
        "pn|\u{1F600}\u{301}\u{323}|\npn| \u{301}\u{323}|\npn|1\u{301}\u{323}|",
        &[
            ("\u{1F600}\u{323}\u{301}", 1, 6),
            (" \u{323}\u{301}", 1, 6),
            ("1\u{323}\u{301}", 1, 6),
            ("\u{323}\u{301}", 0, 5),
        ],
    ),
    // A letter ends a run, and so does a letter that is mapped.
    (
        "pn|\u{301}\u{1EA5}\u{323}|\npn|\u{301}\u{1EAD}\u{301}|\npn|\u{301}ạ\u{301}\u{302}|",
        &[
            ("\u{301}a\u{302}\u{323}\u{301}", 2, 10),
            ("\u{301}ạ\u{301}\u{302}", 1, 10),
            ("\u{1EA5}\u{301}\u{323}", 0, 10),
        ],
    ),
    (
        "pn|a\u{344}\u{323}|\npn|a\u{323}\u{308}\u{301}|\npn|a\u{323}\u{301}\u{308}|",
        &[
            ("ä\u{323}\u{301}", 2, 8),
            ("a\u{323}\u{344}", 2, 8),
            ("á\u{323}\u{308}", 1, 8),
        ],
    ),
    (
        "pn|a\u{345}\u{344}|\npn|a\u{308}\u{345}\u{301}|",
        &[("ä\u{301}\u{345}", 2, 8), ("a\u{301}\u{308}\u{345}", 0, 8)],
    ),
    // Marks outside the range, which Unicode orders: here they end a run.
    (
        "pn|a\u{301}\u{59A}\u{323}|\npn|a\u{323}\u{59A}\u{301}|\npn|a\u{301}\u{323}\u{59A}|\n\
         pn|a\u{323}\u{301}\u{59A}|",
        &[
            ("a\u{301}\u{59A}\u{323}", 1, 8),
            ("á\u{59A}\u{323}", 1, 8),
            ("a\u{323}\u{59A}\u{301}", 1, 8),
            ("a\u{301}\u{323}\u{59A}", 2, 8),
            ("ạ\u{301}\u{59A}", 2, 8),
            ("a\u{59A}\u{301}\u{323}", 0, 8),
        ],
    ),
    (
        "pn|a\u{1DC4}\u{323}|\npn|a\u{323}\u{1DC4}|\npn|a\u{1DFF}\u{301}|\npn|a\u{301}\u{1DFF}|",
        &[
            ("a\u{1DC4}\u{323}", 1, 6),
            ("ạ\u{1DC4}", 1, 6),
            ("a\u{1DFF}\u{301}", 1, 6),
            ("á\u{1DFF}", 1, 6),
        ],
    ),
    (
        "pn|a\u{20D0}\u{323}|\npn|ạ\u{20D0}|\npn|a\u{FE20}\u{323}|\npn|\u{30AB}\u{323}\u{3099}|",
        &[
            ("a\u{20D0}\u{323}", 1, 6),
            ("a\u{323}\u{20D0}", 1, 6),
            ("ạ\u{FE20}", 0, 6),
            ("\u{30AB}\u{3099}\u{323}", 0, 6),
        ],
    ),
    // 034F is in the range, and its class is 0.
    (
        "pn|a\u{301}\u{34F}\u{323}|\npn|á\u{34F}\u{323}|\npn|ạ\u{34F}\u{301}|\n\
         pn|ạ\u{301}\u{34F}|\npn|ạ\u{301}|",
        &[
            ("a\u{301}\u{34F}\u{323}", 2, 8),
            ("a\u{323}\u{34F}\u{301}", 1, 8),
            ("a\u{301}\u{323}\u{34F}", 1, 8),
            ("a\u{34F}\u{301}\u{323}", 0, 8),
            ("á\u{323}", 1, 7),
        ],
    ),
    // The first and the last mark of the range, and the first character behind it.
    (
        "pn|a\u{36F}\u{334}|\npn|a\u{300}\u{334}|\npn|a\u{370}\u{334}|",
        &[
            ("a\u{334}\u{36F}", 1, 6),
            ("a\u{334}\u{300}", 1, 6),
            ("a\u{334}\u{370}", 0, 6),
        ],
    ),
];

/// Characters that stay as they are.
const APART: &[Sought] = &[
    // Canonical mappings outside the ranges.
    (
        "pn|\u{212B}|\npn|\u{C5}|\npn|A\u{30A}|",
        &[
            ("\u{212B}", 1, 3),
            ("\u{C5}", 2, 4),
            ("A\u{30A}", 2, 4),
            ("K", 0, 3),
        ],
    ),
    (
        "pn|\u{451}|\npn|\u{435}\u{308}|\npn|\u{3AC}|\npn|\u{3B1}\u{301}|",
        &[
            ("\u{451}", 1, 3),
            ("\u{435}\u{308}", 1, 4),
            ("\u{3AC}", 1, 3),
            ("\u{3B1}\u{301}", 1, 4),
            ("\u{3B1}\u{341}", 1, 4),
        ],
    ),
    (
        "pn|\u{1F00}|\npn|\u{3B1}\u{313}|\npn|\u{AC00}|\npn|\u{1100}\u{1161}|\npn|\u{2126}|",
        &[
            ("\u{1F00}", 1, 3),
            ("\u{3B1}\u{343}", 1, 4),
            ("\u{AC00}", 1, 3),
            ("\u{1100}\u{1161}", 1, 4),
            ("\u{3A9}", 0, 3),
            ("\u{2126}", 1, 3),
        ],
    ),
    (
        "pn|\u{304C}|\npn|\u{304B}\u{3099}|\npn|;|\npn|\u{37E}|\npn|\u{2B9}|\npn|\u{374}|",
        &[
            ("\u{304C}", 1, 3),
            ("\u{304B}\u{3099}", 1, 4),
            (";", 1, 3),
            ("\u{37E}", 1, 3),
            ("\u{2B9}", 1, 3),
            ("\u{374}", 1, 3),
        ],
    ),
    // Compatibility mappings.
    (
        "pn|\u{132}|\npn|IJ|\npn|\u{149}|\npn|\u{2BC}n|\npn|\u{1E9A}|\npn|a\u{2BE}|",
        &[
            ("\u{132}", 1, 3),
            ("IJ", 1, 4),
            ("\u{149}", 1, 3),
            ("\u{2BC}n", 1, 4),
            ("\u{1E9A}", 1, 3),
            ("a\u{2BE}", 1, 4),
        ],
    ),
    (
        "pn|\u{1C4}|\npn|D\u{17D}|\npn|DZ\u{30C}|\npn|\u{1C5}|\npn|\u{1F1}|\npn|DZ|",
        &[
            ("\u{1C4}", 1, 4),
            ("D\u{17D}", 2, 6),
            ("DZ\u{30C}", 2, 6),
            ("\u{1C5}", 1, 4),
            ("\u{1F1}\u{30C}", 0, 5),
            ("DZ", 1, 5),
        ],
    ),
    // The ends of the ranges.
    (
        "pn|\u{BF}|\npn|\u{C0}|\npn|\u{233}|\npn|\u{24F}|\npn|\u{250}|\npn|\u{1E00}|\n\
         pn|\u{1EF9}|\npn|\u{1EFF}|\npn|\u{1DFF}|",
        &[
            ("\u{BF}", 1, 3),
            ("A\u{300}", 1, 4),
            ("y\u{304}", 1, 4),
            ("\u{24F}", 1, 3),
            ("\u{250}", 1, 3),
            ("A\u{325}", 1, 4),
            ("y\u{303}", 1, 4),
            ("\u{1EFF}", 1, 3),
            ("\u{1DFF}", 1, 3),
        ],
    ),
    // Characters of each length.
    (
        "pn|é\u{10FFFF}\u{6771}|\npn|e\u{301}\u{10FFFF}\u{6771}|\npn|e\u{10FFFF}\u{301}\u{6771}|",
        &[
            ("e\u{301}\u{10FFFF}\u{6771}", 2, 8),
            ("é\u{10FFFF}\u{6771}", 2, 8),
            ("e\u{10FFFF}\u{301}\u{6771}", 1, 8),
            ("é\u{10FFFE}\u{6771}", 0, 8),
            ("\u{10301}", 0, 5),
        ],
    ),
    // Characters whose numbers end as that of a mark does.
    (
        "pn|\u{100}\u{300}|\npn|\u{1F300}|\npn|\u{3300}|",
        &[
            ("A\u{304}\u{300}", 1, 6),
            ("A\u{300}\u{304}", 0, 6),
            ("\u{1F300}", 1, 4),
            ("\u{3300}", 1, 4),
            ("\u{300}", 0, 4),
        ],
    ),
];

/// Boards and their seats.
const SEATED: &[Sought] = &[
    // Once a board.
    (
        "pn|José,Jose\u{301},José,Jose\u{301}|",
        &[("José", 1, 10), ("Jose\u{301}", 1, 10), ("", 0, 5)],
    ),
    (
        "pn|José,Jose\u{301},José,Jose\u{301}|\npn|,Jose\u{301}|\npn|x,José,José|\npn||",
        &[
            ("José", 3, 10),
            ("Jose\u{301}", 3, 10),
            ("", 3, 5),
            ("x", 1, 6),
        ],
    ),
    (
        "qx|a|md|1|pn|é|rh||qx|b|md|2|pn|x,y,z,e\u{301}|rh||qx|c|md|3|pn|e|",
        &[("é", 2, 4), ("e\u{301}", 2, 4), ("e", 1, 3), ("", 2, 2)],
    ),
    // An empty name meets empty seats, and needs nothing.
    ("pn|a|", &[("", 1, 1)]),
    ("pn|a,b,c,d|\npn|a,b,c|", &[("", 1, 1)]),
    ("md|1|pn|a|qx||md|2|", &[("", 2, 1), ("a", 1, 2)]),
    ("md|1|qx|x|md|2|", &[("", 2, 0), ("a", 0, 1)]),
    ("md|1|\npn||\npn|,,,|", &[("", 3, 0)]),
    (
        "",
        &[("", 0, 0), ("e", 0, 1), ("é", 0, 2), ("\u{1EF1}", 0, 3)],
    ),
    (
        " \r\n\n",
        &[("", 0, 0), ("\u{1D5}", 0, 3), ("u\u{344}", 0, 3)],
    ),
    ("qx|a|pn|José|rh||", &[("", 0, 0), ("José", 0, 5)]),
    // Marks of byte order and white space at a name's ends are a part of it.
    (
        "pn|\u{FEFF}a,b|",
        &[("a", 0, 3), ("\u{FEFF}a", 1, 4), ("b", 1, 3)],
    ),
    (
        "\u{FEFF}pn|a,b|",
        &[("a", 1, 2), ("\u{FEFF}a", 0, 3), ("b", 1, 2)],
    ),
    (
        "pn|é , é,\té,é\u{FEFF}|\npn|é|",
        &[
            ("é", 1, 5),
            ("e\u{301} ", 1, 6),
            (" e\u{301}", 1, 6),
            ("\te\u{301}", 1, 6),
            ("e\u{301}\u{FEFF}", 1, 6),
            ("\u{FEFF}é", 0, 6),
            ("é\u{A0}", 0, 6),
        ],
    ),
    // The longest name of any seat and any board, by its mapped characters.
    ("pn|abcdé,b,c,d|", &[("b", 1, 7)]),
    ("pn|a,abcdé,c,d|", &[("c", 1, 7)]),
    ("pn|a,b,abcdé,d|", &[("d", 1, 7)]),
    ("pn|a,b,c,abcdé|", &[("a", 1, 7), ("abcde\u{301}", 1, 12)]),
    ("pn|abcdé|\npn|b|\npn|c|", &[("c", 1, 7)]),
    ("pn|a|\npn|abcdé|\npn|c|", &[("a", 1, 7)]),
    ("pn|a|\npn|b|\nmd|1|pn|abcdé|", &[("a", 1, 7)]),
    ("qx||md|1|pn|a|rh||qx||md|2|pn|,,abcdé|", &[("a", 1, 7)]),
    ("pn|\u{10FFFF}\u{10FFFF},abc|", &[("x", 0, 4)]),
    ("pn|ab,\u{1D6}|", &[("x", 0, 4), ("ab", 1, 5), ("ǖ", 1, 6)]),
    ("pn|ab,\u{1EA4}|", &[("A\u{302}\u{301}", 1, 6)]),
    // A name that is replaced counts for nothing, and neither does a fifth one.
    (
        "pn|abcdefgh|pn|ab|",
        &[("abcdefgh", 0, 10), ("ab", 1, 4), ("", 1, 2)],
    ),
    ("pn|José|pn|Ann|", &[("Jose\u{301}", 0, 8), ("Ann", 1, 6)]),
    ("pn|José|pn||", &[("José", 0, 5), ("", 1, 0)]),
    ("pn|a,José|pn||", &[("Jose\u{301}", 1, 10), ("a", 0, 6)]),
    ("pn|a,José|pn|,,|", &[("José", 0, 5), ("", 1, 0)]),
    ("pn|a,b,c,d,José|", &[("José", 0, 6), ("d", 1, 2)]),
    ("pn|Ann|pn|José|", &[("Jose\u{301}", 1, 10), ("Ann", 0, 8)]),
    // A part without md is no board.
    (
        "qx|a|pn|abcdef|rh||qx|b|md|1|pn|é|",
        &[("abcdef", 0, 8), ("e\u{301}", 1, 4)],
    ),
    (
        "pn|abcdef|rh||qx|b|md|1|pn|é|",
        &[("abcdef", 0, 8), ("é", 1, 4)],
    ),
    ("qx|a|pn|abcdef|qx|b|md|1|", &[("abcdef", 1, 12)]),
    // Names in other commands and outside of values are none.
    (
        "mn|José|ah|José|pn|x|an|José|José|José|pn",
        &[("José", 0, 6), ("x", 1, 2)],
    ),
];

/// Every number of places from none on, to more than are needed to walk the file once: 7
/// exactly below the need.
fn each_number(s: &mut Steps, text: &str, name: &str, having: u32, need: u32) {
    lend(s, text.as_bytes(), name.as_bytes());
    s.set(HAVING, &[having]);
    for lent in 0..=need + 3 * text.len() as u32 / 2 + 4 {
        s.set(LENT_WORK, &[lent]);
        match lent < need {
            true => finder::refuses(s, 7, need.into()),
            false => s.go(NAME_COUNTED),
        }
        s.case(PLACES);
    }
}

fn numbers_of_places(s: &mut Steps) {
    each_number(s, "pn|José,é|\npn|x,Jose\u{301}y|", "e\u{301}", 1, 8);
    each_number(s, "pn|\u{1D6}\u{1D6},ü|", "u\u{308}\u{304}", 0, 9);
    each_number(s, "pn|abcdef|\npn|ab|", "ab", 1, 8);
    each_number(s, "md|1|qx|x|md|2|", "", 2, 0);
    each_number(s, "", "\u{1EF1}", 0, 3);
}

/// The finder refuses so, with places to spare and with none.
fn refused_so(s: &mut Steps, number: u32, carried: u64) {
    for lent in [finder::TO_SPARE, 0] {
        s.set(LENT_WORK, &[lent]);
        finder::refuses(s, number, carried);
    }
    s.case(REFUSALS);
}

/// Texts that are not UTF-8, with the length of their longest well-formed start.
fn not_utf8(s: &mut Steps) {
    let all: [(&[u8], &[u8], u64); 9] = [
        (b"pn|a|", b"\xFF", 0),
        (b"pn|a|", b"a\xC3\xA9\xC3", 3),
        (b"pn|a|\xFF", b"a\xFF", 5),
        (b"pn|a|\xFF", b"a", 5),
        (b"pn|e\xCC|", b"e\xCC\x81", 4),
        (b"pn|e\xCC\x81|", b"e\xCC", 1),
        (b"pn|a|", b"\xED\xA0\x80", 0),
        (b"", b"\xF0\x9F\x98", 0),
        (b"\x80", b"", 0),
    ];
    for (text, name, carried) in all {
        lend(s, text, name);
        refused_so(s, 2, carried);
    }
}

/// A long text beside a short one: the long one stands at the front of the bytes, and the
/// short one elsewhere.
fn long(s: &mut Steps) {
    spaces(s, b"", LONG);
    s.lend(TEXT2, b"\xFF");
    refused_so(s, 1, 0);
    s.copy(TEXT2, TEXT, 2, 1);
    refused_so(s, 1, 0);
    s.set(TEXT2, &[SECOND_TEXT]);
    s.set(TEXT + 1, &[LIMIT as u32]);
    s.lend(TEXT2, b"\xFF");
    refused_so(s, 2, 0);
    // No board, and the whole text is read.
    s.lend(TEXT2, "é".as_bytes());
    finder::finds_in(s, 0, 2);
    // The longest name of a file: all but four bytes of it.
    s.lend_many(TEXT, b'a', LIMIT);
    s.patch(TEXT, b"pn|");
    s.set(REST, &[LIMIT as u32 - 1]);
    s.patch(REST, b"|");
    refused_so(s, 7, LIMIT as u64 - 4 + 2);
    s.lend(TEXT2, b"");
    refused_so(s, 7, LIMIT as u64 - 4);
    // The name is long. Places are no output: the need passes the limit of one.
    for (text, len, number, carried) in [
        (b"pn|a|".as_slice(), LONG, 1, 0),
        (b"pn|a|\xFF", LONG, 1, 0),
        (b"pn|a|\xFF", LIMIT, 2, 5),
        (b"pn|a|", LIMIT, 7, LIMIT as u64 + 1),
        (b"", LIMIT, 7, LIMIT as u64),
    ] {
        s.set(TEXT, &[SECOND_TEXT]);
        s.lend(TEXT, text);
        s.set(TEXT2, &[0, len as u32]);
        refused_so(s, number, carried);
    }
    s.set(TEXT, &[0]);
    s.set(TEXT2, &[SECOND_TEXT]);
}

/// Two texts of these lengths, the name a byte behind the text's begin where both are long,
/// so that each can have a last or a first byte of its own.
fn lend_long(s: &mut Steps, long: [bool; 2], ill: [bool; 2]) {
    let front = |ill: bool| if ill { b'\xFF' } else { b' ' };
    s.set(TEXT, &[0]);
    s.lend_many(TEXT, b' ', LONG + 1);
    match long {
        [true, true] => {
            s.patch(TEXT, &[front(ill[0])]);
            s.set(REST, &[LONG as u32]);
            s.patch(REST, &[front(ill[1])]);
            s.set(TEXT, &[0, LONG as u32, 1, LONG as u32]);
        }
        [true, false] => {
            s.patch(TEXT, &[front(ill[0])]);
            s.set(TEXT + 1, &[LONG as u32]);
            s.lend(TEXT2, if ill[1] { b"\xC3\xA9\xFF" } else { b"\xC3\xA9" });
        }
        _ => {
            s.patch(TEXT, &[front(ill[1])]);
            s.set(TEXT2, &[0, LONG as u32]);
            s.set(TEXT, &[SECOND_TEXT]);
            s.lend(TEXT, if ill[0] { b"pn|a|\xFF" } else { b"pn|a|" });
        }
    }
}

/// Every set of five faults: the text too long, the name too long, the text not UTF-8, the
/// name not UTF-8, a place too few. The answer is the first in this order, 1, 1, 2, 2, 7.
fn order(s: &mut Steps) {
    for faults in 0..32 {
        let [a, b, c, d, e] = [0, 1, 2, 3, 4].map(|bit| faults >> bit & 1 == 1);
        if a || b {
            lend_long(s, [a, b], [c, d]);
        } else {
            let text: &[u8] = if c {
                b"pn|\xC3\xA9|\xFF"
            } else {
                b"pn|\xC3\xA9|"
            };
            let name: &[u8] = if d { b"e\xCC\x81\xFF" } else { b"e\xCC\x81" };
            lend(s, text, name);
        }
        s.set(LENT_WORK, &[if e { 3 } else { 4 }]);
        s.set(HAVING, &[1]);
        match [a | b, c, d, e] {
            [true, ..] => finder::refuses(s, 1, 0),
            [_, true, ..] => finder::refuses(s, 2, 6),
            [_, _, true, _] => finder::refuses(s, 2, 3),
            [.., true] => finder::refuses(s, 7, 4),
            _ => s.go(NAME_COUNTED),
        }
        s.case(ORDER);
        s.set(TEXT, &[0, 0, SECOND_TEXT, 0]);
    }
}

pub fn put(s: &mut Steps) {
    for all in [ACCENTS, MARKS, APART, SEATED] {
        found(s, all);
    }
    numbers_of_places(s);
    not_utf8(s);
    long(s);
    order(s);
    let lines = [
        "found",
        "found exactly",
        "a place less",
        "places",
        "refusals",
        "order",
    ];
    s.say("by hand names", &lines);
}
