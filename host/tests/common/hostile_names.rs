//! Files and names that a search by accents could be slow on, about as long as told.

/// A file, a name to look for in it, and how many of its boards have that name.
pub struct Asked {
    /// The file.
    pub text: String,
    /// The name.
    pub name: String,
    /// The boards that have it.
    pub boards: u64,
}

/// What is hostile about them, and what makes them for so many bytes of each.
pub struct HostileName {
    /// What is hostile.
    pub name: &'static str,
    /// The file and the name.
    pub made: fn(usize) -> Asked,
}

/// All that are tried.
pub const ALL: &[HostileName] = &[
    HostileName {
        name: "a name of marks, two classes",
        made: |len| one_name(&TWO, len, false),
    },
    HostileName {
        name: "a name of marks, two classes, miss",
        made: |len| one_name(&TWO, len, true),
    },
    HostileName {
        name: "a name of marks, nine classes",
        made: |len| one_name(&NINE, len, false),
    },
    HostileName {
        name: "a name of marks, nine classes, miss",
        made: |len| one_name(&NINE, len, true),
    },
    HostileName {
        name: "a name of letters with two marks",
        made: |len| pieces("a\u{301}\u{323}", "\u{1EA1}\u{301}", len),
    },
    HostileName {
        name: "a name of letters mapped to three",
        made: |len| pieces("\u{1D5}", "\u{1D5}", len),
    },
    HostileName {
        name: "names of 500 marks",
        made: |len| every_name(len, false),
    },
    HostileName {
        name: "names of 500 marks, miss",
        made: |len| every_name(len, true),
    },
    HostileName {
        name: "a long name among short ones",
        made: long_among_short,
    },
];

/// Two marks of each class, or one where there is one alone, by rising classes.
type Classes = [&'static [char]];

const TWO: [&[char]; 2] = [&['\u{323}', '\u{324}'], &['\u{300}', '\u{301}']];
const NINE: [&[char]; 9] = [
    &['\u{334}', '\u{335}'],
    &['\u{321}', '\u{322}'],
    &['\u{31B}'],
    &['\u{323}', '\u{324}'],
    &['\u{300}', '\u{301}'],
    &['\u{315}', '\u{31A}'],
    &['\u{35C}', '\u{35F}'],
    &['\u{35D}', '\u{35E}'],
    &['\u{345}'],
];

/// So many marks, of one class after another in turn, and those of a class in turn.
fn in_turn(classes: &Classes, many: usize) -> String {
    let mark = |n: usize| {
        let class = classes[n % classes.len()];
        class[n / classes.len() % class.len()]
    };
    (0..many).map(mark).collect()
}

/// The same marks by falling classes, those of a class in their order.
fn falling(classes: &Classes, many: usize) -> Vec<char> {
    let marks = in_turn(classes, many);
    let of = |class: &'static [char]| marks.chars().filter(move |c| class.contains(c));
    classes.iter().rev().flat_map(|class| of(class)).collect()
}

/// The same, if `exchanged` with the last two of the class of U+0300 exchanged, which
/// is another name.
fn sought(classes: &Classes, many: usize, exchanged: bool) -> String {
    let mut marks = falling(classes, many);
    let last = marks
        .iter()
        .rposition(|c| matches!(c, '\u{300}' | '\u{301}'));
    if let (true, Some(last)) = (exchanged, last) {
        marks.swap(last - 1, last);
    }
    marks.into_iter().collect()
}

/// A file of one board, whose one name is of marks.
fn one_name(classes: &Classes, len: usize, exchanged: bool) -> Asked {
    let many = (len - 12) / 2;
    Asked {
        text: format!("pn|{}|md|1|", in_turn(classes, many)),
        name: sought(classes, many, exchanged),
        boards: (!exchanged).into(),
    }
}

/// A file of one board, whose one name is a letter with its marks again and again, and
/// the same in another spelling, which has as many bytes.
fn pieces(piece: &str, spelled: &str, len: usize) -> Asked {
    assert_eq!(piece.len(), spelled.len());
    let many = (len - 12) / piece.len();
    Asked {
        text: format!("pn|{}|md|1|", piece.repeat(many)),
        name: spelled.repeat(many),
        boards: 1,
    }
}

/// A file whose boards have four names of 500 marks each, all the same.
fn every_name(len: usize, exchanged: bool) -> Asked {
    let name = in_turn(&NINE, 500);
    let board = format!("qx||pn|{}|md|1|", [&name[..]; 4].join(","));
    let boards = len / board.len();
    Asked {
        text: board.repeat(boards),
        name: sought(&NINE, 500, exchanged),
        boards: if exchanged { 0 } else { boards as u64 },
    }
}

/// A file of boards of short names, and a name as long as the file.
fn long_among_short(len: usize) -> Asked {
    let board = "qx||pn|\u{E9},e\u{301}|md||";
    Asked {
        text: board.repeat(len / board.len()),
        name: in_turn(&NINE, len / 2),
        boards: 0,
    }
}
