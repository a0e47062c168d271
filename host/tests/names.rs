//! The finder by accents: spellings that are one name and those that are not, and the
//! work space with its refusal. (Document 02, N3)

use lin_host_rust::{
    files::{self, enough_places, find_name_in},
    Refusal, LIMIT,
};

/// A board with these names, from South on.
fn board(names: &[&str]) -> String {
    format!("qx||pn|{}|md|1|", names.join(","))
}

/// How many boards of a file have the name: as many in work space of just the places
/// needed as in more, and refused with one less, which leaves the work space.
fn found(text: &str, name: &str) -> u64 {
    let (text, name) = (text.as_bytes(), name.as_bytes());
    let boards = files::find_name(text, name).unwrap();
    let needed = needed(text, name);
    assert!(needed <= enough_places(text, name));
    for places in [needed, needed + 1, enough_places(text, name)] {
        assert_eq!(find_name_in(text, name, &mut vec![7; places]), Ok(boards));
    }
    if needed > 0 {
        let mut work = vec![7; needed - 1];
        let few = find_name_in(text, name, &mut work);
        assert_eq!(few, Err(Refusal::OutputTooSmall(needed as u64)));
        assert!(work.iter().all(|place| *place == 7));
    }
    boards
}

/// The places that are needed, as the refusal of none tells them.
fn needed(text: &[u8], name: &[u8]) -> usize {
    match find_name_in(text, name, &mut []) {
        Ok(_) => 0,
        Err(Refusal::OutputTooSmall(places)) => places as usize,
        Err(other) => panic!("{other:?}"),
    }
}

/// Whether two names are the same, both ways.
fn same(one: &str, other: &str) -> bool {
    let either = [(one, other), (other, one)].map(|(a, b)| found(&board(&[a]), b) == 1);
    assert_eq!(either[0], either[1], "{one:?}, {other:?}");
    assert!([one, other]
        .into_iter()
        .all(|n| found(&board(&[n]), n) == 1));
    either[0]
}

/// All spellings of one name.
fn all_same(spellings: &[&str]) {
    for one in spellings {
        let another = spellings.iter().find(|other| !same(one, other));
        assert_eq!(another, None, "{one:?}");
    }
}

#[test]
fn either_keyboard() {
    all_same(&["José", "Jose\u{301}"]);
    all_same(&["Åsa Öberg", "A\u{30A}sa O\u{308}berg", "Åsa O\u{308}berg"]);
    let text = [
        board(&["José"]),
        board(&["", "Jose\u{301}"]),
        board(&["Jose"]),
    ]
    .concat();
    assert_eq!((found(&text, "José"), found(&text, "Jose\u{301}")), (2, 2));
    assert_eq!((found(&text, "Jose"), found(&text, "Jos")), (1, 0));
    // what is read keeps its bytes
    let first = files::file_heading(text.as_bytes(), 0).unwrap();
    let second = files::file_heading(text.as_bytes(), 1).unwrap();
    assert_eq!((first.names[0], second.names[1]), ("José", "Jose\u{301}"));
}

#[test]
fn mapped_until_none_applies_and_ordered() {
    all_same(&[
        "\u{1EF1}",
        "\u{1B0}\u{323}",
        "u\u{31B}\u{323}",
        "u\u{323}\u{31B}",
        "\u{1EE5}\u{31B}",
    ]);
    all_same(&["Nguyễn", "Nguye\u{302}\u{303}n", "Nguy\u{EA}\u{303}n"]);
    all_same(&[
        "Đặng",
        "Đa\u{306}\u{323}ng",
        "Đa\u{323}\u{306}ng",
        "Đạ\u{306}ng",
    ]);
    all_same(&["\u{340}", "\u{300}"]);
    all_same(&["\u{341}", "\u{301}"]);
    all_same(&["\u{343}", "\u{313}"]);
    all_same(&["\u{344}", "\u{308}\u{301}", "\u{308}\u{341}"]);
    all_same(&[
        "x\u{344}\u{323}",
        "x\u{323}\u{308}\u{301}",
        "x\u{308}\u{323}\u{301}",
    ]);
}

#[test]
fn marks_of_one_class_keep_their_order() {
    assert!(!same("a\u{300}\u{301}", "a\u{301}\u{300}"));
    assert!(!same("\u{E0}\u{301}", "\u{E1}\u{300}"));
    all_same(&[
        "a\u{300}\u{323}\u{301}",
        "a\u{323}\u{300}\u{301}",
        "a\u{300}\u{301}\u{323}",
        "\u{E0}\u{301}\u{323}",
        "\u{1EA1}\u{300}\u{301}",
    ]);
    assert!(!same("a\u{300}\u{323}\u{301}", "a\u{301}\u{323}\u{300}"));
    // a mark as often as it came
    assert!(!same("a\u{301}", "a\u{301}\u{301}"));
    assert!(!same("a\u{301}\u{301}\u{300}", "a\u{301}\u{300}\u{300}"));
}

/// After any letter, and after none.
#[test]
fn runs_of_marks() {
    for letter in ["", "x", "\u{42F}", "\u{674E}", "\u{1F600}"] {
        let spelled = |marks: &str| format!("{letter}{marks}");
        assert!(same(&spelled("\u{301}\u{323}"), &spelled("\u{323}\u{301}")));
    }
}

/// A run ends at what has class 0: a letter, U+034F, and marks outside of the range.
#[test]
fn ends_of_runs() {
    for end in [
        "x", "\u{34F}", "\u{59A}", "\u{1DC4}", "\u{20D0}", "\u{FEFF}",
    ] {
        let before = format!("a\u{301}{end}\u{323}");
        assert!(!same(&before, &format!("a\u{323}{end}\u{301}")));
        assert!(!same(&before, &format!("a\u{301}\u{323}{end}")));
        let after = format!("a\u{301}\u{323}{end}\u{301}\u{323}");
        assert!(same(&after, &format!("a\u{323}\u{301}{end}\u{323}\u{301}")));
    }
}

#[test]
fn what_is_not_mapped() {
    // outside of the ranges
    assert!(!same("\u{212B}", "\u{C5}"));
    assert!(!same("\u{212B}", "A\u{30A}"));
    assert!(!same("\u{451}", "\u{435}\u{308}"));
    assert!(!same("\u{3AC}", "\u{3B1}\u{301}"));
    assert!(!same("\u{2126}", "\u{3A9}"));
    // compatibility
    for (one, apart) in [
        ("\u{132}", "IJ"),
        ("\u{149}", "\u{2BC}n"),
        ("\u{17F}", "s"),
        ("\u{1C4}", "D\u{17D}"),
        ("\u{1E9A}", "a\u{2BE}"),
        ("\u{1E9B}", "\u{1E61}"),
        ("\u{1E9B}", "s\u{307}"),
    ] {
        assert!(!same(one, apart), "{one:?}");
    }
    all_same(&["\u{1E9B}", "\u{17F}\u{307}"]);
    // letters without a mapping, and case
    assert!(!same("\u{142}", "l"));
    assert!(!same("\u{F8}", "o"));
    assert!(!same("É", "é"));
    assert!(!same("é ", "é"));
    assert!(!same("\u{FEFF}é", "é"));
}

#[test]
fn a_board_counts_once() {
    let four = board(&["José", "Jose\u{301}", "José", "Jose\u{301}"]);
    assert_eq!(found(&four, "José"), 1);
    assert_eq!(found(&four.repeat(3), "Jose\u{301}"), 3);
    for seat in 0..4 {
        let mut names = ["x"; 4];
        names[seat] = "Jose\u{301}";
        assert_eq!(found(&board(&names), "José"), 1);
    }
    // an empty name is that of a seat never set; a fifth name is none
    assert_eq!(found(&board(&["é", "é", "é"]), ""), 1);
    assert_eq!(found(&board(&["é", "é", "é", "é"]), ""), 0);
    assert_eq!(found(&board(&["a", "a", "a", "a", "é"]), "e\u{301}"), 0);
    // files of lines
    assert_eq!(found("pn|é|\npn|e\u{301}|\n \npn|e|\n", "é"), 2);
}

#[test]
fn places_needed() {
    let needed = |text: &str, name: &str| {
        found(text, name);
        needed(text.as_bytes(), name.as_bytes())
    };
    // no boards, and boards without a name
    assert_eq!((needed("", "é"), needed("", "")), (2, 0));
    assert_eq!((needed("qx||pn|Ann|", "é"), needed("md|1|", "é")), (2, 2));
    assert_eq!(needed("md|1|", ""), 0);
    // three characters for two bytes or three, and one for four
    assert_eq!((needed("", "\u{1D5}"), needed("", "\u{1EF1}")), (3, 3));
    assert_eq!((needed("", "\u{1F600}"), needed("", "\u{301}")), (1, 1));
    // the longest name at any seat of any board
    for seat in 0..4 {
        let mut names = ["e"; 4];
        names[seat] = "\u{1EF1}xé";
        let text = board(&names);
        assert_eq!(needed(&text, "a"), 7);
        assert_eq!(needed(&(board(&["ab"; 4]) + &text), "a"), 7);
        assert_eq!(needed(&(text + &board(&["ab"; 4])), "a"), 7);
    }
    // a name that is replaced, and names of a part that is no board
    assert_eq!(needed("md|1|pn|José|pn|Al|", "é"), 4);
    assert_eq!(needed("md|1|pn|a,José|pn|Al|", "é"), 7);
    assert_eq!(needed("qx||pn|Al|md|1|qx||pn|José|", "é"), 4);
    assert_eq!(needed("md|1|pn|a,b,c,d,José|", "é"), 3);
}

/// The first of the refusals of a file and a name: 1 of either is before 2 of either.
fn first(of_text: Option<Refusal>, of_name: Option<Refusal>) -> Option<Refusal> {
    let too_long = Some(Refusal::TextTooLong);
    if [of_text, of_name].contains(&too_long) {
        return too_long;
    }
    of_text.or(of_name)
}

/// Refused with the first, or with 7 where there is none and the work space is too short;
/// no place is changed.
fn refused(text: &[u8], name: &[u8], first: Option<Refusal>) {
    assert_eq!(files::find_name(text, name).err(), first);
    for places in [0, 6] {
        let mut work = vec![7; places];
        let answer = find_name_in(text, name, &mut work);
        let want = first.unwrap_or(Refusal::OutputTooSmall(7));
        assert_eq!((answer, work), (Err(want), vec![7; places]));
    }
}

/// Every combination of faults: 1 of the file, 1 of the name, 2 of the file, 2 of the
/// name, then 7; no place is changed.
#[test]
fn refusals_in_order() {
    let long = vec![0xFF; LIMIT + 1];
    let texts: [(&[u8], Option<Refusal>); 3] = [
        ("pn|José|".as_bytes(), None),
        (b"pn|\xC3|", Some(Refusal::NotUtf8(3))),
        (&long, Some(Refusal::TextTooLong)),
    ];
    let names: [(&[u8], Option<Refusal>); 3] = [
        ("é".as_bytes(), None),
        (b"\xFF", Some(Refusal::NotUtf8(0))),
        (&long, Some(Refusal::TextTooLong)),
    ];
    for (text, of_text) in texts {
        let asked = |(name, of_name)| refused(text, name, first(of_text, of_name));
        names.into_iter().for_each(asked);
    }
    let enough = find_name_in("pn|José|".as_bytes(), "é".as_bytes(), &mut [7; 7]);
    assert_eq!(enough, Ok(0));
}

/// The room of the work space is all of its length: it may have to be longer than a
/// text or an output can be.
#[test]
fn names_at_the_limit() {
    let name = "\u{1D5}".repeat(LIMIT / 2);
    let text = format!("pn|{}|", &name[8..]);
    assert_eq!((name.len(), text.len()), (LIMIT, LIMIT - 4));
    let (text, name) = (text.as_bytes(), name.as_bytes());
    // three characters for each two bytes
    let places = 3 * (LIMIT / 2) + 3 * (LIMIT / 2 - 4);
    assert_eq!(needed(text, name), places);
    assert!(places <= enough_places(text, name));
    assert_eq!(files::find_name(text, name), Ok(0));
    assert_eq!(find_name_in(text, name, &mut vec![7; places]), Ok(0));
    // one name, half as long as the other
    let text = format!("pn|{}|", "\u{1D5}".repeat(LIMIT / 4));
    let name = "\u{DC}\u{304}".repeat(LIMIT / 4);
    assert_eq!(found(&text, &name), 1);
}

/// No more places are asked for of a text that is too long.
#[test]
fn places_of_long_texts() {
    let long = vec![b' '; 3 * LIMIT];
    assert_eq!(enough_places(&long, &long), 3 * LIMIT);
    assert_eq!((enough_places(b"", b""), enough_places(b"", b"a")), (0, 2));
    assert_eq!(enough_places(b"abc", b"de"), 8);
    assert_eq!(files::find_name(&long, &long), Err(Refusal::TextTooLong));
}
