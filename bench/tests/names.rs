//! The name finder against the model: names with accents, in work space of any length.
//! (Document 02, N3) What the finder finds is told by hand in `host/tests/names.rs`.

use lin_bench::{
    compare,
    model::names::{canonical, find_name, mapped, same_name, MAPPINGS},
    samples::{
        self,
        hostile_names::{self, Asked},
    },
};
use lin_host_rust::{files, Refusal, LIMIT};
use oracle::{random::Rng, texts};

fn compared(text: &[u8], name: &[u8]) {
    if let Err(difference) = compare::name(text, name) {
        panic!("{difference}\nin {:?}", text.escape_ascii().to_string());
    }
}

/// A file of lines, a board for each of these names.
fn file(names: &[String]) -> String {
    names.iter().map(|n| format!("pn|{n}|\n")).collect()
}

// The model

/// The model maps and orders as Python's unicodedata does, over texts of ASCII and the
/// three ranges.
#[test]
fn judged_by_python() {
    let judged = include_str!("../../oracle/judged/accents.txt");
    let text = |codes: &str| -> String {
        let codes = codes.split_whitespace();
        let codes = codes.map(|hex| u32::from_str_radix(hex, 16).expect("a number in hex"));
        codes
            .map(|code| char::from_u32(code).expect("a character"))
            .collect()
    };
    let mut lines = 0;
    for line in judged.lines().filter(|line| !line.starts_with('#')) {
        let (given, answer) = line.split_once(';').expect("a text and its answer");
        let (given, answer) = (text(given), text(answer));
        assert_eq!(String::from_iter(canonical(&given)), answer, "{given:?}");
        lines += 1;
    }
    assert!(lines > 10_000);
}

/// Sameness is an equivalence, and what is mapped and ordered stays.
#[test]
fn sameness() {
    let rng = &mut Rng::new(65);
    for _ in 0..2_000 {
        let one = samples::names::name(rng, 4);
        let other = samples::names::respelled(rng, &one);
        let near = samples::names::nearly(rng, &one);
        assert!(same_name(&one, &other) && same_name(&other, &one));
        assert_eq!(same_name(&one, &near), same_name(&near, &other));
        let full = String::from_iter(canonical(&one));
        assert_eq!(String::from_iter(canonical(&full)), full);
        let mut marks = [mapped(&one), canonical(&one)];
        marks.iter_mut().for_each(|all| all.sort());
        assert_eq!(marks[0], marks[1]);
    }
}

// The finder

/// The spellings of which `host/tests/names.rs` tells which are one name.
const SPELLINGS: [&str; 49] = [
    "",
    "José",
    "Jose\u{301}",
    "Jose",
    "JOSÉ",
    "José ",
    "\u{FEFF}José",
    "\u{1EF1}",
    "\u{1B0}\u{323}",
    "u\u{31B}\u{323}",
    "u\u{323}\u{31B}",
    "\u{1EE5}\u{31B}",
    "\u{340}",
    "\u{300}",
    "\u{341}",
    "\u{343}",
    "\u{344}",
    "\u{308}\u{301}",
    "a\u{300}\u{301}",
    "a\u{301}\u{300}",
    "a\u{300}\u{323}\u{301}",
    "a\u{323}\u{300}\u{301}",
    "\u{212B}",
    "\u{C5}",
    "A\u{30A}",
    "\u{451}",
    "\u{435}\u{308}",
    "\u{42F}\u{301}\u{323}",
    "\u{42F}\u{323}\u{301}",
    "a\u{301}\u{59A}\u{323}",
    "a\u{323}\u{59A}\u{301}",
    "a\u{301}\u{1DC4}\u{323}",
    "a\u{323}\u{1DC4}\u{301}",
    "a\u{301}\u{34F}\u{323}",
    "a\u{323}\u{34F}\u{301}",
    "\u{1E9B}",
    "\u{17F}\u{307}",
    "\u{1E61}",
    "s\u{307}",
    "\u{132}",
    "IJ",
    "\u{149}",
    "\u{17F}",
    "s",
    "\u{1C4}",
    "D\u{17D}",
    "\u{1E9A}",
    "\u{1F600}",
    "\u{1F600}\u{301}\u{323}",
];

/// Each of the spellings, looked for among all.
#[test]
fn spellings_by_hand() {
    let names = SPELLINGS.map(str::to_string);
    let text = file(&names);
    names
        .iter()
        .for_each(|name| compared(text.as_bytes(), name.as_bytes()));
    let found = |name: &str| find_name(text.as_bytes(), name.as_bytes(), usize::MAX);
    assert_eq!((found("Jose\u{301}"), found("\u{1EF1}")), (Ok(2), Ok(5)));
}

/// Every name of at most three of some letters and marks, among all of them.
#[test]
fn every_pair_of_short_names() {
    let letters = [
        "e", "é", "\u{1EB9}", "\u{300}", "\u{301}", "\u{323}", "\u{31B}", "\u{34F}",
    ];
    let names = texts::words(&letters, 3);
    let text = file(&names);
    let all: Vec<&[u8]> = names.iter().map(String::as_bytes).collect();
    compare::names(text.as_bytes(), &all).unwrap();
}

/// Every character that is mapped, and what it is mapped to once and until no mapping
/// applies, among others.
#[test]
fn every_mapping() {
    for lines in MAPPINGS.chunks(84) {
        let ones = lines.iter().map(|(c, _)| c.to_string());
        let once = lines.iter().map(|(_, to)| String::from_iter(*to));
        let full = lines
            .iter()
            .map(|(c, _)| String::from_iter(mapped(&c.to_string())));
        let names: Vec<String> = ones.chain(once).chain(full).collect();
        let all: Vec<&[u8]> = names.iter().map(String::as_bytes).collect();
        compare::names(file(&names).as_bytes(), &all).unwrap();
    }
}

/// In work space of several lengths, and of one by chance.
fn compared_in(text: &[u8], name: &[u8], rng: &mut Rng) {
    compared(text, name);
    compare::name_in(text, name, rng.below(100)).unwrap();
}

#[test]
fn random_names() {
    let rng = &mut Rng::new(66);
    for _ in 0..4_000 {
        let samples::names::Asked { text, names } = samples::names::asked(rng);
        names.iter().for_each(|name| compared_in(&text, name, rng));
    }
}

/// As many boards have the name as it was made for.
fn hostile(Asked { text, name, boards }: Asked) {
    let (text, name) = (text.as_bytes(), name.as_bytes());
    assert_eq!(find_name(text, name, usize::MAX), Ok(boards));
    compared(text, name);
}

#[test]
fn hostile_names() {
    for kind in hostile_names::ALL {
        let asked = [1_000, LIMIT / 16].map(kind.made);
        asked.into_iter().for_each(hostile);
    }
}

#[test]
fn names_at_the_limit() {
    let long = "\u{1D5}".repeat(LIMIT / 2);
    let name = format!("pn|{}|", "\u{1D5}".repeat(LIMIT / 2 - 4));
    assert!(long.len() == LIMIT && name.len() <= LIMIT);
    for (text, name) in [
        (&b""[..], long.as_bytes()),
        (name.as_bytes(), &b""[..]),
        (name.as_bytes(), long.as_bytes()),
        (
            name.as_bytes(),
            "U\u{308}\u{304}".repeat(LIMIT / 5).as_bytes(),
        ),
        (
            name.as_bytes(),
            "\u{DC}\u{304}".repeat(LIMIT / 4).as_bytes(),
        ),
    ] {
        compared(text, name);
    }
}

#[test]
fn texts_beyond_the_limit_and_no_texts() {
    let long = vec![b'a'; LIMIT + 1];
    let ill = vec![0xFF; LIMIT + 1];
    let all: [&[u8]; 7] = [b"pn|a|", b"", b"\xC3", b"pn|\xCC|", &long[1..], &long, &ill];
    for text in all {
        all.iter().for_each(|name| compared(text, name));
    }
    // no place is asked for where a text is refused
    assert_eq!(files::find_name(&long, &ill), Err(Refusal::TextTooLong));
}
