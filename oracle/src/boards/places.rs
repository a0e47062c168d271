//! White space, and characters like it, at the ends of every place that a board
//! trims and of every place that it does not. (Document 01, Records: "White
//! space is ..")

use super::{
    deals::THREE,
    traps::{joined, TOKENS},
};
use crate::texts::{SAMPLES, WHITE};

/// None that trimming removes: those that show nothing, those with the last or the first
/// bytes of a white space character or of the byte order mark, and those beside one in the
/// table.
const ALIKE: &[char] = &[
    // that show nothing
    '\0',
    '\u{1C}',
    '\u{1D}',
    '\u{1E}',
    '\u{1F}',
    '\u{7F}',
    '\u{AD}',
    '\u{180E}',
    '\u{200B}',
    '\u{200C}',
    '\u{200D}',
    '\u{2060}',
    '\u{2800}',
    '\u{3164}',
    '\u{FFFE}',
    // the last bytes A0, 85, 8A
    '\u{E0}',
    '\u{C5}',
    '\u{4E20}',
    '\u{10A}',
    // 80, 80 80, 80 A8, 80 AF, 81 9F, 9A 80
    '\u{2080}',
    '\u{3040}',
    '\u{E000}',
    '\u{10000}',
    '\u{3028}',
    '\u{302F}',
    '\u{305F}',
    '\u{1A680}',
    // BB BF, of the byte order mark
    '\u{EFF}',
    '\u{1EFF}',
    // the first bytes C2, E1 9A, E2 80, E2 81, E3 80, EF BB
    '\u{80}',
    '\u{169F}',
    '\u{2010}',
    '\u{2040}',
    '\u{3003}',
    '\u{FEC0}',
    // beside one in the table
    '\u{8}',
    '\u{E}',
    '\u{84}',
    '\u{86}',
    '\u{9F}',
    '\u{A1}',
    '\u{167F}',
    '\u{1681}',
    '\u{1FFF}',
    '\u{2027}',
    '\u{202A}',
    '\u{202E}',
    '\u{2030}',
    '\u{205E}',
    '\u{2FFF}',
    '\u{3001}',
    '\u{FEFE}',
    '\u{FF00}',
];

/// White space, and what is like it.
pub fn characters() -> impl Iterator<Item = char> {
    WHITE.into_iter().chain(ALIKE.iter().copied())
}

/// A character before a word, behind it, and at both ends within spaces.
fn ends(c: char, word: &str) -> [String; 3] {
    [
        format!("{c}{word}"),
        format!("{word}{c}"),
        format!(" {c}{word}{c} "),
    ]
}

/// All commands with the character at their ends, then each value that is
/// trimmed, then the field of East.
pub fn at_the_ends(c: char) -> Vec<String> {
    let commands = |n: usize| joined(&TOKENS.map(|(word, v)| (ends(c, word)[n].clone(), v)));
    let value =
        |old, command: &str, word| ends(c, word).map(|v| format!("{command}|{old}|{command}|{v}|"));
    let mut all: Vec<String> = (0..3).map(commands).collect();
    all.extend(value("3C2", "md", "2SA,HK,DQ,CJ"));
    all.extend(value("b", "sv", "nS"));
    all.extend(value("H2", "pc", "SA"));
    all.extend(value("7", "mc", "+12"));
    all.push(format!("md|1{THREE},{c}|"));
    all.extend(ends(c, " ").map(|field| format!("md|1{THREE},{field}|")));
    all
}

/// Every character at both ends of every trimmed place.
pub fn trimmed() -> Vec<String> {
    characters().flat_map(at_the_ends).collect()
}

/// A text in every place that is not trimmed: with others, alone, and within
/// the values that are.
pub fn everywhere(x: &str) -> Vec<String> {
    vec![
        format!("mn|{x}t{x}|qx|{x}r{x}|ah|{x}h{x}|pn|{x}a{x},{x}b,{x}|"),
        format!("mb|{x}1C!{x}|an|{x}n{x}|mb|{x}1D{x}!|an|{x}|mb|{x}!{x}!|"),
        format!("mn|{x}|qx|{x}|ah|{x}|pn|,{x}|mb|{x}|an|{x}|"),
        format!("sv|n{x}s|pc|S{x}A|mc|1{x}2|m{x}b|1C|md|1S{x}A{x}K,{x}H2{x},C{x}2|"),
    ]
}

/// Every character, and the samples of texts, in every place that is not
/// trimmed.
pub fn kept() -> Vec<String> {
    let samples = SAMPLES.iter().map(|s| s.to_string());
    let all = characters().map(String::from).chain(samples);
    all.flat_map(|x| everywhere(&x)).collect()
}
