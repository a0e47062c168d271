//! Every number behind `$` and between two `=`, as upstream reads it and as it
//! does not.

use super::{Case, Notes};

/// The numbers go beyond those of the notes, 0 to 255.
const NUMBERS: std::ops::RangeInclusive<usize> = 0..=300;

/// `$` and each number, with zeros before it and without.
pub fn marks() -> Vec<Case> {
    let mut all = Vec::new();
    for n in NUMBERS {
        for zeros in ["", "0", "00"] {
            all.push((format!("${zeros}{n}"), Notes::new()));
        }
    }
    all
}

/// `$` and a number between pieces.
pub fn marks_beside() -> Vec<Case> {
    let mut all = Vec::new();
    for n in 0..=12 {
        for zeros in ["", "0"] {
            for piece in [
                "!", "?", "$", "=", "==", "z", "é", " ", "+", ".", "٣", "=5=",
            ] {
                let notes = [(5, format!("five{n}"))];
                all.push((format!("{piece}${zeros}{n}{piece}"), notes.into()));
            }
        }
    }
    all
}

/// What stands before and after the number of a note.
const FORMS: &[[&str; 2]] = &[
    ["=", "="],
    ["=+", "="],
    ["=++", "="],
    ["=-", "="],
    ["=+-", "="],
    ["= ", "="],
    ["=", " ="],
    ["=\u{A0}", "="],
    ["=+ ", "="],
    ["=0", "="],
    ["=00", "="],
    ["=+0", "="],
    ["=0+", "="],
    ["=", "+="],
    ["=00000000000000000000", "="],
];

/// A number in each form, with the note of that number, or for a number beyond
/// the notes those that it might be taken for.
pub fn references() -> Vec<Case> {
    let mut all = Vec::new();
    for n in NUMBERS {
        let note = |n: u8| (n, format!("n{n}"));
        let notes: Notes = match u8::try_from(n) {
            Ok(n) => [note(n)].into(),
            Err(_) => [(n % 256) as u8, (n / 10) as u8, 255].map(note).into(),
        };
        for [before, after] in FORMS {
            all.push((format!("{before}{n}{after}"), notes.clone()));
        }
    }
    all
}

/// A number without a note between two that have one, and with no note at all.
pub fn absent() -> Vec<Case> {
    let mut all = Vec::new();
    for n in 0..=255u8 {
        let beside = [n.wrapping_sub(1), n.wrapping_add(1)];
        let notes: Notes = beside.map(|n| (n, format!("n{n}"))).into();
        all.push((format!("={n}="), notes.clone()));
        all.push((format!("=+0{n}=!"), notes));
        all.push((format!("?={n}="), Notes::new()));
    }
    all
}
