//! The sweep over every Unicode scalar value, the byte order mark as any other, in
//! every place that is trimmed or matched, and in names.

use super::{Kind, Report};
use crate::{
    compare::{self, Same},
    expected,
    model::{names::mapped, MARK},
};
use lin_host_rust::{files, pbn::NoteWords, tokens::Span};

/// How many scalar values there are, and the step from one turn to the next,
/// which shares no factor with them.
const VALUES: u64 = 0x11_0000 - 0x800;
const STRIDE: u64 = 700_001;

/// The scalar values in an order of their own, each once before any has its
/// second turn.
pub struct Scalars {
    start: u64,
    turn: u64,
}

/// The scalar value of a number below `VALUES`.
fn scalar(n: u64) -> char {
    let code = if n < 0xD800 { n } else { n + 0x800 };
    char::from_u32(code as u32).expect("a scalar value")
}

impl Scalars {
    pub fn new(seed: u64) -> Scalars {
        Scalars {
            start: seed % VALUES,
            turn: 0,
        }
    }

    /// How many values had their turn, and how many there are.
    pub fn turns(&self) -> (u64, u64) {
        (self.turn, VALUES)
    }

    /// A few values more.
    pub fn some(&mut self, report: &mut Report) {
        for _ in 0..24 {
            let number = (self.start + self.turn % VALUES * STRIDE) % VALUES;
            self.turn += 1;
            one(scalar(number), report);
        }
    }
}

/// Compares these texts, each by itself.
fn each(report: &mut Report, what: &str, texts: &[String], compared: fn(&str) -> Same) {
    for text in texts {
        report.add(Kind::Scalars, text.as_bytes(), compared(text), || {
            format!("{what} {text:?}")
        });
    }
}

/// A character in every place that is trimmed or matched, and in names.
fn one(c: char, report: &mut Report) {
    each(report, "board", &board_texts(c), board);
    each(report, "file", &file_texts(c), file);
    each(report, "bid", &bid_texts(c), bid);
    each(report, "annotation", &annotation_texts(c), annotation);
    let (text, sought) = names(c);
    let outcome = compare::names(text.as_bytes(), &sought.each_ref().map(|n| n.as_bytes()));
    report.add(Kind::Scalars, text.as_bytes(), outcome, || {
        format!("file {text:?}")
    });
}

/// A file whose boards have the character as a name, as it is and mapped, after a letter
/// and among marks; and such names to look for. A character of class 0 ends a run of
/// marks.
fn names(c: char) -> (String, [String; 4]) {
    let apart = String::from_iter(mapped(&c.to_string()));
    let marked = [
        format!("e\u{301}{c}\u{323}"),
        format!("e\u{323}{apart}\u{301}"),
    ];
    let names = [format!("{c},a{c}"), format!("{apart},a{apart}")];
    let boards = names.iter().chain(&marked);
    let text = boards
        .map(|names| format!("qx||pn|{names}|md|1|"))
        .collect();
    let [one, other] = marked;
    (text, [c.to_string(), apart, one, other])
}

/// Around commands and values, for each letter and digit that is looked for, and
/// beside marks.
fn board_texts(c: char) -> [String; 5] {
    const THREE: &str = "SAKQJT98765432,HAKQJT98765432,DAKQJT98765432";
    [
        format!(
            "{c}mn|t|qx{c}|r|{c}h|x|{c}pn{c}|{c},b{c}|md|{c}1SA{c}K,{c}2|sv|{c}n|mc|{c}9|\
             pc|{c}SA|pc|HK{c}|pc|{c}2|pc|D{c}|pc|C{c}3|mb|1C{c}|mb|1C{c}!|mb|1C!{c}|an|{c}|"
        ),
        format!("m{c}|1|q{c}|2|a{c}|3|p{c}|4|md|1SA,S{c},{c}H2{c}|sv|n{c}|mc|9{c}|mc{c}|{c}|"),
        format!("md|{c}SA,{c}A|sv|{c}|mc|{c}|{c}c|7|m{c}|8|"),
        format!("md|1{THREE},{c}|sv|{c}s|mc|1{c}2|{c}v|n|"),
        format!(
            "{MARK}{c}{MARK}pn{c}{MARK}|{MARK}{c}|pc|{c}{MARK}SA{MARK}{c}|sv|{MARK}{c}b|\
             mc|{c}{MARK}{c}9{MARK}|mb|{MARK}!{c}|md|{MARK}{c}2{THREE},{MARK}{c}{MARK}|"
        ),
    ]
}

/// For lines that trim to nothing, for qx, and for the tokens before it; and beside
/// marks.
fn file_texts(c: char) -> [String; 4] {
    [
        format!("{c}\na|b|\n{c}{c}\n|"),
        format!("md|1|{c}mn|t|p{c}|u|{c}qx{c}|a|md{c}|2|q{c}|b|{c}md|3|"),
        format!("{MARK}{c}\n{c}{MARK}\n{c}{MARK}{c}\na{MARK}{c}\n{MARK}"),
        format!("{MARK}{c}qx|a|md|1|{c}{MARK}mn|t|pn{MARK}{c}|u|qx{MARK}|b|{MARK}{c}md|2|"),
    ]
}

/// For the number of a note, for marks and for runs.
fn annotation_texts(c: char) -> [String; 1] {
    [format!("={c}1=${c}!{c}?$1{c}=1{c}={c}==")]
}

/// For a call, its level, its strain and the last letter of notrump, and around one.
fn bid_texts(c: char) -> [String; 6] {
    [
        format!("{c}"),
        format!("{c}C"),
        format!("1{c}"),
        format!("1N{c}"),
        format!("{c}p"),
        format!("1C{c}"),
    ]
}

/// The fields of the board of a text.
pub(super) fn board(text: &str) -> Same {
    compare::read(text.as_bytes())
}

/// The auction of one bid.
fn bid(text: &str) -> Same {
    let row = [0, text.len() as u32, 0, 0, 0, 0];
    compare::auction(text.as_bytes(), 0, &row)
}

/// The boards of a file that opens, by the cursor, against those expected.
pub(super) fn file(text: &str) -> Same {
    let want = expected::file(text)?;
    let count = files::count_boards(text.as_bytes());
    if count != Ok(want.len() as u64) {
        return Err(format!("count: {count:?}, not {}", want.len()));
    }
    let all = files::Boards::open(text.as_bytes()).map_err(|r| r.to_string())?;
    for (board, want) in all.zip(&want) {
        compare::fields_of(&board.board().map_err(|r| r.to_string())?, want)?;
    }
    Ok(())
}

/// An annotation with notes 1 and 11.
pub(super) fn annotation(raw: &str) -> Same {
    let mut text = raw.as_bytes().to_vec();
    text.extend(b"weak");
    let len = raw.len() as u32;
    let mut notes: NoteWords = [0; 768];
    notes[3..6].copy_from_slice(&[1, len, 4]);
    notes[33..36].copy_from_slice(&[1, len, 1]);
    compare::annotation(&text, Span::new(0, len), &notes, 120)
}

#[cfg(test)]
mod tests {
    use super::*;

    /// Each scalar value has one turn before any has its second.
    #[test]
    fn every_scalar_value() {
        let mut seen = vec![false; VALUES as usize];
        for turn in 0..VALUES {
            let number = (5 + turn * STRIDE) % VALUES;
            assert!(!std::mem::replace(&mut seen[number as usize], true));
        }
        assert_eq!(
            [0, 0xD7FF, 0xD800, VALUES - 1].map(scalar),
            ['\0', '\u{D7FF}', '\u{E000}', char::MAX]
        );
    }
}
