//! The exports alone over texts of which most is trimmed: byte order marks and, beside them,
//! ideographic spaces, which have as many bytes. Upstream trims the latter alone. (Document
//! 02, N2)

use crate::works::alone;
use lin_host_rust::{
    boards::{self, ROW},
    files::{self, BoardCursor},
};
use std::hint::black_box;

/// A name in the table, the text of a character up to so many bytes, and the call.
pub struct White {
    pub name: &'static str,
    text: fn(&str, usize) -> String,
    call: fn(&[u8]) -> u64,
}

pub const ALL: &[White] = &[
    White {
        name: "count_boards, nothing else",
        text: nothing_else,
        call: count,
    },
    White {
        name: "count_boards, one to a line",
        text: to_a_line,
        call: count,
    },
    White {
        name: "heading, about one command",
        text: about_one,
        call: dealer,
    },
    White {
        name: "read_board, about all that is trimmed",
        text: about_all,
        call: walk,
    },
];

/// The characters, with their names.
pub const CHARACTERS: [(&str, &str); 2] = [("U+3000", "\u{3000}"), ("U+FEFF", "\u{FEFF}")];

impl White {
    /// The least time over a text of the character, up to so many bytes.
    pub fn time(&self, character: &str, len: usize, runs: usize) -> f64 {
        let text = (self.text)(character, len);
        alone(runs, || (self.call)(black_box(text.as_bytes())))
    }
}

fn nothing_else(c: &str, len: usize) -> String {
    c.repeat(len / c.len())
}

fn to_a_line(c: &str, len: usize) -> String {
    format!("{c}\n").repeat(len / (c.len() + 1))
}

fn about_one(c: &str, len: usize) -> String {
    let side = c.repeat((len - 5) / 2 / c.len());
    format!("{side}md{side}|1|")
}

fn about_all(c: &str, len: usize) -> String {
    let board = format!("{c}qx{c}|o1|{c}md{c}|{c}1{c}|{c}pc{c}|{c}SA{c}|");
    board.repeat(len / board.len())
}

fn count(text: &[u8]) -> u64 {
    files::count_boards(text).expect("a text within the limit")
}

fn dealer(text: &[u8]) -> u64 {
    boards::heading_numbers(text).board.dealer.into()
}

/// All boards, by the step that reads.
fn walk(text: &[u8]) -> u64 {
    let (mut rows, mut cards) = ([0; 8 * ROW], [0; 8]);
    let mut cursor = BoardCursor::open(text).expect("a text within the limit");
    loop {
        let (after, board) = cursor
            .read(text, &mut rows, &mut cards)
            .expect("rows enough");
        if board.is_none() {
            return after.number();
        }
        cursor = after;
    }
}
