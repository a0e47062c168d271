//! LIN records of contract bridge, by the proved library behind the exports of
//! the crate `lin_host`.
//!
//! | module | what it holds |
//! |---|---|
//! | [`tokens`] | the tokens of a text, and the document writer |
//! | [`boards`] | a board with its names, hands, calls and cards |
//! | [`cards`] | cards, and hands as counts of them |
//! | [`files`] | the boards of a file, one after another or by number; the name finder |
//! | [`writer`] | boards written and appended; the play as a text; equality |
//! | [`auction`] | whether an auction is lawful, how it ends, and its contract |
//! | [`pbn`] | boards made of PBN records, and annotations as text |
//!
//! An entry answers a value or a [`Refusal`], and a refusal changes nothing. A
//! read text is given as bytes, which the library checks; what it then shows of
//! the text is `str`. Functions whose names end in `numbers`, and the types
//! `Lent` and `Lin..`, are raw: they take and give the numbers of the exports.
//!
//! ```
//! use lin_host_rust::{boards::Seat, files, writer::Appender, Refusal};
//!
//! let text = "qx|o1|pn|Ann,Bob|md|3SAK|mb|1C!|an|16+|pc|SA|mc|9|qx|o2|md|1|".as_bytes();
//! let mut filed = Appender::new(1_000);
//! for next in files::boards(text)? {
//!     let board = next.board()?;
//!     filed.append(&board)?;
//! }
//! assert_eq!(files::count_boards(filed.bytes())?, 2);
//! assert_eq!(files::find_name(filed.bytes(), b"Ann")?, 1);
//! let first = files::file_board(filed.bytes(), 0)?;
//! assert_eq!(first.heading.name(Seat::West), "Bob");
//! assert_eq!(first.calls[0].annotation, Some("16+"));
//! assert_eq!(first.play[0].to_string(), "SA");
//!
//! let missing = files::file_board(filed.bytes(), 2).unwrap_err();
//! assert_eq!(missing, Refusal::NoBoard(2));
//! assert_eq!(missing.number(), 4);
//! assert_eq!(missing.to_string(), "no board of that number among 2");
//! # Ok::<(), Refusal>(())
//! ```

#![deny(missing_docs)]
#![deny(rustdoc::broken_intra_doc_links)]

pub mod auction;
pub mod boards;
pub mod cards;
mod ffi;
pub mod files;
mod gathered;
pub mod pbn;
pub mod tokens;
pub mod writer;

pub use ffi::LinAnswer;

use std::fmt;

/// The bytes that a text, or what is used of an output, has at most.
pub const LIMIT: usize = 1_048_576;

/// What refusal 3 lacks.
#[derive(Debug, Clone, Copy, PartialEq, Eq)]
pub enum RowKind {
    /// Rows for calls.
    Calls,
    /// Places for the cards of the play.
    Cards,
}

/// The refusals of document 01, and those that the requests of document 02 add,
/// by their numbers, with what each carries.
#[derive(Debug, Clone, Copy, PartialEq, Eq)]
pub enum Refusal {
    /// A lent text is too long.
    TextTooLong,
    /// The bytes that were looked at of a read text are not UTF-8: the place up to
    /// which they are well formed. For a call that reads a whole text that is the
    /// length of the text's longest well-formed start; a step from a place looks
    /// at nothing before it.
    NotUtf8(u64),
    /// Too few rows, calls before cards: the rows needed of that kind.
    TooFewRows(RowKind, u64),
    /// No board of that number: the number of boards.
    NoBoard(u64),
    /// A span passes its text's end.
    SpanPastEnd,
    /// A span's bytes are not UTF-8.
    SpanNotUtf8,
    /// The output is too small: the bytes that the call would write; or the work space
    /// of the finder: the places that it needs.
    OutputTooSmall(u64),
    /// A card, level or number is outside its range, or the used bytes are beyond
    /// the room.
    OutOfRange,
    /// A bid of an auction is none of p, d, r and the bids 1C to 7N: the least index
    /// of such a bid.
    BidUnknown(u64),
}

impl Refusal {
    /// The number that document 01 or 02 gives it.
    pub fn number(self) -> u32 {
        match self {
            Refusal::TextTooLong => 1,
            Refusal::NotUtf8(_) => 2,
            Refusal::TooFewRows(..) => 3,
            Refusal::NoBoard(_) => 4,
            Refusal::SpanPastEnd => 5,
            Refusal::SpanNotUtf8 => 6,
            Refusal::OutputTooSmall(_) => 7,
            Refusal::OutOfRange => 8,
            Refusal::BidUnknown(_) => 9,
        }
    }

    /// The place, the length, the count or the index that it carries.
    pub fn carried(self) -> Option<u64> {
        match self {
            Refusal::NotUtf8(n)
            | Refusal::TooFewRows(_, n)
            | Refusal::NoBoard(n)
            | Refusal::OutputTooSmall(n)
            | Refusal::BidUnknown(n) => Some(n),
            _ => None,
        }
    }
}

impl fmt::Display for Refusal {
    fn fmt(&self, f: &mut fmt::Formatter) -> fmt::Result {
        match self {
            Refusal::TextTooLong => write!(f, "a text is longer than {LIMIT} bytes"),
            Refusal::NotUtf8(n) => write!(f, "the bytes read are UTF-8 only up to place {n}"),
            Refusal::TooFewRows(RowKind::Calls, n) => write!(f, "{n} rows for calls are needed"),
            Refusal::TooFewRows(RowKind::Cards, n) => write!(f, "{n} places for cards are needed"),
            Refusal::NoBoard(n) => write!(f, "no board of that number among {n}"),
            Refusal::SpanPastEnd => write!(f, "a span passes its text's end"),
            Refusal::SpanNotUtf8 => write!(f, "the bytes of a span are not UTF-8"),
            Refusal::OutputTooSmall(n) => write!(
                f,
                "an output of {n} bytes, or work space of {n} places, is needed"
            ),
            Refusal::OutOfRange => write!(f, "a card, a level or a number is outside its range"),
            Refusal::BidUnknown(n) => write!(f, "call {n} is none of p, d, r and 1C to 7N"),
        }
    }
}

impl std::error::Error for Refusal {}

impl LinAnswer {
    /// The number answered, or the refusal.
    ///
    /// # Panics
    ///
    /// If it is neither: an unknown number or kind, or a value beside a
    /// refusal that carries nothing.
    pub fn read(self) -> Result<u64, Refusal> {
        let LinAnswer {
            refusal,
            kind,
            value,
        } = self;
        match (refusal, kind, value) {
            (0, 0, n) => Ok(n),
            (1, 0, 0) => Err(Refusal::TextTooLong),
            (2, 0, n) => Err(Refusal::NotUtf8(n)),
            (3, 0, n) => Err(Refusal::TooFewRows(RowKind::Calls, n)),
            (3, 1, n) => Err(Refusal::TooFewRows(RowKind::Cards, n)),
            (4, 0, n) => Err(Refusal::NoBoard(n)),
            (5, 0, 0) => Err(Refusal::SpanPastEnd),
            (6, 0, 0) => Err(Refusal::SpanNotUtf8),
            (7, 0, n) => Err(Refusal::OutputTooSmall(n)),
            (8, 0, 0) => Err(Refusal::OutOfRange),
            (9, 0, n) => Err(Refusal::BidUnknown(n)),
            _ => panic!("neither an answer nor a refusal: {self:?}"),
        }
    }
}

impl From<Refusal> for LinAnswer {
    /// The three numbers by which the exports give a refusal.
    fn from(refusal: Refusal) -> LinAnswer {
        LinAnswer {
            refusal: refusal.number(),
            kind: matches!(refusal, Refusal::TooFewRows(RowKind::Cards, _)).into(),
            value: refusal.carried().unwrap_or(0),
        }
    }
}
