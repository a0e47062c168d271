//! Records whose spans name the same bytes again and again: no reader gives
//! such, and whoever lends one gets an answer, soon. Each is made for a text of
//! so many bytes, with rows in proportion.

use lin_host_rust::{
    auction::{check_auction_numbers, Auction},
    boards::{Board, ROW},
    pbn,
    tokens::{write_document, Span},
    writer::Gathered,
    Refusal,
};
use oracle::random::Rng;

/// What is lent, and to which call. Few are made, one at a time.
#[allow(clippy::large_enum_variant)]
pub enum Asked {
    /// A board to append.
    Append(Gathered),
    /// Two boards to compare.
    Same(Gathered, Gathered),
    /// A document to write: its text and its rows.
    Document(Vec<u8>, Vec<u32>),
    /// A PBN record to make a board of.
    Convert(pbn::Gathered),
    /// A raw annotation, the text's, and its notes.
    Annotation(Vec<u8>, Box<pbn::NoteWords>),
    /// An auction to check: its text and its rows.
    Auction(Vec<u8>, Vec<u32>),
}

impl Asked {
    /// The call's value, or its refusal; of an auction the index of the first
    /// unlawful call, or 0. The output has one byte, and that of
    /// `from_board` one for each of `KEPT` bids. What would write more is refused
    /// by 7, also where the text is short.
    pub fn answer(&self) -> Result<u64, Refusal> {
        let out = &mut [0; 1];
        match self {
            Asked::Append(board) => board.lent().append(out, 0),
            Asked::Same(one, other) => one.lent().same(other.lent()).map(u64::from),
            Asked::Document(text, rows) => write_document(text, rows, Span::new(0, 0), out),
            Asked::Convert(record) => {
                let (out, rows) = (&mut [0; KEPT], &mut [0; ROW * KEPT]);
                let made = record.lent().convert_numbers(out, rows, &mut []);
                made.heading.answer.read().map(|_| made.len)
            }
            Asked::Annotation(text, notes) => {
                let raw = Span::new(0, 0);
                let written = pbn::annotation_numbers(text, raw, notes, out);
                written.read().map(|len| len.unwrap_or(0))
            }
            Asked::Auction(text, rows) => {
                check_auction_numbers(text, 0, rows)
                    .read()
                    .map(|told| match told {
                        Auction::Unlawful(n) => n as u64,
                        _ => 0,
                    })
            }
        }
    }
}

/// A name, and what is lent for a text of so many bytes.
pub struct Hostile {
    /// The call, and what is hostile about its record.
    pub name: &'static str,
    /// The record for a text of so many bytes.
    pub made: fn(usize) -> Asked,
    /// What the call answers: the number of its refusal, 0 for none.
    pub refusal: u32,
}

/// Those whose time is linear in the text and the rows.
pub const ALL: &[Hostile] = &[
    Hostile {
        name: "append, every span the whole text",
        made: |len| Asked::Append(board(whole(len), len / 24 - 1, all(len))),
        refusal: 7,
    },
    Hostile {
        name: "append, FF after every span",
        made: |len| Asked::Append(board(ill_last(len), len / 16, but_last(len))),
        refusal: 7,
    },
    Hostile {
        name: "append, FF before every span",
        made: |len| Asked::Append(board(ill_first(len), len / 16, but_first(len))),
        refusal: 7,
    },
    Hostile {
        name: "append, every byte FF",
        made: |len| Asked::Append(board(vec![0xFF; len], len / 16, but_first(len))),
        refusal: 6,
    },
    Hostile {
        name: "same_board, FF before every span",
        made: |len| with_itself(board(ill_first(len), len / 32, but_first(len))),
        refusal: 0,
    },
    Hostile {
        name: "same_board, FF after every span",
        made: |len| with_itself(board(ill_last(len), len / 32, but_last(len))),
        refusal: 0,
    },
    Hostile {
        name: "same_board, every span the whole text",
        made: |len| with_itself(board(whole(len), len / 24 - 1, all(len))),
        refusal: 0,
    },
    Hostile {
        name: "same_board, texts that differ at their end",
        made: |len| apart(len, len - 2, span(0, len - 2)),
        refusal: 0,
    },
    Hostile {
        name: "same_board, texts that differ at their start",
        made: |len| apart(len, 0, span(2, len)),
        refusal: 0,
    },
    Hostile {
        name: "write_document, FF after every span",
        made: |len| Asked::Document(ill_last(len), document_rows(len / 16, but_last(len))),
        refusal: 7,
    },
    Hostile {
        name: "write_document, FF before every span",
        made: |len| Asked::Document(ill_first(len), document_rows(len / 16, but_first(len))),
        refusal: 7,
    },
    Hostile {
        name: "from_board, dropped calls",
        made: |len| Asked::Convert(record(ill_first(len), len / 16, CONTINUE, but_first(len))),
        refusal: 0,
    },
    Hostile {
        name: "annotation_text, 256 notes",
        made: |len| Asked::Annotation(ill_first(len), notes(but_first(len))),
        refusal: 0,
    },
    Hostile {
        name: "check_auction, every annotation the text",
        made: |len| Asked::Auction(passing(whole(len), 0), passes(len / 24 - 1, 0, all(len))),
        refusal: 0,
    },
    Hostile {
        name: "check_auction, FF after every annotation",
        made: |len| {
            Asked::Auction(
                passing(ill_last(len), 0),
                passes(len / 16, 0, but_last(len)),
            )
        },
        refusal: 0,
    },
    Hostile {
        name: "check_auction, FF before every annotation",
        made: |len| {
            Asked::Auction(
                passing(ill_first(len), 2),
                passes(len / 16, 2, but_first(len)),
            )
        },
        refusal: 0,
    },
    Hostile {
        name: "check_auction, every byte FF",
        made: |len| Asked::Auction(vec![0xFF; len], passes(len / 16, 0, but_first(len))),
        refusal: 6,
    },
    Hostile {
        name: "check_auction, every bid the text but FF",
        made: |len| Asked::Auction(ill_first(len), call_rows(len / 16, but_first(len))),
        refusal: 9,
    },
];

/// Those that take time in proportion to the bytes of all spans together. Bytes
/// at different places are compared one span after another. Raw annotations are
/// read for the length that refusal 7 carries, and again for the texts and the
/// rows of an accepted record. Of the mixes of bytes that were tried, these took
/// longest.
pub const BY_NATURE: &[Hostile] = &[
    Hostile {
        name: "same_board, 32 calls a byte apart",
        made: |len| {
            let text = vec![b'a'; len];
            let one = board(text.clone(), KEPT, but_last(len));
            Asked::Same(one, board(text, KEPT, but_first(len)))
        },
        refusal: 0,
    },
    Hostile {
        name: "from_board, 32 calls, refused by 7",
        made: |len| Asked::Convert(record(mixed(len, b"!$x+"), KEPT, PASS, all(len))),
        refusal: 7,
    },
    Hostile {
        name: "from_board, 32 calls, accepted",
        made: |len| Asked::Convert(record(mixed(len, b"$x+"), KEPT, PASS, all(len))),
        refusal: 0,
    },
];

/// How many calls the records of [`BY_NATURE`] have.
const KEPT: usize = 32;

const PASS: u32 = 0;

/// The kind of a call that is dropped.
pub const CONTINUE: u32 = 4;

/// So many bytes of two-byte characters. ASCII could be passed faster.
pub fn whole(len: usize) -> Vec<u8> {
    "é".repeat(len / 2).into_bytes()
}

fn ill_last(len: usize) -> Vec<u8> {
    let mut text = whole(len);
    text[len - 2..].copy_from_slice(b"x\xFF");
    text
}

fn ill_first(len: usize) -> Vec<u8> {
    let mut text = whole(len);
    text[..2].copy_from_slice(b"\xFFx");
    text
}

/// Bytes picked by chance out of these, the same ones each time.
fn mixed(len: usize, of: &[u8]) -> Vec<u8> {
    let rng = &mut Rng::new(7);
    (0..len).map(|_| *rng.pick(of)).collect()
}

/// The span from one place up to another.
pub fn span(start: usize, end: usize) -> Span {
    Span::new(start as u32, (end - start) as u32)
}

fn all(len: usize) -> Span {
    span(0, len)
}

fn but_last(len: usize) -> Span {
    span(0, len - 1)
}

fn but_first(len: usize) -> Span {
    span(1, len)
}

/// The rows of so many calls, the bid and the annotation of each this span.
pub fn call_rows(calls: usize, x: Span) -> Vec<u32> {
    let row: [u32; ROW] = [x.start, x.len, 0, 1, x.start, x.len];
    row.repeat(calls)
}

/// A board of so many calls, the bid and the annotation of each this span.
pub fn board(text: Vec<u8>, calls: usize, x: Span) -> Gathered {
    Gathered {
        text,
        rows: call_rows(calls, x),
        ..Gathered::from(&Board::default())
    }
}

/// The text with two passes for the character at this place.
fn passing(mut text: Vec<u8>, at: usize) -> Vec<u8> {
    text[at..at + 2].copy_from_slice(b"pp");
    text
}

/// The rows of so many passes, which stand at this place, the annotation of each this
/// span.
fn passes(calls: usize, at: usize, x: Span) -> Vec<u32> {
    let row: [u32; ROW] = [at as u32, 1, 0, 1, x.start, x.len];
    row.repeat(calls)
}

/// Two equal boards.
fn with_itself(one: Gathered) -> Asked {
    let other = one.clone();
    Asked::Same(one, other)
}

/// Two boards of the same rows, all their texts this span, over texts of which
/// one has another character at this place.
fn apart(len: usize, at: usize, x: Span) -> Asked {
    let one = board(whole(len), len / 32, x);
    let mut other = one.clone();
    other.text[at..at + 2].copy_from_slice("è".as_bytes());
    Asked::Same(one, other)
}

/// The rows of a document of so many tokens, each piece this span.
pub fn document_rows(rows: usize, x: Span) -> Vec<u32> {
    [x.start, x.len, x.start, x.len].repeat(rows)
}

/// A record of so many calls of this kind, the raw annotation of each this span.
pub fn record(text: Vec<u8>, calls: usize, kind: u32, x: Span) -> pbn::Gathered {
    pbn::Gathered {
        text,
        calls: [kind, 0, 0, 1, x.start, x.len].repeat(calls),
        ..pbn::Gathered::from(&pbn::Record::default())
    }
}

/// All 256 notes, each this span.
pub fn notes(x: Span) -> Box<pbn::NoteWords> {
    let mut words = Box::new([0; 768]);
    for note in words.chunks_exact_mut(3) {
        note.copy_from_slice(&[1, x.start, x.len]);
    }
    words
}
