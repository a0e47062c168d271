//! Cases by hand, from documents 01 and 02: no answer is upstream's to the text that is
//! lent, since upstream refuses nothing, checks no auction, does not trim a byte order
//! mark and has no rule for accents. They are the refusals with what each carries, beside
//! the nearest input that is accepted; their order; places of spans; outputs longer than
//! their room; the laws of an auction; texts with byte order marks; names with accents and
//! the work space that they take. A module for each subject makes its cases; the file is
//! `by_hand.bin`.

mod annotation;
mod auction;
mod boards;
mod equality;
mod files;
mod marks;
mod names;
mod pbn;
mod tokens;
mod writer;

use crate::{steps::*, vectors::Vectors};

/// The longest text, and a byte more.
const LIMIT: usize = 1_048_576;
const LONG: usize = LIMIT + 1;

/// A start and a length, and the number that refuses them, 0 for none.
type Refused = (u32, u32, u32);

/// Spans of `abcd` that pass the end, and the last that don't. A sum is more than 32
/// bits.
const ENDS: [Refused; 7] = [
    (3, 2, 5),
    (0, 5, 5),
    (5, 0, 5),
    (u32::MAX, 2, 5),
    (1, u32::MAX, 5),
    (4, 0, 0),
    (3, 1, 0),
];

/// Spans of `é` and FF hex that are not UTF-8, and those that are.
const CHARACTERS: [Refused; 6] = [
    (0, 1, 6),
    (1, 1, 6),
    (2, 1, 6),
    (0, 3, 6),
    (1, 0, 0),
    (0, 2, 0),
];

/// Each of these spans in its text.
fn spans_of_texts(s: &mut Steps, mut each: impl FnMut(&mut Steps, Refused)) {
    s.lend(TEXT, b"abcd");
    ENDS.into_iter().for_each(|span| each(s, span));
    s.lend(TEXT, b"\xC3\xA9\xFF");
    CHARACTERS.into_iter().for_each(|span| each(s, span));
}

/// Lends spaces with these bytes at their front.
fn spaces(s: &mut Steps, front: &[u8], len: usize) {
    s.lend_many(TEXT, b' ', len);
    s.patch(TEXT, front);
}

/// Lends spaces with a last byte that is not UTF-8.
fn spaces_ill(s: &mut Steps, len: usize) {
    s.lend_many(TEXT, b' ', len);
    s.set(REST, &[len as u32 - 1]);
    s.patch(REST, b"\xFF");
}

/// The call is refused so, without a board.
fn refused(s: &mut Steps, call: Call, number: u32, kind: u32, carried: u64) {
    s.call(call);
    s.answer(number, kind, carried);
    s.go(FRESH);
}

/// The same of a call that fills rows and cards, with so many words and places, which
/// stay.
fn stays(s: &mut Steps, call: Call, lent: [u32; 2], number: u32, kind: u32, carried: u64) {
    s.set(LENT_WORDS, &lent);
    refused(s, call, number, kind, carried);
    s.go(UNTOUCHED);
}

/// The first refusal in the order 1, 8, 5, 6 that the faults of four bits meet: a text
/// that is too long, a card 52, a span that passes the end, one that is not UTF-8.
fn first_of(faults: usize) -> u32 {
    [1, 8, 5, 6]
        .into_iter()
        .enumerate()
        .find(|(bit, _)| faults >> bit & 1 == 1)
        .map_or(0, |(_, number)| number)
}

/// The file `by_hand.bin`: the cases of the subjects, one subject after another.
pub fn vectors() -> Vectors {
    let mut s = Steps::new();
    readers::define(&mut s, Call::ParseHeading, Call::ParseLin, 0);
    finder::define(&mut s, 0);
    tokens::put(&mut s);
    boards::put(&mut s);
    files::put(&mut s);
    names::put(&mut s);
    writer::put(&mut s);
    equality::put(&mut s);
    annotation::put(&mut s);
    pbn::put(&mut s);
    auction::put(&mut s);
    marks::put(&mut s);
    s.done()
}
