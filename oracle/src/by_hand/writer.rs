//! The writer, append and the play text: refusals, their order, and outputs longer than
//! their room. (Document 01, Eight refusals, 1, 5, 6, 7 and 8; Writer, "Every output's
//! room ..")

use super::*;
use crate::built::PLACES;

/// A fresh board without calls and cards.
pub const FRESH_BOARD: usize = OWN_BLOCK;

/// The places of texts: the names 0 to 3, the title 4, the room and board 5, the header
/// 6, and a call's bid 7 and annotation 8.
pub fn board_with(s: &mut Steps, place: usize, start: u32, len: u32) {
    s.go(FRESH_BOARD);
    s.set(READ_ROWS, &[0, 0, 0, 0, u32::MAX, 1]);
    s.set(ROWS + 1, &[6]);
    match place {
        0..=3 => s.set(LENT_BOARD + 2 * place, &[start, len]),
        4..=6 => s.set(LENT_BOARD + 10 + 3 * (place - 4), &[1, start, len]),
        7 => s.set(READ_ROWS, &[start, len]),
        _ => s.set(READ_ROWS + 3, &[1, start, len]),
    }
}

/// The rows and cards of a fresh board.
pub fn numbers(s: &mut Steps, rows: &[u32], cards: &[u8]) {
    s.go(FRESH_BOARD);
    s.set(READ_ROWS, rows);
    s.set(ROWS + 1, &[rows.len() as u32]);
    s.lend(CARDS, cards);
}

/// Flags: only 0 and 1 are. A rest of five words is no row, and has none. With the number
/// that refuses the rows, and the bytes that are written of them.
pub const FLAGS: [(&[u32], u32, u64); 6] = [
    (&[0, 0, 1, 1, 0, 0], 0, 52),
    (&[0, 0, 2, 0, 0, 0], 8, 0),
    (&[0, 0, 0, 2, 0, 0], 8, 0),
    (&[0, 0, 0, u32::MAX, 0, 0], 8, 0),
    (&[0, 0, 0, 0, 0, 0, 0, 0, 2, 0, 0, 0], 8, 0),
    (&[0, 0, 0, 0, 0, 0, 9, 9, 2, 2, 9], 0, 47),
];

/// Cards: only 0 to 51 are.
pub const PLAYS: [(&[u8], u32, u64); 3] = [(&[0, 51], 0, 60), (&[0, 52], 8, 0), (&[255, 0], 8, 0)];

/// A board with the faults of four bits: a text that is too long, a card 52; the first
/// name may be the first byte of `é`, and the last may pass the end: 5 is looked for in
/// all before 6.
pub fn faulty(s: &mut Steps, faults: usize) {
    s.go(FRESH_BOARD);
    s.lend(CARDS, &[if faults & 2 == 0 { 51 } else { 52 }]);
    if faults & 4 != 0 {
        s.set(LENT_BOARD + 6, &[u32::MAX, 2]);
    }
    if faults & 8 != 0 {
        s.set(LENT_BOARD, &[0, 1]);
    }
}

/// The length of its text, which begins with `é`.
pub fn faulty_len(faults: usize) -> u32 {
    if faults & 1 == 0 {
        2
    } else {
        LONG as u32
    }
}

/// The call is answered so, and a refusal leaves the output as it was.
fn answers(s: &mut Steps, call: Call, number: u32, count: u64) {
    s.call(call);
    s.answer(number, 0, count);
    if number == 0 {
        s.mark_again();
    } else {
        s.stayed();
    }
}

/// The board is written so, by append after no used byte and by write_lin.
fn both(s: &mut Steps, number: u32, count: u64) {
    s.set(ROOM, &[128]);
    s.set(NUMBER, &[0, 0]);
    answers(s, Call::Append, number, count);
    answers(s, Call::WriteLin, number, count);
    s.case(0);
}

/// Rooms around the 43 bytes of a fresh board, and used bytes around the room.
fn rooms(s: &mut Steps) {
    s.go(FRESH_BOARD);
    for (room, used, number, count) in [
        (10, 0, 7, 43),
        (0, 0, 7, 43),
        (42, 0, 7, 43),
        (43, 0, 0, 43),
        (50, 7, 0, 50),
        (50, 8, 7, 43),
        (50, 50, 7, 43),
        (50, 51, 8, 0),
        (0, 1, 8, 0),
        (128, u64::MAX, 8, 0),
        (128, 85, 0, 128),
    ] {
        s.set(ROOM, &[room]);
        s.long(NUMBER, used);
        answers(s, Call::Append, number, count);
        s.case(0);
    }
}

/// The bytes of a fresh board with one call, `mb||`, and a text of so many bytes in a place,
/// `ah||` and `an||` with it; none of a refusal.
fn bytes(place: usize, len: u32, number: u32) -> u64 {
    match (number, place) {
        (0, 6 | 8) => 51 + u64::from(len),
        (0, _) => 47 + u64::from(len),
        _ => 0,
    }
}

/// Counts as great as can be, and a hand of 2^32 and 13 cards beside two of 13: East is
/// written.
fn counts(s: &mut Steps) {
    s.go(FRESH_BOARD);
    s.repeat(LENT_BOARD + 21, MOST, 208);
    both(s, 7, 893_353_197_419);
    s.go(FRESH_BOARD);
    s.set(LENT_BOARD + 21, &[u32::MAX, 14]);
    s.set(LENT_BOARD + 21 + 52, &[13]);
    s.set(LENT_BOARD + 21 + 104, &[13]);
    both(s, 7, 4_294_967_390);
}

/// Plays with little room, none, and with a card that is none: 8 comes before 7.
fn plays(s: &mut Steps) {
    let five: &[u8] = &[0, 1, 2, 3, 4];
    let plays: [(&[u8], u32, u32, u64); 9] = [
        (&[], 0, 0, 0),
        (&[51], 2, 0, 2),
        (&[51], 1, 7, 2),
        (five, 14, 0, 14),
        (five, 13, 7, 14),
        (five, 0, 7, 14),
        (&[52], 16, 8, 0),
        (&[0, 255], 0, 8, 0),
        (&[52], 2, 8, 0),
    ];
    for (cards, room, number, count) in plays {
        s.lend(CARDS, cards);
        s.set(ROOM, &[room]);
        answers(s, Call::PlayText, number, count);
        s.case(0);
    }
}

fn refusals(s: &mut Steps) {
    s.mark(128);
    rooms(s);
    spans_of_texts(s, |s, (start, len, number)| {
        for place in 0..PLACES {
            board_with(s, place, start, len);
            both(s, number, bytes(place, len, number));
        }
    });
    for (rows, number, count) in FLAGS {
        numbers(s, rows, b"");
        both(s, number, count);
    }
    for (cards, number, count) in PLAYS {
        numbers(s, &[], cards);
        both(s, number, count);
    }
    counts(s);
    plays(s);
    s.go(FRESH_BOARD);
    for (len, number, count) in [(LONG, 1, 0), (LIMIT, 0, 43)] {
        spaces(s, b"", len);
        both(s, number, count);
    }
}

/// Every choice of six faults, the last two being too small an output and used bytes beyond
/// it: the first in the order 1, 8, 5, 6, 7.
fn order(s: &mut Steps) {
    spaces(s, "é".as_bytes(), LONG);
    s.mark(64);
    for n in 0..64 {
        let (small, beyond) = (n & 16 != 0, n & 32 != 0);
        faulty(s, n % 16);
        s.set(TEXT + 1, &[faulty_len(n)]);
        let room = 54 - u32::from(small);
        s.set(ROOM, &[room]);
        s.set(NUMBER, &[if beyond { room + 1 } else { 0 }, 0]);
        let (number, count) = match first_of(n % 16 | if beyond { 2 } else { 0 }) {
            0 if small => (7, 54),
            0 => (0, 54),
            number => (number, 0),
        };
        answers(s, Call::Append, number, count);
        s.case(1);
    }
}

/// An output longer than the longest text: its room is 1,048,576 bytes.
fn outputs(s: &mut Steps) {
    let limit = LIMIT as u32;
    s.go(FRESH_BOARD);
    s.lend(TEXT, b"");
    s.mark(LIMIT + 2);
    s.set(ROOM, &[limit + 2]);
    for (used, number, count) in [
        (limit + 1, 8, 0),
        (limit + 2, 8, 0),
        (limit, 7, 43),
        (limit - 42, 7, 43),
    ] {
        s.set(NUMBER, &[used, 0]);
        answers(s, Call::Append, number, count);
        s.case(2);
    }
    // It is accepted where it ends with the room, and the bytes after the room are as they
    // were.
    s.set(NUMBER, &[limit - 43, 0]);
    s.call(Call::Append);
    s.answer(0, 0, LIMIT as u64);
    s.set(REST, &[limit, 2]);
    s.all_are(REST, MARK);
    s.case(2);
    s.call(Call::WriteLin);
    s.answer(0, 0, 43);
    s.case(2);
    s.lend(CARDS, &[0, 51]);
    s.call(Call::PlayText);
    s.answer(0, 0, 5);
    s.case(2);
}

/// What the writer and equality share.
pub fn define(s: &mut Steps) {
    lent::define(s, lent::ONE_BOARD);
    s.block(FRESH_BOARD, |b| {
        b.go(BLANK);
        b.set(LENT_BOARD, &[0, 0, 0, 0, 0, 0, 0, 0, 2, 0, 0]);
        b.set(LENT_BOARD + 13, &[0]);
        b.set(LENT_BOARD + 16, &[0]);
        b.set(LENT_BOARD + 19, &[0]);
        b.set(ROWS + 1, &[0]);
        b.set(CARDS + 1, &[0]);
    });
}

pub fn put(s: &mut Steps) {
    define(s);
    refusals(s);
    order(s);
    outputs(s);
    s.say("by hand writer", &["refusals", "order", "outputs"]);
}
