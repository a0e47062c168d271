//! The refusals of equality, of the one board and of the other, beside the nearest boards
//! that are compared. (Document 01, Eight refusals, 1, 5, 6 and 8)

use super::{
    writer::{board_with, faulty, faulty_len, numbers, FLAGS, FRESH_BOARD, PLAYS},
    *,
};
use crate::built::PLACES;

/// Takes each board for the other, and keeps the one aside.
const SWAP: usize = OWN_BLOCK + 1;
const ASIDE: usize = KEPT;

/// The answer is this refusal, or none where the number is 0.
fn meets(s: &mut Steps, number: u32) {
    s.call(Call::SameBoard);
    if number == 0 {
        s.is(ANSWER, &[0, 0]);
    } else {
        s.answer(number, 0, 0);
    }
}

/// The board meets this refusal against a fresh board, both ways round.
fn both(s: &mut Steps, number: u32) {
    meets(s, number);
    s.go(SWAP);
    meets(s, number);
    s.go(SWAP);
    s.case(0);
}

fn define(s: &mut Steps) {
    s.block(SWAP, |b| {
        for (one, other, words) in [
            (LENT_BOARD, LENT_BOARD2, 229),
            (READ_ROWS, READ_ROWS2, 24),
            (TEXT + 1, TEXT2 + 1, 1),
            (TEXT, TEXT2, 1),
            (CARDS, CARDS2, 2),
            (ROWS + 1, ROWS2 + 1, 1),
        ] {
            b.copy(ASIDE, one, words, 1);
            b.copy(one, other, words, 1);
            b.copy(other, ASIDE, words, 1);
        }
    });
}

/// Every choice of four faults in each of two boards: the first in the order 1, 8, 5, 6 that
/// either has. The other's 8 comes before the one's 5.
fn order(s: &mut Steps) {
    spaces(s, "é".as_bytes(), LONG);
    s.set(TEXT2, &[0]);
    for n in 0..256 {
        let (a, b) = (n % 16, n / 16);
        faulty(s, b);
        s.set(TEXT + 1, &[faulty_len(b)]);
        s.go(SWAP);
        faulty(s, a);
        s.set(TEXT + 1, &[faulty_len(a)]);
        meets(s, first_of(a | b));
        s.case(0);
    }
    s.set(TEXT2, &[SECOND_TEXT]);
}

pub fn put(s: &mut Steps) {
    define(s);
    s.go(FRESH_BOARD);
    s.lend(TEXT2, b"");
    s.go(SWAP);
    s.go(FRESH_BOARD);
    // The fresh board's text is empty, and the other's stands at the front.
    s.set(TEXT, &[0]);
    s.set(TEXT2, &[SECOND_TEXT, 0]);
    spans_of_texts(s, |s, (start, len, number)| {
        for place in 0..PLACES {
            board_with(s, place, start, len);
            both(s, number);
        }
    });
    for (cards, number, _) in PLAYS {
        numbers(s, &[], cards);
        both(s, number);
    }
    for (rows, number, _) in FLAGS {
        numbers(s, rows, b"");
        both(s, number);
    }
    s.go(FRESH_BOARD);
    for (len, number) in [(LONG, 1), (LIMIT, 0)] {
        spaces(s, b"", len);
        both(s, number);
    }
    order(s);
    s.say("by hand equality", &["refusals"]);
}
