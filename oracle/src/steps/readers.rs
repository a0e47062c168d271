//! A reader of boards, and what must hold of its answers: the heading; the board
//! with rows and places to spare and with exactly enough; refusal 3 for a word too
//! few, a place too few, and both.

use super::*;
use crate::lin::LinData;

/// The groups, from a first one on.
pub const GROUPS: [&str; 6] = [
    "headings",
    "boards",
    "exact",
    "few calls",
    "few cards",
    "few both",
];

/// Blocks that every reader has.
fn shared(s: &mut Steps) {
    s.block(NO_NAMES, |b| expected::names(b, &Default::default()));
    s.block(CLEAR, |b| b.repeat(DEAL, ZERO, 208));
    s.block(FRESH, |b| {
        b.is(BOARD, &[0, 0, 0, 0, 0, 0, 0, 0, 2, 0]);
        b.is(BOARD + 10, &[0; 11]);
        b.agree(BOARD + 21, ZERO, COUNTS, 0, ZERO);
    });
    s.block(UNTOUCHED, |b| {
        b.agree(FILLED_ROWS, MARK_WORD, ALL_WORDS, 0, ZERO);
        b.agree(FILLED_CARDS, MARK_BYTE, ALL_CARDS, 0, ZERO);
    });
    s.block(HEADED, |b| {
        b.is(ANSWER, &[0, 0, 0]);
        b.agree(ANSWER + 3, CALLS_OF, TWO, 1, ZERO);
        b.is(ANSWER + 5, &[0, 0, 0]);
        b.is(HIGH, &[0; 8]);
        b.go(HEAD);
        b.agree(BOARD + 21, DEAL, COUNTS, 1, ZERO);
    });
    s.block(ROWED, |b| {
        b.go(TAIL);
        b.agree(FILLED_ROWS, MARK_WORD, REST_WORDS, 0, WORDS_OF);
        b.agree(FILLED_CARDS, MARK_BYTE, REST_CARDS, 0, CARDS_OF);
    });
    // Six words for each call, and what is left of all words and places.
    s.block(SIZES, |b| {
        b.copy(WORDS_OF, CALLS_OF, 1, 1);
        (0..5).for_each(|_| b.add(WORDS_OF, CALLS_OF));
        b.copy(REST_WORDS, ALL_WORDS, 2, 1);
        b.sub(REST_WORDS, WORDS_OF);
        b.sub(REST_CARDS, CARDS_OF);
    });
}

/// Refusal 3 of a kind, with the number that is needed.
fn few(b: &mut Steps, call: Call, kind: u32, needed: usize, group: usize) {
    b.call(call);
    b.is(ANSWER, &[3, kind]);
    b.same(ANSWER + 2, needed);
    b.is(ANSWER + 3, &[0; 5]);
    b.is(HIGH, &[0; 8]);
    b.go(FRESH);
    b.go(UNTOUCHED);
    b.case(group);
}

/// The reader's blocks: `READ` for every board, `FEW_CALLS`, `FEW_CARDS` and
/// `FEW_BOTH` for those that have what is taken away.
pub fn define(s: &mut Steps, heading: Call, board: Call, first: usize) {
    shared(s);
    let all = [3_077, 512];
    s.block(READ, |b| {
        b.go(SIZES);
        b.call(heading);
        b.go(HEADED);
        b.case(first);
        b.set(LENT_WORDS, &all);
        b.call(board);
        b.go(HEADED);
        b.go(ROWED);
        b.case(first + 1);
        b.copy(LENT_WORDS, WORDS_OF, 1, 1);
        b.copy(LENT_CARDS, CARDS_OF, 1, 1);
        b.call(board);
        b.go(HEADED);
        b.go(ROWED);
        b.case(first + 2);
    });
    s.block(FEW_CALLS, |b| {
        b.set(LENT_WORDS, &all);
        b.copy(LENT_WORDS, WORDS_OF, 1, 1);
        b.sub(LENT_WORDS, ONE);
        few(b, board, 0, CALLS_OF, first + 3);
    });
    s.block(FEW_CARDS, |b| {
        b.copy(LENT_WORDS, WORDS_OF, 1, 1);
        b.copy(LENT_CARDS, CARDS_OF, 1, 1);
        b.sub(LENT_CARDS, ONE);
        few(b, board, 1, CARDS_OF, first + 4);
    });
    s.block(FEW_BOTH, |b| {
        b.copy(LENT_WORDS, WORDS_OF, 1, 1);
        b.sub(LENT_WORDS, TWO);
        b.sub(LENT_WORDS, FOUR);
        b.copy(LENT_CARDS, CARDS_OF, 1, 1);
        b.sub(LENT_CARDS, ONE);
        few(b, board, 0, CALLS_OF, first + 5);
    });
}

/// Reads the expected board in every group that asks it.
pub fn read(s: &mut Steps, board: &LinData) {
    expected::board(s, board);
    s.go(READ);
    let calls = !board.auction.is_empty();
    let cards = !board.play.is_empty();
    if calls {
        s.go(FEW_CALLS);
    }
    if cards {
        s.go(FEW_CARDS);
    }
    if calls && cards {
        s.go(FEW_BOTH);
    }
}

/// Refusal 4 with the count, and no board.
fn none(b: &mut Steps, call: Call) {
    b.call(call);
    b.is(ANSWER, &[4, 0]);
    b.same(ANSWER + 2, COUNT_OF);
    b.is(ANSWER + 3, &[0; 5]);
    b.is(HIGH, &[0; 8]);
    b.go(FRESH);
}

/// The blocks of a file: `COUNTED`, the count and the first number; `MISSING`, the
/// number after the last, one that is 0 in 32 bits, and the greatest.
pub fn define_file(s: &mut Steps, counts: usize, missing: usize) {
    s.block(COUNTED, |b| {
        b.call(Call::CountBoards);
        b.is(ANSWER, &[0, 0]);
        b.same(ANSWER + 2, COUNT_OF);
        b.is(ANSWER + 3, &[0; 5]);
        b.is(HIGH, &[0; 8]);
        b.case(counts);
        b.set(BOARD_NUMBER, &[0]);
        b.set(NUMBER, &[0, 0]);
    });
    s.block(MISSING, |b| {
        b.copy(NUMBER, COUNT_OF, 1, 1);
        b.set(NUMBER + 1, &[0]);
        none(b, Call::FileHeading);
        for lent in [[0, 0], [18, 3]] {
            b.set(LENT_WORDS, &lent);
            none(b, Call::FileBoard);
            b.go(UNTOUCHED);
        }
        for number in [1 << 32, u64::MAX] {
            b.long(NUMBER, number);
            none(b, Call::FileHeading);
        }
        b.case(missing);
    });
}

/// Goes on to the next number.
pub fn next_number(s: &mut Steps) {
    s.add(BOARD_NUMBER, ONE);
    s.copy(NUMBER, BOARD_NUMBER, 1, 1);
}
