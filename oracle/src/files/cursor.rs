//! The board cursor stepped over a text: its boards are those of the file, in
//! order, and each is `parse_lin` of its part of the text, with spans moved by the
//! part's start. Upstream has no cursor: the boards are its answers, and how the
//! parts stand to the text is document 01's.

use crate::steps::*;

/// The cursor's place and number; 1 for a part and 2 for a board found, 0 at the
/// end; where a part begins; the text's own start and length; the calls that agree.
const AT: usize = OWN_NUMBER + 1;
const PASSED: usize = OWN_NUMBER + 3;
const FOUND: usize = OWN_NUMBER + 5;
const BEGINS: usize = OWN_NUMBER + 6;
const WHOLE: usize = OWN_NUMBER + 7;
const AGREED: usize = OWN_NUMBER + 9;
const EXPECTED: usize = OWN_NUMBER + 10;
const SECTION: usize = OWN_NUMBER + 11;

/// Opens the cursor, steps it to the next board, and beyond the last.
pub const OPENED: usize = OWN_BLOCK + 1;
pub const STEPPED: usize = OWN_BLOCK + 2;
pub const ENDED: usize = OWN_BLOCK + 3;
const SEEK: usize = OWN_BLOCK + 4;
const LEAVE: usize = OWN_BLOCK + 5;

/// Keeps whether all agreed so far for the case of the text.
fn kept(b: &mut Steps) {
    b.add(AGREED, OK);
    b.set(OK, &[1]);
}

/// A number of two words of the answer.
fn take(b: &mut Steps, to: usize, number: usize) {
    b.copy(to, ANSWER + number, 1, 1);
    b.copy(to + 1, HIGH + number, 1, 1);
}

/// The next part that is a board, or the end. A part begins at the cursor and has
/// the number of the boards before it.
fn seek(b: &mut Steps) {
    b.copy(NUMBER, AT, 2, 1);
    b.copy(SECOND, PASSED, 2, 1);
    b.call(Call::NextBoard);
    b.copy(FOUND, ANSWER, 1, 1);
    b.add(FOUND, ANSWER + 4);
    b.jump_if(LEAVE, FOUND, 0);
    b.same(ANSWER + 2, AT);
    b.same(ANSWER + 1, BOARD_NUMBER);
    b.is(HIGH, &[0; 8]);
    take(b, AT, 5);
    take(b, PASSED, 6);
    b.jump_if(SEEK, FOUND, 1);
}

/// The next board by the step that reads, from where the cursor stands, with places
/// to spare and with exactly enough.
fn read(b: &mut Steps) {
    b.copy(NUMBER, AT, 2, 1);
    b.copy(SECOND, PASSED, 2, 1);
    b.call(Call::ReadBoard);
    b.go(HEADED);
    b.go(ROWED);
    b.copy(SECTION, STEP, 8, 1);
    b.is(STEP_HIGH, &[0; 8]);
    b.copy(LENT_WORDS, WORDS_OF, 1, 1);
    b.copy(LENT_CARDS, CARDS_OF, 1, 1);
    b.call(Call::ReadBoard);
    b.go(HEADED);
    b.go(ROWED);
    b.agree(STEP, SECTION, FOUR, 1, ZERO);
    b.agree(STEP + 4, SECTION + 4, FOUR, 1, ZERO);
    b.is(STEP_HIGH, &[0; 8]);
    b.set(LENT_WORDS, &[3_077, 512]);
}

/// It stepped to the part that was found by passing over those that are no boards.
fn read_the_same(b: &mut Steps) {
    b.agree(SECTION, ANSWER, FOUR, 1, ZERO);
    b.agree(SECTION + 4, ANSWER + 5, TWO, 1, ZERO);
    b.is(SECTION + 6, &[0, 0]);
}

/// There is no board more for the step that reads: the cursor stands, the board is
/// fresh, and what is lent stays.
fn read_none(b: &mut Steps) {
    b.copy(NUMBER, AT, 2, 1);
    b.copy(SECOND, PASSED, 2, 1);
    b.set(LENT_WORDS, &[18, 3]);
    b.call(Call::ReadBoard);
    b.is(ANSWER, &[0; 16]);
    b.go(FRESH);
    b.go(UNTOUCHED);
    b.is(STEP, &[0; 4]);
    b.agree(STEP + 4, AT, ONE, 1, ZERO);
    b.agree(STEP + 5, PASSED, ONE, 1, ZERO);
    b.is(STEP + 6, &[0; 10]);
}

/// The board of the part, beside the same board by its number.
fn step(b: &mut Steps) {
    b.set(LENT_WORDS, &[3_077, 512]);
    b.call(Call::FileBoard);
    b.copy(KEPT, BOARD, 21, 1);
    b.copy(KEPT + 256, FILLED_ROWS, MOST_WORDS as usize, 1);
    read(b);
    b.go(SEEK);
    b.is(FOUND, &[2]);
    read_the_same(b);
    b.copy(WHOLE, TEXT, 2, 1);
    b.copy(BEGINS, ANSWER + 2, 1, 1);
    b.copy(TEXT, ANSWER + 2, 2, 1);
    b.sub(TEXT + 1, BEGINS);
    b.call(Call::ParseLin);
    b.go(HEADED);
    b.go(ROWED);
    b.copy(TEXT, WHOLE, 2, 1);
    b.moved(BOARD, KEPT, FOUR, 2, BEGINS);
    b.moved(BOARD + 11, KEPT + 11, THREE, 3, BEGINS);
    b.moved(FILLED_ROWS, KEPT + 256, CALLS_OF, 6, BEGINS);
    b.moved(FILLED_ROWS + 4, KEPT + 260, CALLS_OF, 6, BEGINS);
    readers::next_number(b);
    b.set(NUMBER + 1, &[0]);
    kept(b);
}

/// No part more, and the cursor stays; all boards were found.
fn end(b: &mut Steps) {
    read_none(b);
    b.go(SEEK);
    b.is(FOUND, &[0]);
    b.is(ANSWER, &[0; 5]);
    b.same(ANSWER + 5, AT);
    b.same(ANSWER + 6, PASSED);
    b.is(ANSWER + 7, &[0; 9]);
    b.same(PASSED, COUNT_OF);
    b.same(BOARD_NUMBER, COUNT_OF);
    b.copy(EXPECTED, COUNT_OF, 1, 1);
    b.add(EXPECTED, ONE);
    b.same(AGREED, EXPECTED);
}

pub fn define(s: &mut Steps, group: usize) {
    s.block(LEAVE, |_| ());
    s.block(SEEK, seek);
    s.block(OPENED, |b| {
        b.set(AGREED, &[0]);
        b.call(Call::OpenBoards);
        b.is(ANSWER, &[0, 0, 0]);
        b.is(ANSWER + 4, &[0]);
        b.is(ANSWER + 6, &[0; 10]);
        take(b, AT, 3);
        take(b, PASSED, 4);
        b.copy(LINES, ANSWER + 5, 1, 1);
        kept(b);
    });
    s.block(STEPPED, step);
    s.block(ENDED, |b| {
        end(b);
        b.case(group);
    });
}
