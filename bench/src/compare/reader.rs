//! The board cursor's step that reads against the model. Rows and cards stand
//! between guards.

use super::{
    guards::{bytes as guarded_bytes, held, held_words, words as guarded_words},
    same, Same,
};
use crate::model;
use lin_host_rust::{
    boards::ROW,
    files::{self, LinRead},
};

/// A board cursor of any numbers: the place, the number, and 0 for parts.
pub type Standing = (u64, u64, u32);

/// The step with so many words and places lent: the whole answer and all that is
/// lent are the model's, whose answer is given.
fn step(bytes: &[u8], cursor: Standing, lent: [usize; 2]) -> Result<LinRead, String> {
    let (at, number, lines) = cursor;
    let (mut want_rows, mut want_cards) = (held_words(lent[0]), held(lent[1]));
    let mut rows = guarded_words("rows", &want_rows);
    let mut cards = guarded_bytes("cards", &want_cards);
    let want = model::read_board(bytes, at, number, lines, &mut want_rows, &mut want_cards);
    let got = files::read_board_numbers(bytes, at, number, lines, rows.lent(), cards.lent());
    let of = |d: String| format!("read by {cursor:?} with {lent:?}: {d}");
    same("refusal", got.answer.read(), want.answer.read()).map_err(of)?;
    same("answer", got, want).map_err(of)?;
    rows.holds(&want_rows).map_err(of)?;
    cards.holds(&want_cards).map_err(of)?;
    Ok(want)
}

/// The step with rows and places for any board, with exactly enough, and with
/// fewer. The answer with enough is given.
fn steps(bytes: &[u8], cursor: Standing) -> Result<LinRead, String> {
    let most = bytes.len() / 4 + 1;
    let read = step(bytes, cursor, [ROW * most + 1, most + 3])?;
    let (words, places) = (ROW * read.calls as usize, read.cards as usize);
    step(bytes, cursor, [words, places])?;
    if let Some(less) = words.checked_sub(1) {
        step(bytes, cursor, [less, places])?;
    }
    if let Some(less) = places.checked_sub(1) {
        step(bytes, cursor, [words, less])?;
    }
    if words + places > 0 {
        step(bytes, cursor, [0, 0])?;
    }
    Ok(read)
}

/// The step from one place with some rows and places lent.
pub fn read_board(bytes: &[u8], cursor: Standing, lent: [usize; 2]) -> Same {
    step(bytes, cursor, lent).map(|_| ())
}

/// The step from one place with all that may be lent, over parts and lines; any
/// number but 0 is for lines.
pub fn reads(bytes: &[u8], at: u64, number: u64) -> Same {
    steps(bytes, (at, number, 0))?;
    steps(bytes, (at, number, 1))?;
    step(bytes, (at, u64::MAX, 2), [0, 0])?;
    step(bytes, (at, u64::MAX - 1, u32::MAX), [ROW, 1]).map(|_| ())
}

/// Steps from the start up to the end or to a refusal with enough rows. A step
/// that is refused leaves the cursor, from which the next step is made.
pub fn walk(bytes: &[u8], lines: u32) -> Same {
    let (mut at, mut number) = (0, 0);
    loop {
        let read = steps(bytes, (at, number, lines))?;
        if read.found == 0 {
            return same("the cursor", (read.next_at, read.next_number), (at, number));
        }
        (at, number) = (read.next_at, read.next_number);
    }
}
