//! The board of a text against the expected one, field by field, and what is lent
//! for it.

use super::{
    guards::{bytes as guarded_bytes, held, held_words, words as guarded_words},
    same, Same,
};
use crate::{expected, model, upstream};
use lin_host_rust::{
    boards::{self, Board, Heading, LinHeading, Seat, ROW},
    Refusal, RowKind,
};
use oracle::lin::LinData;

/// A reader of one board into the rows and the cards lent.
pub(super) type Read<'a> = &'a dyn Fn(&mut [u32], &mut [u8]) -> LinHeading;

/// The board of these bytes as expected, or the refusal of opening them, in any
/// rows and cards.
pub fn board(bytes: &[u8]) -> Same {
    let read = |rows: &mut [u32], cards: &mut [u8]| boards::parse_lin_numbers(bytes, rows, cards);
    if let Err(refusal) = model::open(bytes) {
        same("heading", boards::heading(bytes), Err(refusal))?;
        same("board", boards::board(bytes), Err(refusal))?;
        return refused_in_any(bytes, &read, refusal);
    }
    let got = read_as_expected(bytes)?;
    same("heading", boards::heading(bytes), Ok(got.heading))?;
    lent(bytes, &read, &got)
}

/// The fields alone of the board of a text that opens.
pub fn read(bytes: &[u8]) -> Same {
    read_as_expected(bytes).map(|_| ())
}

fn read_as_expected(bytes: &[u8]) -> Result<Board<'_>, String> {
    let text = std::str::from_utf8(bytes).map_err(|e| e.to_string())?;
    let got = boards::board(bytes).map_err(|r| format!("refused: {r:?}"))?;
    fields_of(&got, &expected::board(text)?)?;
    Ok(got)
}

/// Every field of a board, hands by counts.
pub fn fields_of(got: &Board, want: &LinData) -> Same {
    let want = upstream::board(want);
    heading(&got.heading, &want.heading)?;
    same("calls", &got.calls, &want.calls)?;
    same("play", &got.play, &want.play)
}

/// The same of two boards in upstream's form.
pub fn same_boards(got: &LinData, want: &LinData) -> Same {
    fields_of(&upstream::board(got), want)
}

/// The board in as many rows and cards as it needs and in more, and refused in
/// fewer.
pub(super) fn lent(bytes: &[u8], read: Read, board: &Board) -> Same {
    enough(bytes, read, board, [0, 0])?;
    enough(bytes, read, board, [ROW + 1, 3])?;
    fewer(bytes, read, &board.heading)
}

/// Refused whatever is lent.
pub(super) fn refused_in_any(bytes: &[u8], read: Read, refusal: Refusal) -> Same {
    refused(bytes, read, [0, 0], refusal)?;
    refused(bytes, read, [9, 4], refusal)
}

fn heading(got: &Heading, want: &Heading) -> Same {
    same("names", got.names, want.names)?;
    same("dealer", got.dealer, want.dealer)?;
    for seat in Seat::ALL {
        same("hand", got.deal.hand(seat), want.deal.hand(seat))?;
    }
    same("vulnerability", got.vulnerability, want.vulnerability)?;
    same("title", got.title, want.title)?;
    same("room", got.room_board, want.room_board)?;
    same("header", got.board_header, want.board_header)?;
    same("claim", got.claim, want.claim)?;
    same("number of calls", got.calls, want.calls)?;
    same("number of cards", got.cards, want.cards)
}

/// With so many words and places more than needed the answer is the same and
/// those stay.
fn enough(bytes: &[u8], read: Read, board: &Board, more: [usize; 2]) -> Same {
    let (words, places) = (ROW * board.calls.len(), board.play.len());
    let (mut want_rows, mut want_cards) = (held_words(words + more[0]), held(places + more[1]));
    let mut rows = guarded_words("rows", &want_rows);
    let mut cards = guarded_bytes("cards", &want_cards);
    let got = read(rows.lent(), cards.lent()).read(bytes);
    same("with enough rows", got, Ok(board.heading))?;
    let calls = boards::calls(bytes, &rows.lent()[..words]);
    same("with enough rows", &calls, &board.calls)?;
    want_rows[..words].copy_from_slice(&rows.lent()[..words]);
    rows.holds(&want_rows)?;
    let play: Vec<u8> = board.play.iter().map(|c| c.number()).collect();
    want_cards[..places].copy_from_slice(&play);
    cards.holds(&want_cards)
}

/// With fewer the board is refused, calls before cards.
fn fewer(bytes: &[u8], read: Read, heading: &Heading) -> Same {
    let (calls, cards) = (heading.calls, heading.cards);
    let few = |kind, needed| Refusal::TooFewRows(kind, needed as u64);
    if let Some(words) = (ROW * calls).checked_sub(1) {
        refused(bytes, read, [words, cards], few(RowKind::Calls, calls))?;
        refused(bytes, read, [0, 0], few(RowKind::Calls, calls))?;
    }
    if let Some(places) = cards.checked_sub(1) {
        refused(
            bytes,
            read,
            [ROW * calls, places],
            few(RowKind::Cards, cards),
        )?;
    }
    Ok(())
}

/// Refused with so many words and places lent, which stay.
fn refused(bytes: &[u8], read: Read, lent: [usize; 2], refusal: Refusal) -> Same {
    let (want_rows, want_cards) = (held_words(lent[0]), held(lent[1]));
    let mut rows = guarded_words("rows refused", &want_rows);
    let mut cards = guarded_bytes("cards refused", &want_cards);
    let got = read(rows.lent(), cards.lent());
    refused_heading(bytes, got, refusal)?;
    rows.holds(&want_rows)?;
    cards.holds(&want_cards)
}

/// A refusal, with a fresh board.
pub(super) fn refused_heading(bytes: &[u8], got: LinHeading, refusal: Refusal) -> Same {
    same("refusal", got.read(bytes), Err(refusal))?;
    same("its board", got.board, model::fresh_board())?;
    same("its counts", (got.calls, got.cards), (0, 0))
}
