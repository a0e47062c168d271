//! The board cursor's step that reads, in plain Rust: over any bytes, from any
//! place, with any number, into any rows. (Document 01, File; Board; Eight
//! refusals)
//!
//! Where a board's texts stand is found here; its other fields are those of the
//! model's board of its tokens.

use super::{
    boards::{alerts, from_tokens},
    fresh_board, rest, tokens, visit, Token,
};
use crate::upstream;
use lin_host_rust::{
    boards::{LinBoard, LinText, ROW},
    files::{LinRead, LinSection},
    LinAnswer, Refusal, RowKind, LIMIT,
};

/// The first section from a place on that is a board.
fn next_board(text: &[u8], mut at: u64, number: u64, lines: u32) -> Option<LinSection> {
    loop {
        let section = visit(text, at, number, lines);
        if section.found == 0 {
            return None;
        }
        if section.board == 1 {
            return Some(section);
        }
        at = section.next_at;
    }
}

/// A present text of the whole.
fn present(start: usize, len: usize) -> LinText {
    LinText {
        present: 1,
        start: start as u32,
        len: len as u32,
    }
}

/// What a section that is UTF-8 is read as: the board, the rows of its calls and
/// its cards.
struct Told {
    board: LinBoard,
    rows: Vec<u32>,
    cards: Vec<u8>,
}

impl Told {
    /// The fields that are no texts, and no rows.
    fn fields(tokens: &[Token]) -> Told {
        let read = from_tokens(tokens);
        let read = upstream::board(&read);
        let heading = read.heading;
        Told {
            board: LinBoard {
                dealer: heading.dealer as u32,
                vulnerability: heading.vulnerability as u32,
                claimed: heading.claim.is_some().into(),
                claim: heading.claim.unwrap_or(0).into(),
                counts: *heading.deal.counts(),
                ..fresh_board()
            },
            rows: Vec::new(),
            cards: read.play.iter().map(|card| card.number()).collect(),
        }
    }

    /// The first four pieces between commas.
    fn names(&mut self, mut at: usize, value: &[u8]) {
        for (seat, piece) in value.split(|b| *b == b',').take(4).enumerate() {
            self.board.names[2 * seat] = at as u32;
            self.board.names[2 * seat + 1] = piece.len() as u32;
            at += piece.len() + 1;
        }
    }

    /// A call without its trailing `!`.
    fn call(&mut self, at: usize, value: &[u8]) {
        let alerts = alerts(value);
        let len = (value.len() - alerts) as u32;
        self.rows
            .extend([at as u32, len, (alerts > 0).into(), 0, 0, 0]);
    }

    /// Where the texts of a token stand.
    fn token(&mut self, token: &Token) {
        let (at, value) = (token.value_at(), token.value);
        let text = present(at, value.len());
        let filled = match value {
            [] => fresh_board().title,
            _ => text,
        };
        match token.name.as_slice() {
            b"pn" => self.names(at, value),
            b"mn" => self.board.title = filled,
            b"qx" => self.board.room_board = filled,
            b"ah" => self.board.board_header = text,
            b"mb" => self.call(at, value),
            b"an" => {
                let last = self.rows.rchunks_mut(ROW).next().into_iter();
                last.for_each(|row| row[3..].copy_from_slice(&[1, text.start, text.len]));
            }
            _ => {}
        }
    }
}

/// The answer without a board: the cursor stands, and the board is fresh.
fn without(answer: LinAnswer, at: u64, number: u64) -> LinRead {
    LinRead {
        answer,
        found: 0,
        number: 0,
        start: 0,
        stop: 0,
        next_at: at,
        next_number: number,
        board: fresh_board(),
        calls: 0,
        cards: 0,
    }
}

/// Refusal 2 of the bytes from the cursor's place up to a stop.
fn looked_at(text: &[u8], at: u64, stop: u64) -> Result<(), Refusal> {
    let looked = rest(&text[..stop as usize], at);
    match std::str::from_utf8(looked) {
        Ok(_) => Ok(()),
        Err(fault) => Err(Refusal::NotUtf8(at + fault.valid_up_to() as u64)),
    }
}

/// Refusal 3 of a board, calls before cards.
fn room_for(told: &Told, rows: &[u32], cards: &[u8]) -> Result<(), Refusal> {
    let calls = told.rows.len() / ROW;
    if rows.len() / ROW < calls {
        return Err(Refusal::TooFewRows(RowKind::Calls, calls as u64));
    }
    if cards.len() < told.cards.len() {
        let needed = told.cards.len() as u64;
        return Err(Refusal::TooFewRows(RowKind::Cards, needed));
    }
    Ok(())
}

/// The section and its board, or none, or the first of the refusals 1, 2 and 3.
fn found(
    text: &[u8],
    [at, number]: [u64; 2],
    lines: u32,
    rows: &[u32],
    cards: &[u8],
) -> Result<Option<(LinSection, Told)>, Refusal> {
    if text.len() > LIMIT {
        return Err(Refusal::TextTooLong);
    }
    let Some(section) = next_board(text, at, number, lines) else {
        return looked_at(text, at, text.len() as u64).map(|()| None);
    };
    looked_at(text, at, section.stop)?;
    let tokens = tokens(&text[..section.stop as usize], section.start);
    let mut told = Told::fields(&tokens);
    tokens.iter().for_each(|token| told.token(token));
    room_for(&told, rows, cards)?;
    Ok(Some((section, told)))
}

/// The step that reads, and the rows and cards after it.
pub fn read_board(
    text: &[u8],
    at: u64,
    number: u64,
    lines: u32,
    rows: &mut [u32],
    cards: &mut [u8],
) -> LinRead {
    let accepted = LinAnswer {
        refusal: 0,
        kind: 0,
        value: 0,
    };
    match found(text, [at, number], lines, rows, cards) {
        Err(refusal) => without(refusal.into(), at, number),
        Ok(None) => without(accepted, at, number),
        Ok(Some((section, told))) => {
            rows[..told.rows.len()].copy_from_slice(&told.rows);
            cards[..told.cards.len()].copy_from_slice(&told.cards);
            LinRead {
                answer: accepted,
                found: 1,
                number,
                start: section.start,
                stop: section.stop,
                next_at: section.next_at,
                next_number: number.saturating_add(1),
                board: told.board,
                calls: (told.rows.len() / ROW) as u64,
                cards: told.cards.len() as u64,
            }
        }
    }
}
