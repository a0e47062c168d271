//! The board that an answer must be: a block that compares its heading, and one
//! that compares its rows and cards.

use super::{
    Steps, BOARD, CALLS_OF, CARDS_OF, CLEAR, DEAL, FILLED_CARDS, FILLED_ROWS, HEAD, NO_NAMES, TAIL,
};
use crate::{
    boards::{held, number, seat, text_of, vulnerability},
    lin::LinData,
};

/// Dealer, vulnerability, and claim with its mark.
pub(crate) fn marks(board: &LinData) -> [u32; 4] {
    [
        seat(board.dealer).into(),
        vulnerability(board.vulnerability).into(),
        board.claim.is_some().into(),
        board.claim.unwrap_or(0).into(),
    ]
}

/// The four names.
pub(super) fn names(s: &mut Steps, names: &[String; 4]) {
    for (n, name) in names.iter().enumerate() {
        s.shows(BOARD + 2 * n, name.as_bytes());
    }
}

fn head(s: &mut Steps, board: &LinData) {
    if board.player_names.iter().all(String::is_empty) {
        s.go(NO_NAMES);
    } else {
        names(s, &board.player_names);
    }
    let [dealer, side, claimed, claim] = marks(board);
    s.is(BOARD + 8, &[dealer, side]);
    let texts = [&board.title, &board.room_board, &board.board_header];
    for (n, text) in texts.into_iter().enumerate() {
        let at = BOARD + 10 + 3 * n;
        if text.is_some() {
            s.is(at, &[1]);
            s.shows(at + 1, text_of(text));
        } else {
            s.is(at, &[0, 0, 0]);
        }
    }
    s.is(BOARD + 19, &[claimed, claim]);
    s.go(CLEAR);
    s.count(DEAL, &held(&board.deal));
}

fn tail(s: &mut Steps, board: &LinData) {
    for (n, call) in board.auction.iter().enumerate() {
        let at = FILLED_ROWS + 6 * n;
        s.shows(at, call.bid.as_bytes());
        s.is(
            at + 2,
            &[call.alert.into(), call.annotation.is_some().into()],
        );
        if call.annotation.is_some() {
            s.shows(at + 4, text_of(&call.annotation));
        } else {
            s.is(at + 4, &[0, 0]);
        }
    }
    let cards: Vec<u32> = board.play.iter().map(|c| number(c).into()).collect();
    s.is(FILLED_CARDS, &cards);
}

/// Its numbers of calls and cards, and the two blocks.
pub fn board(s: &mut Steps, board: &LinData) {
    s.set(
        CALLS_OF,
        &[board.auction.len() as u32, board.play.len() as u32],
    );
    const { assert!(CARDS_OF == CALLS_OF + 1) };
    s.block(HEAD, |b| head(b, board));
    s.block(TAIL, |b| tail(b, board));
}
