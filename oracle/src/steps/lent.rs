//! Boards that are lent to a call, whose texts stand back to back in the lent text.
//! The places of what is absent are beyond every text.

use super::{expected::marks, *};
use crate::{
    boards::{held, number, text_of},
    lin::LinData,
};

/// The places of a lent board: its words, its rows, where its rows and its cards
/// are lent, and the block that makes it blank.
#[derive(Clone, Copy)]
pub struct Side {
    board: usize,
    rows: usize,
    read: usize,
    cards: usize,
    blank: usize,
}

/// The board that is written, or that is compared with the other.
pub const ONE_BOARD: Side = Side {
    board: LENT_BOARD,
    rows: ROWS,
    read: READ_ROWS,
    cards: CARDS,
    blank: BLANK,
};

/// The board that the first one is compared with.
pub const OTHER_BOARD: Side = Side {
    board: LENT_BOARD2,
    rows: ROWS2,
    read: READ_ROWS2,
    cards: CARDS2,
    blank: BLANK2,
};

/// The words of more rows than any board has.
const ROW_WORDS: usize = 1_200;

/// The block that makes every word of a board and its rows one that is beyond
/// every text, and its hands empty.
pub fn define(s: &mut Steps, side: Side) {
    s.block(side.blank, |b| {
        b.repeat(side.board, MOST, 21);
        b.repeat(side.board + 21, ZERO, 208);
        b.repeat(side.read, MOST, ROW_WORDS);
    });
}

/// A text at the end of others, as a span.
pub(crate) fn span(texts: &mut Vec<u8>, text: &[u8]) -> [u32; 2] {
    let start = texts.len() as u32;
    texts.extend(text);
    [start, text.len() as u32]
}

/// Lends the board and its cards, with texts that are added to others.
pub fn board(s: &mut Steps, side: Side, board: &LinData, texts: &mut Vec<u8>) {
    s.go(side.blank);
    let names = board.player_names.each_ref();
    s.set(
        side.board,
        &names.map(|n| span(texts, n.as_bytes())).concat(),
    );
    let [dealer, vulnerability, claimed, claim] = marks(board);
    s.set(side.board + 8, &[dealer, vulnerability]);
    let three = [&board.title, &board.room_board, &board.board_header];
    for (n, text) in three.into_iter().enumerate() {
        let at = side.board + 10 + 3 * n;
        s.set(at, &[text.is_some().into()]);
        if text.is_some() {
            s.set(at + 1, &span(texts, text_of(text)));
        }
    }
    s.set(side.board + 19, &[claimed]);
    if claimed == 1 {
        s.set(side.board + 20, &[claim]);
    }
    s.count(side.board + 21, &held(&board.deal));
    rows(s, side, board, texts);
    let cards: Vec<u8> = board.play.iter().map(number).collect();
    s.lend(side.cards, &cards);
}

fn rows(s: &mut Steps, side: Side, board: &LinData, texts: &mut Vec<u8>) {
    for (n, call) in board.auction.iter().enumerate() {
        let [start, len] = span(texts, call.bid.as_bytes());
        let annotated = call.annotation.is_some();
        let mut row = vec![start, len, call.alert.into(), annotated.into()];
        if annotated {
            row.extend(span(texts, text_of(&call.annotation)));
        }
        s.set(side.read + 6 * n, &row);
    }
    assert!(6 * board.auction.len() <= ROW_WORDS);
    s.set(side.rows + 1, &[6 * board.auction.len() as u32]);
}
