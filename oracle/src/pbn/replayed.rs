//! The steps of a record: it is lent, and the board that is made of it is compared.
//! The texts made stand back to back in the output (document 01, "The texts made go
//! into a lent output from its first byte .."), so that every word is known.

use super::{call_bytes, entry, Record};
use crate::{
    annotation::{define_notes, lend_notes},
    boards::{held, number, seat, text_of, vulnerability},
    lin::LinData,
    steps::{expected::marks, lent::span, *},
};

/// The groups: with rows, places and bytes to spare, with exactly enough, and with a
/// byte, a row, a card or all three less.
pub const LINES: [&str; 6] = [
    "board",
    "board exactly",
    "a byte less",
    "a row less",
    "a card less",
    "all three less",
];

/// The bytes of the texts made; the blocks.
const LEN: usize = OWN_NUMBER;
const BLANK: usize = OWN_BLOCK;
const MADE: usize = OWN_BLOCK + 1;
const TEXTS_ARE: usize = OWN_BLOCK + 2;
const ENOUGH: usize = OWN_BLOCK + 3;
const BYTE_LESS: usize = OWN_BLOCK + 4;
const ROW_LESS: usize = OWN_BLOCK + 5;
const CARD_LESS: usize = OWN_BLOCK + 6;
const ALL_LESS: usize = OWN_BLOCK + 7;

/// More bytes than the texts of any board have, and words of more calls than any
/// record has.
const MOST_BYTES: usize = 16_384;
const ROW_WORDS: usize = 768;

/// Lends the record; the places and codes of what is absent are beyond every range.
fn lend(s: &mut Steps, record: &Record) {
    let mut texts = Vec::new();
    s.go(BLANK);
    let [south, west, north, east] = &record.names;
    let seven = [
        south,
        west,
        north,
        east,
        &record.event,
        &record.date,
        &record.id,
    ];
    for (n, text) in seven.into_iter().enumerate() {
        let at = RECORD + 3 * n;
        s.set(at, &[text.is_some().into()]);
        if text.is_some() {
            s.set(at + 1, &span(&mut texts, text_of(text)));
        }
    }
    given(s, RECORD + 21, record.number);
    given(s, RECORD + 23, record.dealer.map(|d| seat(d).into()));
    s.set(RECORD + 25, &[vulnerability(record.vulnerable).into()]);
    given(s, RECORD + 26, record.result.map(|r| r as u32));
    s.count(RECORD + 28, &held(&record.deal));
    for (n, call) in record.calls.iter().enumerate() {
        let at = READ_ROWS + 6 * n;
        let [kind, level, strain, annotated] = call_bytes(call).map(u32::from);
        s.set(at, &[kind]);
        if kind == 3 {
            s.set(at + 1, &[level, strain]);
        }
        s.set(at + 3, &[annotated]);
        if annotated == 1 {
            s.set(at + 4, &span(&mut texts, text_of(&call.annotation)));
        }
    }
    s.set(ROWS + 1, &[6 * record.calls.len() as u32]);
    lend_notes(s, &record.notes, &mut texts);
    s.lend(CARDS, &record.play.iter().map(entry).collect::<Vec<_>>());
    s.lend(TEXT, &texts);
}

fn given(s: &mut Steps, at: usize, number: Option<u32>) {
    s.set(at, &[number.is_some().into()]);
    if let Some(n) = number {
        s.set(at + 1, &[n]);
    }
}

/// The board's words without its counts, its rows, and its texts back to back.
fn words(board: &LinData) -> (Vec<u32>, Vec<u32>, Vec<u8>) {
    let mut texts = Vec::new();
    let names = board.player_names.each_ref();
    let mut head = names.map(|n| span(&mut texts, n.as_bytes())).concat();
    let [dealer, side, claimed, claim] = marks(board);
    head.extend([dealer, side]);
    for text in [&board.title, &board.room_board, &board.board_header] {
        match text {
            Some(t) => {
                head.push(1);
                head.extend(span(&mut texts, t.as_bytes()));
            }
            None => head.extend([0, 0, 0]),
        }
    }
    head.extend([claimed, claim]);
    let mut rows = Vec::new();
    for call in &board.auction {
        rows.extend(span(&mut texts, call.bid.as_bytes()));
        rows.push(call.alert.into());
        match &call.annotation {
            Some(t) => {
                rows.push(1);
                rows.extend(span(&mut texts, t.as_bytes()));
            }
            None => rows.extend([0, 0, 0]),
        }
    }
    (head, rows, texts)
}

/// A refusal without a board and without a byte, and all that was lent is as it was.
fn refused(b: &mut Steps, refusal: u32, kind: u32, carried: usize, group: usize) {
    b.call(Call::FromBoard);
    b.is(ANSWER, &[refusal, kind]);
    b.same(ANSWER + 2, carried);
    b.is(ANSWER + 3, &[0; 13]);
    b.go(FRESH);
    b.go(UNTOUCHED);
    b.stayed();
    b.case(group);
}

/// As many words, places and bytes as are needed.
fn exact(b: &mut Steps) {
    b.copy(LENT_WORDS, WORDS_OF, 1, 1);
    b.copy(LENT_CARDS, CARDS_OF, 1, 1);
    b.copy(ROOM, LEN, 1, 1);
}

pub fn define(s: &mut Steps) {
    readers::define(s, Call::ParseHeading, Call::ParseLin, 0);
    s.mark(MOST_BYTES);
    define_notes(s);
    s.block(BLANK, |b| {
        b.repeat(RECORD, MOST, 28);
        b.repeat(RECORD + 28, ZERO, 208);
        b.repeat(READ_ROWS, MOST, ROW_WORDS);
        b.copy(NOTES, NO_NOTES, 768, 1);
    });
    s.block(MADE, |b| {
        b.call(Call::FromBoard);
        b.is(ANSWER, &[0, 0, 0]);
        b.agree(ANSWER + 3, CALLS_OF, TWO, 1, ZERO);
        b.same(ANSWER + 5, LEN);
        b.is(ANSWER + 6, &[0; 10]);
        b.go(HEAD);
        b.agree(BOARD + 21, DEAL, COUNTS, 1, ZERO);
        b.go(ROWED);
        b.go(TEXTS_ARE);
        b.copy(REST, LEN, 1, 1);
        b.copy(REST_LEN, OUT_LEN, 1, 1);
        b.sub(REST_LEN, LEN);
        b.all_are(REST, MARK);
    });
    s.block(ENOUGH, |b| {
        b.go(SIZES);
        b.set(LENT_WORDS, &[3_077, 512]);
        b.copy(ROOM, OUT_LEN, 1, 1);
        b.go(MADE);
        b.case(0);
        b.mark_again();
        exact(b);
        b.go(MADE);
        b.case(1);
        b.mark_again();
    });
    s.block(BYTE_LESS, |b| {
        exact(b);
        b.sub(ROOM, ONE);
        refused(b, 7, 0, LEN, 2);
    });
    s.block(ROW_LESS, |b| {
        exact(b);
        b.sub(LENT_WORDS, ONE);
        b.set(LENT_CARDS, &[512]);
        refused(b, 3, 0, CALLS_OF, 3);
    });
    s.block(CARD_LESS, |b| {
        exact(b);
        b.sub(LENT_CARDS, ONE);
        refused(b, 3, 1, CARDS_OF, 4);
    });
    s.block(ALL_LESS, |b| {
        exact(b);
        b.sub(ROOM, ONE);
        b.sub(LENT_WORDS, TWO);
        b.sub(LENT_WORDS, FOUR);
        b.sub(LENT_CARDS, ONE);
        refused(b, 3, 0, CALLS_OF, 5);
    });
}

/// This board is made of the record.
pub fn put(s: &mut Steps, record: &Record, board: &LinData) {
    let (head, rows, texts) = words(board);
    lend(s, record);
    let (calls, cards) = (board.auction.len() as u32, board.play.len() as u32);
    s.set(CALLS_OF, &[calls, cards]);
    s.set(LEN, &[texts.len() as u32]);
    s.block(HEAD, |b| {
        b.is(BOARD, &head);
        b.go(CLEAR);
        b.count(DEAL, &held(&board.deal));
    });
    s.block(TAIL, |b| {
        b.is(FILLED_ROWS, &rows);
        let play: Vec<u32> = board.play.iter().map(|c| number(c).into()).collect();
        b.is(FILLED_CARDS, &play);
    });
    s.block(TEXTS_ARE, |b| b.wrote(ZERO, &texts));
    s.go(ENOUGH);
    if !texts.is_empty() {
        s.go(BYTE_LESS);
    }
    if calls > 0 {
        s.go(ROW_LESS);
    }
    if cards > 0 {
        s.go(CARD_LESS);
    }
    if calls > 0 && cards > 0 && !texts.is_empty() {
        s.go(ALL_LESS);
    }
}
