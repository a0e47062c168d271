//! What is lent for a board: its texts anywhere in one text, at times with
//! faults.

use super::built;
use crate::upstream;
use lin_host_rust::{
    boards::{LinBoard, LinText, ROW},
    tokens::Span,
    writer::Gathered,
    LIMIT,
};
use oracle::{lin::LinData, random::Rng, texts};

fn texts_of(board: &mut LinBoard) -> [&mut LinText; 3] {
    [
        &mut board.title,
        &mut board.room_board,
        &mut board.board_header,
    ]
}

/// Puts a part of another text somewhere into the text, among other bytes, or
/// finds it there.
pub(super) fn place(rng: &mut Rng, text: &mut Vec<u8>, part: &[u8]) -> u32 {
    let found = (0..text.len()).find(|at| text[*at..].starts_with(part));
    let start = match found {
        Some(at) if rng.once_in(2) => at,
        _ => {
            text.extend(junk(rng));
            text.extend(part);
            text.len() - part.len()
        }
    };
    start as u32
}

/// A board with its texts anywhere in one text; what is not looked at holds
/// any words.
pub fn scattered(rng: &mut Rng, board: &LinData) -> Gathered {
    let Gathered {
        text: dense,
        mut board,
        mut rows,
        cards,
    } = Gathered::from(&upstream::board(board));
    let mut text = junk(rng);
    let mut moved = |rng: &mut Rng, start: u32, len: u32| {
        place(rng, &mut text, Span::new(start, len).of(&dense))
    };
    for row in rows.chunks_exact_mut(ROW) {
        row[0] = moved(rng, row[0], row[1]);
        if row[3] == 1 {
            row[4] = moved(rng, row[4], row[5]);
        } else {
            row[4..].copy_from_slice(&any_words(rng));
        }
    }
    let mut order = [0, 1, 2, 3];
    rng.shuffle(&mut order);
    for n in order {
        board.names[2 * n] = moved(rng, board.names[2 * n], board.names[2 * n + 1]);
    }
    for t in texts_of(&mut board) {
        if t.present == 1 {
            t.start = moved(rng, t.start, t.len);
        } else {
            [t.start, t.len] = any_words(rng);
        }
    }
    if board.claimed == 0 {
        board.claim = any_words(rng)[0];
    }
    if rng.once_in(4) {
        // a rest that is no row
        rows.extend((0..1 + rng.below(5)).map(|_| u32::MAX));
    }
    text.extend(junk(rng));
    Gathered {
        text,
        board,
        rows,
        cards,
    }
}

pub(super) fn any_words(rng: &mut Rng) -> [u32; 2] {
    let edge = [0, 0, 1, 256, u32::MAX];
    [*rng.pick(&edge), *rng.pick(&edge)]
}

pub(super) fn junk(rng: &mut Rng) -> Vec<u8> {
    match rng.below(3) {
        0 => texts::bytes(rng, 6),
        _ => Vec::new(),
    }
}

/// Puts one fault in, or what looks like one.
pub fn fault(rng: &mut Rng, lent: &mut Gathered) {
    match rng.below(9) {
        0..=4 => code(rng, lent),
        5..=7 => span(rng, lent),
        _ if rng.once_in(200) => lent.text.resize(LIMIT + rng.below(2), b' '),
        _ => lent.text = texts::damaged(rng, &lent.text, 2),
    }
}

/// A code or a card about the end of its range.
fn code(rng: &mut Rng, lent: &mut Gathered) {
    let over = |rng: &mut Rng, most: u32| *rng.pick(&[most, most + 1, most + 2, u32::MAX]);
    let rows = lent.rows.len() / ROW;
    match rng.below(7) {
        0 => lent.board.dealer = over(rng, 3),
        1 => lent.board.vulnerability = over(rng, 3),
        2 => texts_of(&mut lent.board)[rng.below(3)].present = over(rng, 1),
        3 => lent.board.claimed = over(rng, 1),
        4 => lent.board.claim = over(rng, 255),
        5 if rows > 0 => {
            let word = ROW * rng.below(rows) + 2 + rng.below(2);
            lent.rows[word] = over(rng, 1);
        }
        _ => {
            let card = *rng.pick(&[51, 52, 255]);
            lent.cards.insert(rng.below(lent.cards.len() + 1), card);
        }
    }
}

/// A start or a length at any place of the text, or past its end.
fn span(rng: &mut Rng, lent: &mut Gathered) {
    let len = lent.text.len();
    let word = match rng.below(4) {
        0 => *rng.pick(&[0, len as u32, len as u32 + 1, u32::MAX]),
        _ => rng.below(len + 1) as u32,
    };
    let rows = lent.rows.len() / ROW;
    match rng.below(3) {
        0 => texts_of(&mut lent.board)[rng.below(3)].start = word,
        1 if rows > 0 => lent.rows[ROW * rng.below(rows) + rng.pick(&[0, 1, 4, 5])] = word,
        _ => lent.board.names[rng.below(8)] = word,
    }
}

/// What is lent to at most so many calls one after another, some of them with
/// faults.
pub fn calls(rng: &mut Rng, most: usize) -> Vec<Gathered> {
    let mut all = Vec::new();
    for _ in 0..rng.below(most + 1) {
        let board = built::board(rng, 4, 6);
        let mut lent = scattered(rng, &board);
        if rng.once_in(4) {
            fault(rng, &mut lent);
        }
        all.push(lent);
    }
    all
}
