//! Lists of append calls, most with a room that some of their boards fill to the
//! last byte or pass by one.

use super::List;
use crate::{
    built::{self, cards, dealt, PLACES, TRAPS},
    lin::{write_lin, LinData},
    random::Rng,
    records, writer,
};

fn len(board: &LinData) -> usize {
    write_lin(board).len()
}

fn sum(boards: &[LinData]) -> usize {
    boards.iter().map(len).sum()
}

/// The rooms around a number: a byte less, as many, a byte more.
fn around(n: usize) -> [usize; 3] {
    [n.saturating_sub(1), n, n + 1]
}

/// Fresh boards, of 43 bytes each, in rooms for none to six of them.
pub fn fresh() -> Vec<List> {
    let mut all: Vec<List> = [0, 1, 10, 42]
        .map(|room| (room, vec![built::fresh()]))
        .into();
    for calls in 1..=6 {
        for fit in 1..=calls {
            let lists = around(43 * fit).map(|room| (room, vec![built::fresh(); calls]));
            all.extend(lists);
        }
    }
    all
}

/// Boards by chance alone, in rooms around their length.
pub fn single() -> Vec<List> {
    let rng = &mut Rng::new(40);
    let lists = |_| {
        let board = built::board(rng);
        around(len(&board)).map(|room| (room, vec![board.clone()]))
    };
    (0..20).flat_map(lists).collect()
}

/// A few boards by chance in rooms around the length of the first ones.
pub fn edges() -> Vec<List> {
    let rng = &mut Rng::new(41);
    let mut all = Vec::new();
    for calls in 2..=5 {
        for fit in 1..=calls {
            let boards: Vec<_> = (0..calls).map(|_| built::board(rng)).collect();
            let lists = around(sum(&boards[..fit])).map(|room| (room, boards.clone()));
            all.extend(lists);
        }
    }
    all
}

/// A board with a title of so many bytes.
fn titled(bytes: usize) -> LinData {
    LinData {
        title: Some("t".repeat(bytes)),
        ..built::fresh()
    }
}

/// Boards that are too long before, between and after boards that fit, which a
/// refused call must not keep out.
pub fn between() -> Vec<List> {
    let mut all = Vec::new();
    for long in [1, 2, 40, 100] {
        for order in [
            "ls", "sl", "sls", "lsls", "slsls", "llss", "slls", "sslls", "lslsls",
        ] {
            let title = |(n, b)| titled(n + if b == b'l' { 10 + long } else { 0 });
            let boards: Vec<_> = order.bytes().enumerate().map(title).collect();
            let short = order.bytes().zip(&boards).filter(|(b, _)| *b == b's');
            let room = short.map(|(_, board)| len(board)).sum();
            all.extend(around(room).map(|room| (room, boards.clone())));
        }
    }
    all
}

/// The same board again and again, in rooms that end within it.
pub fn repeated() -> Vec<List> {
    let rng = &mut Rng::new(42);
    let mut all = Vec::new();
    for calls in 2..=6 {
        let board = built::board(rng);
        let room = len(&board) * calls - 1 - rng.below(len(&board));
        all.push((room, vec![board; calls]));
    }
    all
}

/// Boards whose settled form is another: traps in every text, bids that end in
/// `!`, and East beside three hands of 13 cards.
pub fn settled() -> Vec<List> {
    let mut boards: Vec<LinData> = TRAPS
        .iter()
        .map(|text| {
            let mut board = built::fresh();
            (0..PLACES).for_each(|place| built::put(&mut board, place, text));
            board
        })
        .collect();
    boards.extend(writer::calls::single().into_iter().step_by(7));
    boards.extend(writer::deals::east().into_iter().step_by(3));
    boards.extend(["SAA", "C22"].map(|hand| dealt(built::deal([hand; 4].map(cards)))));
    boards
        .chunks(5)
        .map(|list| (sum(list), list.to_vec()))
        .collect()
}

/// Realistic boards, in rooms that hold most of them.
pub fn records() -> Vec<List> {
    let rng = &mut Rng::new(43);
    let mut all = Vec::new();
    for calls in 1..=6 {
        let boards: Vec<_> = (1..=calls)
            .map(|n| built::sorted(&records::board(rng, n)))
            .collect();
        let all_but_one = sum(&boards) - len(&boards[calls / 2]);
        all.push((sum(&boards), boards.clone()));
        all.push((all_but_one, boards));
    }
    all
}

/// Lists by chance, in rooms that all boards but the longest fill, or some of
/// them, with a byte more or less now and then.
pub fn random() -> Vec<List> {
    let rng = &mut Rng::new(44);
    let mut all = Vec::new();
    for n in 0..130 {
        let calls = 1 + n % 6;
        let boards: Vec<_> = (0..calls).map(|_| built::board(rng)).collect();
        let longest = boards.iter().map(len).max().unwrap_or(0);
        let fit: usize = match n % 2 {
            0 => sum(&boards) - longest,
            _ => boards.iter().filter(|_| !rng.once_in(3)).map(len).sum(),
        };
        let room = *rng.pick(&around(fit));
        all.push((room, boards));
    }
    all
}
