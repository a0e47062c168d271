//! Boards of records, boards by chance, and long texts.

use crate::{
    built::{self, call, cards},
    lin::{parse_lin, LinData},
    random::Rng,
    records,
    texts::NAMED,
};

/// The fresh board, and the boards of the texts that document 01 names.
pub fn named() -> Vec<LinData> {
    let read = |text: &&str| built::sorted(&parse_lin(text).unwrap());
    let mut all = vec![built::fresh()];
    all.extend(NAMED.iter().map(read));
    all
}

/// Boards as records have them, with and without some of their texts.
pub fn records() -> Vec<LinData> {
    let rng = &mut Rng::new(22);
    let board = |n: usize| {
        let mut board = built::sorted(&records::board(rng, n));
        if n.is_multiple_of(3) {
            board.title = None;
        }
        if n.is_multiple_of(4) {
            board.board_header = None;
        }
        board
    };
    (1..=60).map(board).collect()
}

/// Boards by chance.
pub fn random() -> Vec<LinData> {
    let rng = &mut Rng::new(23);
    (0..500).map(|_| built::board(rng)).collect()
}

/// Long texts, and long hands, auctions and plays together.
pub fn long() -> Vec<LinData> {
    let long = "Count — |,\r\n!é".repeat(60);
    let mut all = Vec::new();
    for place in 0..built::PLACES {
        let mut board = built::fresh();
        built::put(&mut board, place, &long);
        all.push(board);
    }
    let mut board = built::fresh();
    (0..built::PLACES).for_each(|place| built::put(&mut board, place, &long));
    all.push(board);
    all.push(LinData {
        title: Some("|".repeat(4_000)),
        room_board: Some("\n".repeat(4_000)),
        player_names: [
            ",".repeat(1_000),
            "a,".repeat(1_000),
            String::new(),
            "b".to_string(),
        ],
        ..built::fresh()
    });
    all.push(LinData {
        auction: (0..90)
            .map(|n| call("2N!", n % 2 == 0, Some(&long[..15])))
            .collect(),
        play: cards(&"SAKHQJDT9C87".repeat(12)),
        claim: Some(13),
        ..built::fresh()
    });
    all
}
