//! Boards for the texts: pipes, ends of lines, commas and `!` in each of them,
//! and texts that are empty or absent.

use crate::{
    built::{self, PLACES, TRAPS},
    lin::LinData,
    texts::{self, SAMPLES},
};

/// Each text in each place.
pub fn each() -> Vec<LinData> {
    let mut all = Vec::new();
    for text in TRAPS.iter().chain(SAMPLES) {
        for place in 0..PLACES {
            let mut board = built::fresh();
            built::put(&mut board, place, text);
            all.push(board);
        }
    }
    all
}

/// Every word of at most three of these letters, in all places at once.
pub fn words() -> Vec<LinData> {
    let board = |word: &String| {
        let mut board = built::fresh();
        (0..PLACES).for_each(|place| built::put(&mut board, place, word));
        board
    };
    let all = texts::words(&["|", "\r", "\n", ",", "!", "é"], 3);
    all.iter().map(board).collect()
}

/// Title, room and header absent, empty and given, with an annotation absent,
/// empty and given.
pub fn absent() -> Vec<LinData> {
    const TEXTS: [Option<&str>; 3] = [None, Some(""), Some("x")];
    let text = |n: usize| TEXTS[n % 3].map(str::to_string);
    let board = |n: usize| LinData {
        title: text(n),
        room_board: text(n / 3),
        board_header: text(n / 9),
        auction: vec![
            built::call("p", false, TEXTS[n / 27]),
            built::call("", true, None),
        ],
        ..built::fresh()
    };
    (0..81).map(board).collect()
}
