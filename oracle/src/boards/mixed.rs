//! Records, records with faults, and tokens by chance.

use super::{deals::THREE, traps::joined};
use crate::{
    lin::write_lin,
    random::Rng,
    records,
    texts::{self, COMMANDS},
};

/// Boards, files, lines and movies, each read as one record.
pub fn records() -> Vec<String> {
    let rng = &mut Rng::new(5);
    let mut all: Vec<String> = (1..=40)
        .map(|n| write_lin(&records::board(rng, n)))
        .collect();
    all.extend((2..=4).map(|n| records::file(rng, n)));
    all.extend((1..=6).map(|n| records::lines(rng, 1 + n % 3)));
    all.extend((1..=8).map(|n| records::movie(rng, 2 * n)));
    let record = records::file(rng, 1);
    all.push(format!("\u{FFFE}{record}"));
    all.push(record.replace('\n', "\r\n"));
    all.push(record.replace('\n', "\u{2028}\u{A0}"));
    all.push(record.replace("||", "|"));
    all.push(record.to_uppercase());
    all.push(record.to_lowercase());
    all.push(
        record
            .replace("|md|", "|md|\u{85}")
            .replace(",S", ",\u{3000}S"),
    );
    all
}

/// A record with few calls and cards.
fn short(rng: &mut Rng) -> String {
    let mut board = records::board(rng, 1);
    board.auction.truncate(6);
    board.play.truncate(6);
    write_lin(&board)
}

/// The record with some bytes changed, and still UTF-8.
fn changed(rng: &mut Rng, record: String) -> String {
    loop {
        let bytes = texts::damaged(rng, record.as_bytes(), 5);
        if let Ok(text) = String::from_utf8(bytes) {
            return text;
        }
    }
}

/// The record with a pipe dropped or doubled.
fn repiped(rng: &mut Rng, mut record: String) -> String {
    let pipes: Vec<usize> = record.match_indices('|').map(|(at, _)| at).collect();
    let at = *rng.pick(&pipes);
    if rng.once_in(2) {
        record.remove(at);
    } else {
        record.insert(at, '|');
    }
    record
}

/// The record with a piece between pipes emptied, or two in each other's place.
fn rearranged(rng: &mut Rng, record: String) -> String {
    let mut pieces: Vec<&str> = record.split('|').collect();
    let (i, k) = (rng.below(pieces.len()), rng.below(pieces.len()));
    if rng.once_in(2) {
        pieces[i] = "";
    } else {
        pieces.swap(i, k);
    }
    pieces.join("|")
}

/// The record with a token removed or put elsewhere.
fn moved(rng: &mut Rng, record: String) -> String {
    let (mut tokens, trailing) = crate::tokens(&record);
    let token = tokens.remove(rng.below(tokens.len()));
    if rng.once_in(2) {
        tokens.insert(rng.below(tokens.len() + 1), token);
    }
    joined(&tokens) + &trailing
}

/// A fault put into a record.
pub type Fault = fn(&mut Rng, String) -> String;

/// The faults, and how many records have each.
pub const FAULTS: [(Fault, usize); 4] =
    [(changed, 160), (repiped, 60), (rearranged, 40), (moved, 60)];

/// Short records, each with one of the faults.
pub fn damaged() -> Vec<String> {
    let rng = &mut Rng::new(6);
    let mut all = Vec::new();
    for (fault, times) in FAULTS {
        for _ in 0..times {
            let record = short(rng);
            all.push(fault(rng, record));
        }
    }
    all
}

/// Values for any command, between pipes.
const VALUES: &str = "| |1|0|9| +13\n|300|n|Both|\u{A0}E\u{A0}|SA|h2| ct |1SA,HK|3SAK,SQJ,ST9|\
    4,,,C2|0SA|1C|1N!|p!!|!|a,b,c,d|,é|x|5+ hearts|Jose\u{301}";

/// A token: a command, known as a rule, and a value that may be another's.
pub fn token(rng: &mut Rng) -> (String, String) {
    const BOARD: &[&str] = &["pn", "md", "sv", "mn", "qx", "ah", "mb", "an", "pc", "mc"];
    let command = match rng.below(6) {
        0 => rng.pick(COMMANDS).to_string(),
        1 => format!("\u{2003}{}\r\n", rng.pick(BOARD).to_uppercase()),
        _ => rng.pick(BOARD).to_string(),
    };
    let values: Vec<&str> = VALUES.split('|').collect();
    let value = match rng.below(8) {
        0 => texts::letters(rng, 8).replace('|', ""),
        1 => format!("2{THREE}{}", rng.pick(&values)),
        _ => rng.pick(&values).to_string(),
    };
    (command, value)
}

/// Up to 12 tokens by chance, and texts that are not even tokens.
pub fn random() -> Vec<String> {
    let rng = &mut Rng::new(7);
    let mut tokens = || {
        let n = 1 + rng.below(12);
        let all: Vec<_> = (0..n).map(|_| token(rng)).collect();
        joined(&all)
    };
    let mut all: Vec<String> = (0..300).map(|_| tokens()).collect();
    let rng = &mut Rng::new(8);
    all.extend((0..100).map(|_| texts::mixture(rng, 16)));
    all
}

/// Many calls and cards, many tokens, and long values.
pub fn long() -> Vec<String> {
    let rng = &mut Rng::new(9);
    let call = |n: usize| ["mb|p|", "mb|1C!|an|x|", "mb|2N|an||", "an|y|mb|d|"][n % 4];
    let card = |n: usize| ["pc|SA|", "pc|h2|", "pc| D9 |", "pc|x|", "pc|cT|"][n % 5];
    let mut all = vec![
        (0..300).map(call).collect(),
        (0..450).map(card).collect(),
        (0..300)
            .map(|n| format!("{}{}", call(n), card(n)))
            .collect(),
        "at|text|pg||".repeat(500),
        format!("mn|{0}|qx|{0}|ah|{0}|", "Count — ".repeat(200)),
        format!("pn|{0},{0},{0},{0},{0}|mb|{0}!|an|{0}|", "é".repeat(300)),
        format!("mb|1C{}|", "!".repeat(1_000)),
        format!("{0}md{0}|{0}1SA|sv|{0}b{0}|", "\u{3000} \u{85}".repeat(200)),
        format!("md|1{}|", "S A".repeat(700)),
        format!("md|1SA{}SK|", ",".repeat(700)),
        " ".repeat(1_000),
        "|".repeat(1_001),
    ];
    all.extend((0..3).map(|_| records::movie(rng, 40)));
    all
}
