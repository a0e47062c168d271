//! The board reader against the oracle and the model.

use lin_bench::{
    compare,
    model::{self, MARK},
    samples,
};
use lin_host_rust::{boards, LIMIT};
use oracle::{random::Rng, records, texts};

fn compared(text: &[u8]) {
    if let Err(difference) = compare::board(text) {
        panic!("{difference}\nfor {:?}", String::from_utf8_lossy(text));
    }
}

/// The texts of which `host/tests/boards.rs` tells what is read.
#[test]
fn texts_by_hand() {
    for text in [
        "md|1|",
        "md|3SA|md|0SK|",
        "mc|9|mc|x|",
        "mc|+009|",
        "mc|0|",
        "mc|255|",
        "mc| +7\n|",
        "mc|256|",
        "mc|+|",
        "mc|-0|",
        "mc|++5|",
        "mc|+ 7|",
        "mc||",
        "pc|SA|pc|S|pc|!SA|",
        "pc| s2 |pc|HA|pc|dT|pc|Ck|pc|S10|",
        "sv|b|sv|x|",
        "sv|n|",
        "sv| Ns |",
        "sv|E|",
        "sv|ew|",
        "sv|B|",
        "sv|both|",
        "sv|ALL|",
        "sv|n\u{17F}|",
        "sv|o|",
        "mb|1C!!|",
        "mb|p|mb|1C! |mb|!!|mb||mb| d|",
        "an|early|mb|1N|an|one|an|15-17|mb|p|pc|SA|an||mb|d|",
        "qx|o1|md|3SAK,SQJ,ST9|mb|1C!|pc|SA|mc|9|",
        "pn|a, b,é|",
        "pn|a,b,c,d|pn||",
        "pn|a,b,c,d,e|pn|f,|",
        "pn|a,,b|",
        "pn|a,b|",
        "mn|a|qx|b|mn||qx||",
        "ah|c|ah||",
        "mn| a\n|qx|o1|ah|Board+7|",
        "mn|ab|ah||",
        "\r\nMD|1|\u{3000}mN\u{85}|a|\u{FEFF}qx|b|",
        "md|11SA|",
        "md|1AsaKxhq1|",
        "md|1SAA|",
        "md|1S,AK|",
        "md|1SA,SK|md|2,SQ|",
        "md|1S2A2HK,|",
        "mb|p|pc|SA|mb|1C!|an|x|pc|HK|pc|D2|",
    ] {
        compared(text.as_bytes());
    }
    let long = format!("mc|{}9|", "0".repeat(65_000));
    compared(long.as_bytes());
    for card in boards::Card::all() {
        compared(format!("pc|{card}|").as_bytes());
    }
}

/// Three hands of 13 cards, with any fourth field.
#[test]
fn easts() {
    let suits = ["S", "H", "D"].map(|s| format!("{s}AKQJT98765432"));
    for three in [suits.join(","), ["SAAAAAAAAAAAAA"; 3].join(",")] {
        for east in [
            "",
            ",",
            ", \u{3000}",
            ",,SA",
            ", ,x",
            ",x",
            ",S",
            ",\u{FEFF}",
            ",SA",
        ] {
            compared(format!("md|1{three}{east}|").as_bytes());
        }
    }
}

#[test]
fn nothing_read() {
    for text in ["", "a|b", "hello", "pg||", "xx|md|3SA|"] {
        compared(text.as_bytes());
        let numbers = boards::heading_numbers(text.as_bytes());
        assert_eq!(numbers.board, model::fresh_board());
    }
}

#[test]
fn refused_texts() {
    compared(&vec![b' '; LIMIT]);
    compared(&vec![b' '; LIMIT + 1]);
    compared(&vec![0xFF; LIMIT + 1]);
    compared(b"\xFF");
    compared(b"mb|p|pc|SA|\xC3");
    compared(b"mb|p|\xFF");
}

#[test]
fn stored_texts() {
    for text in oracle::tokens::texts() {
        compared(text.as_bytes());
    }
    oracle::utf8::texts().iter().for_each(|t| compared(t));
}

#[test]
fn short_values() {
    for command in ["pn", "md", "sv", "mn", "qx", "ah", "mb", "an", "pc", "mc"] {
        for value in texts::words(&["1", "S", "A", ",", "!", "+", " ", "n", "é"], 3) {
            compared(format!("mb|p|{command}|{value}|").as_bytes());
        }
    }
}

/// Every character at both ends of what is trimmed, the byte order mark apart from
/// those that upstream is asked about.
#[test]
fn every_blank() {
    let others = |c: &char| !['|', MARK].contains(c);
    let all: Vec<char> = ('\0'..=char::MAX).filter(others).collect();
    for some in all.chunks(1_000).chain([&[MARK][..]]) {
        let token = |c: &char| format!("{c}mb{c}|{c}|pc|{c}HK{c}|");
        let text: String = some.iter().map(token).collect();
        compared(text.as_bytes());
    }
    for c in all.iter().filter(|c| **c < '\u{3100}').chain([&MARK]) {
        let text = format!("md|{c}1SA,{c},|sv|{c}b{c}|mc|{c}7{c}|mb|{c}!{c}|");
        compared(text.as_bytes());
    }
}

#[test]
fn random_records() {
    let rng = &mut Rng::new(21);
    for _ in 0..20_000 {
        compared(samples::record(rng, 10).as_bytes());
    }
    for _ in 0..100 {
        compared(samples::record(rng, 400).as_bytes());
    }
}

#[test]
fn realistic_texts() {
    let rng = &mut Rng::new(22);
    for n in 0..60 {
        compared(records::file(rng, n % 4).as_bytes());
        compared(records::lines(rng, n % 4).as_bytes());
        compared(records::movie(rng, n).as_bytes());
    }
}

#[test]
fn damaged_records() {
    let rng = &mut Rng::new(23);
    for _ in 0..2_000 {
        let text = records::file(rng, 1);
        compared(&texts::damaged(rng, text.as_bytes(), 6));
        let text = samples::record(rng, 10);
        compared(&texts::damaged(rng, text.as_bytes(), 3));
    }
}

#[test]
fn texts_at_the_limit() {
    for unit in [
        "mb||",
        "pc|SA|",
        "an|x|mb|!|",
        "pn|a,b,c,d|",
        "mc|7|sv|b|",
        "|",
    ] {
        let mut text = unit.repeat(LIMIT / unit.len());
        compared(text.as_bytes());
        text += &" ".repeat(LIMIT - text.len());
        compared(text.as_bytes());
    }
    let long = format!("md|1{}|", "SA".repeat((LIMIT - 5) / 2));
    compared(long.as_bytes());
}
