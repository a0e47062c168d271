//! Files of records, files with faults, and tokens by chance.

use crate::{
    boards::{
        mixed::{token, FAULTS},
        traps::joined,
    },
    lin::write_lin_file,
    random::Rng,
    records, texts,
};

/// A file with few calls and cards to a board.
fn brief(rng: &mut Rng, boards: usize, rows: usize) -> String {
    let board = |n| {
        let mut board = records::board(rng, n);
        board.auction.truncate(rows);
        board.play.truncate(rows);
        board
    };
    let list: Vec<_> = (1..=boards).map(board).collect();
    write_lin_file(&list)
}

/// Files of 0 to 12 boards, with and without qx, movies, and a file with texts
/// before and after it, other ends of lines, other commands and another case.
pub fn records() -> Vec<String> {
    let rng = &mut Rng::new(10);
    let mut all: Vec<String> = (0..=12).map(|n| brief(rng, n, 8)).collect();
    all.extend((0..=12).map(|n| records::lines(rng, n)));
    all.extend((0..=3).map(|n| records::file(rng, n)));
    all.extend((1..=4).map(|n| records::movie(rng, 4 * n) + &records::file(rng, n / 2)));
    let file = brief(rng, 3, 4);
    all.push(format!("\u{FFFE}{file}"));
    all.push(format!(
        "vg|Final,Segment 1,I,1,16,Home,0,Away,0|\nrs|4SN=|\npw|a,b|\n{file}"
    ));
    all.push(format!("md|1|\n{file}at|never closed"));
    all.push(file.replace('\n', "\r\n"));
    all.push(file.replace('\n', ""));
    all.push(file.replace('\n', "\u{2028}\u{A0}"));
    all.push(file.replace("||", "|"));
    all.push(file.replace("qx|", "zz|"));
    all.push(file.replace("|md|", "|zz|"));
    all.push(file.to_uppercase());
    all.push(file.to_lowercase());
    all
}

/// Lines of a few boards, or a file of them, with one of the faults.
pub fn damaged() -> Vec<String> {
    let rng = &mut Rng::new(11);
    let mut all = Vec::new();
    for (fault, times) in FAULTS {
        for _ in 0..times / 2 {
            let boards = 1 + rng.below(3);
            let file = brief(rng, boards, 2);
            let file = if rng.once_in(3) {
                file.replace("|\n", "|").replace("qx|", "\nrh|")
            } else {
                file
            };
            all.push(fault(rng, file));
        }
    }
    all
}

/// Up to 14 tokens by chance, with qx and md among them as a rule.
fn tokens(rng: &mut Rng) -> String {
    const FILE: &[&str] = &[
        "qx|r|",
        "qx||",
        "md|1SA|",
        "md|0|",
        "mn|t|",
        "pn|a,b|",
        "PN||",
        "\nQx|\n|",
        "\r\nmD |3|",
    ];
    const BETWEEN: &[&str] = &["", "", "", "\n", "\r\n", "|", "\n\n \n", "\u{2028}"];
    let parts = rng.once_in(2);
    let n = 1 + rng.below(14);
    let piece = |_| {
        let other = joined(&[token(rng)]);
        let text = match rng.below(3) {
            0 => rng.pick(FILE).to_string(),
            _ => other,
        };
        let text = if parts {
            text
        } else {
            text.to_lowercase().replace("qx", "rh")
        };
        format!("{text}{}", rng.pick(BETWEEN))
    };
    (0..n).map(piece).collect()
}

/// Tokens by chance, and texts that are not even tokens.
pub fn random() -> Vec<String> {
    let rng = &mut Rng::new(12);
    let mut all: Vec<String> = (0..220).map(|_| tokens(rng)).collect();
    let mixtures: Vec<String> = (0..80).map(|_| texts::mixture(rng, 16)).collect();
    all.extend(mixtures);
    all
}

/// Many boards, many lines, long runs and long values.
pub fn long() -> Vec<String> {
    vec![
        "qx||md|1|".repeat(100),
        "md|1|qx|".repeat(101),
        "qx||".repeat(500) + "md|1|",
        "mn|t|pn|a|".repeat(200) + "qx|r|md|1|",
        format!("md|1|{}qx|r|md|2|", "pn|a|".repeat(300)),
        format!(
            "md|1|{}rh||{}qx|r|md|2|",
            "mn|t|".repeat(100),
            "mn|u|".repeat(100)
        ),
        "md|1|\n".repeat(100),
        "a\nb\r\n \n".repeat(40),
        "\n".repeat(1_000),
        "\u{3000}\u{85}\n".repeat(200),
        "x".repeat(1_000),
        "|".repeat(1_001),
        format!("{}qx|a|md|1|", "|".repeat(1_001)),
        format!("{}qx|a|md|1|", "|".repeat(1_002)),
        format!("md|1|mb|{0}|qx|{0}|md|2|pn|{0}|", "é\n".repeat(300)),
        format!(
            "{}\nmd|1|{}",
            " \u{2003}".repeat(300),
            "pc|SA|mb|p|".repeat(30)
        ),
        format!("md|1|qx|a|md|2|{}", "pc|SA|mb|p!|an|x|".repeat(30)),
    ]
}
