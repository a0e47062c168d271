//! Random records of one board, and files of them: commands in any dress, with
//! values that are read, nearly read or skipped; about one in three with byte order
//! marks.

pub mod auctions;
pub mod built;
pub mod hostile;
#[path = "../../host/tests/common/hostile_names.rs"]
pub mod hostile_names;
pub mod lent;
pub mod marks;
pub mod names;
pub mod pbn;

use oracle::{
    random::Rng,
    texts::{self, COMMANDS},
};

const BLANKS: &[&str] = &[
    "", "", "", " ", "\n", "\r\n", "\t", "\u{85}", "\u{A0}", "\u{2028}", "\u{3000}", "\u{FFFE}",
    "\u{200B}",
];
const NAMES: &[&str] = &["", "", " ", "Alice", "José", "Jose\u{301}", "~~M1", "李雷"];
const SIDES: &[&str] = &[
    "n", "N", "ns", "nS", "e", "ew", "EW", "b", "B", "both", "BOTH", "all", "aLL", "o", "0", "-",
    "", "x", "nn", "n s", "w", "bothall", "n\u{17F}",
];
const TITLES: &[&str] = &[
    "",
    "",
    " ",
    "Club game",
    "o1,BOARD 1",
    "Board+7",
    "\u{A0}é\n",
];
const BIDS: &[&str] = &[
    "p",
    "1C",
    "1C!",
    "1C!!",
    "!",
    "!!",
    "1C! ",
    " !",
    "!p",
    "4S\n",
    "é!",
    "\u{3000}!",
    "",
];
const CARDS: &[&str] = &[
    "SA",
    "sa",
    "Hk",
    "dT",
    "C2",
    "S10",
    "s",
    "A",
    "!SA",
    "SAK",
    "S1",
    "AS",
    "Ś2",
    "S\u{301}",
    "",
    "é",
    "S A",
    "SA\u{FFFE}",
];
const EASTS: &[&str] = &[
    "",
    "",
    " ",
    "\u{3000}\t",
    "x",
    "S",
    "\u{FEFF}",
    " \u{FEFF}\u{A0}",
    "\u{FFFE}",
    "SA",
];
const CLAIMS: &[&str] = &[
    "9",
    "13",
    "0",
    "+9",
    "009",
    "+009",
    "255",
    "+255",
    "256",
    "1000",
    "-0",
    "+",
    "",
    "++5",
    "+ 7",
    "7+",
    "x",
    "1_0",
    "٣",
    "0x1",
    "18446744073709551616",
    "18446744073709551625",
    "0000000000000000000000012",
];
const SKIPPED: &[&str] = &[
    "pg",
    "st",
    "rh",
    "sa",
    "at",
    "m d",
    "mdx",
    "\u{FFFE}md",
    "Ｍd",
    "",
];

/// At most `tokens` tokens, and at times what trails them.
pub fn record(rng: &mut Rng, tokens: usize) -> String {
    let mut text = String::new();
    for _ in 0..rng.below(tokens + 1) {
        let command = command(rng);
        let value = value(rng, command);
        let dressed = dressed(rng, command);
        text += &format!("{dressed}|{value}|");
    }
    if rng.once_in(4) {
        text += *rng.pick(&["\n", "mb", "mc|7", "é"]);
    }
    marks::text(rng, text)
}

/// Some records one after another: parts about qx tokens, or lines.
pub fn file(rng: &mut Rng, tokens: usize) -> String {
    let mut text = String::new();
    for _ in 0..rng.below(tokens + 1) {
        if rng.once_in(6) {
            text += *rng.pick(&["\n", "\n", "\n", " \n\n", "\r\n", "\u{2028}", "é", "|"]);
        }
        let command = match rng.below(4) {
            0 => command(rng),
            _ => *rng.pick(&["qx", "qx", "mn", "pn", "md", "md", "mb"]),
        };
        let value = value(rng, command);
        let dressed = dressed(rng, command);
        text += &format!("{dressed}|{value}|");
    }
    if rng.once_in(3) {
        // no qx token is left
        text = text.replace(['q', 'Q'], "p");
    }
    marks::text(rng, text)
}

fn command(rng: &mut Rng) -> &'static str {
    const KNOWN: &[&str] = &["pn", "md", "sv", "mn", "qx", "ah", "mb", "an", "pc", "mc"];
    let from = match rng.below(12) {
        0 => COMMANDS,
        1 => SKIPPED,
        _ => KNOWN,
    };
    from[rng.below(from.len())]
}

/// A command between blanks, each letter in any case.
fn dressed(rng: &mut Rng, command: &str) -> String {
    let mut letters = String::new();
    for c in command.chars() {
        letters.push(if rng.once_in(5) {
            c.to_ascii_uppercase()
        } else {
            c
        });
    }
    format!("{}{letters}{}", rng.pick(BLANKS), rng.pick(BLANKS))
}

fn value(rng: &mut Rng, command: &str) -> String {
    if rng.once_in(12) {
        return texts::letters(rng, 8).replace('|', "");
    }
    match command {
        "pn" => names(rng),
        "md" => between_blanks(rng, md),
        "sv" => between_blanks(rng, |rng| rng.pick(SIDES).to_string()),
        "mb" => rng.pick(BIDS).to_string(),
        "pc" => between_blanks(rng, |rng| rng.pick(CARDS).to_string()),
        "mc" => between_blanks(rng, |rng| rng.pick(CLAIMS).to_string()),
        _ => rng.pick(TITLES).to_string(),
    }
}

fn between_blanks(rng: &mut Rng, value: impl Fn(&mut Rng) -> String) -> String {
    let value = value(rng);
    format!("{}{value}{}", rng.pick(BLANKS), rng.pick(BLANKS))
}

fn names(rng: &mut Rng) -> String {
    let pieces: Vec<&str> = (0..1 + rng.below(6)).map(|_| *rng.pick(NAMES)).collect();
    pieces.join(",")
}

/// A dealer and hands: whole ones, so that East may be left out, or any
/// letters.
fn md(rng: &mut Rng) -> String {
    let dealer = *rng.pick(&["1", "2", "3", "4", "1", "0", "5", "x", ""]);
    let mut hands: Vec<String> = if rng.once_in(2) {
        whole(rng)
    } else {
        (0..rng.below(6)).map(|_| hand(rng)).collect()
    };
    if rng.once_in(3) && hands.len() >= 3 {
        hands.truncate(3);
        hands.push(rng.pick(EASTS).to_string());
        if rng.once_in(2) {
            // what stands in East's field is not at the value's end
            hands.push(hand(rng));
        }
    }
    format!("{dealer}{}", hands.join(","))
}

fn whole(rng: &mut Rng) -> Vec<String> {
    let card = |n: usize| {
        let letter = |of: &str, k| of[k..=k].to_string();
        letter("SHDC", n / 13) + &letter("23456789TJQKA", n % 13)
    };
    let mut pack: Vec<String> = (0..52).map(card).collect();
    rng.shuffle(&mut pack);
    if rng.once_in(4) {
        // a card that stands twice, in one hand or in two
        pack[rng.below(52)] = card(rng.below(52));
    }
    let hands = 3 + rng.below(3);
    let mut all: Vec<String> = pack.chunks(13).map(|hand| hand.concat()).collect();
    all.push(hand(rng));
    all.truncate(hands);
    all
}

fn hand(rng: &mut Rng) -> String {
    const LETTERS: &[&str] = &[
        "S", "H", "D", "C", "s", "h", "A", "K", "T", "9", "2", "a", "1", "0", "x", " ", "é",
        "\u{301}",
    ];
    (0..rng.below(12)).map(|_| *rng.pick(LETTERS)).collect()
}
