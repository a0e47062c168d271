//! Auctions, which upstream does not check: the export beside the model, which is
//! plain Rust and not upstream's.

use crate::{inputs, works};
use lin_bench::{
    model,
    samples::auctions::{lawful, Lent},
    upstream,
};
use lin_host_rust::{
    auction::{check_auction_numbers, LinAuction},
    boards::ROW,
    writer::Gathered,
};
use oracle::{lin::parse_lin_file, random::Rng};
use std::hint::black_box;
use works::Times;

/// A name in the table, and what is lent to one call after another, for about so
/// many bytes.
pub struct Auctions {
    pub name: &'static str,
    made: fn(usize) -> Vec<Lent>,
}

pub const ALL: &[Auctions] = &[
    Auctions {
        name: "check_auction, boards of realistic",
        made: realistic,
    },
    Auctions {
        name: "check_auction, lawful auctions",
        made: lawful_ones,
    },
    Auctions {
        name: "check_auction, a p for each byte",
        made: |len| one(&[], "p", len),
    },
    Auctions {
        name: "check_auction, the longest one, then p",
        made: |len| one(&longest(), "p", len),
    },
    Auctions {
        name: "check_auction, the longest one, then 7nT",
        made: |len| one(&longest(), "7nT", len),
    },
    Auctions {
        name: "check_auction, annotations not ASCII",
        made: annotated,
    },
];

impl Auctions {
    /// The least times of the model and of the export, whose answers are held to be
    /// the same before.
    pub fn time(&self, len: usize, runs: usize) -> Times {
        let all = (self.made)(len);
        let bytes = all.iter().map(|lent| lent.text.len()).sum();
        let checked = || {
            tally(black_box(&all), |lent| {
                check_auction_numbers(&lent.text, lent.dealer, &lent.rows)
            })
        };
        let modelled = || {
            tally(black_box(&all), |lent| {
                let told = model::auction::check_auction(&lent.text, lent.dealer, &lent.rows);
                model::auction::numbers(told)
            })
        };
        works::in_turn(bytes, runs, modelled, checked, |a, b| a == b)
    }
}

/// How many auctions have each outcome, and the sum of all values.
fn tally(all: &[Lent], check: impl Fn(&Lent) -> LinAuction) -> [u64; 6] {
    let mut seen = [0; 6];
    for lent in all {
        let told = black_box(check(lent));
        seen[told.outcome as usize] += 1;
        seen[5] += told.answer.value;
    }
    seen
}

/// The boards of the file of that name, each as it is lent to append.
fn realistic(len: usize) -> Vec<Lent> {
    let mut inputs = inputs::ALL.iter();
    let input = inputs.find(|i| i.name == "realistic");
    let text = input.expect("an input of that name").text(len);
    let boards = parse_lin_file(&text).expect("no error");
    let boards = boards.iter().map(|b| Gathered::from(&upstream::board(b)));
    let lent = boards.map(|board| Lent {
        text: board.text,
        dealer: board.board.dealer,
        rows: board.rows,
    });
    lent.collect()
}

/// The rows of bids that stand back to back.
fn rows_of<'a>(bids: impl Iterator<Item = &'a str>) -> Vec<u32> {
    let mut start = 0;
    let row = |bid: &str| -> [u32; ROW] {
        let row = [start, bid.len() as u32, 0, 0, 0, 0];
        start += bid.len() as u32;
        row
    };
    bids.map(row).collect::<Vec<_>>().concat()
}

/// Auctions whose calls are lawful, with so many bytes together; their calls are by
/// chance, and most come to an end.
fn lawful_ones(len: usize) -> Vec<Lent> {
    let rng = &mut Rng::new(3);
    let mut all = Vec::new();
    let mut left = len;
    while left > 0 {
        let dealer = rng.below(4);
        let bids = lawful(rng, dealer, 40);
        let text = bids.concat().into_bytes();
        left = left.saturating_sub(text.len().max(1));
        all.push(Lent {
            text,
            dealer: dealer as u32,
            rows: rows_of(bids.iter().map(String::as_str)),
        });
    }
    all
}

/// One auction of so many bytes: these bids, then one again and again.
fn one(first: &[String], then: &str, len: usize) -> Vec<Lent> {
    let front = first.concat();
    let more = (len - front.len()) / then.len();
    let bids = first.iter().map(String::as_str);
    let rows = rows_of(bids.chain(std::iter::repeat_n(then, more)));
    vec![Lent {
        text: (front + &then.repeat(more)).into_bytes(),
        dealer: 0,
        rows,
    }]
}

/// The longest lawful auction, 319 calls.
fn longest() -> Vec<String> {
    let mut bids = String::from("p p p");
    for level in 1..=7 {
        for strain in ["C", "D", "H", "S", "NT"] {
            bids += &format!(" {level}{strain} p p d p p r p p");
        }
    }
    bids += " p";
    bids.split(' ').map(str::to_string).collect()
}

/// Calls with an annotation each, of two-byte characters, that share no byte.
fn annotated(len: usize) -> Vec<Lent> {
    let call = "p".to_string() + &"é".repeat(16);
    let many = len / call.len();
    let row = |n: usize| -> [u32; ROW] {
        let start = (n * call.len()) as u32;
        [start, 1, 1, 1, start + 1, 32]
    };
    vec![Lent {
        text: call.repeat(many).into_bytes(),
        dealer: 0,
        rows: (0..many).map(row).collect::<Vec<_>>().concat(),
    }]
}
