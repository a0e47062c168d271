//! Auctions: lawful ones, made by choosing lawful calls, and others; and what is
//! lent for them, at times with faults.

use super::lent::{any_words, junk, place};
use crate::model::auction::{said, History, Said};
use lin_host_rust::{boards::ROW, LIMIT};
use oracle::{random::Rng, texts};

/// Bids that are none, and some that look so.
const STRANGE: &[&str] = &[
    "",
    " ",
    "pass",
    "Pass",
    "x",
    "X",
    "xx",
    "-",
    "--",
    " p",
    "p ",
    "1C!",
    "!",
    "8C",
    "0N",
    "1NN",
    "1T",
    "c",
    "1",
    "NT",
    "1NTT",
    "1CT",
    "7nt!",
    "1\u{17F}",
    "é",
    "1é",
    "ｐ",
    "\u{FEFF}",
    "\u{FEFF}p",
    "p\u{FEFF}",
    "1\u{FEFF}C",
    "1N\u{FEFF}",
    "\u{FFFE}p",
    "1\u{1EFF}",
    "p\0",
    "1N\u{301}",
    "11C",
    "9N",
    "/C",
    "1B",
    "1[",
    "dr",
    "pp",
    "1c1",
];

/// Notes to a call.
const NOTES: &[&str] = &[
    "",
    "15-17",
    "5+ ♥",
    "weak, 6 cards",
    "é",
    "\u{FEFF}11-14\u{FEFF}",
    "\u{FFFE}",
    " ",
];

/// What is lent: the text, the dealer and the rows.
#[derive(Debug, Clone, PartialEq, Eq)]
pub struct Lent {
    /// The text.
    pub text: Vec<u8>,
    /// The dealer's code.
    pub dealer: u32,
    /// Six words for each call, and perhaps a rest.
    pub rows: Vec<u32>,
}

/// One of the 38 calls, and two spellings of notrump, in either case.
fn any_bid(rng: &mut Rng) -> String {
    let level = 1 + rng.below(7);
    let bid = match rng.below(8) {
        0 | 1 => "p".to_string(),
        2 => "d".to_string(),
        3 => "r".to_string(),
        _ => format!("{level}{}", rng.pick(&["C", "D", "H", "S", "N", "NT"])),
    };
    if rng.once_in(2) {
        return bid.to_ascii_lowercase();
    }
    bid
}

/// A bid a little above that of a number, of which 0 is none, 1 is 1C and 35 is 7N.
fn near_bid(rng: &mut Rng, last: usize) -> String {
    let rank = (last + rng.below(4)).min(34);
    let strain = match rank % 5 {
        4 => *rng.pick(&["N", "nt"]),
        n => ["C", "d", "H", "s"][n],
    };
    format!("{}{strain}", rank / 5 + 1)
}

/// At most so many calls, each lawful after those before it, until the auction ends;
/// at times it goes on.
pub fn lawful(rng: &mut Rng, dealer: usize, most: usize) -> Vec<String> {
    let mut history = History::default();
    let mut bids: Vec<String> = Vec::new();
    let mut last = 0;
    while bids.len() < most && !history.ended() {
        let bid = match rng.below(8) {
            0..=2 => "P".to_string(),
            3 => "d".to_string(),
            4 => "R".to_string(),
            5 => any_bid(rng),
            _ => near_bid(rng, last),
        };
        let call = said(bid.as_bytes()).expect("a call");
        let seat = (dealer + bids.len()) % 4;
        if history.allows(seat, call) {
            history.make(seat, call);
            if let Said::Bid(level, strain) = call {
                last = 5 * usize::from(level - 1) + usize::from(strain) + 1;
            }
            bids.push(bid);
        }
    }
    if rng.once_in(6) {
        bids.extend((0..1 + rng.below(3)).map(|_| any_bid(rng)));
    }
    bids
}

/// An auction: mostly lawful up to a place, or of any calls; some with a bid that is
/// none.
pub fn bids(rng: &mut Rng, dealer: usize) -> Vec<String> {
    let most = *rng.pick(&[4, 12, 30, 30, 400]);
    let mut bids = match rng.below(8) {
        0 => (0..rng.below(8)).map(|_| any_bid(rng)).collect(),
        1 => vec!["p".to_string(); rng.below(8)],
        _ => lawful(rng, dealer, most),
    };
    if rng.once_in(4) && !bids.is_empty() {
        let at = rng.below(bids.len());
        bids[at] = any_bid(rng);
    }
    if rng.once_in(6) {
        let bid = match rng.below(3) {
            0 => texts::letters(rng, 4),
            _ => rng.pick(STRANGE).to_string(),
        };
        bids.insert(rng.below(bids.len() + 1), bid);
    }
    bids
}

/// An auction with its texts anywhere in one text; what is not looked at holds any
/// words.
pub fn lent(rng: &mut Rng) -> Lent {
    let dealer = rng.below(4);
    let mut text = junk(rng);
    let mut rows = Vec::new();
    for bid in bids(rng, dealer) {
        let start = place(rng, &mut text, bid.as_bytes());
        rows.extend([start, bid.len() as u32, rng.below(2) as u32]);
        if rng.once_in(4) {
            let note = *rng.pick(NOTES);
            let start = place(rng, &mut text, note.as_bytes());
            rows.extend([1, start, note.len() as u32]);
        } else {
            rows.push(0);
            rows.extend(any_words(rng));
        }
    }
    if rng.once_in(4) {
        // a rest that is no row
        rows.extend((0..1 + rng.below(5)).map(|_| u32::MAX));
    }
    text.extend(junk(rng));
    Lent {
        text,
        dealer: dealer as u32,
        rows,
    }
}

/// Puts one fault in, or what looks like one.
pub fn fault(rng: &mut Rng, lent: &mut Lent) {
    let rows = lent.rows.len() / ROW;
    let over = |rng: &mut Rng, most: u32| *rng.pick(&[most, most + 1, most + 2, 256, u32::MAX]);
    let len = lent.text.len();
    match rng.below(8) {
        0 => lent.dealer = over(rng, 3),
        1 | 2 if rows > 0 => {
            let word = ROW * rng.below(rows) + 2 + rng.below(2);
            lent.rows[word] = over(rng, 1);
        }
        3..=5 if rows > 0 => {
            let word = match rng.below(4) {
                0 => *rng.pick(&[0, len as u32, len as u32 + 1, u32::MAX]),
                _ => rng.below(len + 1) as u32,
            };
            lent.rows[ROW * rng.below(rows) + rng.pick(&[0, 1, 4, 5])] = word;
        }
        6 if rng.once_in(100) => lent.text.resize(LIMIT + rng.below(2), b' '),
        _ => lent.text = texts::damaged(rng, &lent.text, 2),
    }
}
