//! Auctions: the forms of a bid, the laws, the ends, contracts and their declarers, boards
//! that are read first, refusals and their order. (Document 02, N1; document 01, Eight
//! refusals, 1, 5, 6 and 8)

use super::*;

/// The eight numbers of an answer: refusal, kind, value, outcome, level, strain, doubling,
/// declarer.
type Told = [u32; 8];

const PASSED_OUT: Told = [0, 0, 0, 1, 0, 0, 0, 0];
const OPEN: Told = [0, 0, 0, 3, 0, 0, 0, 0];

/// The call with this index is the first unlawful one.
const fn unlawful(index: u32) -> Told {
    [0, 0, index, 4, 0, 0, 0, 0]
}

/// The bid with this index is the first that is none.
const fn unknown(index: u32) -> Told {
    [9, 0, index, 0, 0, 0, 0, 0]
}

const fn refusal(number: u32) -> Told {
    [number, 0, 0, 0, 0, 0, 0, 0]
}

/// A contract: the level; the strain, 0 to 4 for C, D, H, S, N; 0 to 2 for undoubled, doubled
/// and redoubled; and the declarer, 0 to 3 for S, W, N, E.
const fn contract(level: u32, strain: u32, doubling: u32, declarer: u32) -> Told {
    [0, 0, 0, 2, level, strain, doubling, declarer]
}

const SOUTH: u32 = 0;
const WEST: u32 = 1;
const NORTH: u32 = 2;
const EAST: u32 = 3;

/// The dealer stands in the lent board.
const DEALER: usize = LENT_BOARD + 8;

fn lend_rows(s: &mut Steps, dealer: u32, rows: &[u32]) {
    s.set(DEALER, &[dealer]);
    s.set(READ_ROWS, rows);
    s.set(ROWS + 1, &[rows.len() as u32]);
}

/// What is lent is answered so.
fn asked(s: &mut Steps, group: usize, told: Told) {
    s.call(Call::CheckAuction);
    s.is(ANSWER, &told);
    s.is(HIGH, &[0; 8]);
    s.case(group);
}

/// Bids back to back, none alerted; the places of the absent annotations are beyond the text.
fn bids(s: &mut Steps, group: usize, dealer: u32, bids: &[&str], told: Told) {
    let mut text = Vec::new();
    let mut rows = Vec::new();
    for bid in bids {
        rows.extend(lent::span(&mut text, bid.as_bytes()));
        rows.extend([0, 0, u32::MAX, 1]);
    }
    s.lend(TEXT, &text);
    lend_rows(s, dealer, &rows);
    asked(s, group, told);
}

/// Bids with a space between any two.
fn auction(s: &mut Steps, group: usize, dealer: u32, all: &str, told: Told) {
    let all: Vec<&str> = all.split(' ').filter(|bid| !bid.is_empty()).collect();
    bids(s, group, dealer, &all, told);
}

/// The groups.
const BIDS: usize = 0;
const LAWS: usize = 1;
const CONTRACTS: usize = 2;
const READ_FIRST: usize = 3;
const REFUSALS: usize = 4;
const ORDER: usize = 5;

/// Bids that are none of the forms.
const NO_FORMS: [&str; 48] = [
    "",
    " ",
    "pass",
    "Pass",
    "x",
    "X",
    "xx",
    "-",
    "--",
    " p",
    "p ",
    "p!",
    "pp",
    "dd",
    "dp",
    "q",
    "o",
    "0",
    "1",
    "7",
    "8",
    "c",
    "N",
    "NT",
    "nt1",
    "C1",
    "1C!",
    "1 C",
    "1C ",
    " 1C",
    "0N",
    "8C",
    "9H",
    "/C",
    "1B",
    "1E",
    "1T",
    "1A",
    "1NN",
    "1TN",
    "1NTT",
    "1CT",
    "1DT",
    "11C",
    "é",
    "1é",
    "1\u{17F}",
    "\u{FEFF}p",
];

/// Each form in either case, as the one bid of a contract or of an open auction; each bid that
/// is none, as a first call and as a second.
fn forms(s: &mut Steps) {
    for level in 1..=7 {
        for (strain, names) in [
            (0, &["C", "c"][..]),
            (1, &["D", "d"]),
            (2, &["H", "h"]),
            (3, &["S", "s"]),
            (4, &["N", "n", "NT", "Nt", "nT", "nt"]),
        ] {
            for name in names {
                let bid = format!("{level}{name}");
                let all = [bid.as_str(), "p", "P", "p"];
                bids(s, BIDS, SOUTH, &all, contract(level, strain, 0, SOUTH));
            }
        }
    }
    for (pass, double, redouble) in [("p", "d", "r"), ("P", "D", "R")] {
        bids(s, BIDS, SOUTH, &[pass], OPEN);
        bids(s, BIDS, SOUTH, &["1C", double], OPEN);
        bids(s, BIDS, SOUTH, &["1C", "d", redouble], OPEN);
    }
    for bid in NO_FORMS {
        bids(s, BIDS, SOUTH, &[bid], unknown(0));
        bids(s, BIDS, SOUTH, &["1C", bid], unknown(1));
    }
    for (all, index) in [
        // The double is unlawful at 1: 9 is looked for over all bids first.
        ("p d zz", 2),
        ("d zz", 1),
        // After the end, and the least of several.
        ("p p p p zz", 4),
        ("1C p p p p zz", 5),
        ("zz p yy", 0),
        ("1C yy 1C zz", 1),
        ("1N 1NT pass", 2),
    ] {
        auction(s, BIDS, NORTH, all, unknown(index));
    }
}

/// A bid outranks the last one; what a double and a redouble follow, passes apart; the ends.
const LAWFUL: [(&str, Told); 62] = [
    ("", OPEN),
    ("p", OPEN),
    ("p p p", OPEN),
    ("p p p p", PASSED_OUT),
    ("P p P p", PASSED_OUT),
    ("p p p p p", unlawful(4)),
    ("p p p p 1C", unlawful(4)),
    ("p p p p d", unlawful(4)),
    ("p p p p p p", unlawful(4)),
    ("1C", OPEN),
    ("1C p p", OPEN),
    ("1C p p p p", unlawful(4)),
    ("1C p p p 1D", unlawful(4)),
    ("1C p p p d", unlawful(4)),
    ("p p p 1C p p", OPEN),
    ("p p p 1C p p p p", unlawful(7)),
    ("p p p 1C p p 1D p p", OPEN),
    ("1C 1D 1H 1S 1N 2C", OPEN),
    ("1C 7N", OPEN),
    ("1C 1C", unlawful(1)),
    ("1c 1C", unlawful(1)),
    ("1N 1NT", unlawful(1)),
    ("1NT 1N", unlawful(1)),
    ("1D 1C", unlawful(1)),
    ("1N 1S", unlawful(1)),
    ("2C 1N", unlawful(1)),
    ("1N 2C", OPEN),
    ("1H p 1D", unlawful(2)),
    ("7S 7NT", OPEN),
    ("7NT 7N", unlawful(1)),
    ("1C p p 1C", unlawful(3)),
    ("2C p p 1N p p", unlawful(3)),
    ("1D d 1C", unlawful(2)),
    ("1D d r 1D", unlawful(3)),
    ("d", unlawful(0)),
    ("r", unlawful(0)),
    ("p d", unlawful(1)),
    ("p p p d", unlawful(3)),
    ("p p r", unlawful(2)),
    ("1C d", OPEN),
    ("1C p d", unlawful(2)),
    ("1C p p d", OPEN),
    ("1C p p d p p", OPEN),
    ("1C d d", unlawful(2)),
    ("1C d p d", unlawful(3)),
    ("1C d p p d", unlawful(4)),
    ("1C r", unlawful(1)),
    ("1C p r", unlawful(2)),
    ("1C p p r", unlawful(3)),
    ("1C d r", OPEN),
    ("1C d p r", unlawful(3)),
    ("1C d p p r", OPEN),
    ("1C d p p r p p", OPEN),
    ("1C d r r", unlawful(3)),
    ("1C d r d", unlawful(3)),
    ("1C d r p d", unlawful(4)),
    ("1C d r p p d", unlawful(5)),
    // A new bid cancels a double and a redouble.
    ("1C d 1D r", unlawful(3)),
    ("1C d 1D d", OPEN),
    ("1C d r 1D d", OPEN),
    ("1C d r 1D r", unlawful(4)),
    // The first unlawful call, though a later one is unlawful too.
    ("1C p d d 1C", unlawful(2)),
];

/// Three passes, and after each bid p p d p p r p p, and a last p: 319 calls, the most that a
/// lawful auction has.
fn longest() -> String {
    let mut all = String::from("p p p");
    for level in 1..=7 {
        for strain in ["C", "D", "H", "S", "N"] {
            all += &format!(" {level}{strain} p p d p p r p p");
        }
    }
    all + " p"
}

fn laws(s: &mut Steps) {
    for (all, told) in LAWFUL {
        // The laws of calls are the same whoever deals.
        for dealer in [NORTH, WEST] {
            auction(s, LAWS, dealer, all, told);
        }
    }
    // With South as dealer East bids 1C, and each bid is by the next seat: 1N by East again, and
    // 7N, the 35th, by West.
    let all = longest();
    auction(s, LAWS, SOUTH, &all, contract(7, 4, 2, EAST));
    auction(s, LAWS, SOUTH, &all[..all.len() - 2], OPEN);
    auction(s, LAWS, SOUTH, &(all + " p"), unlawful(319));
}

/// Contracts with their doubling, and the declarer by each dealer, S, W, N, E.
const CONTRACTED: [(&str, [u32; 3], [u32; 4]); 24] = [
    ("1C p p p", [1, 0, 0], [SOUTH, WEST, NORTH, EAST]),
    ("p 1C p p p", [1, 0, 0], [WEST, NORTH, EAST, SOUTH]),
    ("p p 1C p p p", [1, 0, 0], [NORTH, EAST, SOUTH, WEST]),
    ("p p p 1C p p p", [1, 0, 0], [EAST, SOUTH, WEST, NORTH]),
    ("7nT p p p", [7, 4, 0], [SOUTH, WEST, NORTH, EAST]),
    // Doubling, and that a new bid cancels it.
    ("1C d p p p", [1, 0, 1], [SOUTH, WEST, NORTH, EAST]),
    ("1C p p d p p p", [1, 0, 1], [SOUTH, WEST, NORTH, EAST]),
    ("1C d r p p p", [1, 0, 2], [SOUTH, WEST, NORTH, EAST]),
    ("1C d p p r p p p", [1, 0, 2], [SOUTH, WEST, NORTH, EAST]),
    ("1C d 1D p p p", [1, 1, 0], [NORTH, EAST, SOUTH, WEST]),
    ("1C d r 1D p p p", [1, 1, 0], [EAST, SOUTH, WEST, NORTH]),
    ("1C d 1D d p p p", [1, 1, 1], [NORTH, EAST, SOUTH, WEST]),
    // Partner named the strain first.
    ("1S p 4S p p p", [4, 3, 0], [SOUTH, WEST, NORTH, EAST]),
    ("p 1NT p 3N p p p", [3, 4, 0], [WEST, NORTH, EAST, SOUTH]),
    ("1H p 2H p 4h p p p", [4, 2, 0], [SOUTH, WEST, NORTH, EAST]),
    // Partner named another, and the bidder this one.
    ("1C p 1H p 2H p p p", [2, 2, 0], [NORTH, EAST, SOUTH, WEST]),
    ("1C p 1D p 2C p p p", [2, 0, 0], [SOUTH, WEST, NORTH, EAST]),
    // The other side named the strain before.
    ("1C 2C p 3C p p p", [3, 0, 0], [WEST, NORTH, EAST, SOUTH]),
    ("1C 2C 3C p p p", [3, 0, 0], [SOUTH, WEST, NORTH, EAST]),
    (
        "1C p p 2C p 3C p p p",
        [3, 0, 0],
        [EAST, SOUTH, WEST, NORTH],
    ),
    ("1C 2C 2D 3C p p p", [3, 0, 0], [WEST, NORTH, EAST, SOUTH]),
    // Named first in a bid that was doubled, and again later.
    ("1S d r 2C 2S p p p", [2, 3, 0], [SOUTH, WEST, NORTH, EAST]),
    (
        "p 1H d 2H 2S 3H d p p p",
        [3, 2, 1],
        [WEST, NORTH, EAST, SOUTH],
    ),
    (
        "1D 1N 2D 2N 3D d p p p",
        [3, 1, 1],
        [SOUTH, WEST, NORTH, EAST],
    ),
];

fn contracts(s: &mut Steps) {
    for (all, [level, strain, doubling], declarers) in CONTRACTED {
        for dealer in [SOUTH, WEST, NORTH, EAST] {
            let declarer = declarers[dealer as usize];
            let told = contract(level, strain, doubling, declarer);
            auction(s, CONTRACTS, dealer, all, told);
        }
    }
}

/// Texts of one board. Alerts and annotations change nothing, and the marks of an alert are no
/// part of a bid, but a space after them is.
const TEXTS: [(&str, Told); 12] = [
    ("", OPEN),
    ("md|1|", OPEN),
    ("md|1|mb|p|mb|p|mb|p|mb|p|", PASSED_OUT),
    // No md: North deals.
    ("mb|1N|mb|p|mb|p|mb|p|", contract(1, 4, 0, NORTH)),
    (
        "md|4|mb|p|mb|1N!|an|15–17|mb|p|mb|2H!!|an|transfer|mb|D|mb|2s|mb|p|mb|p|mb|P|",
        contract(2, 3, 0, SOUTH),
    ),
    (
        "md|3SAK|mb|1C!|an|16+|mb|2c|mb|p|mb|3C|mb|d|mb|p|mb|p|mb|p|",
        contract(3, 0, 1, EAST),
    ),
    ("md|2|mb|1C!|mb|p!|mb|d!|", unlawful(2)),
    ("md|2|mb|1C! |", unknown(0)),
    ("md|2|mb|p|mb|!!|", unknown(1)),
    ("md|2|mb|1C|mb|pass|an|x|", unknown(1)),
    // A byte order mark is taken off a command, and not off a bid.
    ("\u{FEFF}mb|p|mb|p|mb|p|mb|p|", PASSED_OUT),
    ("md|2|mb|1C|mb|p\u{FEFF}|", unknown(1)),
];

/// Rows that were read, lent to the check with the dealer that was read.
fn read_first(s: &mut Steps) {
    for (text, told) in TEXTS {
        let words = 6 * text.matches("mb|").count();
        s.lend(TEXT, text.as_bytes());
        s.set(LENT_WORDS, &[words as u32, 0]);
        s.call(Call::ParseLin);
        s.copy(DEALER, BOARD + 8, 1, 1);
        s.copy(READ_ROWS, FILLED_ROWS, words, 1);
        s.set(ROWS + 1, &[words as u32]);
        asked(s, READ_FIRST, told);
    }
}

/// A span as the bid and as the annotation of the second of two rows, and as an absent
/// annotation, which is not looked at. The text begins with a pass, and no span is a bid.
fn places(s: &mut Steps, (start, len, number): Refused) {
    let told = |accepted| {
        if number == 0 {
            accepted
        } else {
            refusal(number)
        }
    };
    for (row, told) in [
        ([start, len, 0, 0, 0, 0], told(unknown(1))),
        ([start, len, 1, 0, u32::MAX, 1], told(unknown(1))),
        ([0, 1, 0, 1, start, len], told(OPEN)),
        ([0, 1, 1, 1, start, len], told(OPEN)),
        ([0, 1, 0, 0, start, len], OPEN),
    ] {
        lend_rows(s, EAST, &[[0, 1, 0, 0, 0, 0], row].concat());
        asked(s, REFUSALS, told);
    }
}

/// Spans about the end of `p c`, and within `pé` and FF hex.
fn spans(s: &mut Steps) {
    s.lend(TEXT, b"p c");
    for span in [
        (2, 2, 5),
        (0, 4, 5),
        (4, 0, 5),
        (u32::MAX, 2, 5),
        (1, u32::MAX, 5),
        (u32::MAX, u32::MAX, 5),
        (3, 0, 0),
        (2, 1, 0),
        (0, 3, 0),
    ] {
        places(s, span);
    }
    s.lend(TEXT, b"p\xC3\xA9\xFF");
    for span in [
        (1, 1, 6),
        (2, 1, 6),
        (3, 1, 6),
        (0, 2, 6),
        (1, 3, 6),
        (2, 0, 0),
        (1, 2, 0),
        (0, 3, 0),
    ] {
        places(s, span);
    }
}

/// Rows of `1Cp` with flags, and with a rest of words, which is no row.
const ROWS_BY_HAND: [(&[u32], Told); 14] = [
    (&[], OPEN),
    (&[0, 2, 0, 0, 0, 0], OPEN),
    (&[0, 2, 1, 1, 0, 0], OPEN),
    (&[0, 2, 2, 0, 0, 0], refusal(8)),
    (&[0, 2, 0, 2, 0, 0], refusal(8)),
    (&[0, 2, 256, 0, 0, 0], refusal(8)),
    (&[0, 2, 0, u32::MAX, 0, 0], refusal(8)),
    (&[0, 2, 0, 0, 0, 0, 2, 1, 2, 0, 0, 0], refusal(8)),
    (&[0, 2, 0, 0, 0, 0, 2, 1, 0, 2, 0, 0], refusal(8)),
    (&[0, 2, 0, 0, 0, 0, 0, 2, 0, 0, 0, 0], unlawful(1)),
    (&[9], OPEN),
    (&[9, 9, 9, 9, 9], OPEN),
    (&[0, 2, 0, 0, 0, 0, 9, 9, 9, 9, 9], OPEN),
    (&[0, 3, 0, 0, 0, 0, 9], unknown(0)),
];

/// Flags and dealers outside their range, also where no call is made; texts about the limit.
fn refusals(s: &mut Steps) {
    spans(s);
    s.lend(TEXT, b"1Cp");
    for (rows, told) in ROWS_BY_HAND {
        lend_rows(s, WEST, rows);
        asked(s, REFUSALS, told);
    }
    for (dealer, told) in [
        (3, OPEN),
        (4, refusal(8)),
        (5, refusal(8)),
        (256, refusal(8)),
        (u32::MAX, refusal(8)),
    ] {
        for rows in [&[][..], &[0, 2, 0, 0, 0, 0]] {
            lend_rows(s, dealer, rows);
            asked(s, REFUSALS, told);
        }
    }
    spaces(s, b"p", LONG);
    for (len, told) in [(LONG, refusal(1)), (LIMIT, OPEN)] {
        s.set(TEXT + 1, &[len as u32]);
        for rows in [&[][..], &[0, 1, 0, 0, 0, 0], &[0, 1, 1, 1, 0, LIMIT as u32]] {
            lend_rows(s, SOUTH, rows);
            asked(s, REFUSALS, told);
        }
    }
}

/// Every choice of six faults: a text that is too long; a dealer 4; a flag 2 in the last row; a
/// span of the fourth row that passes the end; one of the third that is not UTF-8; a second bid
/// that is none. The first in the order 1, 8, 5, 6, 9; without a fault the call is unlawful at 1.
fn order(s: &mut Steps) {
    spaces(s, "pdé".as_bytes(), LONG);
    for n in 0..64 {
        let [long, dealer, flag, past, ill, none] = [1, 2, 4, 8, 16, 32].map(|bit| n & bit != 0);
        s.set(TEXT + 1, &[if long { LONG as u32 } else { 4 }]);
        let rows = [
            [0, 1, 0, 0, 0, 0],
            [1, if none { 0 } else { 1 }, 0, 0, 0, 0],
            [0, 1, 0, 1, if ill { 3 } else { 2 }, if ill { 1 } else { 2 }],
            [
                0,
                1,
                1,
                1,
                if past { u32::MAX } else { 4 },
                if past { 2 } else { 0 },
            ],
            [0, 1, if flag { 2 } else { 0 }, 0, 9, 9],
        ];
        lend_rows(s, if dealer { 4 } else { EAST }, &rows.concat());
        let told = match (long, dealer || flag, past, ill, none) {
            (true, ..) => refusal(1),
            (_, true, ..) => refusal(8),
            (_, _, true, ..) => refusal(5),
            (_, _, _, true, _) => refusal(6),
            (.., true) => unknown(1),
            _ => unlawful(1),
        };
        asked(s, ORDER, told);
    }
}

pub fn put(s: &mut Steps) {
    forms(s);
    laws(s);
    contracts(s);
    read_first(s);
    refusals(s);
    order(s);
    s.say(
        "by hand auction",
        &[
            "bids",
            "laws",
            "contracts",
            "read first",
            "refusals",
            "order",
        ],
    );
}
