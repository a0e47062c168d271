//! Auctions as Rust values: the forms of a bid, the laws, the ends, the contract
//! and its declarer, and the refusals with what each carries.

use lin_host_rust::{
    auction::{self, Auction, Contract, Doubling, LinAuction, Strain},
    boards::{self, Call, Seat, ROW},
    LinAnswer, Refusal, LIMIT,
};

fn call(bid: &str) -> Call<'_> {
    Call {
        bid,
        alerted: false,
        annotation: None,
    }
}

/// The auction of bids with a space between any two, as calls and as rows.
fn checked(dealer: Seat, bids: &str) -> Result<Auction, Refusal> {
    let calls: Vec<Call> = bids.split_whitespace().map(call).collect();
    let told = auction::check_auction(dealer, &calls);
    let (text, rows) = lent(bids);
    assert_eq!(auction::check_auction_rows(&text, dealer, &rows), told);
    told
}

/// These bids as a text, and a row for each.
fn lent(bids: &str) -> (Vec<u8>, Vec<u32>) {
    let mut rows = Vec::new();
    let mut start = 0;
    for bid in bids.split(' ') {
        if !bid.is_empty() {
            rows.extend([start, bid.len() as u32, 0, 0, 0, 0]);
        }
        start += bid.len() as u32 + 1;
    }
    (bids.as_bytes().to_vec(), rows)
}

fn north(bids: &str) -> Result<Auction, Refusal> {
    checked(Seat::North, bids)
}

fn ended(
    level: u8,
    strain: Strain,
    doubling: Doubling,
    declarer: Seat,
) -> Result<Auction, Refusal> {
    Ok(Auction::Ended(Contract {
        level,
        strain,
        doubling,
        declarer,
    }))
}

fn unlawful(index: usize) -> Result<Auction, Refusal> {
    Ok(Auction::Unlawful(index))
}

const OPEN: Result<Auction, Refusal> = Ok(Auction::Open);

// The forms of a bid

#[test]
fn every_bid() {
    for (level, digit) in (1..=7).zip(["1", "2", "3", "4", "5", "6", "7"]) {
        for (strain, letters) in Strain::ALL.into_iter().zip([
            ["C", "c"],
            ["D", "d"],
            ["H", "h"],
            ["S", "s"],
            ["N", "n"],
        ]) {
            for letter in letters {
                let bids = format!("{digit}{letter} p P p");
                let want = ended(level, strain, Doubling::Undoubled, Seat::North);
                assert_eq!(north(&bids), want, "{bids}");
            }
        }
        for notrump in ["NT", "nt", "Nt", "nT"] {
            let bids = format!("{digit}{notrump} p p p");
            let want = ended(level, Strain::NoTrump, Doubling::Undoubled, Seat::North);
            assert_eq!(north(&bids), want, "{bids}");
        }
    }
}

/// None of the forms.
const NO_BIDS: [&str; 37] = [
    "",
    " p",
    "p ",
    "pass",
    "x",
    "X",
    "xx",
    "-",
    "pp",
    "dd",
    "db",
    "1",
    "c",
    "N",
    "NT",
    "1C!",
    "!",
    "0N",
    "8C",
    "9C",
    "1T",
    "1NN",
    "1TN",
    "1NTT",
    "1CT",
    "11C",
    "C1",
    "1 C",
    "1C ",
    "é",
    "1é",
    "1\u{17F}",
    "１C",
    "ｐ",
    "\u{FEFF}p",
    "1N\0",
    "*p*",
];

#[test]
fn bids_that_are_none() {
    for bid in NO_BIDS {
        let calls = [call("1C"), call(bid)];
        let told = auction::check_auction(Seat::South, &calls);
        assert_eq!(told, Err(Refusal::BidUnknown(1)), "{bid:?}");
    }
}

// The laws

#[test]
fn bids_outrank() {
    assert_eq!(north("1C 1D 1H 1S 1N 2C 7S 7NT"), OPEN);
    assert_eq!(north("1N 1NT"), unlawful(1));
    assert_eq!(north("1C p p 1C"), unlawful(3));
    assert_eq!(north("2C p 1N"), unlawful(2));
    assert_eq!(north("7N p 7N"), unlawful(2));
    assert_eq!(north("1D d 1C"), unlawful(2));
    assert_eq!(north("1D d r 1D"), unlawful(3));
}

#[test]
fn doubles_and_redoubles() {
    assert_eq!(north("d"), unlawful(0));
    assert_eq!(north("r"), unlawful(0));
    assert_eq!(north("p d"), unlawful(1));
    assert_eq!(north("1C r"), unlawful(1));
    assert_eq!(north("1C p d"), unlawful(2));
    assert_eq!(north("1C p p d"), OPEN);
    assert_eq!(north("1C d d"), unlawful(2));
    assert_eq!(north("1C d p d"), unlawful(3));
    assert_eq!(north("1C d r"), OPEN);
    assert_eq!(north("1C d p r"), unlawful(3));
    assert_eq!(north("1C d p p r"), OPEN);
    assert_eq!(north("1C d r d"), unlawful(3));
    assert_eq!(north("1C d r r"), unlawful(3));
    // a new bid cancels a double
    assert_eq!(north("1C d 1D r"), unlawful(3));
    assert_eq!(north("1C d 1D d"), OPEN);
    assert_eq!(north("1C d r 1D d"), OPEN);
}

#[test]
fn ends() {
    assert_eq!(north(""), OPEN);
    assert_eq!(north("p p p"), OPEN);
    assert_eq!(north("p p p p"), Ok(Auction::PassedOut));
    assert_eq!(north("p p p p p"), unlawful(4));
    assert_eq!(north("p p p p 1C"), unlawful(4));
    assert_eq!(north("p p p 1C p p"), OPEN);
    let club = ended(1, Strain::Clubs, Doubling::Undoubled, Seat::West);
    assert_eq!(north("p p p 1C p p p"), club);
    assert_eq!(north("p p p 1C p p p p"), unlawful(7));
    assert_eq!(north("1C p p p d"), unlawful(4));
    assert_eq!(north("1C p p d p p"), OPEN);
}

/// Three passes, then after each bid p p d p p r p p: 319 calls end it, and one
/// more is unlawful.
#[test]
fn the_longest_auction() {
    let mut bids = String::from("p p p");
    for level in 1..=7 {
        for strain in ["C", "D", "H", "S", "N"] {
            bids += &format!(" {level}{strain} p p d p p r p p");
        }
    }
    assert_eq!(north(&bids), OPEN);
    let whole = bids.clone() + " p";
    assert_eq!(whole.split(' ').count(), 319);
    // West bids 1C, and each bid is by the next seat: 1N by West again, 7N by East
    let want = ended(7, Strain::NoTrump, Doubling::Redoubled, Seat::West);
    assert_eq!(north(&whole), want);
    assert_eq!(north(&(whole + " p")), unlawful(319));
}

// The contract

#[test]
fn doubling_of_contracts() {
    let club = |doubling| ended(1, Strain::Clubs, doubling, Seat::North);
    assert_eq!(north("1C p p p"), club(Doubling::Undoubled));
    assert_eq!(north("1C d p p p"), club(Doubling::Doubled));
    assert_eq!(north("1C p p d p p p"), club(Doubling::Doubled));
    assert_eq!(north("1C d r p p p"), club(Doubling::Redoubled));
    assert_eq!(north("1C d p p r p p p"), club(Doubling::Redoubled));
    let diamond = ended(1, Strain::Diamonds, Doubling::Undoubled, Seat::South);
    assert_eq!(north("1C d 1D p p p"), diamond);
}

#[test]
fn declarers() {
    for (k, dealer) in Seat::ALL.into_iter().enumerate() {
        let seat = |n: usize| Seat::ALL[(k + n) % 4];
        let plain = |level, strain, n| ended(level, strain, Doubling::Undoubled, seat(n));
        for (bids, want) in [
            ("1C p p p", plain(1, Strain::Clubs, 0)),
            ("p 1C p p p", plain(1, Strain::Clubs, 1)),
            ("p p 1C p p p", plain(1, Strain::Clubs, 2)),
            ("p p p 1C p p p", plain(1, Strain::Clubs, 3)),
            // partner named it first
            ("1S p 4S p p p", plain(4, Strain::Spades, 0)),
            ("p 1N p 3NT p p p", plain(3, Strain::NoTrump, 1)),
            // the other side named it before
            ("1C 2C p 3C p p p", plain(3, Strain::Clubs, 1)),
            ("1C 2C 3C p p p", plain(3, Strain::Clubs, 0)),
            // partner named another strain
            ("1H p 1S p 2S p p p", plain(2, Strain::Spades, 2)),
        ] {
            assert_eq!(checked(dealer, bids), want, "{dealer:?}: {bids}");
        }
    }
    let east = ended(3, Strain::Clubs, Doubling::Undoubled, Seat::East);
    assert_eq!(north("1C 2C p 3C p p p"), east);
}

/// A board that was read: alerts and annotations change nothing.
#[test]
fn the_auction_of_a_text() {
    let text = "qx|o1|md|4|mb|p|mb|1N!|an|15–17|mb|p|mb|2H!!|mb|D|mb|2s|mb|p|mb|p|mb|p|".as_bytes();
    let board = boards::board(text).unwrap();
    assert_eq!(board.heading.dealer, Seat::East);
    let want = ended(2, Strain::Spades, Doubling::Undoubled, Seat::South);
    let told = auction::check_auction(board.heading.dealer, &board.calls);
    assert_eq!(told, want);
    let mut rows = vec![0; ROW * board.calls.len()];
    boards::parse_lin_into(text, &mut rows, &mut []).unwrap();
    let told = auction::check_auction_rows(text, board.heading.dealer, &rows);
    assert_eq!(told, want);
    // the marks of an alert are no part of a bid, a space behind them is
    let spaced = boards::board(b"mb|1C! |").unwrap();
    let told = auction::check_auction(Seat::North, &spaced.calls);
    assert_eq!(told, Err(Refusal::BidUnknown(0)));
}

// Refusals

fn answer(refusal: u32, value: u64) -> LinAnswer {
    LinAnswer {
        refusal,
        kind: 0,
        value,
    }
}

/// All numbers of an auction that is refused.
fn refused(refusal: u32, value: u64) -> LinAuction {
    LinAuction {
        answer: answer(refusal, value),
        outcome: 0,
        level: 0,
        strain: 0,
        doubling: 0,
        declarer: 0,
    }
}

#[test]
fn numbers_of_answers() {
    let numbers = |bids: &str| {
        let (text, rows) = lent(bids);
        auction::check_auction_numbers(&text, 1, &rows)
    };
    let none = refused(0, 0);
    let club = LinAuction {
        outcome: 2,
        level: 1,
        doubling: 2,
        declarer: 2,
        ..none
    };
    assert_eq!(numbers("p 1C d r p p p"), club);
    let notrump = LinAuction {
        outcome: 2,
        level: 7,
        strain: 4,
        declarer: 1,
        ..none
    };
    assert_eq!(numbers("7NT p p p"), notrump);
    assert_eq!(numbers("p p p p"), LinAuction { outcome: 1, ..none });
    assert_eq!(numbers("1C p"), LinAuction { outcome: 3, ..none });
    let unlawful = LinAuction {
        answer: answer(0, 2),
        outcome: 4,
        ..none
    };
    assert_eq!(numbers("1C p d 1D"), unlawful);
    assert_eq!(numbers("p d zz"), refused(9, 2));
    assert_eq!(numbers("p p p p zz"), refused(9, 4));
    assert_eq!(numbers("zz p yy"), refused(9, 0));
}

/// A pass of an alerted call with an annotation, `é`, with another flag or place.
fn with(change: impl FnOnce(&mut [u32])) -> LinAuction {
    let mut row = [0, 1, 1, 1, 1, 2];
    change(&mut row);
    auction::check_auction_numbers("pé\u{FF}".as_bytes(), 0, &row)
}

#[test]
fn refuses_8() {
    assert_eq!(with(|_| ()).read(), OPEN);
    for code in [2, 3, 256, u32::MAX] {
        assert_eq!(with(|row| row[2] = code), refused(8, 0));
        assert_eq!(with(|row| row[3] = code), refused(8, 0));
    }
    let (text, rows) = lent("1C");
    for dealer in [4, 5, 256, u32::MAX] {
        let told = auction::check_auction_numbers(&text, dealer, &rows);
        assert_eq!(told, refused(8, 0));
        // also without a call
        let told = auction::check_auction_numbers(&text, dealer, &[]);
        assert_eq!(told, refused(8, 0));
    }
}

#[test]
fn refuses_5_and_6() {
    for (start, len) in [(5, 1), (6, 0), (0, 6), (u32::MAX, 2), (1, u32::MAX)] {
        assert_eq!(
            with(|row| row[..2].copy_from_slice(&[start, len])),
            refused(5, 0)
        );
        assert_eq!(
            with(|row| row[4..].copy_from_slice(&[start, len])),
            refused(5, 0)
        );
        // an absent annotation is not looked at
        assert_eq!(
            with(|row| row[3..].copy_from_slice(&[0, start, len])).read(),
            OPEN
        );
    }
    for (start, len) in [(1, 1), (2, 1), (0, 2), (2, 2)] {
        assert_eq!(
            with(|row| row[..2].copy_from_slice(&[start, len])),
            refused(6, 0)
        );
        assert_eq!(
            with(|row| row[4..].copy_from_slice(&[start, len])),
            refused(6, 0)
        );
    }
    assert_eq!(with(|row| row[4..].copy_from_slice(&[5, 0])).read(), OPEN);
    assert_eq!(with(|row| row[..2].copy_from_slice(&[5, 0])), refused(9, 0));
}

#[test]
fn refuses_1() {
    let long = |len| auction::check_auction_numbers(&vec![b'p'; len], 3, &[7, 1, 0, 0, 0, 0]);
    assert_eq!(long(LIMIT).read(), OPEN);
    assert_eq!(long(LIMIT + 1), refused(1, 0));
    // the texts of the calls together
    let annotation = "é".repeat(LIMIT / 2);
    let calls = [Call {
        annotation: Some(&annotation),
        ..call("p")
    }];
    let told = auction::check_auction(Seat::North, &calls);
    assert_eq!(told, Err(Refusal::TextTooLong));
}

/// Each before the next, over all rows: 1, 8, 5, 6, 9.
#[test]
fn order_of_refusals() {
    let mut text = b"p\xFF".to_vec();
    let pass: [u32; ROW] = [0, 1, 0, 0, 0, 0];
    let unknown = [0, 0, 0, 0, 0, 0];
    let ill = [1, 1, 0, 0, 0, 0];
    let past = [0, 3, 0, 0, 0, 0];
    let flag = [0, 1, 2, 0, 0, 0];
    let told =
        |text: &[u8], rows: &[[u32; ROW]]| auction::check_auction_numbers(text, 0, &rows.concat());
    assert_eq!(told(&text, &[pass, unknown]), refused(9, 1));
    assert_eq!(told(&text, &[unknown, ill]), refused(6, 0));
    assert_eq!(told(&text, &[unknown, ill, past]), refused(5, 0));
    assert_eq!(told(&text, &[unknown, ill, past, flag]), refused(8, 0));
    text.resize(LIMIT + 1, b'p');
    assert_eq!(told(&text, &[unknown, ill, past, flag]), refused(1, 0));
}

/// A rest of fewer than six words is no row, and is not looked at.
#[test]
fn rests_of_words() {
    let (text, rows) = lent("p p p p");
    for rest in 0..ROW {
        let rows = [&rows[..], &[u32::MAX; ROW][..rest]].concat();
        let told = auction::check_auction_rows(&text, Seat::South, &rows);
        assert_eq!(told, Ok(Auction::PassedOut));
        let told = auction::check_auction_rows(&text, Seat::South, &rows[24..]);
        assert_eq!(told, OPEN);
    }
}

/// Numbers that the export never gives are told apart from all that it gives.
#[test]
fn numbers_that_are_no_auction() {
    let told =
        |refusal, value, outcome, [level, strain, doubling, declarer]: [u32; 4]| LinAuction {
            answer: answer(refusal, value),
            outcome,
            level,
            strain,
            doubling,
            declarer,
        };
    for numbers in [
        told(0, 0, 0, [0; 4]),
        told(9, 1, 3, [0; 4]),
        told(9, 1, 0, [1, 0, 0, 0]),
        told(0, 1, 1, [0; 4]),
        told(0, 0, 1, [0, 0, 0, 1]),
        told(0, 1, 2, [1, 0, 0, 0]),
        told(0, 0, 2, [0, 0, 0, 0]),
        told(0, 0, 2, [8, 0, 0, 0]),
        told(0, 0, 2, [1, 5, 0, 0]),
        told(0, 0, 2, [1, 0, 3, 0]),
        told(0, 0, 2, [1, 0, 0, 4]),
        told(0, 1, 3, [0; 4]),
        told(0, 0, 4, [0, 1, 0, 0]),
        told(0, 0, 5, [0; 4]),
    ] {
        let read = std::panic::catch_unwind(|| numbers.read());
        assert!(read.is_err(), "{numbers:?}");
    }
}
