//! Auctions against the model: by hand, swept, random, and lent with any numbers.

use lin_bench::{
    compare, model,
    samples::auctions::{self, Lent},
};
use lin_host_rust::{auction::Auction, boards::ROW, Refusal, LIMIT};
use oracle::{random::Rng, texts::words};

fn holds(subject: &dyn std::fmt::Debug, outcome: compare::Same) {
    if let Err(difference) = outcome {
        panic!("{difference}\nfor {subject:?}");
    }
}

fn compared(lent: &Lent) {
    holds(lent, compare::auction(&lent.text, lent.dealer, &lent.rows));
}

/// Bids with a space between any two, by every dealer.
fn bids(bids: &str) {
    let all: Vec<&str> = bids.split_whitespace().collect();
    holds(&bids, compare::bids(&all));
}

#[test]
fn auctions_by_hand() {
    for auction in [
        "",
        "p p p p",
        "p p p p p",
        "p p p 1C p p p",
        "p p p 1C p p p p",
        "1N 1NT",
        "1C p d",
        "1C p p d",
        "1C d p r",
        "1C d p p r",
        "1C d r d",
        "1C d r p p p",
        "1C d 1D r",
        "1C d 1D p p p",
        "1C 2C p 3C p p p",
        "7nT d R p P p",
        "p d zz",
        "p p p p p zz",
    ] {
        bids(auction);
    }
}

/// Every auction of a few calls.
#[test]
fn short_auctions() {
    for word in words(&["p ", "d ", "r ", "1C ", "1N ", "2C "], 5) {
        bids(&word);
    }
}

/// Every bid of up to two bytes, and every third byte of some.
#[test]
fn short_bids() {
    let alone = |bid: &[u8]| {
        let rows = [0, bid.len() as u32, 0, 0, 0, 0];
        holds(&bid, compare::auction(bid, 0, &rows));
    };
    alone(b"");
    for a in 0..=255 {
        alone(&[a]);
        for b in 0..=255 {
            alone(&[a, b]);
        }
        for start in ["1N", "7n", "1C", "3S", "8N", "NT", "p "] {
            alone(&[start.as_bytes(), &[a]].concat());
        }
    }
}

/// One word of a row, or the dealer, about the ends of its range.
#[test]
fn any_word() {
    let lent = Lent {
        text: "1Cép".as_bytes().to_vec(),
        dealer: 1,
        rows: vec![0, 2, 1, 1, 2, 2, 4, 1, 0, 0, 9, 9],
    };
    compared(&lent);
    for value in [0, 1, 2, 3, 4, 5, 6, 256, u32::MAX - 1, u32::MAX] {
        compared(&Lent {
            dealer: value,
            ..lent.clone()
        });
        for word in 0..2 * ROW {
            let mut changed = lent.clone();
            changed.rows[word] = value;
            compared(&changed);
            changed.rows.truncate(word + 1);
            compared(&changed);
        }
    }
}

/// Texts about the limit, and as long with a byte that is no character.
#[test]
fn long_texts() {
    for len in [LIMIT - 1, LIMIT, LIMIT + 1] {
        for last in [b'p', 0xFF] {
            let mut text = vec![b'p'; len];
            text[len - 1] = last;
            let at = len as u32 - 1;
            for rows in [[0, 1, 0, 0, 0, 0], [0, 1, 0, 1, 1, at], [at, 1, 0, 0, 0, 0]] {
                let outcome = compare::auction(&text, 3, &rows);
                holds(&(len, last, rows), outcome);
            }
        }
    }
}

/// A million rows: all are looked at for 9, and the last may be none.
#[test]
fn many_rows() {
    let rows = |last: [u32; ROW]| {
        let mut rows = [0, 1, 0, 0, 0, 0].repeat(1_000_000);
        rows.extend(last);
        rows
    };
    for (last, want) in [
        ([0, 1, 0, 0, 0, 0], Ok(Auction::Unlawful(4))),
        ([1, 1, 0, 0, 0, 0], Err(Refusal::BidUnknown(1_000_000))),
        ([0, 2, 0, 0, 0, 0], Err(Refusal::BidUnknown(1_000_000))),
        ([2, 1, 0, 0, 0, 0], Err(Refusal::SpanNotUtf8)),
        ([3, 1, 0, 0, 0, 0], Err(Refusal::SpanPastEnd)),
        ([3, 1, 0, 2, 0, 0], Err(Refusal::OutOfRange)),
    ] {
        let rows = rows(last);
        let told = model::auction::check_auction(b"px\xFF", 2, &rows);
        assert_eq!(told, want);
        holds(&last, compare::auction(b"px\xFF", 2, &rows));
    }
}

/// Random ones, of which every outcome and every refusal is met.
#[test]
fn random_auctions() {
    let rng = &mut Rng::new(23);
    let mut met = [0; 9];
    for n in 0..20_000 {
        let mut lent = auctions::lent(rng);
        if n % 4 == 0 {
            auctions::fault(rng, &mut lent);
        }
        let told = model::auction::check_auction(&lent.text, lent.dealer, &lent.rows);
        met[match told {
            Ok(Auction::PassedOut) => 0,
            Ok(Auction::Ended(_)) => 1,
            Ok(Auction::Open) => 2,
            Ok(Auction::Unlawful(_)) => 3,
            Err(Refusal::TextTooLong) => 4,
            Err(Refusal::OutOfRange) => 5,
            Err(Refusal::SpanPastEnd) => 6,
            Err(Refusal::SpanNotUtf8) => 7,
            Err(_) => 8,
        }] += 1;
        compared(&lent);
    }
    assert!(met.iter().all(|n| *n > 0), "{met:?}");
    assert!(met[..4].iter().all(|n| *n > 200), "{met:?}");
}
