//! Pairs of boards that are the same, that differ in one field, and that differ
//! by chance.

use super::{every_two, Pair};
use crate::{
    built::{self, call, cards, PLACES, SEATS, SIDES},
    lin::{BidWithAnnotation, LinData},
    random::Rng,
    records,
};

/// Boards that have every field, and the fresh one.
fn bases() -> Vec<LinData> {
    let rng = &mut Rng::new(31);
    let mut full = built::fresh();
    (0..PLACES).for_each(|place| built::put(&mut full, place, "x"));
    full.play = cards("SAHKD2");
    full.claim = Some(9);
    full.deal = built::deal(["SA", "HK", "DQ", "CJ"].map(cards));
    let mut record = built::sorted(&records::board(rng, 1));
    record.auction.truncate(6);
    vec![built::fresh(), full, record]
}

/// Boards against themselves.
pub fn same() -> Vec<Pair> {
    let rng = &mut Rng::new(32);
    let mut all = bases();
    all.extend((0..60).map(|_| built::board(rng)));
    all.extend((0..10).map(|n| built::sorted(&records::board(rng, n))));
    all.into_iter().map(|b| (b.clone(), b)).collect()
}

/// A change of one field.
type Change = fn(&mut LinData);

const CHANGES: &[Change] = &[
    |b| b.player_names[0].push('y'),
    |b| b.player_names[1].push('y'),
    |b| b.player_names[2].push('y'),
    |b| b.player_names[3].push('y'),
    |b| b.player_names[3].clear(),
    |b| b.player_names.swap(0, 1),
    |b| b.dealer = SEATS[0],
    |b| b.dealer = SEATS[1],
    |b| b.dealer = SEATS[3],
    |b| b.vulnerability = SIDES[1],
    |b| b.vulnerability = SIDES[2],
    |b| b.vulnerability = SIDES[3],
    |b| b.title = None,
    |b| b.title = Some(String::new()),
    |b| b.title = Some("y".to_string()),
    |b| b.room_board = None,
    |b| b.room_board = Some(String::new()),
    |b| b.room_board = Some("y".to_string()),
    |b| b.board_header = None,
    |b| b.board_header = Some(String::new()),
    |b| b.board_header = Some("y".to_string()),
    |b| b.auction.clear(),
    |b| b.auction.truncate(1),
    |b| b.auction.push(call("p", false, None)),
    |b| b.auction.insert(0, call("p", false, None)),
    |b| b.auction.reverse(),
    |b| b.auction.iter_mut().for_each(|c| c.alert = !c.alert),
    |b| b.auction.iter_mut().for_each(|c| c.annotation = None),
    |b| b.auction.iter_mut().for_each(|c| c.bid.push('!')),
    |b| b.play.clear(),
    |b| b.play.reverse(),
    |b| b.play.truncate(1),
    |b| b.play.push(cards("C2")[0]),
    |b| b.play.insert(0, cards("C2")[0]),
    |b| b.claim = None,
    |b| b.claim = Some(0),
    |b| b.claim = Some(255),
    |b| b.deal = built::deal(["SK", "HK", "DQ", "CJ"].map(cards)),
    |b| b.deal = built::deal(["SA", "HA", "DQ", "CJ"].map(cards)),
    |b| b.deal = built::deal(["SA", "HK", "DA", "CJ"].map(cards)),
    |b| b.deal = built::deal(["SA", "HK", "DQ", "CA"].map(cards)),
    |b| b.deal = built::deal(["SAA", "HK", "DQ", "CJ"].map(cards)),
    |b| b.deal = built::deal(["SA", "HK", "DQ", ""].map(cards)),
];

/// Each field different in turn.
pub fn changed() -> Vec<Pair> {
    let mut all = Vec::new();
    for base in bases() {
        for change in CHANGES {
            let mut other = base.clone();
            change(&mut other);
            all.push((base.clone(), other));
        }
    }
    all
}

/// Texts that are like each other, and absent.
const TEXTS: [Option<&str>; 14] = [
    None,
    Some(""),
    Some(" "),
    Some("é"),
    Some("e\u{301}"),
    Some("e"),
    Some("É"),
    Some("Å"),
    Some("A\u{30A}"),
    Some("\u{212B}"),
    Some("a"),
    Some("ab"),
    Some("a|b"),
    Some("a/b"),
];

/// Every two of them as title, room, header or annotation, and as a name or a
/// bid where neither is absent.
pub fn texts() -> Vec<Pair> {
    let with = |place, text: Option<&str>| {
        let mut board = built::fresh();
        board.auction.push(call("1C", false, None));
        if let Some(text) = text {
            built::put(&mut board, place, text);
        }
        board
    };
    let mut all = Vec::new();
    for (n, a) in TEXTS.iter().enumerate() {
        for (k, b) in TEXTS.iter().enumerate().skip(n) {
            let (name, title) = ((n + k) % 4, 4 + (n + k) % 3);
            for place in [name, title, 7, 8] {
                if a.is_some() || place == title || place == 8 {
                    all.push((with(place, *a), with(place, *b)));
                }
            }
        }
    }
    all
}

/// A text at one place against the same text at another.
pub fn seats() -> Vec<Pair> {
    let places: Vec<usize> = (0..PLACES).collect();
    every_two(&places, |place| {
        let mut board = built::fresh();
        board.auction.push(call("1C", false, None));
        built::put(&mut board, *place, "x");
        board
    })
}

/// Auctions that are like each other.
fn some_auctions() -> Vec<Vec<BidWithAnnotation>> {
    let p = || call("p", false, None);
    vec![
        vec![],
        vec![p()],
        vec![p(), p()],
        vec![call("P", false, None)],
        vec![call("p", true, None)],
        vec![call("p!", false, None)],
        vec![call("p!", true, None)],
        vec![call("", false, None)],
        vec![call("p", false, Some(""))],
        vec![call("p", false, Some("x"))],
        vec![call("p", true, Some("x"))],
        vec![call("p", false, Some("x")), p()],
        vec![p(), call("p", false, Some("x"))],
        vec![call("1C", false, None), p()],
        vec![p(), call("1C", false, None)],
    ]
}

/// Every two of them.
pub fn auctions() -> Vec<Pair> {
    every_two(&some_auctions(), |auction| LinData {
        auction: auction.clone(),
        ..built::fresh()
    })
}

/// Every two of these plays.
pub fn plays() -> Vec<Pair> {
    const PLAYS: [&str; 9] = [
        "", "SA", "SAA", "SAK", "SKA", "SAHA", "HASA", "C2", "SAKQJT",
    ];
    every_two(&PLAYS, |letters| LinData {
        play: cards(letters),
        ..built::fresh()
    })
}

/// Every two of these claims.
pub fn claims() -> Vec<Pair> {
    const CLAIMS: [u8; 8] = [0, 1, 9, 10, 99, 100, 254, 255];
    let some = CLAIMS.into_iter().map(Some);
    let all: Vec<_> = [None].into_iter().chain(some).collect();
    every_two(&all, |claim| LinData {
        claim: *claim,
        ..built::fresh()
    })
}

/// Every two dealers and every two vulnerabilities.
pub fn sides() -> Vec<Pair> {
    let with = |dealer: usize, side: usize| LinData {
        dealer: SEATS[dealer],
        vulnerability: SIDES[side],
        ..built::fresh()
    };
    let mut pairs = Vec::new();
    for a in 0..4 {
        for b in a..4 {
            pairs.push((with(a, a), with(b, a)));
            pairs.push((with(a, a), with(a, b)));
            pairs.push((with(a, b), with(b, a)));
        }
    }
    pairs
}

/// Boards by chance with up to three changes.
pub fn several() -> Vec<Pair> {
    let rng = &mut Rng::new(33);
    let mut all = Vec::new();
    for _ in 0..120 {
        let base = built::board(rng);
        let mut other = base.clone();
        for _ in 0..rng.below(4) {
            rng.pick(CHANGES)(&mut other);
        }
        all.push((base, other));
    }
    all
}

/// Boards by chance, unlike each other.
pub fn random() -> Vec<Pair> {
    let rng = &mut Rng::new(34);
    (0..60)
        .map(|_| (built::board(rng), built::board(rng)))
        .collect()
}
