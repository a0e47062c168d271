//! Boards for the calls, the play and the claim.

use crate::{
    built::{self, call},
    lin::LinData,
    random::Rng,
};
use bridge_types::Card;

const BIDS: &[&str] = &[
    "",
    "p",
    "1C",
    "1C!",
    "1C!!",
    "1C!!!",
    "!",
    "!!",
    "1C! ",
    "1C !",
    "1C!|",
    "|!",
    "1C!\n",
    "\r!",
    "!p",
    "d!d",
    "7N,!",
    "1N\u{301}!",
    "é!",
    "mb|p|",
];

/// Each bid, alerted and not, with an annotation, an empty one and none.
pub fn single() -> Vec<LinData> {
    let mut all = Vec::new();
    for bid in BIDS {
        for alert in [false, true] {
            for note in [None, Some(""), Some("x"), Some("!"), Some("a|b\r\nc,d")] {
                let auction = vec![call(bid, alert, note)];
                all.push(LinData {
                    auction,
                    ..built::fresh()
                });
            }
        }
    }
    all
}

/// Auctions of 0 to 40 calls and a long one, and pairs of bids.
pub fn auctions() -> Vec<LinData> {
    let with = |auction| LinData {
        auction,
        ..built::fresh()
    };
    let turn = |n: usize| match n % 5 {
        0 => call("1C", false, None),
        1 => call("p", true, Some("weak")),
        2 => call("d!", false, None),
        3 => call("", false, Some("")),
        _ => call("7N", true, None),
    };
    let mut all: Vec<LinData> = (0..=40).map(|n| with((0..n).map(turn).collect())).collect();
    all.push(with((0..100).map(turn).collect()));
    for first in BIDS {
        let second = call(first, false, None);
        all.push(with(vec![call("p", true, Some(first)), second]));
    }
    all
}

/// No claim, and every one.
pub fn claims() -> Vec<LinData> {
    let with = |claim| LinData {
        claim,
        ..built::fresh()
    };
    let all = (0..=255).map(Some);
    [None].into_iter().chain(all).map(with).collect()
}

fn played(play: Vec<Card>) -> LinData {
    LinData {
        play,
        ..built::fresh()
    }
}

/// Plays of 0 to 60 cards, each card alone, one card again and again, and plays
/// by chance.
pub fn plays() -> Vec<LinData> {
    let rng = &mut Rng::new(20);
    let mut pack = built::pack();
    let alone: Vec<LinData> = pack.iter().map(|c| played(vec![*c])).collect();
    rng.shuffle(&mut pack);
    let turn = |n: usize| pack.iter().cycle().take(n).copied().collect();
    let mut all: Vec<LinData> = (0..=60).map(|n| played(turn(n))).collect();
    all.extend(alone);
    all.extend((2..=9).map(|n| played(vec![pack[n]; n])));
    all.extend((0..40).map(|_| played(built::some_cards(rng, 24))));
    all
}
