//! Equality cases: two boards, and whether `LinData` finds them equal, both ways
//! round.

pub mod hands;
pub mod pairs;

use crate::{boards, lin::LinData, steps::*, vectors::Vectors};
use std::collections::HashSet;

/// Two boards to be compared.
pub type Pair = (LinData, LinData);

/// A name, and the pairs that go by it.
type Group = (&'static str, fn() -> Vec<Pair>);

const GROUPS: &[Group] = &[
    ("same", pairs::same),
    ("changed", pairs::changed),
    ("texts", pairs::texts),
    ("seats", pairs::seats),
    ("auctions", pairs::auctions),
    ("plays", pairs::plays),
    ("claims", pairs::claims),
    ("sides", pairs::sides),
    ("hands", hands::small),
    ("repeated", hands::repeated),
    ("order", hands::order),
    ("several", pairs::several),
    ("random", pairs::random),
];

/// Every two of these, each also with itself, as the boards made of them.
fn every_two<T>(items: &[T], board: impl Fn(&T) -> LinData) -> Vec<Pair> {
    let mut all = Vec::new();
    for (n, a) in items.iter().enumerate() {
        all.extend(items[n..].iter().map(|b| (board(a), board(b))));
    }
    all
}

/// What a pair is stored as.
fn key((a, b): &Pair) -> Vec<u8> {
    let mut out = Vectors::new();
    boards::put(&mut out, a);
    boards::put(&mut out, b);
    out.bytes().to_vec()
}

fn all() -> Vec<Pair> {
    let mut seen = HashSet::new();
    let all = GROUPS.iter().flat_map(|(_, pairs)| pairs());
    all.filter(|p| seen.insert(key(p))).collect()
}

/// Whether the one equals the other, and the other the one.
fn answer((a, b): &Pair) -> [u8; 2] {
    [(a == b).into(), (b == a).into()]
}

/// The answer that is expected, the block that asks, and the one that takes each
/// board for the other.
const EQUAL: usize = OWN_NUMBER;
const ASKED: usize = OWN_BLOCK;
const SWAP: usize = OWN_BLOCK + 1;
/// Where one of them is kept meanwhile.
const ASIDE: usize = KEPT;

/// The groups: the one with the other, the other with the one, both in one text;
/// and the one with the other in texts of their own.
pub(crate) const LINES: [&str; 3] = ["left", "right", "apart"];

pub(crate) fn define(s: &mut Steps) {
    lent::define(s, lent::ONE_BOARD);
    lent::define(s, lent::OTHER_BOARD);
    s.block(ASKED, |b| {
        b.call(Call::SameBoard);
        b.is(ANSWER, &[0, 0]);
        b.same(ANSWER + 2, EQUAL);
        b.is(ANSWER + 3, &[0; 5]);
        b.is(HIGH, &[0; 8]);
    });
    s.block(SWAP, |b| {
        for (one, other, words) in [
            (LENT_BOARD, LENT_BOARD2, 229),
            (CARDS, CARDS2, 2),
            (ROWS, ROWS2, 2),
        ] {
            b.copy(ASIDE, one, words, 1);
            b.copy(one, other, words, 1);
            b.copy(other, ASIDE, words, 1);
        }
    });
}

/// The one equals the other so, and the other the one.
pub(crate) fn put(s: &mut Steps, pair: &Pair, [left, right]: [u8; 2]) {
    let mut texts = Vec::new();
    let mut own = Vec::new();
    lent::board(s, lent::ONE_BOARD, &pair.0, &mut texts);
    let begins = texts.len() as u32;
    lent::board(s, lent::OTHER_BOARD, &pair.1, &mut own);
    let both = [&texts[..], &own].concat();
    s.lend(TEXT, &both);
    s.set(TEXT2, &[begins, own.len() as u32]);
    s.set(EQUAL, &[left.into()]);
    s.go(ASKED);
    s.case(2);
    lent::board(s, lent::OTHER_BOARD, &pair.1, &mut texts);
    s.set(TEXT2, &[0, both.len() as u32]);
    s.go(ASKED);
    s.case(0);
    s.go(SWAP);
    s.set(EQUAL, &[right.into()]);
    s.go(ASKED);
    s.case(1);
    s.go(SWAP);
}

/// The file `equality.bin`: each pair compared both ways round in one text, and
/// once in two texts.
pub fn vectors() -> Vectors {
    let mut s = Steps::new();
    define(&mut s);
    for pair in all() {
        put(&mut s, &pair, answer(&pair));
    }
    s.say("equality", &LINES);
    s.done()
}

#[cfg(test)]
mod tests {
    use super::*;
    use crate::built;

    #[test]
    fn lopsided_hands() {
        let hand = |letters| built::dealt(hands::south(letters));
        let pair = (hand("SAA"), hand("SAK"));
        assert_eq!(answer(&pair), [1, 0]);
        let composed = |name: &str| {
            let mut board = built::fresh();
            built::put(&mut board, 0, name);
            board
        };
        assert_eq!(answer(&(composed("é"), composed("e\u{301}"))), [0, 0]);
    }

    /// Equal both ways, one way only, and neither.
    #[test]
    fn answers_of_every_kind() {
        let mut seen = [0; 4];
        for [a, b] in all().iter().map(answer) {
            seen[usize::from(2 * a + b)] += 1;
        }
        println!("different, right only, left only, equal: {seen:?}");
        assert!(seen[1] + seen[2] >= 30 && seen[0] >= 200 && seen[3] >= 100);
    }

    /// 32 rows for each board are enough for a replay.
    #[test]
    fn rows_are_enough() {
        for (a, b) in all() {
            assert!(a.auction.len() < 32 && b.auction.len() < 32);
        }
    }

    #[test]
    fn every_group_has_pairs_of_its_own() {
        let mut seen = HashSet::new();
        for (name, pairs) in GROUPS {
            let new = pairs().into_iter().filter(|p| seen.insert(key(p))).count();
            println!("{name}: {new}");
            assert!(new > 0, "{name}");
        }
        assert_eq!(seen.len(), all().len());
    }
}
