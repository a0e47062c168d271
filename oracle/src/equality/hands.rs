//! Pairs of boards for `same_cards`: hands with cards repeated, which it finds
//! equal one way round only, and hands held in another order.

use super::{every_two, Pair};
use crate::{
    built::{self, cards, dealt, pack},
    lin::LinData,
    random::Rng,
    texts,
};
use bridge_types::{Card, Deal, Hand};

/// South's hand alone.
pub fn south(letters: &str) -> Deal {
    built::deal([cards(letters), Vec::new(), Vec::new(), Vec::new()])
}

/// The deal with these cards at one seat, and one card at the others.
fn at(seat: usize, held: Vec<Card>) -> Deal {
    let mut hands = [1, 2, 3, 4].map(|c| vec![pack()[c]]);
    hands[seat] = held;
    built::deal(hands)
}

/// Every two hands of at most three of SA, SK and CA, at South.
pub fn small() -> Vec<Pair> {
    let words = texts::words(&["SA", "SK", "CA"], 3);
    let hands = words.iter().map(|word| dealt(south(word))).collect();
    every_two(&built::distinct(hands), LinData::clone)
}

/// Hands with a card repeated against hands without, at each seat, and several
/// seats lopsided in one sense and in both.
pub fn repeated() -> Vec<Pair> {
    const HANDS: [[&str; 2]; 10] = [
        ["SAA", "SAK"],
        ["SAAA", "SAK"],
        ["SAA", "SA"],
        ["SAAK", "SAKK"],
        ["SAAKK", "SAKQJ"],
        ["SAAHK", "SAHKQ"],
        ["C22", "C2S2"],
        ["SAKQJT98765432", "SAAKQJT9876543"],
        ["SAAAAAAAAAAAAA", "SAKQJT98765432"],
        ["HAAKK", "HAAAK"],
    ];
    let mut all = Vec::new();
    for [a, b] in HANDS {
        for seat in 0..4 {
            all.push((dealt(at(seat, cards(a))), dealt(at(seat, cards(b)))));
        }
    }
    let four = |n: usize| [0, 1, 2, 3].map(|seat| cards(HANDS[0][n >> seat & 1]));
    let deals = |n| dealt(built::deal(four(n)));
    all.extend((0..16).map(|n| (deals(n), deals(0))));
    all.extend((0..16).map(|n| (deals(n), deals(15))));
    all.extend((0..16).map(|n| (deals(n), deals(15 - n))));
    for n in [255, 256, 257] {
        let one = vec![pack()[0]; n];
        let two = [vec![pack()[0]; n - 1], vec![pack()[1]]].concat();
        all.push((dealt(at(3, one.clone())), dealt(at(3, two))));
        all.push((dealt(at(3, one)), dealt(at(3, vec![pack()[0]; 1]))));
    }
    all
}

/// The same cards held in another order, and the hands at other seats.
pub fn order() -> Vec<Pair> {
    let rng = &mut Rng::new(30);
    let mut all = Vec::new();
    for n in 0..30 {
        let one = built::some_deal(rng);
        let mut hands = built::hands(&one);
        if n % 3 == 0 {
            hands.swap(rng.below(4), rng.below(4));
        }
        let mut other = Deal::new();
        for (seat, cards) in built::SEATS.into_iter().zip(&mut hands) {
            rng.shuffle(cards);
            let mut hand = Hand::new();
            cards.iter().for_each(|c| hand.add_card(*c));
            other.set_hand(seat, hand);
        }
        all.push((dealt(one), dealt(other)));
    }
    all
}
