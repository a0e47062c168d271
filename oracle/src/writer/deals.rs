//! Boards for the hands, and for East beside three hands of 13 cards.

use crate::{
    boards::deals::THREE,
    built::{self, cards, deal, dealt, pack, remainder, SEATS, SIDES},
    lin::LinData,
    random::Rng,
    texts,
};
use bridge_types::Card;

/// The cards at one seat, and nothing at the others.
fn alone(seat: usize, held: Vec<Card>) -> LinData {
    let mut hands = [const { Vec::new() }; 4];
    hands[seat] = held;
    dealt(deal(hands))
}

/// Each card at each seat.
pub fn single() -> Vec<LinData> {
    let at = |seat| pack().into_iter().map(move |c| alone(seat, vec![c]));
    (0..4).flat_map(at).collect()
}

/// A card several times in a hand, beside other cards, and in several hands.
pub fn repeated() -> Vec<LinData> {
    let mut all = Vec::new();
    for seat in 0..4 {
        for n in [2, 3, 12, 13, 14, 26, 51, 52, 53, 255, 256, 257, 269] {
            all.push(alone(seat, vec![pack()[13 * seat + n % 13]; n]));
        }
        for letters in ["SAAK", "SAKK", "SAHAA", "SAADAACAA", "C22S22", "HTT99DTT99"] {
            all.push(alone(seat, cards(letters)));
        }
    }
    for seats in 1..16 {
        for letters in ["SA", "C2", "HAADK"] {
            let has = |seat: usize| seats >> seat & 1 == 1;
            let hand = |seat| {
                if has(seat) {
                    cards(letters)
                } else {
                    Vec::new()
                }
            };
            all.push(dealt(deal([0, 1, 2, 3].map(hand))));
        }
    }
    all
}

/// Every choice of suits at each seat: one card of each, and all of each.
pub fn suits() -> Vec<LinData> {
    let mut all = Vec::new();
    for seat in 0..4 {
        for chosen in 1..16 {
            for each in [1, 13] {
                let suits = (0..4).filter(|s| chosen >> s & 1 == 1);
                let of = |s: usize| pack()[13 * s..13 * s + each].to_vec();
                all.push(alone(seat, suits.flat_map(of).collect()));
            }
        }
    }
    all
}

/// Hands by chance, with cards repeated in them and among them.
pub fn hands() -> Vec<LinData> {
    let rng = &mut Rng::new(21);
    let mut all = Vec::new();
    for most in [1, 2, 3, 5, 13, 20] {
        for _ in 0..30 {
            all.push(dealt(deal([(); 4].map(|_| built::some_cards(rng, most)))));
        }
    }
    all
}

/// Three hands of 13 cards: dealt ones, whole suits, one card alone, cards
/// repeated in a hand and in two.
fn threes() -> Vec<[Vec<Card>; 3]> {
    let suits: Vec<Vec<Card>> = pack().chunks(13).map(<[Card]>::to_vec).collect();
    let suit = |n: usize| suits[n % 4].clone();
    let mut of = THREE.split(',').map(cards);
    let [s, w, n] = [(); 3].map(|_| of.next().expect("a hand"));
    let mut all = vec![[s.clone(), w.clone(), n]];
    all.extend((0..4).map(|u| [suit(u), suit(u + 1), suit(u + 2)]));
    all.push([suit(0), suit(0), suit(0)]);
    all.push([s, w.clone(), w]);
    all.push([0, 0, 0].map(|c| vec![pack()[c]; 13]));
    all.push([0, 13, 26].map(|c| vec![pack()[c]; 13]));
    all.push([vec![pack()[0]; 13], suit(1), suit(2)]);
    all.push([cards("SAAKQJT9876543"), suit(1), suit(2)]);
    all
}

/// What East may hold beside three hands: nothing, the remainder, the remainder
/// with a card fewer, a card more or another card, with one card twice or alone,
/// and cards that another seat holds.
fn easts(three: &[Vec<Card>; 3]) -> Vec<Vec<Card>> {
    let rest = remainder(three);
    let last = rest.len() - 1;
    let other = three[0][0];
    let with = |at: usize, card| {
        let mut east = rest.clone();
        east[at] = card;
        east
    };
    let more = |card| [rest.clone(), vec![card]].concat();
    vec![
        Vec::new(),
        rest.clone(),
        rest[1..].to_vec(),
        rest[..last].to_vec(),
        more(rest[0]),
        more(other),
        with(0, rest[1]),
        with(last, rest[0]),
        with(last / 2, rest[last]),
        vec![rest[0]; rest.len()],
        vec![rest[last]; rest.len()],
        vec![rest[last / 2]; 13],
        with(0, other),
        with(last, three[2][12]),
        vec![other; rest.len()],
        vec![rest[0]],
        vec![rest[last]],
        vec![other],
        three[1].clone(),
        pack(),
    ]
}

/// Every East beside every three hands.
pub fn east() -> Vec<LinData> {
    let mut all = Vec::new();
    for three in threes() {
        for east in easts(&three) {
            let [s, w, n] = three.clone();
            all.push(dealt(deal([s, w, n, east])));
        }
    }
    all
}

/// One of three hands longer or shorter than 13 cards, beside East empty, the
/// remainder and one card. 269 is 13 and 256.
pub fn lengths() -> Vec<LinData> {
    let whole: Vec<Vec<Card>> = pack().chunks(13).map(<[Card]>::to_vec).collect();
    let mut all = Vec::new();
    for seat in 0..3 {
        for n in [0, 1, 12, 14, 26, 269] {
            let mut three = [0, 1, 2].map(|s| whole[s].clone());
            three[seat] = three[seat].iter().cycle().take(n).copied().collect();
            let one = vec![whole[3][0]];
            for east in [Vec::new(), whole[3].clone(), remainder(&three), one] {
                let [s, w, n] = three.clone();
                all.push(dealt(deal([s, w, n, east])));
            }
        }
    }
    let lengths = texts::words(&["b", "c", "d"], 3);
    for word in lengths.iter().filter(|w| w.len() == 3) {
        let hand = |(seat, b): (usize, u8)| vec![pack()[13 * seat]; usize::from(b - b'b') + 12];
        let mut three = word.bytes().enumerate().map(hand);
        let [s, w, n] = [(); 3].map(|_| three.next().expect("a hand"));
        all.push(dealt(deal([s, w, n, Vec::new()])));
    }
    all
}

/// Every dealer and side, with no cards, one hand and four.
pub fn dealers() -> Vec<LinData> {
    let mut all = Vec::new();
    for board in [
        alone(0, Vec::new()),
        alone(0, cards("SA")),
        east().remove(1),
    ] {
        for dealer in SEATS {
            for vulnerability in SIDES {
                let deal = board.deal.clone();
                all.push(LinData {
                    dealer,
                    vulnerability,
                    ..dealt(deal)
                });
            }
        }
    }
    all
}
