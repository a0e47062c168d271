//! Random boards as a program may build them: texts that must be cleaned, any
//! bids, hands with repeated cards, East implied or nearly; about one in three with
//! byte order marks.

use super::marks;
use crate::upstream;
use oracle::{
    bridge_types::{Card, Deal, Direction, Hand, Vulnerability},
    lin::{BidWithAnnotation, LinData},
    random::Rng,
    texts,
};

const TEXTS: &[&str] = &[
    "",
    "",
    " ",
    "Alice",
    "José",
    "Jose\u{301}",
    "李雷",
    "a,b",
    ",",
    ",,|,",
    "a|b",
    "|",
    "||\r\n",
    "two\nlines",
    "\r",
    "o1,BOARD 1",
    "Board 7",
    "md|1SA|",
    "qx|o2|",
    "\u{2028}",
    "!",
    "=1=",
];
const BIDS: &[&str] = &[
    "p", "d", "1C", "3N", "", "!", "!!", "1C!", "1C!!", "1!C", "1C! ", "|", "!|", "a\r\n!", "é!",
    "4S\n",
];
const SEATS: [Direction; 4] = [
    Direction::South,
    Direction::West,
    Direction::North,
    Direction::East,
];

fn text(rng: &mut Rng) -> String {
    match rng.below(10) {
        0 => texts::letters(rng, 8),
        1 => format!("{}{}", rng.pick(TEXTS), rng.pick(TEXTS)),
        _ => rng.pick(TEXTS).to_string(),
    }
}

fn some_text(rng: &mut Rng) -> Option<String> {
    (!rng.once_in(3)).then(|| text(rng))
}

/// A board of any fields, with at most so many calls and so many cards of
/// play.
pub fn board(rng: &mut Rng, calls: usize, cards: usize) -> LinData {
    let board = LinData {
        player_names: [(); 4].map(|()| text(rng)),
        dealer: *rng.pick(&Direction::ALL),
        deal: deal(rng),
        vulnerability: *rng.pick(&[
            Vulnerability::None,
            Vulnerability::NorthSouth,
            Vulnerability::EastWest,
            Vulnerability::Both,
        ]),
        title: some_text(rng),
        room_board: some_text(rng),
        board_header: some_text(rng),
        auction: (0..rng.below(calls + 1)).map(|_| call(rng)).collect(),
        play: (0..rng.below(cards + 1)).map(|_| card(rng)).collect(),
        claim: claim(rng),
    };
    marks::board(rng, board)
}

fn claim(rng: &mut Rng) -> Option<u8> {
    let any = rng.byte();
    *rng.pick(&[None, None, Some(0), Some(9), Some(13), Some(255), Some(any)])
}

fn call(rng: &mut Rng) -> BidWithAnnotation {
    BidWithAnnotation {
        bid: match rng.below(4) {
            0 => text(rng),
            _ => rng.pick(BIDS).to_string(),
        },
        alert: rng.once_in(3),
        annotation: rng.once_in(3).then(|| text(rng)),
    }
}

fn card(rng: &mut Rng) -> Card {
    upstream::card_of(rng.below(52) as u8)
}

fn hand(cards: &[Card]) -> Hand {
    let mut hand = Hand::new();
    cards.iter().for_each(|c| hand.add_card(*c));
    hand
}

/// Hands of any cards, or three of 13 with East implied or nearly.
fn deal(rng: &mut Rng) -> Deal {
    if rng.once_in(2) {
        return thirteens(rng);
    }
    let mut deal = Deal::new();
    for seat in SEATS {
        let most = *rng.pick(&[1, 3, 15]);
        let cards: Vec<Card> = (0..rng.below(most)).map(|_| card(rng)).collect();
        deal.set_hand(seat, hand(&cards));
    }
    deal
}

fn thirteens(rng: &mut Rng) -> Deal {
    let mut pack: Vec<Card> = (0..52).map(upstream::card_of).collect();
    rng.shuffle(&mut pack);
    match rng.below(10) {
        // a card that stands twice, in one hand or in two
        0..=2 => pack[rng.below(39)] = card(rng),
        // one card all over
        3 => pack[..39].fill(card(rng)),
        _ => {}
    }
    let mut deal = Deal::new();
    for (seat, cards) in SEATS.into_iter().zip(pack.chunks(13)) {
        deal.set_hand(seat, hand(cards));
    }
    if !rng.once_in(6) {
        deal.set_hand(Direction::East, hand(&east(rng, &pack[..39])));
    }
    if rng.once_in(8) {
        deal.set_hand(*rng.pick(&SEATS), hand(&pack[..12]));
    }
    deal
}

/// The cards that the others leave, none, or nearly these.
fn east(rng: &mut Rng, others: &[Card]) -> Vec<Card> {
    let all = (0..52).map(upstream::card_of);
    let rest: Vec<Card> = all.filter(|c| !others.contains(c)).collect();
    let mut east = rest.clone();
    let place = rng.below(rest.len());
    match rng.below(6) {
        0 => east.clear(),
        // as many, one of them twice
        1 => east[place] = *rng.pick(&rest),
        2 => east[place] = card(rng),
        3 => drop(east.pop()),
        _ => {}
    }
    east
}

/// Two boards that are the same, or differ in little, or in all.
pub fn pair(rng: &mut Rng) -> (LinData, LinData) {
    let one = board(rng, 4, 6);
    let two = match rng.below(4) {
        0 => one.clone(),
        1 => board(rng, 4, 6),
        _ => varied(rng, &one),
    };
    if rng.once_in(2) {
        return (two, one);
    }
    (one, two)
}

/// The same board but for one field, a card of a hand more and another less, or
/// byte order marks in one text.
fn varied(rng: &mut Rng, board: &LinData) -> LinData {
    let mut other = board.clone();
    match rng.below(15) {
        0 => other.player_names[rng.below(4)] = text(rng),
        1 => other.dealer = *rng.pick(&Direction::ALL),
        2..=4 => repeated(rng, &mut other),
        5 => other.deal = deal(rng),
        6 => other.vulnerability = Vulnerability::Both,
        7 => other.title = some_text(rng),
        8 => other.room_board = some_text(rng),
        9 => other.board_header = some_text(rng),
        10 => {
            let one = call(rng);
            match rng.below(3) {
                0 => other.auction.push(one),
                1 => drop(other.auction.pop()),
                _ => other
                    .auction
                    .last_mut()
                    .into_iter()
                    .for_each(|c| *c = one.clone()),
            }
        }
        11 => match rng.below(2) {
            0 => other.play.push(card(rng)),
            _ => other.play.reverse(),
        },
        12 => other.claim = claim(rng),
        _ => marks::one_text(rng, &mut other),
    }
    other
}

/// A card of a hand in place of another that it holds.
fn repeated(rng: &mut Rng, board: &mut LinData) {
    let seat = *rng.pick(&SEATS);
    let held = board.deal.hand(seat).cards().to_vec();
    if held.is_empty() {
        return;
    }
    let mut cards = held.clone();
    cards[rng.below(held.len())] = *rng.pick(&held);
    rng.shuffle(&mut cards);
    board.deal.set_hand(seat, hand(&cards));
}
