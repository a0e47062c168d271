//! Boards built by hand, for the subjects that write and compare them: cards by
//! their letters, hands held by suit, ranks from A down, and texts by place.

use crate::{
    boards,
    lin::{parse_lin, BidWithAnnotation, LinData},
    random::Rng,
    texts::{self, SAMPLES},
};
use bridge_types::{Card, Deal, Hand, Rank, Suit, Vulnerability};
use std::collections::HashSet;

pub(crate) use crate::boards::SEATS;

/// The vulnerabilities by their numbers, 0 to 3.
pub const SIDES: [Vulnerability; 4] = [
    Vulnerability::None,
    Vulnerability::NorthSouth,
    Vulnerability::EastWest,
    Vulnerability::Both,
];

/// The board before its first token.
pub fn fresh() -> LinData {
    let Ok(board) = parse_lin("");
    board
}

/// The 52 cards, suit by suit, ranks from A down.
pub fn pack() -> Vec<Card> {
    let suit = |s| Rank::ALL.into_iter().rev().map(move |r| Card::new(s, r));
    Suit::ALL.into_iter().flat_map(suit).collect()
}

/// The cards of a hand's letters, as `SAKHQ`, in the order in which they stand.
pub fn cards(letters: &str) -> Vec<Card> {
    let mut suit = None;
    let mut all = Vec::new();
    for c in letters.chars() {
        match Suit::from_char(c) {
            Some(s) => suit = Some(s),
            None => all.push(Card::new(
                suit.expect("a suit"),
                Rank::from_char(c).expect("a rank"),
            )),
        }
    }
    all
}

/// A hand of these cards, held by suit, ranks from A down.
pub fn hand(mut cards: Vec<Card>) -> Hand {
    cards.sort_by_key(|c| (c.suit, std::cmp::Reverse(c.rank)));
    let mut hand = Hand::new();
    cards.iter().for_each(|c| hand.add_card(*c));
    hand
}

/// A deal of these hands, in the order S, W, N, E.
pub fn deal(hands: [Vec<Card>; 4]) -> Deal {
    let mut deal = Deal::new();
    for (seat, cards) in SEATS.into_iter().zip(hands) {
        deal.set_hand(seat, hand(cards));
    }
    deal
}

/// A fresh board with this deal.
pub fn dealt(deal: Deal) -> LinData {
    LinData { deal, ..fresh() }
}

/// The cards of each seat, in the order S, W, N, E.
pub fn hands(deal: &Deal) -> [Vec<Card>; 4] {
    SEATS.map(|d| deal.hand(d).cards().to_vec())
}

/// Every card that none of the hands holds.
pub fn remainder(hands: &[Vec<Card>]) -> Vec<Card> {
    let held = |c: &Card| hands.iter().any(|hand| hand.contains(c));
    pack().into_iter().filter(|c| !held(c)).collect()
}

/// The board with every hand held by suit, ranks from A down.
pub fn sorted(board: &LinData) -> LinData {
    LinData {
        deal: deal(hands(&board.deal)),
        ..board.clone()
    }
}

/// A board's fields as bytes, its hands by counts.
pub fn bytes(board: &LinData) -> Vec<u8> {
    let mut out = crate::vectors::Vectors::new();
    boards::put(&mut out, &sorted(board));
    out.bytes().to_vec()
}

/// Keeps the first of boards with the same fields, in order.
pub fn distinct(all: Vec<LinData>) -> Vec<LinData> {
    let mut seen = HashSet::new();
    all.into_iter().filter(|b| seen.insert(bytes(b))).collect()
}

/// A call whose bid is kept as it is: a `!` at its end makes no alert.
pub fn call(bid: &str, alert: bool, annotation: Option<&str>) -> BidWithAnnotation {
    BidWithAnnotation {
        bid: bid.to_string(),
        alert,
        annotation: annotation.map(str::to_string),
    }
}

/// The places of a board's texts: the names, the title, the room and board, the
/// header, and a call's bid and annotation.
pub const PLACES: usize = 9;

/// The board with a text at a place; without a call it gets one.
pub fn put(board: &mut LinData, place: usize, text: &str) {
    if place >= 7 && board.auction.is_empty() {
        board.auction.push(call("1C", false, None));
    }
    match place {
        4 => board.title = Some(text.to_string()),
        5 => board.room_board = Some(text.to_string()),
        6 => board.board_header = Some(text.to_string()),
        7 => board.auction[0].bid = text.to_string(),
        8 => board.auction[0].annotation = Some(text.to_string()),
        seat => board.player_names[seat] = text.to_string(),
    }
}

/// Texts that the writer changes, or might: pipes, ends of lines, commas and
/// `!`, and characters with the bits of these in their code points.
pub const TRAPS: &[&str] = &[
    "",
    " ",
    "a",
    "|",
    "||",
    "a|b",
    "|a",
    "a|",
    "\r",
    "\n",
    "\n\r",
    "a\rb",
    "a\nb",
    "a\r\nb",
    "\n\n",
    "\n|\r|",
    ",",
    ",,",
    "a,b",
    ",a",
    "a,",
    ",a,,b,",
    ",|\n,",
    "!",
    "!!",
    "a!",
    "!a",
    "a!!",
    "a!!!!",
    "a! ",
    "a! !",
    "a!|",
    "|!",
    "!|!",
    "a!\n",
    "a!\r\n!",
    "a!,",
    "!,",
    ",!",
    "/",
    "//",
    "a/b",
    "\\",
    "?",
    "0",
    " a ",
    "Ċ",
    "č",
    "ℬ",
    "，",
    "！",
    "ġ",
    "e\u{301}!",
    "!\u{301}",
    "|\u{301}",
    ",\u{301}",
    "md|1SA|",
    "qx|r|md|1|",
    "pg||\nmn||pn|,,,|qx||rh||",
    "5+ hearts",
    "weak, 6 cards",
];

/// A text by chance: a trap, a sample or letters.
pub fn text(rng: &mut Rng) -> String {
    match rng.below(4) {
        0 => rng.pick(TRAPS).to_string(),
        1 => rng.pick(SAMPLES).to_string(),
        2 => texts::letters(rng, 6),
        _ => format!("{}{}", rng.pick(TRAPS), texts::letters(rng, 3)),
    }
}

/// Cards by chance, repeated ones among them.
pub fn some_cards(rng: &mut Rng, most: usize) -> Vec<Card> {
    let pack = pack();
    let few = 1 + rng.below(52);
    (0..rng.below(most + 1))
        .map(|_| *rng.pick(&pack[..few]))
        .collect()
}

/// A deal by chance: a whole one with or without East, hands of any lengths, or
/// hands of 13 cards with cards repeated.
pub fn some_deal(rng: &mut Rng) -> Deal {
    let mut pack = pack();
    rng.shuffle(&mut pack);
    let whole = |seat: usize| pack[13 * seat..13 * seat + 13].to_vec();
    match rng.below(5) {
        0 => deal([0, 1, 2, 3].map(whole)),
        1 => deal([whole(0), whole(1), whole(2), Vec::new()]),
        2 => {
            let mut east = whole(3);
            east[rng.below(13)] = east[rng.below(13)];
            deal([whole(0), whole(1), whole(2), east])
        }
        3 => {
            let of = |rng: &mut Rng| (0..13).map(|_| *rng.pick(&pack)).collect::<Vec<_>>();
            let three = [of(rng), of(rng), of(rng)];
            let mut east = remainder(&three);
            if rng.once_in(2) {
                east.truncate(rng.below(30));
            }
            let [s, w, n] = three;
            deal([s, w, n, east])
        }
        _ => deal([(); 4].map(|_| some_cards(rng, 6))),
    }
}

fn some_call(rng: &mut Rng) -> BidWithAnnotation {
    const BIDS: &[&str] = &["p", "d", "1C", "2N", "1C!", "p!!", "!", ""];
    BidWithAnnotation {
        bid: if rng.once_in(3) {
            text(rng)
        } else {
            rng.pick(BIDS).to_string()
        },
        alert: rng.once_in(3),
        annotation: rng.once_in(3).then(|| text(rng)),
    }
}

/// A board with texts, hands, calls and play by chance.
pub fn board(rng: &mut Rng) -> LinData {
    let maybe = |rng: &mut Rng| (!rng.once_in(3)).then(|| text(rng));
    LinData {
        player_names: [(); 4].map(|_| text(rng)),
        dealer: *rng.pick(&SEATS),
        deal: some_deal(rng),
        vulnerability: *rng.pick(&SIDES),
        title: maybe(rng),
        room_board: maybe(rng),
        board_header: maybe(rng),
        auction: (0..rng.below(5)).map(|_| some_call(rng)).collect(),
        play: some_cards(rng, 9),
        claim: rng.once_in(2).then(|| rng.byte()),
    }
}
