//! The board of a text in plain Rust, token by token, and the equality of boards.
//! (Document 01, Board; equality)

use super::{number, tokens, trim, Token};
use crate::upstream;
use lin_host_rust::boards::Seat;
use oracle::{
    bridge_types::{Card, Deal, Direction, Hand, Vulnerability},
    lin::{BidWithAnnotation, LinData},
};

/// The letters of the suits, by number.
pub(super) const SUITS: &[u8; 4] = b"SHDC";
/// The letters of the ranks, by number.
pub(super) const RANKS: &[u8; 13] = b"23456789TJQKA";

/// The board that a whole text describes.
pub fn parse_lin(text: &str) -> LinData {
    from_tokens(&tokens(text.as_bytes(), 0))
}

/// The board that tokens describe, one after another.
pub(super) fn from_tokens(tokens: &[Token]) -> LinData {
    let mut board = fresh();
    tokens.iter().for_each(|token| take(&mut board, token));
    board
}

/// A board before its first token.
fn fresh() -> LinData {
    LinData {
        player_names: Default::default(),
        dealer: Direction::North,
        deal: Deal::new(),
        vulnerability: Vulnerability::None,
        title: None,
        room_board: None,
        board_header: None,
        auction: Vec::new(),
        play: Vec::new(),
        claim: None,
    }
}

fn string(bytes: &[u8]) -> String {
    String::from_utf8(bytes.to_vec()).expect("UTF-8 between two pipes or commas")
}

/// What a token changes in a board.
fn take(board: &mut LinData, token: &Token) {
    let value = token.value;
    let filled = || Some(string(value)).filter(|text| !text.is_empty());
    match token.name.as_slice() {
        b"pn" => names(board, value),
        b"md" => deal(board, trim(value)),
        b"sv" => board.vulnerability = vulnerability(trim(value)),
        b"mn" => board.title = filled(),
        b"qx" => board.room_board = filled(),
        b"ah" => board.board_header = Some(string(value)),
        b"mb" => board.auction.push(call(value)),
        b"an" => {
            let last = board.auction.last_mut().into_iter();
            last.for_each(|call| call.annotation = Some(string(value)));
        }
        b"pc" => board.play.extend(card(trim(value))),
        b"mc" => board.claim = number(trim(value)),
        _ => {}
    }
}

/// The first four pieces between commas, from South on.
fn names(board: &mut LinData, value: &[u8]) {
    let pieces = value.split(|b| *b == b',');
    for (name, piece) in board.player_names.iter_mut().zip(pieces) {
        *name = string(piece);
    }
}

/// The dealer's digit, and the fields of S, W, N, E; with another first character
/// nothing.
fn deal(board: &mut LinData, value: &[u8]) {
    let [digit @ b'1'..=b'4', rest @ ..] = value else {
        return;
    };
    let fields: Vec<&[u8]> = rest.split(|b| *b == b',').collect();
    let field = |seat: usize| fields.get(seat).copied().unwrap_or_default();
    let mut hands = [0, 1, 2, 3].map(|seat| cards(field(seat)));
    let others = hands[..3].concat();
    if hands[..3].iter().all(|hand| hand.len() == 13) && trim(field(3)).is_empty() {
        hands[3] = (0..52).filter(|card| !others.contains(card)).collect();
    }
    board.dealer = upstream::direction(Seat::ALL[usize::from(digit - b'1')]);
    board.deal = Deal::new();
    for (seat, cards) in Seat::ALL.into_iter().zip(hands) {
        let mut hand = Hand::new();
        let held = cards.into_iter().map(upstream::card_of);
        held.for_each(|card| hand.add_card(card));
        board.deal.set_hand(upstream::direction(seat), hand);
    }
}

/// The number of a letter, in either case.
fn place(letters: &[u8], letter: u8) -> Option<u8> {
    let letter = letter.to_ascii_uppercase();
    let found = letters.iter().position(|one| *one == letter);
    found.map(|at| at as u8)
}

/// The numbers of the cards of a field: a suit letter sets the suit, a rank after
/// one adds a card, and all else is skipped.
fn cards(field: &[u8]) -> Vec<u8> {
    let mut suit = None;
    let mut all = Vec::new();
    for letter in field {
        match (place(SUITS, *letter), suit, place(RANKS, *letter)) {
            (Some(next), _, _) => suit = Some(next),
            (None, Some(suit), Some(rank)) => all.push(13 * suit + rank),
            _ => {}
        }
    }
    all
}

/// Exactly a suit and a rank, or none.
fn card(value: &[u8]) -> Option<Card> {
    let [suit, rank] = value else {
        return None;
    };
    let number = 13 * place(SUITS, *suit)? + place(RANKS, *rank)?;
    Some(upstream::card_of(number))
}

fn vulnerability(value: &[u8]) -> Vulnerability {
    match value.to_ascii_lowercase().as_slice() {
        b"n" | b"ns" => Vulnerability::NorthSouth,
        b"e" | b"ew" => Vulnerability::EastWest,
        b"b" | b"both" | b"all" => Vulnerability::Both,
        _ => Vulnerability::None,
    }
}

/// How many `!` stand at the end of a bid.
pub(super) fn alerts(bid: &[u8]) -> usize {
    bid.iter().rev().take_while(|b| **b == b'!').count()
}

fn call(value: &[u8]) -> BidWithAnnotation {
    let alerts = alerts(value);
    BidWithAnnotation {
        bid: string(&value[..value.len() - alerts]),
        alert: alerts > 0,
        annotation: None,
    }
}

/// Whether one board equals another: texts by bytes, each hand as long as the other
/// and each card that the first holds held by the second, all else as it is. It is
/// lopsided where cards are repeated.
pub fn equal(one: &LinData, other: &LinData) -> bool {
    let mut boards = [one, other].map(upstream::board);
    let deals = [0, 1].map(|n| std::mem::take(&mut boards[n].heading.deal));
    let same = |seat: Seat| {
        let hands = deals[0].hand(seat).iter().zip(deals[1].hand(seat));
        let held = |(one, other): (&u32, &u32)| *one == 0 || *other > 0;
        deals[0].len(seat) == deals[1].len(seat) && hands.into_iter().all(held)
    };
    boards[0] == boards[1] && Seat::ALL.into_iter().all(same)
}
