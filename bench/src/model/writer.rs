//! The written form of a board in plain Rust. (Document 01, Writer and settled form)

use super::boards::{RANKS, SUITS};
use crate::upstream;
use lin_host_rust::boards::{Board, Card, Seat};
use oracle::{
    bridge_types::{Direction, Hand},
    lin::LinData,
};

/// A text as it is written: a pipe as `/`, CR and LF as a space each.
pub fn clean(text: &str) -> String {
    let character = |c| match c {
        '|' => '/',
        '\r' | '\n' => ' ',
        c => c,
    };
    text.chars().map(character).collect()
}

/// A name as it is written: cleaned, then without commas.
pub fn clean_name(name: &str) -> String {
    clean(name).split(',').collect()
}

/// East's remainder, the cards that none of the others holds, if these hold 13 each
/// and East is implied: it is empty, or as long as the remainder and each card of it
/// is there.
pub fn implied_east(board: &LinData) -> Option<Hand> {
    let others = [Direction::South, Direction::West, Direction::North].map(|d| board.deal.hand(d));
    if others.iter().any(|hand| hand.len() != 13) {
        return None;
    }
    let mut rest = Hand::new();
    for card in (0..52).map(upstream::card_of) {
        if !others.iter().any(|hand| hand.has_card(card)) {
            rest.add_card(card);
        }
    }
    let east = board.deal.hand(Direction::East);
    let as_many = east.len() == rest.len() && east.cards().iter().all(|c| rest.has_card(*c));
    (east.is_empty() || as_many).then_some(rest)
}

fn letter(letters: &[u8], number: usize) -> String {
    char::from(letters[number]).to_string()
}

fn card(card: &Card) -> String {
    let number = usize::from(card.number());
    letter(SUITS, number / 13) + &letter(RANKS, number % 13)
}

/// A hand of these counts: nothing if it is empty, otherwise the suits, each with its
/// ranks from A down, a card as often as it is counted.
fn hand(counts: &[u32]) -> String {
    if counts.iter().all(|count| *count == 0) {
        return String::new();
    }
    let suit = |number: usize| {
        let ranks = (0..13).rev();
        let times = |rank| counts[13 * number + rank] as usize;
        let held = ranks.map(|rank| letter(RANKS, rank).repeat(times(rank)));
        letter(SUITS, number) + &held.collect::<String>()
    };
    (0..4).map(suit).collect()
}

/// The dealer's digit and the hands; an implied East beside three of 13 is left out.
fn md(data: &LinData, board: &Board) -> String {
    let heading = &board.heading;
    let seats = if implied_east(data).is_some() {
        &Seat::ALL[..3]
    } else {
        &Seat::ALL[..]
    };
    let hands = seats.iter().map(|seat| hand(heading.deal.hand(*seat)));
    let hands: Vec<String> = hands.collect();
    format!("{}{}", heading.dealer as usize + 1, hands.join(","))
}

/// The names, the texts, the deal and the vulnerability, on a line.
fn heading(data: &LinData, board: &Board) -> String {
    let heading = &board.heading;
    let text = |text: Option<&str>| clean(text.unwrap_or_default());
    let header = heading.board_header.map(|t| format!("ah|{}|", clean(t)));
    format!(
        "mn|{}|pn|{}|qx|{}|rh||{}md|{}|sv|{}|\n",
        text(heading.title),
        heading.names.map(clean_name).join(","),
        text(heading.room_board),
        header.unwrap_or_default(),
        md(data, board),
        ["0", "n", "e", "b"][heading.vulnerability as usize],
    )
}

/// The calls, on a line.
fn calls(board: &Board) -> String {
    let mut out = String::from("sa|0|");
    for call in &board.calls {
        let alert = if call.alerted { "!" } else { "" };
        let annotation = call.annotation.map(|t| format!("an|{}|", clean(t)));
        out += &format!("mb|{}{alert}|", clean(call.bid));
        out += &annotation.unwrap_or_default();
    }
    out + "pg||\n"
}

/// The written form: the heading, the calls, a line for each trick, and the claim.
pub fn written(data: &LinData) -> String {
    let board = upstream::board(data);
    let trick = |cards: &[Card]| {
        let played = cards.iter().map(|one| format!("pc|{}|", card(one)));
        played.collect::<String>() + "pg||\n"
    };
    let tricks: String = board.play.chunks(4).map(trick).collect();
    let claim = data.claim.map(|n| format!("mc|{n}|pg||\n"));
    heading(data, &board) + &calls(&board) + &tricks + &claim.unwrap_or_default()
}
