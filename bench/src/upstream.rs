//! Boards between upstream's form, `LinData`, and the host's, and PBN records as
//! upstream has them.

use crate::model;
use lin_host_rust::{
    boards::{calls, Board, Call, Card, Deal, Heading, LinText, Rank, Seat, Suit, Vulnerability},
    pbn,
    tokens::Span,
    writer::Lent,
};
use oracle::{
    bridge_types::{self, AnnotatedCall, Direction, Hand},
    lin::{BidWithAnnotation, LinData},
    pbn::{Record, STRAINS},
};

/// A seat as upstream has it.
pub fn direction(seat: Seat) -> Direction {
    match seat {
        Seat::South => Direction::South,
        Seat::West => Direction::West,
        Seat::North => Direction::North,
        Seat::East => Direction::East,
    }
}

fn seat(from: Direction) -> Seat {
    match from {
        Direction::South => Seat::South,
        Direction::West => Seat::West,
        Direction::North => Seat::North,
        Direction::East => Seat::East,
    }
}

fn vulnerability(from: bridge_types::Vulnerability) -> Vulnerability {
    match from {
        bridge_types::Vulnerability::None => Vulnerability::None,
        bridge_types::Vulnerability::NorthSouth => Vulnerability::NorthSouth,
        bridge_types::Vulnerability::EastWest => Vulnerability::EastWest,
        bridge_types::Vulnerability::Both => Vulnerability::Both,
    }
}

/// Upstream's suits and ranks stand in the order of document 01's numbers.
pub fn card(from: &bridge_types::Card) -> Card {
    Card::of(Suit::ALL[from.suit as usize], Rank::ALL[from.rank as usize])
}

/// The card of a number below 52.
pub fn card_of(number: u8) -> bridge_types::Card {
    let [suit, rank] = [number / 13, number % 13].map(usize::from);
    bridge_types::Card::new(bridge_types::Suit::ALL[suit], bridge_types::Rank::ALL[rank])
}

fn call(from: &BidWithAnnotation) -> Call<'_> {
    Call {
        bid: &from.bid,
        alerted: from.alert,
        annotation: from.annotation.as_deref(),
    }
}

/// An upstream board as the host has it, its hands by counts.
pub fn board(from: &LinData) -> Board<'_> {
    let mut deal = Deal::new();
    for seat in Seat::ALL {
        let hand = from.deal.hand(direction(seat));
        hand.cards().iter().for_each(|c| deal.add(seat, card(c)));
    }
    let heading = Heading {
        names: [0, 1, 2, 3].map(|n| from.player_names[n].as_str()),
        dealer: seat(from.dealer),
        deal,
        vulnerability: vulnerability(from.vulnerability),
        title: from.title.as_deref(),
        room_board: from.room_board.as_deref(),
        board_header: from.board_header.as_deref(),
        claim: from.claim,
        ..Heading::default()
    };
    let calls = from.auction.iter().map(call).collect();
    Board::new(heading, calls, from.play.iter().map(card).collect())
}

/// A hand of these counts: by suit, ranks from A down.
pub fn hand(counts: &[u32]) -> Hand {
    let mut hand = Hand::new();
    for suit in counts.chunks(13).zip(0..) {
        for (rank, count) in suit.0.iter().enumerate().rev() {
            let number = 13 * suit.1 + rank as u8;
            (0..*count).for_each(|_| hand.add_card(card_of(number)));
        }
    }
    hand
}

/// The upstream board of what is lent.
///
/// # Panics
///
/// If a refusal meets it.
pub fn data(lent: Lent) -> LinData {
    let text = |t: LinText| some_string(t, lent.text);
    let board = lent.board;
    let mut deal = bridge_types::Deal::new();
    for seat in Seat::ALL {
        let from = 52 * seat as usize;
        deal.set_hand(direction(seat), hand(&board.counts[from..from + 52]));
    }
    let bid = |call: Call| BidWithAnnotation {
        bid: call.bid.to_string(),
        alert: call.alerted,
        annotation: call.annotation.map(str::to_string),
    };
    LinData {
        player_names: [0, 2, 4, 6].map(|n| {
            let name = Span::new(board.names[n], board.names[n + 1]);
            string(name.of(lent.text))
        }),
        dealer: direction(Seat::ALL[board.dealer as usize]),
        deal,
        vulnerability: VULNERABILITY[board.vulnerability as usize],
        title: text(board.title),
        room_board: text(board.room_board),
        board_header: text(board.board_header),
        auction: calls(lent.text, &named(lent.rows))
            .into_iter()
            .map(bid)
            .collect(),
        play: lent.cards.iter().map(|c| card_of(*c)).collect(),
        claim: (board.claimed != 0).then(|| u8::try_from(board.claim).expect("a claim")),
    }
}

const VULNERABILITY: [bridge_types::Vulnerability; 4] = [
    bridge_types::Vulnerability::None,
    bridge_types::Vulnerability::NorthSouth,
    bridge_types::Vulnerability::EastWest,
    bridge_types::Vulnerability::Both,
];

/// Rows with 0, 0 for the place of an absent annotation, as a reader fills
/// them.
fn named(rows: &[u32]) -> Vec<u32> {
    let mut rows = rows.to_vec();
    for row in rows.chunks_exact_mut(6) {
        if row[3] == 0 {
            row[4..].fill(0);
        }
    }
    rows
}

/// The deal of these counts.
fn deal(counts: &[u32; 208]) -> bridge_types::Deal {
    let mut deal = bridge_types::Deal::new();
    for (seat, hand_counts) in Seat::ALL.into_iter().zip(counts.chunks(52)) {
        deal.set_hand(direction(seat), hand(hand_counts));
    }
    deal
}

/// The call of six words of a record.
fn pbn_call(text: &[u8], row: &[u32]) -> AnnotatedCall {
    let call = match row[0] {
        0 => bridge_types::Call::Pass,
        1 => bridge_types::Call::Double,
        2 => bridge_types::Call::Redouble,
        3 => bridge_types::Call::Bid {
            level: row[1] as u8,
            strain: STRAINS[row[2] as usize],
        },
        4 => bridge_types::Call::Continue,
        _ => bridge_types::Call::Blank,
    };
    AnnotatedCall {
        call,
        annotation: (row[3] != 0).then(|| string(Span::new(row[4], row[5]).of(text))),
    }
}

fn string(bytes: &[u8]) -> String {
    String::from_utf8(bytes.to_vec()).expect("UTF-8")
}

/// The text that is there, or none; the places of an absent one are any.
fn some_string(place: LinText, text: &[u8]) -> Option<String> {
    let part = || Span::new(place.start, place.len).of(text);
    (place.present != 0).then(|| string(part()))
}

/// The record of what is lent.
///
/// # Panics
///
/// If a refusal meets it.
pub fn record(lent: pbn::Lent) -> Record {
    let board = lent.board;
    let text = |t: LinText| some_string(t, lent.text);
    let calls = lent.calls.chunks_exact(6);
    let notes = model::pbn::note_texts(lent.text, lent.notes).into_iter();
    Record {
        names: [board.south, board.west, board.north, board.east].map(text),
        event: text(board.event),
        date: text(board.date),
        id: text(board.id),
        number: (board.number_given != 0).then_some(board.number),
        dealer: (board.dealer_given != 0).then(|| direction(Seat::ALL[board.dealer as usize])),
        deal: deal(&board.counts),
        vulnerable: VULNERABILITY[board.vulnerability as usize],
        calls: calls.map(|row| pbn_call(lent.text, row)).collect(),
        notes: notes.map(|(n, text)| (n, text.to_string())).collect(),
        play: lent
            .plays
            .iter()
            .map(|c| (*c != pbn::GAP).then(|| card_of(*c)))
            .collect(),
        result: (board.result_given != 0).then_some(board.result),
    }
}

/// A record of upstream's as the host has it.
pub fn pbn_record(from: &Record) -> pbn::Record<'_> {
    let mut deal = Deal::new();
    for seat in Seat::ALL {
        let hand = from.deal.hand(direction(seat));
        hand.cards().iter().for_each(|c| deal.add(seat, card(c)));
    }
    let strain = |strain| STRAINS.iter().position(|s| *s == strain).expect("a strain");
    let call = |call: &'_ AnnotatedCall| match call.call {
        bridge_types::Call::Pass => pbn::Bid::Pass,
        bridge_types::Call::Double => pbn::Bid::Double,
        bridge_types::Call::Redouble => pbn::Bid::Redouble,
        bridge_types::Call::Bid { level, strain: s } => {
            pbn::Bid::Level(level, pbn::Strain::ALL[strain(s)])
        }
        bridge_types::Call::Continue => pbn::Bid::Continue,
        bridge_types::Call::Blank => pbn::Bid::Blank,
    };
    let calls = from.calls.iter().map(|c| pbn::Call {
        bid: call(c),
        annotation: c.annotation.as_deref(),
    });
    let notes = from.notes.iter();
    pbn::Record {
        names: [0, 1, 2, 3].map(|n| from.names[n].as_deref()),
        event: from.event.as_deref(),
        date: from.date.as_deref(),
        id: from.id.as_deref(),
        number: from.number,
        dealer: from.dealer.map(seat),
        deal,
        vulnerability: vulnerability(from.vulnerable),
        calls: calls.collect(),
        notes: notes.map(|(n, text)| (*n, text.as_str())).collect(),
        play: from.play.iter().map(|c| c.as_ref().map(card)).collect(),
        result: from.result,
    }
}
