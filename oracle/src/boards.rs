//! Board cases: texts as one record each, and every field that `parse_lin`
//! gives.
//!
//! Seats are S W N E as 0 to 3, cards suit times 13 plus rank, suits S H D C,
//! ranks 2 to A. None, north-south, east-west and both vulnerable are 0 to 3.

pub mod deals;
pub mod mixed;
pub mod places;
pub mod traps;

use crate::{
    lin::{parse_lin, BidWithAnnotation, LinData},
    steps::{readers, Call, Steps, TEXT},
    texts,
    vectors::Vectors,
};
use bridge_types::{Card, Deal, Direction, Vulnerability};

/// A name, and the texts that go by it.
type Group = (&'static str, fn() -> Vec<String>);

const GROUPS: &[Group] = &[
    ("named", traps::named),
    ("commands", traps::commands),
    ("broken", traps::broken),
    ("names", traps::names),
    ("titles", traps::titles),
    ("dealers", deals::dealers),
    ("hands", deals::hands),
    ("east", deals::east),
    ("vulnerable", traps::vulnerable),
    ("calls", traps::calls),
    ("cards", traps::cards),
    ("claims", traps::claims),
    ("trimmed", places::trimmed),
    ("kept", places::kept),
    ("records", mixed::records),
    ("damaged", mixed::damaged),
    ("random", mixed::random),
    ("long", mixed::long),
];

/// The texts of all groups, each once.
pub fn texts() -> Vec<String> {
    texts::distinct(GROUPS.iter().flat_map(|(_, texts)| texts()).collect())
}

pub(crate) const SEATS: [Direction; 4] = [
    Direction::South,
    Direction::West,
    Direction::North,
    Direction::East,
];

pub(crate) fn seat(d: Direction) -> u8 {
    match d {
        Direction::South => 0,
        Direction::West => 1,
        Direction::North => 2,
        Direction::East => 3,
    }
}

pub(crate) fn vulnerability(v: Vulnerability) -> u8 {
    match v {
        Vulnerability::None => 0,
        Vulnerability::NorthSouth => 1,
        Vulnerability::EastWest => 2,
        Vulnerability::Both => 3,
    }
}

pub(crate) fn number(card: &Card) -> u8 {
    let place = |letters: &str, c| letters.find(c).expect("a letter of a card") as u8;
    13 * place("SHDC", card.suit.to_char()) + place("23456789TJQKA", card.rank.to_char())
}

fn marks(board: &LinData) -> [u8; 7] {
    [
        seat(board.dealer),
        vulnerability(board.vulnerability),
        board.title.is_some().into(),
        board.room_board.is_some().into(),
        board.board_header.is_some().into(),
        board.claim.is_some().into(),
        board.claim.unwrap_or(0),
    ]
}

pub(crate) fn held(deal: &Deal) -> Vec<u8> {
    let hand = |d| {
        deal.hand(d)
            .cards()
            .iter()
            .map(move |c| 52 * seat(d) + number(c))
    };
    SEATS.into_iter().flat_map(hand).collect()
}

fn call_marks(call: &BidWithAnnotation) -> u8 {
    u8::from(call.alert) + 2 * u8::from(call.annotation.is_some())
}

pub(crate) fn text_of(x: &Option<String>) -> &[u8] {
    x.as_deref().unwrap_or("").as_bytes()
}

/// The fields of a board: seven bytes, being the dealer, the vulnerability, whether
/// there is a title, a room and board, a header, a claim, and the claim; the names S,
/// W, N, E, the title, the room and board, the header, each empty where it is absent;
/// the cards held, a byte each as often as it is held, seat times 52 plus card; a byte
/// for each of the n calls, 1 if it is alerted, plus 2 if it is annotated; 2n fields
/// bid, annotation, bid, annotation ..; the cards played, a byte each. Boards are told
/// apart by them.
pub(crate) fn put(out: &mut Vectors, board: &LinData) {
    out.field(&marks(board));
    board
        .player_names
        .iter()
        .for_each(|n| out.field(n.as_bytes()));
    out.field(text_of(&board.title));
    out.field(text_of(&board.room_board));
    out.field(text_of(&board.board_header));
    out.field(&held(&board.deal));
    out.field(&board.auction.iter().map(call_marks).collect::<Vec<_>>());
    for call in &board.auction {
        out.field(call.bid.as_bytes());
        out.field(text_of(&call.annotation));
    }
    out.field(&board.play.iter().map(number).collect::<Vec<_>>());
}

/// The file `boards.bin`: each text read as one board.
pub fn vectors() -> Vectors {
    let mut s = Steps::new();
    readers::define(&mut s, Call::ParseHeading, Call::ParseLin, 0);
    for text in texts() {
        let Ok(board) = parse_lin(&text);
        s.lend(TEXT, text.as_bytes());
        readers::read(&mut s, &board);
    }
    s.say("boards", &readers::GROUPS);
    s.done()
}

#[cfg(test)]
mod tests {
    use super::*;
    use crate::vectors::fields;

    /// The fields of one case after its text.
    fn put_alone(text: &str) -> Vec<Vec<u8>> {
        let Ok(board) = parse_lin(text);
        let mut out = Vectors::new();
        put(&mut out, &board);
        let all = fields(out.bytes()).unwrap();
        all.into_iter().map(<[u8]>::to_vec).collect()
    }

    #[test]
    fn listed_board() {
        let all = put_alone("qx|o1|md|3SAK,SQJ,ST9|mb|1C!|pc|SA|mc|9|ah||");
        let expected: [&[u8]; 12] = [
            &[2, 0, 0, 1, 1, 1, 9],
            b"",
            b"",
            b"",
            b"",
            b"",
            b"o1",
            b"",
            &[12, 11, 52 + 10, 52 + 9, 104 + 8, 104 + 7],
            &[1],
            b"1C",
            b"",
        ];
        assert_eq!(all[..12], expected);
        assert_eq!(all[12..], [[12]]);
    }

    #[test]
    fn fresh_board() {
        let mut expected = vec![Vec::new(); 11];
        expected[0] = vec![2, 0, 0, 0, 0, 0, 0];
        assert_eq!(put_alone(""), expected);
    }

    /// The replay lends 512 rows and as many places for cards, and the texts
    /// fill a good part of both.
    #[test]
    fn rows_are_enough() {
        let boards: Vec<LinData> = texts().iter().map(|t| parse_lin(t).unwrap()).collect();
        let calls = boards.iter().map(|b| b.auction.len()).max();
        let cards = boards.iter().map(|b| b.play.len()).max();
        assert!((256..512).contains(&calls.unwrap()) && (256..512).contains(&cards.unwrap()));
    }

    #[test]
    fn every_group_has_texts_of_its_own() {
        let mut seen = std::collections::HashSet::new();
        for (name, texts) in GROUPS {
            let new = texts().into_iter().filter(|t| seen.insert(t.clone()));
            let n = new.count();
            println!("{name}: {n}");
            assert!(n > 0, "{name}");
        }
        assert_eq!(seen.len(), texts().len());
    }
}
