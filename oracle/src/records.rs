//! Realistic records: boards as `write_lin_file` lays them out, and movies.

use crate::{
    lin::{write_lin_file, BidWithAnnotation, LinData},
    random::Rng,
};
use bridge_types::{Card, Deal, Direction, Hand, Rank, Suit, Vulnerability};

const NAMES: &[&str] = &[
    "Alice",
    "bob77",
    "José",
    "Jose\u{301}",
    "Åsa Öberg",
    "Nguyễn Văn",
    "van der Meer",
    "~~M1234",
    "李雷",
    "",
];
const EVENTS: &[&str] = &[
    "Club game",
    "Team match",
    "Pokal für Anfänger",
    "Lesson 4: finesses",
];
const CALLS: &[&str] = &[
    "p", "p", "p", "d", "r", "1C", "1D", "1H", "1S", "1N", "2C", "2D", "2H", "3N", "4S", "6N",
];
const EXPLANATIONS: &[&str] = &[
    "15-17",
    "5+ hearts",
    "weak, 6 cards",
    "transfer to ♠",
    "could be short",
    "forcing — one round",
];
const COMMENTS: &[&str] = &[
    "Lead a spade",
    "^bNow^* count the losers: two in hearts, one in clubs.",
    "West plays the ♥K.@2What do you know?",
    "Schön gespielt, aber es gibt einen besseren Weg.",
    "",
];

/// A board of 52 cards, with texts that name its number. Its calls and its play are
/// by chance and need not be legal.
pub fn board(rng: &mut Rng, number: usize) -> LinData {
    let mut pack: Vec<Card> = Suit::ALL
        .into_iter()
        .flat_map(|s| Rank::ALL.into_iter().map(move |r| Card::new(s, r)))
        .collect();
    rng.shuffle(&mut pack);
    let mut deal = Deal::new();
    for (seat, cards) in Direction::ALL.into_iter().zip(pack.chunks(13)) {
        let mut hand = Hand::new();
        cards.iter().for_each(|c| hand.add_card(*c));
        deal.set_hand(seat, hand);
    }
    rng.shuffle(&mut pack);
    pack.truncate(rng.below(53));
    LinData {
        player_names: [(); 4].map(|_| rng.pick(NAMES).to_string()),
        dealer: *rng.pick(&Direction::ALL),
        deal,
        vulnerability: *rng.pick(&[
            Vulnerability::None,
            Vulnerability::NorthSouth,
            Vulnerability::EastWest,
            Vulnerability::Both,
        ]),
        title: Some(format!(
            "{} - 2026.09.{}",
            rng.pick(EVENTS),
            rng.below(30) + 1
        )),
        room_board: Some(format!("o{number},BOARD {number}")),
        board_header: Some(format!("Board {number}")),
        auction: (0..rng.below(16)).map(|_| call(rng)).collect(),
        play: pack,
        claim: rng.once_in(2).then(|| rng.below(14) as u8),
    }
}

fn call(rng: &mut Rng) -> BidWithAnnotation {
    let alert = rng.once_in(6);
    BidWithAnnotation {
        bid: rng.pick(CALLS).to_string(),
        alert,
        annotation: (alert || rng.once_in(10)).then(|| rng.pick(EXPLANATIONS).to_string()),
    }
}

/// Boards one after another.
pub fn file(rng: &mut Rng, boards: usize) -> String {
    let list: Vec<_> = (1..=boards).map(|n| board(rng, n)).collect();
    write_lin_file(&list)
}

/// A board for each line, without room and board, as older exports have it.
pub fn lines(rng: &mut Rng, boards: usize) -> String {
    let line = |n| {
        let text = write_lin_file(&[board(rng, n)]).replace('\n', "");
        let from = text.find("pn|").unwrap_or(0);
        let qx = text.find("qx|").unwrap_or(0);
        let rh = text.find("rh|").unwrap_or(0);
        format!("{}{}\r\n", &text[from..qx], &text[rh..])
    };
    (1..=boards).map(line).collect()
}

/// A teaching movie: commentary, page breaks, highlights, rewinds, re-deals.
pub fn movie(rng: &mut Rng, pages: usize) -> String {
    let mut out = String::from("st||\n\n");
    out += &file(rng, 1);
    for page in 0..pages {
        let comment = *rng.pick(COMMENTS);
        out += &match rng.below(8) {
            0 => format!("nt|{comment}|\n\npg||"),
            1 => format!("At|{comment}|hs|y|hc|sa|pg||\n"),
            2 => format!("up|{}|pc|s|pc|!hk|\r\npg||", rng.below(20)),
            3 => "md|0SK,HA|pg||\n".to_string(),
            4 => format!("\n\nbt||cq|3|lc|{page}|pg||"),
            _ => format!("at|{comment}|\n\npg||"),
        };
    }
    if rng.once_in(3) {
        out += "at|never closed";
    }
    out
}
