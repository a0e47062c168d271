//! A stand-in for the crate `bridge_types`: what the upstream LIN sources use
//! of it and no more, with the meaning that document 01 gives its helpers.

use std::collections::HashMap;

#[derive(Debug, Clone, Copy, PartialEq, Eq, PartialOrd, Ord)]
pub enum Suit {
    Spades,
    Hearts,
    Diamonds,
    Clubs,
}

impl Suit {
    pub const ALL: [Suit; 4] = [Suit::Spades, Suit::Hearts, Suit::Diamonds, Suit::Clubs];

    /// S, H, D or C in either case.
    pub fn from_char(c: char) -> Option<Suit> {
        Suit::ALL
            .into_iter()
            .find(|s| s.to_char() == c.to_ascii_uppercase())
    }

    pub fn to_char(self) -> char {
        match self {
            Suit::Spades => 'S',
            Suit::Hearts => 'H',
            Suit::Diamonds => 'D',
            Suit::Clubs => 'C',
        }
    }
}

/// The order is that of the ranks, the two lowest.
#[derive(Debug, Clone, Copy, PartialEq, Eq, PartialOrd, Ord)]
pub enum Rank {
    Two,
    Three,
    Four,
    Five,
    Six,
    Seven,
    Eight,
    Nine,
    Ten,
    Jack,
    Queen,
    King,
    Ace,
}

impl Rank {
    pub const ALL: [Rank; 13] = [
        Rank::Two,
        Rank::Three,
        Rank::Four,
        Rank::Five,
        Rank::Six,
        Rank::Seven,
        Rank::Eight,
        Rank::Nine,
        Rank::Ten,
        Rank::Jack,
        Rank::Queen,
        Rank::King,
        Rank::Ace,
    ];

    /// A, K, Q, J or T in either case, or a digit from 9 down to 2.
    pub fn from_char(c: char) -> Option<Rank> {
        Rank::ALL
            .into_iter()
            .find(|r| r.to_char() == c.to_ascii_uppercase())
    }

    pub fn to_char(self) -> char {
        match self {
            Rank::Two => '2',
            Rank::Three => '3',
            Rank::Four => '4',
            Rank::Five => '5',
            Rank::Six => '6',
            Rank::Seven => '7',
            Rank::Eight => '8',
            Rank::Nine => '9',
            Rank::Ten => 'T',
            Rank::Jack => 'J',
            Rank::Queen => 'Q',
            Rank::King => 'K',
            Rank::Ace => 'A',
        }
    }
}

#[derive(Debug, Clone, Copy, PartialEq, Eq)]
pub struct Card {
    pub suit: Suit,
    pub rank: Rank,
}

impl Card {
    pub fn new(suit: Suit, rank: Rank) -> Card {
        Card { suit, rank }
    }
}

#[derive(Debug, Clone, Copy, PartialEq, Eq)]
pub enum Direction {
    North,
    East,
    South,
    West,
}

impl Direction {
    pub const ALL: [Direction; 4] = [
        Direction::North,
        Direction::East,
        Direction::South,
        Direction::West,
    ];
}

/// N, E, S, W for the remainders 1, 2, 3, 0 by 4.
pub fn dealer_from_board_number(number: u32) -> Direction {
    match number % 4 {
        1 => Direction::North,
        2 => Direction::East,
        3 => Direction::South,
        _ => Direction::West,
    }
}

#[derive(Debug, Clone, Copy, PartialEq, Eq, Default)]
pub enum Vulnerability {
    #[default]
    None,
    NorthSouth,
    EastWest,
    Both,
}

/// The cards in the order in which they were added. A repeated card stands
/// again.
#[derive(Debug, Clone, Default)]
pub struct Hand {
    cards: Vec<Card>,
}

impl Hand {
    pub fn new() -> Hand {
        Hand::default()
    }

    pub fn add_card(&mut self, card: Card) {
        self.cards.push(card);
    }

    pub fn cards(&self) -> &[Card] {
        &self.cards
    }

    pub fn len(&self) -> usize {
        self.cards.len()
    }

    pub fn is_empty(&self) -> bool {
        self.cards.is_empty()
    }

    pub fn has_card(&self, card: Card) -> bool {
        self.cards.contains(&card)
    }

    pub fn cards_in_suit(&self, suit: Suit) -> Vec<Card> {
        self.cards
            .iter()
            .copied()
            .filter(|c| c.suit == suit)
            .collect()
    }
}

#[derive(Debug, Clone, Default)]
pub struct Deal {
    hands: [Hand; 4],
}

impl Deal {
    pub fn new() -> Deal {
        Deal::default()
    }

    pub fn hand(&self, seat: Direction) -> &Hand {
        &self.hands[seat as usize]
    }

    pub fn set_hand(&mut self, seat: Direction, hand: Hand) {
        self.hands[seat as usize] = hand;
    }
}

#[derive(Debug, Clone, Copy, PartialEq, Eq)]
pub enum Strain {
    Clubs,
    Diamonds,
    Hearts,
    Spades,
    NoTrump,
}

impl Strain {
    pub fn to_char(self) -> char {
        match self {
            Strain::Clubs => 'C',
            Strain::Diamonds => 'D',
            Strain::Hearts => 'H',
            Strain::Spades => 'S',
            Strain::NoTrump => 'N',
        }
    }
}

#[derive(Debug, Clone, Copy, PartialEq, Eq)]
pub enum Call {
    Pass,
    Double,
    Redouble,
    Bid { level: u8, strain: Strain },
    Continue,
    Blank,
}

#[derive(Debug, Clone)]
pub struct AnnotatedCall {
    pub call: Call,
    pub annotation: Option<String>,
}

#[derive(Debug, Clone, Default)]
pub struct Auction {
    pub calls: Vec<AnnotatedCall>,
    pub notes: HashMap<u8, String>,
}

/// Four places for cards, a gap being `None`.
#[derive(Debug, Clone, Default)]
pub struct Trick {
    pub cards: [Option<Card>; 4],
}

#[derive(Debug, Clone, Default)]
pub struct PlaySequence {
    pub tricks: Vec<Trick>,
}

#[derive(Debug, Clone, Default)]
pub struct PlayerNames {
    pub north: Option<String>,
    pub east: Option<String>,
    pub south: Option<String>,
    pub west: Option<String>,
}

/// A board read from PBN.
#[derive(Debug, Clone, Default)]
pub struct Board {
    pub number: Option<u32>,
    pub board_id: Option<String>,
    pub event: Option<String>,
    pub date: Option<String>,
    pub player_names: Option<PlayerNames>,
    pub dealer: Option<Direction>,
    pub vulnerable: Vulnerability,
    pub deal: Deal,
    pub auction: Option<Auction>,
    pub play: Option<PlaySequence>,
    pub result: Option<i32>,
}

#[cfg(test)]
mod tests {
    use super::*;

    #[test]
    fn letters_go_there_and_back() {
        for suit in Suit::ALL {
            let c = suit.to_char();
            assert_eq!(Suit::from_char(c), Some(suit));
            assert_eq!(Suit::from_char(c.to_ascii_lowercase()), Some(suit));
        }
        for rank in Rank::ALL {
            let c = rank.to_char();
            assert_eq!(Rank::from_char(c), Some(rank));
            assert_eq!(Rank::from_char(c.to_ascii_lowercase()), Some(rank));
        }
        let taken = |f: &dyn Fn(char) -> bool| {
            (0..=0x10FFFF)
                .filter_map(char::from_u32)
                .filter(|c| f(*c))
                .count()
        };
        assert_eq!(taken(&|c| Suit::from_char(c).is_some()), 8);
        assert_eq!(taken(&|c| Rank::from_char(c).is_some()), 18);
    }

    #[test]
    fn dealers_by_number() {
        let dealers = [1, 2, 3, 4, 5].map(dealer_from_board_number);
        use Direction::*;
        assert_eq!(dealers, [North, East, South, West, North]);
    }
}
