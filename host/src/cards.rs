//! Cards, and how often each seat holds each of them.
//!
//! ```
//! use lin_host_rust::{
//!     boards::Seat,
//!     cards::{Card, Deal, Rank, Suit},
//! };
//!
//! let ace = Card::of(Suit::Spades, Rank::Ace);
//! assert_eq!((ace.number(), ace.to_string().as_str()), (12, "SA"));
//! assert_eq!(Card::new(12), Some(ace));
//! assert_eq!("sa".parse(), Ok(ace));
//! // there is no card of another number
//! assert_eq!((Card::new(52), Card::new(255)), (None, None));
//!
//! let mut deal = Deal::new();
//! deal.add(Seat::South, ace);
//! deal.add(Seat::South, ace);
//! assert_eq!((deal.len(Seat::South), deal.len(Seat::West)), (2, 0));
//! ```

use crate::boards::Seat;
use std::{fmt, str::FromStr};

/// A suit, in the order of document 01's numbers.
#[derive(Debug, Clone, Copy, PartialEq, Eq, Hash)]
pub enum Suit {
    /// Spades, S.
    Spades,
    /// Hearts, H.
    Hearts,
    /// Diamonds, D.
    Diamonds,
    /// Clubs, C.
    Clubs,
}

impl Suit {
    /// The suits by their numbers, 0 to 3.
    pub const ALL: [Suit; 4] = [Suit::Spades, Suit::Hearts, Suit::Diamonds, Suit::Clubs];

    /// Its letter: S, H, D or C.
    pub fn letter(self) -> char {
        char::from(b"SHDC"[self as usize])
    }
}

/// A rank, in the order of document 01's numbers.
#[derive(Debug, Clone, Copy, PartialEq, Eq, PartialOrd, Ord, Hash)]
pub enum Rank {
    /// 2.
    Two,
    /// 3.
    Three,
    /// 4.
    Four,
    /// 5.
    Five,
    /// 6.
    Six,
    /// 7.
    Seven,
    /// 8.
    Eight,
    /// 9.
    Nine,
    /// Ten, T.
    Ten,
    /// Jack, J.
    Jack,
    /// Queen, Q.
    Queen,
    /// King, K.
    King,
    /// Ace, A.
    Ace,
}

impl Rank {
    /// The ranks by their numbers, 0 to 12.
    pub const ALL: [Rank; 13] = [
        Rank::Two,
        Rank::Three,
        Rank::Four,
        Rank::Five,
        Rank::Six,
        Rank::Seven,
        Rank::Eight,
        Rank::Nine,
        Rank::Ten,
        Rank::Jack,
        Rank::Queen,
        Rank::King,
        Rank::Ace,
    ];

    /// Its digit or letter: 2 to 9, T, J, Q, K or A.
    pub fn letter(self) -> char {
        char::from(b"23456789TJQKA"[self as usize])
    }
}

/// One of the 52 cards. It shows as suit and rank, `SA`. No other number makes
/// one:
///
/// ```compile_fail,E0423
/// let none = lin_host_rust::cards::Card(255);
/// ```
#[derive(Debug, Clone, Copy, PartialEq, Eq, Hash)]
pub struct Card(u8);

impl Card {
    /// The card of a number of 0 to 51, which is suit times 13 plus rank; none of
    /// any other number.
    pub fn new(number: u8) -> Option<Card> {
        (number < 52).then_some(Card(number))
    }

    /// The card of a suit and a rank.
    pub fn of(suit: Suit, rank: Rank) -> Card {
        Card(13 * suit as u8 + rank as u8)
    }

    /// All cards, by their numbers.
    pub fn all() -> impl Iterator<Item = Card> {
        (0..52).map(Card)
    }

    /// Its number, 0 to 51.
    pub fn number(self) -> u8 {
        self.0
    }

    /// Its suit.
    pub fn suit(self) -> Suit {
        Suit::ALL[usize::from(self.0 / 13)]
    }

    /// Its rank.
    pub fn rank(self) -> Rank {
        Rank::ALL[usize::from(self.0 % 13)]
    }
}

/// What a text is that is no card.
#[derive(Debug, Clone, Copy, PartialEq, Eq)]
pub struct NoCard;

impl fmt::Display for NoCard {
    fn fmt(&self, f: &mut fmt::Formatter) -> fmt::Result {
        f.write_str("no suit and rank")
    }
}

impl std::error::Error for NoCard {}

impl FromStr for Card {
    type Err = NoCard;

    /// Exactly a suit and a rank, in either case.
    fn from_str(text: &str) -> Result<Card, NoCard> {
        let mut letters = text.chars().map(|c| c.to_ascii_uppercase());
        let (Some(suit), Some(rank), None) = (letters.next(), letters.next(), letters.next())
        else {
            return Err(NoCard);
        };
        let suit = Suit::ALL.into_iter().find(|s| s.letter() == suit);
        let rank = Rank::ALL.into_iter().find(|r| r.letter() == rank);
        Ok(Card::of(suit.ok_or(NoCard)?, rank.ok_or(NoCard)?))
    }
}

impl fmt::Display for Card {
    fn fmt(&self, f: &mut fmt::Formatter) -> fmt::Result {
        write!(f, "{}{}", self.suit().letter(), self.rank().letter())
    }
}

/// How often each seat holds each card.
#[derive(Debug, Clone, Copy, PartialEq, Eq)]
pub struct Deal {
    counts: [u32; 208],
}

impl Default for Deal {
    fn default() -> Deal {
        Deal::new()
    }
}

impl From<[u32; 208]> for Deal {
    /// The deal of these counts, at seat times 52 plus card.
    fn from(counts: [u32; 208]) -> Deal {
        Deal { counts }
    }
}

impl Deal {
    /// No card in any hand.
    pub fn new() -> Deal {
        Deal { counts: [0; 208] }
    }

    /// Gives a seat a card, once more if it holds it.
    ///
    /// # Panics
    ///
    /// If its count would pass 32 bits.
    pub fn add(&mut self, seat: Seat, card: Card) {
        let count = &mut self.counts[52 * seat as usize + usize::from(card.0)];
        *count = count.checked_add(1).expect("a count of 32 bits");
    }

    /// The counts of all hands, at seat times 52 plus card.
    pub fn counts(&self) -> &[u32; 208] {
        &self.counts
    }

    /// The counts of a seat's 52 cards.
    pub fn hand(&self, seat: Seat) -> &[u32] {
        let from = 52 * seat as usize;
        &self.counts[from..from + 52]
    }

    /// The cards of a seat by suit, ranks from A down, a repeated one as often as
    /// it is counted.
    pub fn cards(&self, seat: Seat) -> impl Iterator<Item = Card> + '_ {
        let hand = self.hand(seat);
        let down = (0..52u8).map(|n| 13 * (n / 13) + 12 - n % 13);
        down.flat_map(|n| (0..hand[usize::from(n)]).map(move |_| Card(n)))
    }

    /// How many cards a seat holds, a repeated one as often as it is counted.
    pub fn len(&self, seat: Seat) -> u64 {
        self.hand(seat).iter().map(|n| u64::from(*n)).sum()
    }
}
