//! Boards: the heading that a text gives, and its board with calls and play.
//!
//! ```
//! use lin_host_rust::boards::{self, Card, Seat, Vulnerability};
//!
//! let text = "pn|Ann,José|md|1SAKH2,CT|sv|e|mb|1N!|an|15-17|pc|HQ|mc|9|".as_bytes();
//! let board = boards::board(text)?;
//! assert_eq!(board.heading.name(Seat::West), "José");
//! assert_eq!(board.heading.dealer, Seat::South);
//! assert_eq!(board.heading.vulnerability, Vulnerability::EastWest);
//! assert_eq!(board.heading.claim, Some(9));
//! let south: Vec<String> = board.heading.deal.cards(Seat::South).map(|c| c.to_string()).collect();
//! assert_eq!(south, ["SA", "SK", "H2"]);
//! assert_eq!((board.calls[0].bid, board.calls[0].alerted), ("1N", true));
//! assert_eq!(board.play, ["HQ".parse::<Card>().unwrap()]);
//!
//! // the heading alone tells how many rows and cards the board needs
//! let heading = boards::heading(text)?;
//! assert_eq!((heading.calls, heading.cards), (1, 1));
//! # Ok::<(), lin_host_rust::Refusal>(())
//! ```

use crate::{ffi, gathered::shown, tokens::Span, Refusal};

pub use crate::cards::{Card, Deal, NoCard, Rank, Suit};
pub use ffi::{LinBoard, LinHeading, LinText};

/// The words of a call's row: bid start and length, alerted, annotated,
/// annotation start and length.
pub const ROW: usize = 6;

/// A seat, in LIN's order.
#[derive(Debug, Clone, Copy, PartialEq, Eq)]
pub enum Seat {
    /// South.
    South,
    /// West.
    West,
    /// North.
    North,
    /// East.
    East,
}

impl Seat {
    /// The seats by their numbers, 0 to 3.
    pub const ALL: [Seat; 4] = [Seat::South, Seat::West, Seat::North, Seat::East];
}

/// Which sides are vulnerable.
#[derive(Debug, Clone, Copy, PartialEq, Eq)]
pub enum Vulnerability {
    /// Neither side.
    None,
    /// North and South.
    NorthSouth,
    /// East and West.
    EastWest,
    /// Both sides.
    Both,
}

impl Vulnerability {
    /// The four by their numbers, 0 to 3.
    pub const ALL: [Vulnerability; 4] = [
        Vulnerability::None,
        Vulnerability::NorthSouth,
        Vulnerability::EastWest,
        Vulnerability::Both,
    ];
}

/// A board without its calls and its play; its texts are parts of the text
/// that it was read from.
#[derive(Debug, Clone, Copy, PartialEq, Eq)]
pub struct Heading<'a> {
    /// The names of S, W, N, E.
    pub names: [&'a str; 4],
    /// Who deals.
    pub dealer: Seat,
    /// The hands.
    pub deal: Deal,
    /// Which sides are vulnerable.
    pub vulnerability: Vulnerability,
    /// What mn says.
    pub title: Option<&'a str>,
    /// What qx says.
    pub room_board: Option<&'a str>,
    /// What ah says.
    pub board_header: Option<&'a str>,
    /// What mc says.
    pub claim: Option<u8>,
    /// How many calls the board has.
    pub calls: usize,
    /// How many cards its play has.
    pub cards: usize,
}

/// A call of the auction.
#[derive(Debug, Clone, Copy, PartialEq, Eq)]
pub struct Call<'a> {
    /// As it was written, without the marks of an alert.
    pub bid: &'a str,
    /// Whether an alert was marked.
    pub alerted: bool,
    /// What an says of it.
    pub annotation: Option<&'a str>,
}

/// A board. The default is one before its first token.
#[derive(Debug, Clone, PartialEq, Eq, Default)]
pub struct Board<'a> {
    /// All but the calls and the play, with their numbers.
    pub heading: Heading<'a>,
    /// The auction.
    pub calls: Vec<Call<'a>>,
    /// The cards in the order of play.
    pub play: Vec<Card>,
}

impl Default for Heading<'_> {
    /// That of a board before its first token: North deals, no hand holds a
    /// card, none is vulnerable, and all else is empty or absent.
    fn default() -> Self {
        Heading {
            names: [""; 4],
            dealer: Seat::North,
            deal: Deal::new(),
            vulnerability: Vulnerability::None,
            title: None,
            room_board: None,
            board_header: None,
            claim: None,
            calls: 0,
            cards: 0,
        }
    }
}

impl<'a> Heading<'a> {
    /// The name at a seat.
    pub fn name(&self, seat: Seat) -> &'a str {
        self.names[seat as usize]
    }
}

impl<'a> Board<'a> {
    /// A board of this heading, these calls and this play; the heading's two
    /// numbers become theirs.
    pub fn new(heading: Heading<'a>, calls: Vec<Call<'a>>, play: Vec<Card>) -> Board<'a> {
        let heading = Heading {
            calls: calls.len(),
            cards: play.len(),
            ..heading
        };
        Board {
            heading,
            calls,
            play,
        }
    }
}

pub(crate) fn flag(word: u32) -> bool {
    match word {
        0 => false,
        1 => true,
        _ => panic!("neither 0 nor 1: {word}"),
    }
}

/// A part of the text, or its absence: present or not, start and length.
fn part(words: [u32; 3], text: &[u8]) -> Option<&str> {
    match words {
        [0, 0, 0] => None,
        [1, start, len] => Some(shown(Span::new(start, len).of(text))),
        _ => panic!("neither a part nor its absence: {words:?}"),
    }
}

impl LinText {
    fn of(self, text: &[u8]) -> Option<&str> {
        part([self.present, self.start, self.len], text)
    }
}

impl LinBoard {
    fn claim(&self) -> Option<u8> {
        match (flag(self.claimed), u8::try_from(self.claim)) {
            (true, Ok(n)) => Some(n),
            (false, Ok(0)) => None,
            _ => panic!("neither a claim nor its absence: {}", self.claim),
        }
    }
}

impl LinHeading {
    /// The heading with its texts, or the refusal.
    ///
    /// # Panics
    ///
    /// If a number has no meaning, see [`LinAnswer::read`](crate::LinAnswer::read),
    /// or a text is not a part of this one, or not UTF-8: no heading of this text.
    pub fn read(self, text: &[u8]) -> Result<Heading<'_>, Refusal> {
        assert_eq!(self.answer.read()?, 0, "a value beside a heading");
        let board = self.board;
        let name = |seat: usize| {
            let [start, len] = [board.names[2 * seat], board.names[2 * seat + 1]];
            shown(Span::new(start, len).of(text))
        };
        Ok(Heading {
            names: [0, 1, 2, 3].map(name),
            dealer: Seat::ALL[board.dealer as usize],
            deal: Deal::from(board.counts),
            vulnerability: Vulnerability::ALL[board.vulnerability as usize],
            title: board.title.of(text),
            room_board: board.room_board.of(text),
            board_header: board.board_header.of(text),
            claim: board.claim(),
            calls: usize::try_from(self.calls).expect("calls of a text"),
            cards: usize::try_from(self.cards).expect("cards of a text"),
        })
    }
}

/// The heading as the export gives it.
pub fn heading_numbers(text: &[u8]) -> LinHeading {
    // SAFETY: pointer and length are those of one slice.
    unsafe { ffi::lin_parse_heading(text.as_ptr(), text.len()) }
}

/// The heading as the export gives it; the board's calls go into the rows, six
/// words each, and its play into the cards. A rest of fewer than six words is
/// no row.
pub fn parse_lin_numbers(text: &[u8], rows: &mut [u32], cards: &mut [u8]) -> LinHeading {
    // SAFETY: each pointer and length are those of one slice, and rows and
    // cards, being borrowed alone, overlap no other.
    unsafe {
        ffi::lin_parse_lin(
            text.as_ptr(),
            text.len(),
            rows.as_mut_ptr(),
            rows.len(),
            cards.as_mut_ptr(),
            cards.len(),
        )
    }
}

/// The heading of a text that is one board; refusals 1 and 2.
pub fn heading(text: &[u8]) -> Result<Heading<'_>, Refusal> {
    heading_numbers(text).read(text)
}

/// The heading, with the calls in the rows lent and the play in the cards lent;
/// refusals 1, 2 and 3.
pub fn parse_lin_into<'a>(
    text: &'a [u8],
    rows: &mut [u32],
    cards: &mut [u8],
) -> Result<Heading<'a>, Refusal> {
    parse_lin_numbers(text, rows, cards).read(text)
}

/// The calls of the rows that [`parse_lin_into`] filled.
///
/// # Panics
///
/// If a word has no meaning, or a text is not a part of this one, or not UTF-8:
/// no rows of this text.
pub fn calls<'a>(text: &'a [u8], rows: &[u32]) -> Vec<Call<'a>> {
    let call = |row: &[u32]| Call {
        bid: shown(Span::new(row[0], row[1]).of(text)),
        alerted: flag(row[2]),
        annotation: part([row[3], row[4], row[5]], text),
    };
    rows.chunks_exact(ROW).map(call).collect()
}

/// The play of the cards that [`parse_lin_into`] filled.
///
/// # Panics
///
/// If a byte is no card.
pub fn play(cards: &[u8]) -> Vec<Card> {
    let card = |n: &u8| Card::new(*n).expect("a card");
    cards.iter().map(card).collect()
}

/// A board in as many rows and cards as its heading tells; `read` fills them.
pub(crate) fn filled<'a>(
    text: &'a [u8],
    told: Heading,
    read: impl FnOnce(&mut [u32], &mut [u8]) -> LinHeading,
) -> Result<Board<'a>, Refusal> {
    let mut rows = vec![0; ROW * told.calls];
    let mut cards = vec![0; told.cards];
    let heading = read(&mut rows, &mut cards).read(text)?;
    Ok(Board {
        heading,
        calls: calls(text, &rows),
        play: play(&cards),
    })
}

/// The board that a text is; refusals 1 and 2.
pub fn board(text: &[u8]) -> Result<Board<'_>, Refusal> {
    filled(text, heading(text)?, |rows, cards| {
        parse_lin_numbers(text, rows, cards)
    })
}
