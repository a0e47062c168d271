//! The writer: boards written as LIN, alone or one after another; the play as
//! a text; whether a board equals another.
//!
//! ```
//! use lin_host_rust::{
//!     boards::{Board, Call, Card, Heading, Rank, Seat, Suit},
//!     files,
//!     writer::{self, Appender},
//!     Refusal,
//! };
//!
//! let ace = Card::of(Suit::Spades, Rank::Ace);
//! let mut heading = Heading {
//!     names: ["Ann", "Bob", "Cleo, jr", ""],
//!     dealer: Seat::South,
//!     claim: Some(9),
//!     ..Heading::default()
//! };
//! heading.deal.add(Seat::South, ace);
//! let bid = Call {
//!     bid: "1C",
//!     alerted: true,
//!     annotation: Some("16|more"),
//! };
//! let board = Board::new(heading, vec![bid], vec![ace]);
//!
//! let text = writer::write_lin(&board)?;
//! let lines = [
//!     "mn||pn|Ann,Bob,Cleo jr,|qx||rh||md|1SAHDC,,,|sv|0|",
//!     "sa|0|mb|1C!|an|16/more|pg||",
//!     "pc|SA|pg||",
//!     "mc|9|pg||",
//!     "",
//! ];
//! assert_eq!(text, lines.join("\n"));
//!
//! // a file is boards appended one after another
//! let mut file = Appender::new(300);
//! assert_eq!(file.append(&board)?, 100);
//! assert_eq!(file.append(&Board::default())?, 143);
//! assert_eq!(files::count_boards(file.bytes())?, 2);
//! assert_eq!(file.append(&board)?, 243);
//! assert_eq!(file.append(&board), Err(Refusal::OutputTooSmall(100)));
//! assert_eq!(file.bytes().len(), 243);
//! # Ok::<(), Refusal>(())
//! ```

use crate::{
    boards::{flag, Board, Call, Card, LinBoard, ROW},
    ffi,
    gathered::{fitted, gather, gather_some, shown},
    LinAnswer, Refusal,
};

/// A board as the exports are lent it: a text, and what stands in it by spans.
/// Its numbers are raw: any are taken, and those out of range are refused.
#[derive(Debug, Clone, Copy, PartialEq, Eq)]
pub struct Lent<'a> {
    /// The text.
    pub text: &'a [u8],
    /// As a heading gives it. The places of absent texts and the number of an
    /// absent claim are not looked at.
    pub board: LinBoard,
    /// Six words for each call, as `boards::parse_lin_numbers` fills them; a
    /// rest of fewer is no row.
    pub rows: &'a [u32],
    /// A byte for each card of the play.
    pub cards: &'a [u8],
}

impl Lent<'_> {
    /// The answer of the export that appends.
    pub fn append_numbers(self, out: &mut [u8], used: u64) -> LinAnswer {
        // SAFETY: each pointer and length are those of one slice, and `out`,
        // being borrowed alone, overlaps no other.
        unsafe {
            ffi::lin_append(
                self.text.as_ptr(),
                self.text.len(),
                self.board,
                self.rows.as_ptr(),
                self.rows.len(),
                self.cards.as_ptr(),
                self.cards.len(),
                out.as_mut_ptr(),
                out.len(),
                used,
            )
        }
    }

    /// The answer of the export that writes from the first byte.
    pub fn write_numbers(self, out: &mut [u8]) -> LinAnswer {
        // SAFETY: as for `append_numbers`.
        unsafe {
            ffi::lin_write_lin(
                self.text.as_ptr(),
                self.text.len(),
                self.board,
                self.rows.as_ptr(),
                self.rows.len(),
                self.cards.as_ptr(),
                self.cards.len(),
                out.as_mut_ptr(),
                out.len(),
            )
        }
    }

    /// The answer of the export that compares: 1 if this board equals the
    /// other.
    pub fn same_numbers(self, other: Lent) -> LinAnswer {
        // SAFETY: each pointer and length are those of one slice.
        unsafe {
            ffi::lin_same_board(
                self.text.as_ptr(),
                self.text.len(),
                self.board,
                self.rows.as_ptr(),
                self.rows.len(),
                self.cards.as_ptr(),
                self.cards.len(),
                other.text.as_ptr(),
                other.text.len(),
                other.board,
                other.rows.as_ptr(),
                other.rows.len(),
                other.cards.as_ptr(),
                other.cards.len(),
            )
        }
    }

    /// Writes the board after the used bytes and gives the new used count;
    /// refusals 1, 8, 5, 6 and 7.
    pub fn append(self, out: &mut [u8], used: u64) -> Result<u64, Refusal> {
        self.append_numbers(out, used).read()
    }

    /// Writes the board from the output's first byte and gives its length;
    /// refusals 1, 8, 5, 6 and 7.
    pub fn write(self, out: &mut [u8]) -> Result<u64, Refusal> {
        self.write_numbers(out).read()
    }

    /// Whether this board equals the other; refusals 1, 8, 5 and 6, each of
    /// both boards before the next.
    ///
    /// # Panics
    ///
    /// If the answer is neither 0 nor 1.
    pub fn same(self, other: Lent) -> Result<bool, Refusal> {
        let told = self.same_numbers(other).read()?;
        Ok(flag(u32::try_from(told).expect("0 or 1")))
    }
}

/// A board with its texts gathered into one.
#[derive(Debug, Clone, PartialEq, Eq)]
pub struct Gathered {
    /// The texts, back to back.
    pub text: Vec<u8>,
    /// The board with its places in them.
    pub board: LinBoard,
    /// Six words for each call.
    pub rows: Vec<u32>,
    /// A byte for each card of the play.
    pub cards: Vec<u8>,
}

impl Gathered {
    /// What is lent to the exports.
    pub fn lent(&self) -> Lent<'_> {
        Lent {
            text: &self.text,
            board: self.board,
            rows: &self.rows,
            cards: &self.cards,
        }
    }
}

fn gather_call(text: &mut Vec<u8>, call: &Call) -> [u32; ROW] {
    let bid = gather(text, call.bid);
    let annotation = gather_some(text, call.annotation);
    [
        bid.start,
        bid.len,
        call.alerted.into(),
        annotation.present,
        annotation.start,
        annotation.len,
    ]
}

/// The rows of these calls, six words for each; their texts are added to the text.
pub(crate) fn gather_calls(text: &mut Vec<u8>, calls: &[Call]) -> Vec<u32> {
    let rows = calls.iter().flat_map(|call| gather_call(text, call));
    rows.collect()
}

impl From<&Board<'_>> for Gathered {
    /// The calls and the play are those of the lists: the heading's two
    /// numbers are not looked at.
    fn from(from: &Board) -> Gathered {
        let heading = &from.heading;
        let mut text = Vec::new();
        let names = heading.names.map(|name| gather(&mut text, name));
        let board = LinBoard {
            names: std::array::from_fn(|i| [names[i / 2].start, names[i / 2].len][i % 2]),
            dealer: heading.dealer as u32,
            vulnerability: heading.vulnerability as u32,
            title: gather_some(&mut text, heading.title),
            room_board: gather_some(&mut text, heading.room_board),
            board_header: gather_some(&mut text, heading.board_header),
            claimed: heading.claim.is_some().into(),
            claim: heading.claim.unwrap_or(0).into(),
            counts: *heading.deal.counts(),
        };
        let rows = gather_calls(&mut text, &from.calls);
        Gathered {
            text,
            board,
            rows,
            cards: numbers(&from.play),
        }
    }
}

fn numbers(play: &[Card]) -> Vec<u8> {
    play.iter().map(|card| card.number()).collect()
}

/// A board as LIN; refusal 1 if its texts together are too long, and 7 if more
/// would be written than any output takes.
///
/// ```
/// use lin_host_rust::{boards::{self, Board}, writer};
///
/// let fresh = writer::write_lin(&Board::default())?;
/// assert_eq!(fresh, "mn||pn|,,,|qx||rh||md|3,,,|sv|0|\nsa|0|pg||\n");
///
/// // what was read is written in one layout
/// let read = boards::board(b"sv|All|mb|1C!!|md|3SAK|")?;
/// let text = writer::write_lin(&read)?;
/// assert_eq!(text, "mn||pn|,,,|qx||rh||md|3SAKHDC,,,|sv|b|\nsa|0|mb|1C!|pg||\n");
/// # Ok::<(), lin_host_rust::Refusal>(())
/// ```
///
/// # Panics
///
/// If what was written is not UTF-8, which no written board is.
pub fn write_lin(board: &Board) -> Result<String, Refusal> {
    let board = Gathered::from(board);
    fitted(|out| board.lent().write(out))
}

/// An output of a fixed length to which boards are added. Not more than its
/// first 1,048,576 bytes are ever used.
///
/// ```
/// use lin_host_rust::{boards::Board, writer::Appender, Refusal};
///
/// let mut file = Appender::new(50);
/// assert_eq!(file.append(&Board::default()), Ok(43));
/// assert_eq!(file.append(&Board::default()), Err(Refusal::OutputTooSmall(43)));
/// assert_eq!(file.used(), 43);
/// assert_eq!(file.text(), "mn||pn|,,,|qx||rh||md|3,,,|sv|0|\nsa|0|pg||\n");
/// ```
#[derive(Debug, Clone, PartialEq, Eq)]
pub struct Appender {
    out: Vec<u8>,
    used: u64,
}

impl Appender {
    /// An output of so many bytes, none of them used.
    pub fn new(len: usize) -> Appender {
        Appender::over(vec![0; len])
    }

    /// An output that holds these bytes, none of them used.
    pub fn over(out: Vec<u8>) -> Appender {
        Appender { out, used: 0 }
    }

    /// Adds a board and gives the new used count; a refusal, 1 or 7 as of
    /// [`write_lin`], changes nothing.
    pub fn append(&mut self, board: &Board) -> Result<u64, Refusal> {
        self.append_lent(Gathered::from(board).lent())
    }

    /// The same of a board that is lent with its text; refusals 1, 8, 5, 6 and 7.
    ///
    /// ```
    /// use lin_host_rust::{boards, writer::{Appender, Lent}};
    ///
    /// let text = b"qx|o1|md|3SAK,SQJ,ST9|mb|1C!|pc|SA|mc|9|";
    /// let (mut rows, mut cards) = ([0; boards::ROW], [0; 1]);
    /// let read = boards::parse_lin_numbers(text, &mut rows, &mut cards);
    /// let lent = Lent { text, board: read.board, rows: &rows, cards: &cards };
    ///
    /// let mut file = Appender::new(1_000);
    /// file.append_lent(lent)?;
    /// assert!(file.text().starts_with("mn||pn|,,,|qx|o1|rh||md|3SAKHDC,"));
    /// # Ok::<(), lin_host_rust::Refusal>(())
    /// ```
    pub fn append_lent(&mut self, lent: Lent) -> Result<u64, Refusal> {
        self.used = lent.append(&mut self.out, self.used)?;
        Ok(self.used)
    }

    /// How many bytes are used.
    pub fn used(&self) -> u64 {
        self.used
    }

    /// The used bytes: a file of the boards that were added.
    pub fn bytes(&self) -> &[u8] {
        // the used count is one that the output's room had
        &self.out[..self.used as usize]
    }

    /// The used bytes as a text: nothing but written boards, which are UTF-8.
    ///
    /// # Panics
    ///
    /// If they are not UTF-8.
    pub fn text(&self) -> &str {
        shown(self.bytes())
    }

    /// All bytes of the output, the used ones first.
    pub fn output(&self) -> &[u8] {
        &self.out
    }
}

/// The answer of the export that writes the cards of a play by tricks. The cards
/// are raw: any bytes are taken, and one that is no card is refused.
pub fn play_text_numbers(cards: &[u8], out: &mut [u8]) -> LinAnswer {
    // SAFETY: each pointer and length are those of one slice, and `out`, being
    // borrowed alone, overlaps no other.
    unsafe { ffi::lin_play_text(cards.as_ptr(), cards.len(), out.as_mut_ptr(), out.len()) }
}

/// The cards by tricks; refusal 7 if the text is longer than any output takes.
///
/// ```
/// use lin_host_rust::{boards::Card, writer};
///
/// let play: Vec<Card> = Card::all().take(6).collect();
/// assert_eq!(writer::play_text(&play)?, "S2 S3 S4 S5|S6 S7");
/// # Ok::<(), lin_host_rust::Refusal>(())
/// ```
///
/// # Panics
///
/// If what was written is not UTF-8, which no play text is.
pub fn play_text(play: &[Card]) -> Result<String, Refusal> {
    let cards = numbers(play);
    fitted(|out| play_text_numbers(&cards, out).read())
}

/// Whether a board equals another, as upstream's `LinData` compares: each card
/// of its hands is looked for in the other's, so repeated cards can make it
/// differ from the same question the other way round. Refusal 1 if the texts of
/// either are too long together.
///
/// ```
/// use lin_host_rust::{boards, writer};
///
/// let [aces, both] = [b"md|1SAA|", b"md|1SAK|"].map(|text| boards::board(text).unwrap());
/// assert!(writer::same_board(&aces, &both)?);
/// assert!(!writer::same_board(&both, &aces)?);
/// # Ok::<(), lin_host_rust::Refusal>(())
/// ```
pub fn same_board(board: &Board, other: &Board) -> Result<bool, Refusal> {
    Gathered::from(board)
        .lent()
        .same(Gathered::from(other).lent())
}
