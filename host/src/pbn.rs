//! From PBN: boards made of records, and raw annotations as text.
//!
//! ```
//! use lin_host_rust::{
//!     boards::{Card, Rank, Seat, Suit},
//!     pbn::{self, Bid, Call, Record, Strain},
//! };
//!
//! let ace = Card::of(Suit::Spades, Rank::Ace);
//! let opening = Call {
//!     bid: Bid::Level(1, Strain::NoTrump),
//!     annotation: Some("=1=$2"),
//! };
//! let mut record = Record {
//!     names: [None, None, Some("José"), None],
//!     event: Some("Cup"),
//!     date: Some("2026.09.14"),
//!     number: Some(6),
//!     calls: vec![opening, Bid::Pass.into(), Bid::Continue.into()],
//!     notes: [(1, "15 to 17")].into(),
//!     play: vec![None, Some(ace)],
//!     result: Some(9),
//!     ..Record::default()
//! };
//! record.deal.add(Seat::South, ace);
//!
//! let made = pbn::from_board(&record)?;
//! let board = made.board();
//! assert_eq!(board.heading.name(Seat::North), "José");
//! assert_eq!(board.heading.title, Some("Cup - 2026.09.14"));
//! assert_eq!(board.heading.room_board, Some("o6,BOARD 6"));
//! assert_eq!(board.heading.dealer, Seat::East);
//! assert_eq!(board.heading.claim, Some(9));
//! assert_eq!(board.calls[0].bid, "1N");
//! assert_eq!(board.calls[0].annotation, Some("15 to 17 ?"));
//! assert_eq!((board.calls.len(), board.play), (2, vec![ace]));
//! # Ok::<(), lin_host_rust::Refusal>(())
//! ```

use crate::{
    boards::{self, flag, Board, Card, Deal, LinText, Seat, Vulnerability, ROW},
    ffi,
    gathered::{gather_some, shown, written},
    tokens::Span,
    Refusal, LIMIT,
};
use std::collections::BTreeMap;

pub use ffi::{LinAnnotation, LinConverted, LinPbn};

/// The words of the notes: three for each of the 256 numbers, the first 0 if it
/// is absent, then the start and the length.
pub type NoteWords = [u32; 768];

/// The raw byte for an entry of the play that is a gap.
pub const GAP: u8 = 255;

/// The strain of a bid.
#[derive(Debug, Clone, Copy, PartialEq, Eq)]
pub enum Strain {
    /// Clubs, C.
    Clubs,
    /// Diamonds, D.
    Diamonds,
    /// Hearts, H.
    Hearts,
    /// Spades, S.
    Spades,
    /// Notrump, N.
    NoTrump,
}

impl Strain {
    /// The strains by their numbers, 0 to 4.
    pub const ALL: [Strain; 5] = [
        Strain::Clubs,
        Strain::Diamonds,
        Strain::Hearts,
        Strain::Spades,
        Strain::NoTrump,
    ];
}

/// What a call of a record says. The last two are dropped.
#[derive(Debug, Clone, Copy, PartialEq, Eq)]
pub enum Bid {
    /// A pass.
    Pass,
    /// A double.
    Double,
    /// A redouble.
    Redouble,
    /// A level of 1 to 7 with its strain; any other level is refused by 8.
    Level(u8, Strain),
    /// The auction is continued elsewhere.
    Continue,
    /// A call that was left out.
    Blank,
}

/// A call of a record, with its raw annotation.
#[derive(Debug, Clone, Copy, PartialEq, Eq)]
pub struct Call<'a> {
    /// What the call says.
    pub bid: Bid,
    /// Its raw annotation, with marks and the numbers of notes.
    pub annotation: Option<&'a str>,
}

impl From<Bid> for Call<'_> {
    /// The call without an annotation.
    fn from(bid: Bid) -> Self {
        Call {
            bid,
            annotation: None,
        }
    }
}

/// The texts of the notes that are given, by their number.
pub type Notes<'a> = BTreeMap<u8, &'a str>;

/// A PBN record. The default has nothing: no text, no number, no card, none
/// vulnerable.
#[derive(Debug, Clone, PartialEq, Eq)]
pub struct Record<'a> {
    /// The names of S, W, N, E.
    pub names: [Option<&'a str>; 4],
    /// The event.
    pub event: Option<&'a str>,
    /// The date.
    pub date: Option<&'a str>,
    /// The board's id.
    pub id: Option<&'a str>,
    /// The board's number, 1 to 65,535; any other is refused by 8.
    pub number: Option<u32>,
    /// Who deals, if that is given.
    pub dealer: Option<Seat>,
    /// The hands.
    pub deal: Deal,
    /// Which sides are vulnerable.
    pub vulnerability: Vulnerability,
    /// The auction.
    pub calls: Vec<Call<'a>>,
    /// The notes that annotations name.
    pub notes: Notes<'a>,
    /// The cards in the order of play, none for a gap.
    pub play: Vec<Option<Card>>,
    /// The tricks won; outside 0 to 255 they give no claim.
    pub result: Option<i32>,
}

impl Default for Record<'_> {
    fn default() -> Self {
        Record {
            names: [None; 4],
            event: None,
            date: None,
            id: None,
            number: None,
            dealer: None,
            deal: Deal::new(),
            vulnerability: Vulnerability::None,
            calls: Vec::new(),
            notes: Notes::new(),
            play: Vec::new(),
            result: None,
        }
    }
}

/// A record as the export is lent it: a text, and what stands in it by spans.
/// Its numbers are raw: any are taken, and those out of range are refused.
#[derive(Debug, Clone, Copy, PartialEq, Eq)]
pub struct Lent<'a> {
    /// The text.
    pub text: &'a [u8],
    /// All but the calls, the play and the notes.
    pub board: LinPbn,
    /// Six words for each call: kind, level, strain, annotated, and the raw
    /// annotation's start and length; a rest of fewer is no call.
    pub calls: &'a [u32],
    /// A byte for each entry of the play, a card or [`GAP`].
    pub plays: &'a [u8],
    /// The notes.
    pub notes: &'a NoteWords,
}

impl Lent<'_> {
    /// The answer of the export. The texts go into the output, the calls into
    /// the rows and the play into the cards.
    pub fn convert_numbers(
        self,
        out: &mut [u8],
        rows: &mut [u32],
        cards: &mut [u8],
    ) -> LinConverted {
        // SAFETY: each pointer and length are those of one slice, the notes are
        // one array, and `out`, `rows` and `cards`, each being borrowed alone,
        // overlap no other.
        unsafe {
            ffi::lin_from_board(
                self.text.as_ptr(),
                self.text.len(),
                self.board,
                self.calls.as_ptr(),
                self.calls.len(),
                self.plays.as_ptr(),
                self.plays.len(),
                self.notes,
                out.as_mut_ptr(),
                out.len(),
                rows.as_mut_ptr(),
                rows.len(),
                cards.as_mut_ptr(),
                cards.len(),
            )
        }
    }
}

/// A record with its texts gathered into one.
#[derive(Debug, Clone, PartialEq, Eq)]
pub struct Gathered {
    /// The texts, back to back.
    pub text: Vec<u8>,
    /// The record with its places in them.
    pub board: LinPbn,
    /// Six words for each call.
    pub calls: Vec<u32>,
    /// A byte for each entry of the play.
    pub plays: Vec<u8>,
    /// Three words for each note.
    pub notes: Box<NoteWords>,
}

impl Gathered {
    /// What is lent to the export.
    pub fn lent(&self) -> Lent<'_> {
        Lent {
            text: &self.text,
            board: self.board,
            calls: &self.calls,
            plays: &self.plays,
            notes: &self.notes,
        }
    }
}

fn gather_call(text: &mut Vec<u8>, call: &Call) -> [u32; ROW] {
    let [kind, level, strain] = match call.bid {
        Bid::Pass => [0, 0, 0],
        Bid::Double => [1, 0, 0],
        Bid::Redouble => [2, 0, 0],
        Bid::Level(level, strain) => [3, level.into(), strain as u32],
        Bid::Continue => [4, 0, 0],
        Bid::Blank => [5, 0, 0],
    };
    let raw = gather_some(text, call.annotation);
    [kind, level, strain, raw.present, raw.start, raw.len]
}

/// Puts the texts of the notes at the end of the text.
fn gather_notes(text: &mut Vec<u8>, notes: &Notes) -> Box<NoteWords> {
    let mut words = Box::new([0; 768]);
    for (number, note) in notes {
        let LinText {
            present,
            start,
            len,
        } = gather_some(text, Some(note));
        let at = 3 * usize::from(*number);
        words[at..at + 3].copy_from_slice(&[present, start, len]);
    }
    words
}

impl From<&Record<'_>> for Gathered {
    fn from(from: &Record) -> Gathered {
        let mut text = Vec::new();
        let [south, west, north, east] = from.names.map(|name| gather_some(&mut text, name));
        let board = LinPbn {
            south,
            west,
            north,
            east,
            event: gather_some(&mut text, from.event),
            date: gather_some(&mut text, from.date),
            id: gather_some(&mut text, from.id),
            number_given: from.number.is_some().into(),
            number: from.number.unwrap_or(0),
            dealer_given: from.dealer.is_some().into(),
            dealer: from.dealer.map_or(0, |seat| seat as u32),
            vulnerability: from.vulnerability as u32,
            result_given: from.result.is_some().into(),
            result: from.result.unwrap_or(0),
            counts: *from.deal.counts(),
        };
        let calls = from.calls.iter();
        let calls = calls
            .flat_map(|call| gather_call(&mut text, call))
            .collect();
        let notes = gather_notes(&mut text, &from.notes);
        let entry = |card: &Option<Card>| card.map_or(GAP, |card| card.number());
        Gathered {
            text,
            board,
            calls,
            plays: from.play.iter().map(entry).collect(),
            notes,
        }
    }
}

/// A board made of a record, with the texts that it names.
#[derive(Debug, Clone, PartialEq, Eq)]
pub struct Made {
    texts: Vec<u8>,
    answer: LinConverted,
    rows: Vec<u32>,
    cards: Vec<u8>,
}

impl Made {
    /// The board, its texts being parts of those held here.
    ///
    /// # Panics
    ///
    /// If a number has no meaning or a text is not UTF-8: see
    /// [`LinHeading::read`](boards::LinHeading::read).
    pub fn board(&self) -> Board<'_> {
        let heading = self.answer.heading.read(&self.texts).expect("accepted");
        Board {
            heading,
            calls: boards::calls(&self.texts, &self.rows[..ROW * heading.calls]),
            play: boards::play(&self.cards[..heading.cards]),
        }
    }

    /// All texts, back to back: the names, title, room and board, header, then
    /// the bid and the annotation of each call. All of them are UTF-8.
    ///
    /// # Panics
    ///
    /// If they are not UTF-8.
    pub fn texts(&self) -> &str {
        shown(&self.texts)
    }
}

/// The board of a record; refusal 1 if its texts together are too long, 8 for a
/// level or a number outside its range, and 7 if the texts made are longer than
/// any output takes.
///
/// ```
/// use lin_host_rust::{pbn::{self, Record}, writer, Refusal};
///
/// let record = Record { id: Some("12"), number: Some(3), ..Record::default() };
/// let made = pbn::from_board(&record)?;
/// assert_eq!(made.texts(), "o12,BOARD 12Board 12");
/// let text = writer::write_lin(&made.board())?;
/// assert!(text.starts_with("mn||pn|,,,|qx|o12,BOARD 12|rh||ah|Board 12|md|1,,,|"));
///
/// let record = Record { number: Some(65_536), ..Record::default() };
/// assert_eq!(pbn::from_board(&record).err(), Some(Refusal::OutOfRange));
/// # Ok::<(), Refusal>(())
/// ```
///
/// # Panics
///
/// If the answer is none that document 01 has.
pub fn from_board(record: &Record) -> Result<Made, Refusal> {
    let lent = Gathered::from(record);
    let lent = lent.lent();
    let mut rows = vec![0; lent.calls.len()];
    let mut cards = vec![0; lent.plays.len()];
    let mut texts = Vec::new();
    let mut answer = lent.convert_numbers(&mut texts, &mut rows, &mut cards);
    if let Err(Refusal::OutputTooSmall(needed)) = answer.heading.answer.read() {
        texts = vec![0; usize::try_from(needed).map_or(LIMIT, |n| n.min(LIMIT))];
        answer = lent.convert_numbers(&mut texts, &mut rows, &mut cards);
    }
    answer.heading.answer.read()?;
    assert_eq!(answer.len, texts.len() as u64, "the bytes that were needed");
    Ok(Made {
        texts,
        answer,
        rows,
        cards,
    })
}

/// The answer of the export that writes the text of a raw annotation. Spans and
/// words are raw: any are taken, and those out of range are refused.
pub fn annotation_numbers(
    text: &[u8],
    raw: Span,
    notes: &NoteWords,
    out: &mut [u8],
) -> LinAnnotation {
    // SAFETY: each pointer and length are those of one slice, the notes are one
    // array, and `out`, being borrowed alone, overlaps no other.
    unsafe {
        ffi::lin_annotation_text(
            text.as_ptr(),
            text.len(),
            raw.start,
            raw.len,
            notes,
            out.as_mut_ptr(),
            out.len(),
        )
    }
}

impl LinAnnotation {
    /// The length of the text, or none, or the refusal.
    ///
    /// # Panics
    ///
    /// If the numbers have no meaning: see
    /// [`LinAnswer::read`](crate::LinAnswer::read).
    pub fn read(self) -> Result<Option<u64>, Refusal> {
        let len = self.answer.read()?;
        assert!(flag(self.present) || len == 0, "neither a text nor none");
        Ok(flag(self.present).then_some(len))
    }
}

/// The text of a raw annotation, not cleaned, or none where no part of it has a
/// word; refusal 1 if it is too long together with the notes, and 7 if the text
/// is longer than any output takes.
///
/// ```
/// use lin_host_rust::pbn::{self, Notes};
///
/// let notes: Notes = [(1, "weak")].into();
/// assert_eq!(pbn::annotation_text("=1=$2z", &notes)?.as_deref(), Some("weak ?"));
/// assert_eq!(pbn::annotation_text("=2=!?", &notes)?.as_deref(), Some("=2= !?"));
/// assert_eq!(pbn::annotation_text("=1 z", &notes)?, None);
/// # Ok::<(), lin_host_rust::Refusal>(())
/// ```
///
/// # Panics
///
/// If what was written is not UTF-8, which no such text is.
pub fn annotation_text(raw: &str, notes: &Notes) -> Result<Option<String>, Refusal> {
    let mut text = Vec::new();
    let LinText { start, len, .. } = gather_some(&mut text, Some(raw));
    let notes = gather_notes(&mut text, notes);
    let write = |out: &mut [u8]| annotation_numbers(&text, Span::new(start, len), &notes, out);
    let needed = match write(&mut []).read() {
        Err(Refusal::OutputTooSmall(needed)) => needed,
        Ok(None) => return Ok(None),
        told => return Err(told.expect_err("a text of no byte")),
    };
    let mut out = vec![0; usize::try_from(needed).map_or(LIMIT, |n| n.min(LIMIT))];
    write(&mut out).read()?;
    Ok(Some(written(out)))
}
