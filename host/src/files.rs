//! Files: how many boards, a board by its number, the name finder, and the
//! boards one after another.
//!
//! ```
//! use lin_host_rust::{files, Refusal};
//!
//! let text = b"pn|Ann|qx|o1|md|1|qx|o2|md|2|mb|p|";
//! assert_eq!(files::count_boards(text)?, 2);
//! assert_eq!(files::find_name(text, b"Ann")?, 1);
//! assert_eq!(files::file_board(text, 1)?.calls[0].bid, "p");
//! assert_eq!(files::file_heading(text, 2).err(), Some(Refusal::NoBoard(2)));
//!
//! let mut rooms = Vec::new();
//! for board in files::boards(text)? {
//!     rooms.push((board.number, board.heading()?.room_board.unwrap()));
//! }
//! assert_eq!(rooms, [(0, "o1"), (1, "o2")]);
//! # Ok::<(), Refusal>(())
//! ```

use crate::{
    boards::{self as board, flag, Board, Call, Card, Heading, LinHeading, ROW},
    ffi,
    gathered::shown,
    tokens::Part,
    Refusal, LIMIT,
};

pub use ffi::{LinBoards, LinRead, LinSection};

/// How many boards a file has; refusals 1 and 2.
pub fn count_boards(text: &[u8]) -> Result<u64, Refusal> {
    // SAFETY: pointer and length are those of one slice.
    unsafe { ffi::lin_count_boards(text.as_ptr(), text.len()) }.read()
}

/// The heading of a board as the export gives it.
pub fn file_heading_numbers(text: &[u8], number: u64) -> LinHeading {
    // SAFETY: pointer and length are those of one slice.
    unsafe { ffi::lin_file_heading(text.as_ptr(), text.len(), number) }
}

/// The heading of a board as the export gives it; rows and cards are filled as
/// by [`boards::parse_lin_numbers`](board::parse_lin_numbers).
pub fn file_board_numbers(
    text: &[u8],
    number: u64,
    rows: &mut [u32],
    cards: &mut [u8],
) -> LinHeading {
    // SAFETY: each pointer and length are those of one slice, and rows and
    // cards, being borrowed alone, overlap no other.
    unsafe {
        ffi::lin_file_board(
            text.as_ptr(),
            text.len(),
            number,
            rows.as_mut_ptr(),
            rows.len(),
            cards.as_mut_ptr(),
            cards.len(),
        )
    }
}

/// The heading of the board of a number; refusals 1, 2 and 4.
pub fn file_heading(text: &[u8], number: u64) -> Result<Heading<'_>, Refusal> {
    file_heading_numbers(text, number).read(text)
}

/// The heading, with the calls in the rows lent and the play in the cards lent;
/// refusals 1, 2, 4 and 3.
pub fn file_board_into<'a>(
    text: &'a [u8],
    number: u64,
    rows: &mut [u32],
    cards: &mut [u8],
) -> Result<Heading<'a>, Refusal> {
    file_board_numbers(text, number, rows, cards).read(text)
}

/// The board of a number; refusals 1, 2 and 4.
pub fn file_board(text: &[u8], number: u64) -> Result<Board<'_>, Refusal> {
    board::filled(text, file_heading(text, number)?, |rows, cards| {
        file_board_numbers(text, number, rows, cards)
    })
}

/// How many boards of a file have a name at any seat; refusals 1 and 2, each
/// of the file and then of the name.
///
/// An accent may be spelled in either way: two names are the same when they have the
/// same characters after these were mapped by Unicode's canonical mappings of U+00C0
/// to U+024F, U+0300 to U+036F and U+1E00 to U+1EFF, until none applies, and the marks
/// U+0300 to U+036F ordered by their combining class (document 02, N3). All else
/// counts: nothing is trimmed, and other letters and another case are another name. A
/// board counts once. The empty name is that of a seat without a name.
///
/// ```
/// use lin_host_rust::{files, Refusal};
///
/// let text = "pn|José|qx|o1|md|1|pn|Jose\u{301},Ann|qx|o2|md|2|".as_bytes();
/// assert_eq!(files::find_name(text, "José".as_bytes())?, 2);
/// assert_eq!(files::find_name(text, "Jose\u{301}".as_bytes())?, 2);
/// assert_eq!(files::find_name(text, b"Jose")?, 0);
/// # Ok::<(), Refusal>(())
/// ```
///
/// The call has work space of its own, with [`enough_places`]; to [`find_name_in`] it
/// is lent.
pub fn find_name(text: &[u8], name: &[u8]) -> Result<u64, Refusal> {
    let places = enough_places(text, name);
    // Not zeroed, which for a long file took half as long as the search.
    let mut work = Vec::<u32>::with_capacity(places);
    // SAFETY: each pointer and length are those of one slice, or within what the
    // list has reserved, which overlaps no other. The answer depends on how many
    // places there are and not on what they hold, and any bits are a place's.
    unsafe { found(text, name, work.as_mut_ptr(), places) }
}

/// The same in work space that is lent, of places of 32 bits; refusals 1 and 2, each
/// of the file and then of the name, and last 7, if the places are too few, with how
/// many are needed: one for each character that the sought name is mapped to, and one
/// for each of the name that is mapped to most among those of the file's boards.
///
/// After a refusal the places are as they were, and otherwise they hold anything.
/// With [`enough_places`] the file is walked once; with fewer it is walked for the
/// names' lengths before.
///
/// ```
/// use lin_host_rust::{files, Refusal};
///
/// let text = "pn|José,Åsa Öberg|md|1|".as_bytes();
/// let name = "Jose\u{301}".as_bytes();
/// // 5 characters, and 11 of Åsa Öberg
/// let few = files::find_name_in(text, name, &mut [0; 15]);
/// assert_eq!(few, Err(Refusal::OutputTooSmall(16)));
/// assert_eq!(files::find_name_in(text, name, &mut [0; 16])?, 1);
///
/// // the same places for one name after another
/// let mut work = vec![0; files::enough_places(text, name)];
/// for name in ["José", "Ann"] {
///     let found = files::find_name_in(text, name.as_bytes(), &mut work)?;
///     assert_eq!(found, u64::from(name == "José"));
/// }
/// # Ok::<(), Refusal>(())
/// ```
pub fn find_name_in(text: &[u8], name: &[u8], work: &mut [u32]) -> Result<u64, Refusal> {
    // SAFETY: each pointer and length are those of one slice, and the work space,
    // being borrowed alone, overlaps no other.
    unsafe { found(text, name, work.as_mut_ptr(), work.len()) }
}

/// How many places of work space are enough to find any name of as many bytes in any
/// file of as many: a text of n bytes is mapped to at most n + n / 2 characters. Of a
/// text longer than [`LIMIT`], which is refused by 1, no more than that many bytes
/// count.
pub fn enough_places(text: &[u8], name: &[u8]) -> usize {
    let bytes = text.len().min(LIMIT) + name.len().min(LIMIT);
    (3 * bytes).div_ceil(2)
}

/// The finder in work space of so many places.
///
/// # Safety
///
/// The pointer is aligned and valid for so many places, and these overlap neither
/// text.
unsafe fn found(text: &[u8], name: &[u8], work: *mut u32, places: usize) -> Result<u64, Refusal> {
    let (at, len) = (text.as_ptr(), text.len());
    // SAFETY: as above, and each text's pointer and length are those of one slice.
    unsafe { ffi::lin_find_name(at, len, name.as_ptr(), name.len(), work, places) }.read()
}

/// The cursor of a file's start as the export gives it.
pub fn open_boards_numbers(text: &[u8]) -> LinBoards {
    // SAFETY: pointer and length are those of one slice.
    unsafe { ffi::lin_open_boards(text.as_ptr(), text.len()) }
}

/// The step of a board cursor of any numbers as the export gives it; `lines` is
/// 0 for parts, and any other number for lines.
pub fn next_board_numbers(text: &[u8], at: u64, number: u64, lines: u32) -> LinSection {
    // SAFETY: pointer and length are those of one slice.
    unsafe { ffi::lin_next_board(text.as_ptr(), text.len(), at, number, lines) }
}

/// The step to the next board, of a board cursor of any numbers, as the export
/// gives it; `lines` is as for [`next_board_numbers`], and rows and cards are
/// filled as by [`boards::parse_lin_numbers`](board::parse_lin_numbers).
pub fn read_board_numbers(
    text: &[u8],
    at: u64,
    number: u64,
    lines: u32,
    rows: &mut [u32],
    cards: &mut [u8],
) -> LinRead {
    // SAFETY: each pointer and length are those of one slice, and rows and
    // cards, being borrowed alone, overlap no other.
    unsafe {
        ffi::lin_read_board(
            text.as_ptr(),
            text.len(),
            at,
            number,
            lines,
            rows.as_mut_ptr(),
            rows.len(),
            cards.as_mut_ptr(),
            cards.len(),
        )
    }
}

impl LinRead {
    /// The answer and the board as a heading has them; none if there is no
    /// board, at the end or refused.
    ///
    /// # Panics
    ///
    /// If `found` is neither 0 nor 1.
    pub fn heading(&self) -> Option<LinHeading> {
        flag(self.found).then_some(LinHeading {
            answer: self.answer,
            calls: self.calls,
            cards: self.cards,
            board: self.board,
        })
    }
}

/// What the sections of a file are.
#[derive(Debug, Clone, Copy, PartialEq, Eq)]
pub enum Sections {
    /// Parts about the qx tokens.
    Parts,
    /// Lines, where the file has no qx token.
    Lines,
}

/// A section of a file: one of its parts or lines.
#[derive(Debug, Clone, Copy, PartialEq, Eq)]
pub struct Section {
    /// Where it stands in the text.
    pub part: Part,
    /// The number of the board that it is, or none if it is no board.
    pub board: Option<u64>,
}

/// A place where a part or a line begins, and the number of the next board.
#[derive(Debug, Clone, Copy, PartialEq, Eq)]
pub struct BoardCursor {
    at: u64,
    number: u64,
    sections: Sections,
}

impl BoardCursor {
    /// A cursor at the start of a file; refusals 1 and 2.
    pub fn open(text: &[u8]) -> Result<BoardCursor, Refusal> {
        let opened = open_boards_numbers(text);
        assert_eq!(opened.answer.read()?, 0, "a value beside a cursor");
        let sections = match flag(opened.lines) {
            false => Sections::Parts,
            true => Sections::Lines,
        };
        Ok(BoardCursor::from_place(opened.at, opened.number, sections))
    }

    /// A cursor at any place, with any number for its next board. It steps over
    /// any bytes, and what it shows of them is bytes.
    pub fn from_place(at: u64, number: u64, sections: Sections) -> BoardCursor {
        BoardCursor {
            at,
            number,
            sections,
        }
    }

    /// The place where the next section begins, which may be beyond the text:
    /// after a last line that no LF ends it is one past the text's length, and a
    /// cursor from any place stands where it was put.
    ///
    /// ```
    /// use lin_host_rust::{files::BoardCursor, Refusal};
    ///
    /// let text = b"md|1|";
    /// let (after, _) = BoardCursor::open(text)?.next(text);
    /// assert_eq!((after.place(), text.get(6..)), (6, None));
    /// # Ok::<(), Refusal>(())
    /// ```
    pub fn place(self) -> u64 {
        self.at
    }

    /// The number of the next board.
    pub fn number(self) -> u64 {
        self.number
    }

    /// What the sections are.
    pub fn sections(self) -> Sections {
        self.sections
    }

    /// The cursor after the next section, and the section; the cursor as it was
    /// if there is none.
    pub fn next(self, text: &[u8]) -> (BoardCursor, Option<Section>) {
        let lines = self.sections as u32;
        let step = next_board_numbers(text, self.at, self.number, lines);
        let section = Section {
            part: Part {
                start: step.start,
                len: step.stop - step.start,
            },
            board: flag(step.board).then_some(step.number),
        };
        let after = BoardCursor::from_place(step.next_at, step.next_number, self.sections);
        (after, flag(step.found).then_some(section))
    }

    /// Goes on to the next board and reads it: the cursor after it, and the
    /// board; the cursor as it was if there is none. Sections that are no boards
    /// are passed. Refusal 1; 2 if the bytes from the cursor's place to the
    /// board's end, or to the text's end if there is no board, are not UTF-8,
    /// with the place up to which they are; 3 if the rows or the places are too
    /// few for this board.
    ///
    /// Nothing behind the board is looked at, so the first boards of a text are
    /// read although a later one is not UTF-8; and after a refusal the same step
    /// can be made again.
    ///
    /// ```
    /// use lin_host_rust::{
    ///     boards::ROW,
    ///     files::{BoardCursor, Sections},
    ///     Refusal, RowKind,
    /// };
    ///
    /// let text = b"qx|a|md|1|mb|p|qx|b|qx|c|md|2|mb|\xFF|";
    /// let first = BoardCursor::from_place(0, 0, Sections::Parts);
    /// let few = first.read(text, &mut [], &mut []).err();
    /// assert_eq!(few, Some(Refusal::TooFewRows(RowKind::Calls, 1)));
    ///
    /// let mut rows = [0; ROW];
    /// let (second, board) = first.read(text, &mut rows, &mut [])?;
    /// let board = board.unwrap();
    /// assert_eq!((board.number, board.part.of(text)), (0, &b"qx|a|md|1|mb|p|"[..]));
    /// assert_eq!(board.calls()[0].bid, "p");
    ///
    /// let ill = second.read(text, &mut rows, &mut []).err();
    /// assert_eq!(ill, Some(Refusal::NotUtf8(33)));
    /// # Ok::<(), Refusal>(())
    /// ```
    ///
    /// # Panics
    ///
    /// If a number of the answer has no meaning, or a text is not UTF-8: see
    /// [`LinHeading::read`].
    pub fn read<'a, 'r>(
        self,
        text: &'a [u8],
        rows: &'r mut [u32],
        cards: &'r mut [u8],
    ) -> Result<(BoardCursor, Option<BoardRead<'a, 'r>>), Refusal> {
        let lines = self.sections as u32;
        let read = read_board_numbers(text, self.at, self.number, lines, rows, cards);
        assert_eq!(read.answer.read()?, 0, "a value beside a step");
        let after = BoardCursor::from_place(read.next_at, read.next_number, self.sections);
        let Some(heading) = read.heading() else {
            return Ok((after, None));
        };
        let heading = heading.read(text)?;
        let board = BoardRead {
            number: read.number,
            whole: text,
            part: Part {
                start: read.start,
                len: read.stop - read.start,
            },
            heading,
            rows: &rows[..ROW * heading.calls],
            cards: &cards[..heading.cards],
        };
        Ok((after, Some(board)))
    }
}

/// A board of a file: its number, and its part of the caller's text.
#[derive(Debug, Clone, Copy, PartialEq, Eq)]
pub struct FileBoard<'a> {
    /// Its number, from 0 on.
    pub number: u64,
    /// The text of its part or line.
    pub text: &'a str,
}

impl<'a> FileBoard<'a> {
    /// The board without its calls and its play; refusal 1 if the text is too
    /// long, which none of [`Boards`] is.
    pub fn heading(self) -> Result<Heading<'a>, Refusal> {
        board::heading(self.text.as_bytes())
    }

    /// The whole board; refusal 1 as for the heading.
    pub fn board(self) -> Result<Board<'a>, Refusal> {
        board::board(self.text.as_bytes())
    }
}

/// The boards of a file, one after another: one pass over the text, however
/// many there are. The text was found to be UTF-8 when it was opened, and a
/// section cuts no character.
#[derive(Debug, Clone)]
pub struct Boards<'a> {
    text: &'a [u8],
    cursor: BoardCursor,
}

impl<'a> Boards<'a> {
    /// Refusals 1 and 2.
    pub fn open(text: &'a [u8]) -> Result<Boards<'a>, Refusal> {
        let cursor = BoardCursor::open(text)?;
        Ok(Boards { text, cursor })
    }
}

impl<'a> Iterator for Boards<'a> {
    type Item = FileBoard<'a>;

    fn next(&mut self) -> Option<FileBoard<'a>> {
        loop {
            let (after, section) = self.cursor.next(self.text);
            self.cursor = after;
            let section = section?;
            if let Some(number) = section.board {
                let text = shown(section.part.of(self.text));
                return Some(FileBoard { number, text });
            }
        }
    }
}

impl std::iter::FusedIterator for Boards<'_> {}

/// The boards of a file, one after another; refusals 1 and 2.
pub fn boards(text: &[u8]) -> Result<Boards<'_>, Refusal> {
    Boards::open(text)
}

/// The boards of a file read one after another, each found and read in one step.
/// Opening looks at the whole text, and the reader owns rows and places enough
/// for any board of it: no step is refused, and the boards come without a
/// `Result`. [`BoardCursor::read`] is for texts that were not looked at, and for
/// rows that are lent.
///
/// ```
/// use lin_host_rust::{files, Refusal};
///
/// let text = b"pn|Ann|qx|o1|md|1|mb|p|qx|o2|md|2|pc|SA|";
/// let mut reader = files::read_boards(text)?;
/// let (number, board) = reader.next().unwrap();
/// assert_eq!((number, board.calls[0].bid), (0, "p"));
/// assert_eq!(reader.map(|(_, b)| b.play.len()).sum::<usize>(), 1);
/// # Ok::<(), Refusal>(())
/// ```
#[derive(Debug, Clone)]
pub struct BoardReader<'a> {
    text: &'a [u8],
    cursor: BoardCursor,
    rows: Vec<u32>,
    cards: Vec<u8>,
}

/// A board as the rows and places that were lent hold it.
#[derive(Debug, Clone, Copy, PartialEq, Eq)]
pub struct BoardRead<'a, 'r> {
    /// The number that the cursor had for it: 0 for the first board of a cursor
    /// that was opened, and what [`BoardCursor::from_place`] was given for the
    /// first of another.
    pub number: u64,
    /// Where its section stands in the text.
    pub part: Part,
    /// All but its calls and its play.
    pub heading: Heading<'a>,
    whole: &'a [u8],
    rows: &'r [u32],
    cards: &'r [u8],
}

impl<'a, 'r> BoardRead<'a, 'r> {
    /// The text of its part or line.
    ///
    /// # Panics
    ///
    /// If it is not UTF-8, which that of no board read is.
    pub fn text(&self) -> &'a str {
        shown(self.part.of(self.whole))
    }

    /// The rows that were filled: six words for each call.
    pub fn rows(&self) -> &'r [u32] {
        self.rows
    }

    /// The places that were filled: a number for each card.
    pub fn cards(&self) -> &'r [u8] {
        self.cards
    }

    /// Its calls.
    ///
    /// # Panics
    ///
    /// As [`boards::calls`](board::calls), which no board read does.
    pub fn calls(&self) -> Vec<Call<'a>> {
        board::calls(self.whole, self.rows)
    }

    /// Its play.
    ///
    /// # Panics
    ///
    /// As [`boards::play`](board::play), which no board read does.
    pub fn play(&self) -> Vec<Card> {
        board::play(self.cards)
    }

    /// The whole board.
    ///
    /// # Panics
    ///
    /// As its calls and its play.
    pub fn board(&self) -> Board<'a> {
        Board::new(self.heading, self.calls(), self.play())
    }
}

impl<'a> BoardReader<'a> {
    /// Refusals 1 and 2.
    pub fn open(text: &'a [u8]) -> Result<BoardReader<'a>, Refusal> {
        let cursor = BoardCursor::open(text)?;
        // A call or a card takes four bytes at least.
        let most = text.len() / 4;
        Ok(BoardReader {
            text,
            cursor,
            rows: vec![0; ROW * most],
            cards: vec![0; most],
        })
    }

    /// The next board, with nothing copied.
    ///
    /// # Panics
    ///
    /// If it is refused, which no board of a text that opened is.
    pub fn read(&mut self) -> Option<BoardRead<'a, '_>> {
        let (rows, cards) = (&mut self.rows, &mut self.cards);
        let read = self.cursor.read(self.text, rows, cards);
        let (after, board) = read.expect("an opened text, and rows for any board");
        self.cursor = after;
        board
    }
}

impl<'a> Iterator for BoardReader<'a> {
    type Item = (u64, Board<'a>);

    fn next(&mut self) -> Option<(u64, Board<'a>)> {
        let read = self.read()?;
        Some((read.number, read.board()))
    }
}

impl std::iter::FusedIterator for BoardReader<'_> {}

/// The boards of a file read one after another; refusals 1 and 2.
pub fn read_boards(text: &[u8]) -> Result<BoardReader<'_>, Refusal> {
    BoardReader::open(text)
}
