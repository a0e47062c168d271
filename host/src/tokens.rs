//! Tokens: a cursor over a text, and the document writer.
//!
//! ```
//! use lin_host_rust::tokens::{self, Tokens};
//!
//! let mut all = Tokens::open(b"mb|1C|an|16+|\nx")?;
//! assert_eq!(all.next(), Some(("mb", "1C")));
//! assert_eq!(all.next(), Some(("an", "16+")));
//! assert_eq!(all.next(), None);
//! assert_eq!(all.trailing(), "\nx");
//!
//! let text = tokens::document(&[("mb", "1C"), ("an", "16+")], "\nx")?;
//! assert_eq!(text, "mb|1C|an|16+|\nx");
//! # Ok::<(), lin_host_rust::Refusal>(())
//! ```

use crate::{
    ffi,
    gathered::{fitted, gather, shown},
    Refusal,
};

pub use ffi::{LinPart as Part, LinStep as Step};

impl Part {
    /// This part of the text, or none if the text ends before.
    pub fn get(self, text: &[u8]) -> Option<&[u8]> {
        let start = usize::try_from(self.start).ok()?;
        let len = usize::try_from(self.len).ok()?;
        text.get(start..start.checked_add(len)?)
    }

    /// This part of the text.
    ///
    /// # Panics
    ///
    /// If the text ends before.
    pub fn of(self, text: &[u8]) -> &[u8] {
        self.get(text).expect("a part of this text")
    }
}

/// A part of a text in 32 bits, as the rows to write have it.
#[derive(Debug, Clone, Copy, PartialEq, Eq, Default)]
pub struct Span {
    /// The place of its first byte.
    pub start: u32,
    /// Its length in bytes.
    pub len: u32,
}

impl Span {
    /// The span of this start and this length.
    pub fn new(start: u32, len: u32) -> Span {
        Span { start, len }
    }

    /// This part of the text.
    ///
    /// # Panics
    ///
    /// If the text ends before.
    pub fn of(self, text: &[u8]) -> &[u8] {
        Part::from(self).of(text)
    }
}

impl From<Span> for Part {
    fn from(span: Span) -> Part {
        Part {
            start: span.start.into(),
            len: span.len.into(),
        }
    }
}

/// The parts of a text within the limit fit 32 bits.
impl TryFrom<Part> for Span {
    type Error = std::num::TryFromIntError;

    fn try_from(part: Part) -> Result<Span, Self::Error> {
        Ok(Span::new(part.start.try_into()?, part.len.try_into()?))
    }
}

/// The places of a token's two pieces.
#[derive(Debug, Clone, Copy, PartialEq, Eq)]
pub struct Token {
    /// The piece before the first pipe.
    pub command: Part,
    /// The piece between the pipes.
    pub value: Part,
}

/// A place in a text, handed back with each token.
#[derive(Debug, Clone, Copy, PartialEq, Eq)]
pub struct Cursor {
    at: u64,
}

impl Cursor {
    /// A cursor at the start of a text; refusals 1 and 2.
    pub fn open(text: &[u8]) -> Result<Cursor, Refusal> {
        // SAFETY: pointer and length are those of one slice.
        let answer = unsafe { ffi::lin_open(text.as_ptr(), text.len()) };
        Ok(Cursor { at: answer.read()? })
    }

    /// A cursor at any place. What it shows from there is bytes: it may stand
    /// within a character, and steps over any text.
    pub fn from_place(at: u64) -> Cursor {
        Cursor { at }
    }

    /// The place where it stands.
    pub fn place(self) -> u64 {
        self.at
    }

    /// The step as the export gives it.
    pub fn step(self, text: &[u8]) -> Step {
        // SAFETY: pointer and length are those of one slice.
        unsafe { ffi::lin_next(text.as_ptr(), text.len(), self.at) }
    }

    /// The cursor after the next token, and the token; the cursor as it was if
    /// there is none.
    pub fn next(self, text: &[u8]) -> (Cursor, Option<Token>) {
        let step = self.step(text);
        let token = Token {
            command: Part {
                start: step.command_start,
                len: step.command_len,
            },
            value: Part {
                start: step.value_start,
                len: step.value_len,
            },
        };
        (Cursor { at: step.next }, (step.found != 0).then_some(token))
    }

    /// The remainder of the text.
    pub fn trailing(self, text: &[u8]) -> Part {
        // SAFETY: pointer and length are those of one slice.
        unsafe { ffi::lin_trailing(text.as_ptr(), text.len(), self.at) }
    }
}

/// The tokens of a text, each a command and a value as they stand there. The
/// text was found to be UTF-8 when it was opened, and pipes cut no character.
#[derive(Debug, Clone)]
pub struct Tokens<'a> {
    text: &'a [u8],
    cursor: Cursor,
}

impl<'a> Tokens<'a> {
    /// From the start of a text; refusals 1 and 2.
    pub fn open(text: &'a [u8]) -> Result<Tokens<'a>, Refusal> {
        let cursor = Cursor::open(text)?;
        Ok(Tokens { text, cursor })
    }

    /// What follows the tokens that were given: after the last, the trailing
    /// text.
    ///
    /// # Panics
    ///
    /// If a character is cut, which no text that opens has.
    pub fn trailing(&self) -> &'a str {
        shown(self.cursor.trailing(self.text).of(self.text))
    }
}

impl<'a> Iterator for Tokens<'a> {
    type Item = (&'a str, &'a str);

    fn next(&mut self) -> Option<Self::Item> {
        let (next, token) = self.cursor.next(self.text);
        self.cursor = next;
        token.map(|token| {
            let piece = |part: Part| shown(part.of(self.text));
            (piece(token.command), piece(token.value))
        })
    }
}

impl std::iter::FusedIterator for Tokens<'_> {}

/// All tokens of a text, and what trails them.
pub fn tokens(text: &[u8]) -> Result<(Vec<Token>, Part), Refusal> {
    let mut cursor = Cursor::open(text)?;
    let mut all = Vec::new();
    loop {
        let (next, token) = cursor.next(text);
        let Some(token) = token else {
            return Ok((all, cursor.trailing(text)));
        };
        all.push(token);
        cursor = next;
    }
}

/// The rows of a document: four words each, the command's start and length and
/// the value's. Nothing if a place passes 32 bits.
pub fn rows(tokens: &[Token]) -> Option<Vec<u32>> {
    let mut words = Vec::with_capacity(4 * tokens.len());
    for token in tokens {
        for part in [token.command, token.value] {
            let span = Span::try_from(part).ok()?;
            words.extend([span.start, span.len]);
        }
    }
    Some(words)
}

/// Writes a document from the output's first byte and gives its length;
/// refusals 1, 5, 6 and 7. A rest of fewer than four words is no row.
pub fn write_document(
    text: &[u8],
    rows: &[u32],
    trailing: Span,
    out: &mut [u8],
) -> Result<u64, Refusal> {
    // SAFETY: each pointer and length are those of one slice, and `out`, being
    // borrowed alone, overlaps no other.
    let answer = unsafe {
        ffi::lin_write_document(
            text.as_ptr(),
            text.len(),
            rows.as_ptr(),
            rows.len(),
            trailing.start,
            trailing.len,
            out.as_mut_ptr(),
            out.len(),
        )
    };
    answer.read()
}

/// A document of commands and values and what trails them, as a text; refusal 1
/// if they are too long together, and 7 if the text is longer than any output
/// takes.
///
/// # Panics
///
/// If what was written is not UTF-8, which no document of such parts is.
pub fn document(pairs: &[(&str, &str)], trailing: &str) -> Result<String, Refusal> {
    let mut text = Vec::new();
    let mut rows = Vec::with_capacity(4 * pairs.len());
    for (command, value) in pairs {
        for part in [command, value] {
            let span = gather(&mut text, part);
            rows.extend([span.start, span.len]);
        }
    }
    let trailing = gather(&mut text, trailing);
    fitted(|out| write_document(&text, &rows, trailing, out))
}
