//! Documents 01 and 02 in plain Rust, written apart from the library and from
//! upstream: what is read, written, made and refused, over any bytes, any place,
//! any span and any output. A board stands in upstream's plain record, `LinData`;
//! of upstream's functions none is asked.

pub mod auction;
mod boards;
mod files;
pub mod names;
pub mod pbn;
mod reader;
mod records;
mod writer;

pub use boards::{equal, parse_lin};
pub use files::{parse_lin_file, visit};
pub use reader::read_board;
pub use records::made;
pub use writer::{clean, clean_name, implied_east, written};

use lin_host_rust::{
    boards::{LinBoard, LinText},
    tokens::{Part, Span, Step},
    Refusal, LIMIT,
};
use oracle::texts::WHITE;

/// The byte order mark.
pub const MARK: char = '\u{FEFF}';

/// Whether a byte order mark stands in these bytes.
pub fn has_mark(bytes: &[u8]) -> bool {
    bytes.windows(3).any(|three| three == [0xEF, 0xBB, 0xBF])
}

/// Opening a text: 0, or refusal 1 or 2.
pub fn open(text: &[u8]) -> Result<u64, Refusal> {
    if text.len() > LIMIT {
        return Err(Refusal::TextTooLong);
    }
    match std::str::from_utf8(text) {
        Ok(_) => Ok(0),
        Err(fault) => Err(Refusal::NotUtf8(fault.valid_up_to() as u64)),
    }
}

/// A board before its first token: North deals, and all else is 0.
pub fn fresh_board() -> LinBoard {
    let absent = LinText {
        present: 0,
        start: 0,
        len: 0,
    };
    LinBoard {
        names: [0; 8],
        dealer: 2,
        vulnerability: 0,
        title: absent,
        room_board: absent,
        board_header: absent,
        claimed: 0,
        claim: 0,
        counts: [0; 208],
    }
}

fn rest(text: &[u8], at: u64) -> &[u8] {
    let at = usize::try_from(at).unwrap_or(usize::MAX);
    text.get(at..).unwrap_or_default()
}

/// The step of a cursor at any place, over any bytes.
pub fn step(text: &[u8], at: u64) -> Step {
    let rest = rest(text, at);
    let mut pipes = (0..).zip(rest).filter(|(_, b)| **b == b'|');
    let (Some((first, _)), Some((second, _))) = (pipes.next(), pipes.next()) else {
        return Step {
            found: 0,
            command_start: 0,
            command_len: 0,
            value_start: 0,
            value_len: 0,
            next: at,
        };
    };
    Step {
        found: 1,
        command_start: at,
        command_len: first,
        value_start: at + first + 1,
        value_len: second - first - 1,
        next: at + second + 1,
    }
}

/// The remainder of a text from a place on; beyond the end, nothing at the end.
pub fn trailing(text: &[u8], at: u64) -> Part {
    Part {
        start: at.min(text.len() as u64),
        len: rest(text, at).len() as u64,
    }
}

/// Whether these bytes are one of the characters that are trimmed: white space
/// (document 01, Records) or the byte order mark (document 02, N2).
fn trimmed(bytes: &[u8]) -> bool {
    let mut all = std::str::from_utf8(bytes).unwrap_or_default().chars();
    let first = all.next().filter(|_| all.next().is_none());
    first.is_some_and(|c| WHITE.contains(&c) || c == MARK)
}

fn trim_start(mut bytes: &[u8]) -> &[u8] {
    while let Some(n) = (1..=bytes.len().min(3)).find(|n| trimmed(&bytes[..*n])) {
        bytes = &bytes[n..];
    }
    bytes
}

fn trim_end(mut bytes: &[u8]) -> &[u8] {
    let ends = |bytes: &[u8]| bytes.len().saturating_sub(3)..bytes.len();
    while let Some(n) = ends(bytes).find(|n| trimmed(&bytes[*n..])) {
        bytes = &bytes[..n];
    }
    bytes
}

/// Without white space and byte order marks at both ends, in any order and number.
/// (Document 01, Records; document 02, N2)
pub fn trim(bytes: &[u8]) -> &[u8] {
    trim_end(trim_start(bytes))
}

/// A token of a text.
#[derive(Debug, Clone, PartialEq, Eq)]
pub struct Token<'a> {
    /// Where its command begins.
    pub at: usize,
    /// The command as it stands.
    pub command: &'a [u8],
    /// The command as it is compared: trimmed, in lower case.
    pub name: Vec<u8>,
    /// The value.
    pub value: &'a [u8],
}

impl Token<'_> {
    /// Where the value begins.
    pub fn value_at(&self) -> usize {
        self.at + self.command.len() + 1
    }

    /// Where the next token begins.
    pub fn end(&self) -> usize {
        self.value_at() + self.value.len() + 1
    }
}

/// The tokens from a place on.
pub fn tokens(text: &[u8], mut at: u64) -> Vec<Token<'_>> {
    let mut all = Vec::new();
    loop {
        let found = step(text, at);
        if found.found == 0 {
            return all;
        }
        let part = |start, len| Part { start, len }.of(text);
        let command = part(found.command_start, found.command_len);
        all.push(Token {
            at: at as usize,
            command,
            name: trim(command).to_ascii_lowercase(),
            value: part(found.value_start, found.value_len),
        });
        at = found.next;
    }
}

/// A number: an optional `+`, then digits, 255 at most. (Document 01, Board, mc)
fn number(text: &[u8]) -> Option<u8> {
    let digits = text.strip_prefix(b"+").unwrap_or(text);
    if digits.is_empty() || !digits.iter().all(u8::is_ascii_digit) {
        return None;
    }
    let more = |n: u32, digit: &u8| (10 * n + u32::from(digit - b'0')).min(1_000);
    u8::try_from(digits.iter().fold(0, more)).ok()
}

/// A document of any rows written into any output.
pub fn write_document(
    text: &[u8],
    rows: &[u32],
    trailing: Span,
    out: &mut [u8],
) -> Result<u64, Refusal> {
    let spans = |row: &[u32]| [Span::new(row[0], row[1]), Span::new(row[2], row[3])];
    let rows: Vec<[Span; 2]> = rows.chunks_exact(4).map(spans).collect();
    let all = || rows.iter().flatten().chain([&trailing]);

    if text.len() > LIMIT {
        return Err(Refusal::TextTooLong);
    }
    if all().any(|s| u64::from(s.start) + u64::from(s.len) > text.len() as u64) {
        return Err(Refusal::SpanPastEnd);
    }
    if all().any(|s| std::str::from_utf8(s.of(text)).is_err()) {
        return Err(Refusal::SpanNotUtf8);
    }
    let needed = all().map(|s| u128::from(s.len)).sum::<u128>() + 2 * rows.len() as u128;
    if needed > out.len().min(LIMIT) as u128 {
        let told = u64::try_from(needed).unwrap_or(u64::MAX);
        return Err(Refusal::OutputTooSmall(told));
    }

    let mut written = Vec::new();
    for span in rows.iter().flatten() {
        written.extend(span.of(text));
        written.push(b'|');
    }
    written.extend(trailing.of(text));
    out[..written.len()].copy_from_slice(&written);
    Ok(written.len() as u64)
}
