//! Comparisons of the exports with upstream and the model, by the rule of the module
//! `expected`. Each gives what differs.

mod auction;
mod boards;
mod files;
mod guards;
mod names;
mod pbn;
mod reader;
mod writer;

pub use auction::{auction, bids};
pub use boards::{board, fields_of, read, same_boards};
pub use files::{file, visit, visits};
pub use names::{name, name_in, names};
pub use pbn::{annotation, annotations, converted, record, Sizes};
pub use reader::{read_board, reads, walk, Standing};
pub use writer::{append, appends, equality, play_text, written};

use crate::{expected, model};
use guards::held;
use lin_host_rust::{
    tokens::{self, Cursor, Span},
    Refusal,
};
use std::fmt::Debug;

/// Nothing, or what differs.
pub type Same = Result<(), String>;

/// Whether both are the same.
pub fn same<T: PartialEq + Debug>(what: &str, got: T, want: T) -> Same {
    if got == want {
        return Ok(());
    }
    Err(format!("{what}: {got:?}, not {want:?}"))
}

/// Tokens and trailing text as expected; written back, the text again, in an
/// output that just fits, and in none that is smaller.
pub fn text(text: &str) -> Same {
    let bytes = text.as_bytes();
    let (got, trailing) = tokens::tokens(bytes).map_err(|r| format!("refused: {r:?}"))?;
    let pairs = expected::tokens(text)?;
    let (want, rest) = &pairs;
    same("tokens", got.len(), want.len())?;
    for (k, (token, (command, value))) in got.iter().zip(want).enumerate() {
        let what = format!("token {k}");
        same(&what, token.command.of(bytes), command.as_bytes())?;
        same(&what, token.value.of(bytes), value.as_bytes())?;
    }
    same("trailing", trailing.of(bytes), rest.as_bytes())?;
    expected::document(&pairs, text)?;

    let rows = tokens::rows(&got).ok_or("a place passes 32 bits")?;
    let span = Span::try_from(trailing).map_err(|e| e.to_string())?;
    let len = bytes.len() as u64;
    let mut out = guards::bytes("written", &held(bytes.len()));
    let got = tokens::write_document(bytes, &rows, span, out.lent());
    same("length", got, Ok(len))?;
    out.holds(bytes)?;
    if let Some(less) = bytes.len().checked_sub(1) {
        let before = held(less);
        let mut out = guards::bytes("a byte less", &before);
        let got = tokens::write_document(bytes, &rows, span, out.lent());
        same("a byte less", got, Err(Refusal::OutputTooSmall(len)))?;
        out.holds(&before)?;
    }
    Ok(())
}

/// Opening as the model has it.
pub fn open(bytes: &[u8]) -> Same {
    let got = Cursor::open(bytes).map(Cursor::place);
    same("open", got, model::open(bytes))?;
    match got {
        Err(Refusal::NotUtf8(n)) => same("start", n, oracle::well_formed(bytes) as u64),
        _ => Ok(()),
    }
}

/// The step and the remainder from one place, as the model has them.
pub fn step(bytes: &[u8], at: u64) -> Same {
    let cursor = Cursor::from_place(at);
    let got = cursor.step(bytes);
    same(&format!("step from {at}"), got, model::step(bytes, at))?;
    same(
        &format!("remainder from {at}"),
        cursor.trailing(bytes),
        model::trailing(bytes, at),
    )
}

/// Steps from every place of these bytes, and from places beyond them.
pub fn steps(bytes: &[u8]) -> Same {
    let n = bytes.len() as u64;
    let beyond = [1 << 32, (1 << 32) + 1, 1 << 63, u64::MAX - 1, u64::MAX];
    (0..=n + 3).chain(beyond).try_for_each(|at| step(bytes, at))
}

/// A document of any rows into an output of `len` bytes: answer and output as
/// the model has them, and what is accepted as expected.
pub fn document(text: &[u8], rows: &[u32], trailing: Span, len: usize) -> Same {
    let mut want = held(len);
    let mut out = guards::bytes("output", &want);
    let answer = tokens::write_document(text, rows, trailing, out.lent());
    let wanted = model::write_document(text, rows, trailing, &mut want);
    same("answer", answer, wanted)?;
    out.holds(&want)?;
    let Ok(n) = wanted else {
        return Ok(());
    };
    let string = |bytes: &[u8]| String::from_utf8(bytes.to_vec()).map_err(|e| e.to_string());
    let part = |start, len| string(Span::new(start, len).of(text));
    let mut pairs = Vec::new();
    for row in rows.chunks_exact(4) {
        pairs.push((part(row[0], row[1])?, part(row[2], row[3])?));
    }
    let pairs = (pairs, part(trailing.start, trailing.len)?);
    expected::document(&pairs, &string(&want[..n as usize])?)
}
