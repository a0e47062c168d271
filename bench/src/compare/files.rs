//! The boards of a file against the expected ones, by number and through the
//! cursor; their count and the finder for their names; the cursor's step over sections
//! against the model.

use super::{
    boards::{fields_of, lent, refused_heading, refused_in_any},
    names::{among, name},
    reader::{reads, walk},
    same, Same,
};
use crate::{expected, model};
use lin_host_rust::{
    files::{self, Boards, LinBoards},
    Refusal,
};
use oracle::lin::LinData;

/// The file of these bytes as expected, or the refusal of opening them.
pub fn file(bytes: &[u8]) -> Same {
    if let Err(refusal) = model::open(bytes) {
        return refused(bytes, refusal);
    }
    let text = std::str::from_utf8(bytes).map_err(|e| e.to_string())?;
    let want = expected::file(text)?;
    let count = want.len() as u64;
    same("count", files::count_boards(bytes), Ok(count))?;
    for (number, board) in (0..).zip(&want) {
        by_number(bytes, number, board).map_err(|d| format!("board {number}: {d}"))?;
    }
    for number in [count, count + 1, count + (1 << 32), u64::MAX] {
        missing(bytes, number, Refusal::NoBoard(count))?;
    }
    through_cursor(bytes, &want)?;
    through_reader(bytes, &want)?;
    walked(bytes)?;
    names(bytes, &want)
}

fn by_number(bytes: &[u8], number: u64, want: &LinData) -> Same {
    let got = files::file_board(bytes, number).map_err(|r| format!("refused: {r:?}"))?;
    fields_of(&got, want)?;
    let heading = files::file_heading(bytes, number);
    same("heading", heading, Ok(got.heading))?;
    lent(
        bytes,
        &|rows, cards| files::file_board_numbers(bytes, number, rows, cards),
        &got,
    )
}

/// No board of this number: refused whatever is lent.
fn missing(bytes: &[u8], number: u64, refusal: Refusal) -> Same {
    refused_heading(bytes, files::file_heading_numbers(bytes, number), refusal)?;
    refused_in_any(
        bytes,
        &|rows, cards| files::file_board_numbers(bytes, number, rows, cards),
        refusal,
    )
}

fn through_cursor(bytes: &[u8], want: &[LinData]) -> Same {
    let mut boards = Boards::open(bytes).map_err(|r| format!("refused: {r:?}"))?;
    for (number, want) in (0..).zip(want) {
        let at = |d: String| format!("through the cursor, board {number}: {d}");
        let Some(next) = boards.next() else {
            return Err(at("none".to_string()));
        };
        same("number", next.number, number).map_err(at)?;
        let got = next.board().map_err(|r| at(format!("refused: {r:?}")))?;
        fields_of(&got, want).map_err(at)?;
        same("heading", next.heading(), Ok(got.heading)).map_err(at)?;
    }
    same("a board after the last", boards.next(), None)?;
    same("a board after the end", boards.next(), None)
}

/// The boards read by the cursor's step, in the reader's rows and places.
fn through_reader(bytes: &[u8], want: &[LinData]) -> Same {
    let mut boards = files::read_boards(bytes).map_err(|r| format!("refused: {r:?}"))?;
    for (number, want) in (0..).zip(want) {
        let at = |d: String| format!("read by the cursor, board {number}: {d}");
        let Some((next, got)) = boards.next() else {
            return Err(at("none".to_string()));
        };
        same("number", next, number).map_err(at)?;
        fields_of(&got, want).map_err(at)?;
    }
    let number = |board: (u64, _)| board.0;
    same("a board after the last", boards.next().map(number), None)?;
    same("a board after the end", boards.next().map(number), None)
}

/// A walk by the step that reads, over parts and over lines, whichever the file
/// has. The model reads a text once for each section: long texts have no walk.
fn walked(bytes: &[u8]) -> Same {
    if bytes.len() > 10_000 {
        return Ok(());
    }
    walk(bytes, 0)?;
    walk(bytes, 1)
}

/// The finder for the first names of the file, for names beside them, for the same
/// taken apart, and for one that is no text.
fn names(bytes: &[u8], want: &[LinData]) -> Same {
    let first = want.iter().take(8).flat_map(|b| &b.player_names);
    let apart = |n: &str| String::from_iter(model::names::mapped(n));
    let beside = first.flat_map(|n| [n.clone(), format!("{n} "), n.to_uppercase(), apart(n)]);
    let mut all: Vec<String> = beside.chain(["".to_string()]).collect();
    all.sort();
    all.dedup();
    let all = all.iter().map(String::as_bytes);
    among(bytes, want, all.chain([&b"a\xFF"[..]]))
}

fn refused(bytes: &[u8], refusal: Refusal) -> Same {
    same("count", files::count_boards(bytes), Err(refusal))?;
    same("board", files::file_board(bytes, 0).err(), Some(refusal))?;
    missing(bytes, 0, refusal)?;
    missing(bytes, u64::MAX, refusal)?;
    name(bytes, b"")?;
    let LinBoards {
        answer,
        at,
        number,
        lines,
    } = files::open_boards_numbers(bytes);
    same("boards", answer.read(), Err(refusal))?;
    same("cursor refused", (at, number, lines), (0, 0, 0))?;
    walked(bytes)
}

/// The board cursor's step from one place, as the model has it; any number but
/// 0 is for lines.
pub fn visit(bytes: &[u8], at: u64, number: u64) -> Same {
    for lines in [0, 1, 2, u32::MAX] {
        let want = model::visit(bytes, at, number, lines);
        let got = files::next_board_numbers(bytes, at, number, lines);
        same(&format!("step of {at}, {number}, {lines}"), got, want)?;
    }
    Ok(())
}

/// Steps from every place of these bytes, and from places beyond them.
pub fn visits(bytes: &[u8]) -> Same {
    let n = bytes.len() as u64;
    let beyond = [1 << 32, (1 << 32) + 1, 1 << 63, u64::MAX - 1, u64::MAX];
    for at in (0..=n + 3).chain(beyond) {
        visit(bytes, at, at)?;
        reads(bytes, at, at)?;
    }
    (0..=n).try_for_each(|at| visit(bytes, at, u64::MAX))
}
