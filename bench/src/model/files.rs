//! Files in plain Rust: the sections of any bytes, from any place, and the boards
//! of a text. (Document 01, File)

use super::{boards::from_tokens, rest, tokens, trim, Token};
use lin_host_rust::files::LinSection;
use oracle::lin::LinData;

/// The step of a board cursor of any numbers, over any bytes.
pub fn visit(text: &[u8], at: u64, number: u64, lines: u32) -> LinSection {
    let section = if lines == 0 {
        part(text, at)
    } else {
        line(text, at)
    };
    let Some((stop, board, next_at)) = section else {
        return LinSection {
            found: 0,
            number: 0,
            start: 0,
            stop: 0,
            board: 0,
            next_at: at,
            next_number: number,
        };
    };
    LinSection {
        found: 1,
        number,
        start: at,
        stop,
        board: board.into(),
        next_at,
        next_number: number.saturating_add(board.into()),
    }
}

/// Where the line at a place ends, whether it is a board, and the next place.
fn line(text: &[u8], at: u64) -> Option<(u64, bool, u64)> {
    if at > text.len() as u64 {
        return None;
    }
    let line = rest(text, at).split(|b| *b == b'\n').next()?;
    let stop = at + line.len() as u64;
    Some((stop, filled(line), stop + 1))
}

/// Whether a line is a board: whether trimming leaves anything of it.
fn filled(line: &[u8]) -> bool {
    !trim(line).is_empty()
}

/// The same of the part at a place.
fn part(text: &[u8], at: u64) -> Option<(u64, bool, u64)> {
    let all = tokens(text, at);
    let part = &all[..first_part(&all)];
    let stop = part.last()?.end() as u64;
    Some((stop, dealt(part), stop))
}

/// Whether a part is a board: whether one of its tokens is an md.
fn dealt(part: &[Token]) -> bool {
    part.iter().any(|token| token.name == b"md")
}

/// How many tokens there are before the next beginning: that of the first qx which,
/// moved back over the mn and pn tokens directly before it, is not the first token.
fn first_part(tokens: &[Token]) -> usize {
    let moved_back = |qx: usize| {
        let before = tokens[..qx].iter().rev();
        let led = before.take_while(|token| token.name == b"mn" || token.name == b"pn");
        qx - led.count()
    };
    let places = (0..tokens.len()).filter(|n| tokens[*n].name == b"qx");
    let mut beginnings = places.map(moved_back);
    beginnings.find(|begin| *begin > 0).unwrap_or(tokens.len())
}

/// The boards of the parts that these tokens make.
fn boards_of_parts(mut tokens: &[Token]) -> Vec<LinData> {
    let mut boards = Vec::new();
    while !tokens.is_empty() {
        let (part, rest) = tokens.split_at(first_part(tokens));
        boards.extend(dealt(part).then(|| from_tokens(part)));
        tokens = rest;
    }
    boards
}

/// The boards of a text: of its parts if it has a qx token, otherwise of its lines.
pub fn parse_lin_file(text: &str) -> Vec<LinData> {
    let text = text.as_bytes();
    let all = tokens(text, 0);
    if all.iter().any(|token| token.name == b"qx") {
        return boards_of_parts(&all);
    }
    let lines = text.split(|b| *b == b'\n').filter(|line| filled(line));
    lines.map(|line| from_tokens(&tokens(line, 0))).collect()
}
