//! Document 01's append and its plain book, in plain Rust: the refusals that
//! meet a call which is lent boards, and the settled form. The written form is that
//! of the module `expected`.

use crate::{
    expected::{self, Expected},
    model::{clean, clean_name, implied_east},
    upstream,
};
use lin_host_rust::{boards::ROW, tokens::Span, writer::Lent, Refusal, LIMIT};
use oracle::{
    bridge_types::Direction,
    lin::{BidWithAnnotation, LinData},
};

/// The first of the refusals 1, 8, 5 and 6 that meets a call, each over all
/// the boards that it is lent; `other` for another number out of its range.
pub fn refusal(lent: &[Lent], other: bool) -> Option<Refusal> {
    let any = |test: fn(&Lent) -> bool| lent.iter().any(test);
    if any(|l| l.text.len() > LIMIT) {
        Some(Refusal::TextTooLong)
    } else if other || any(out_of_range) {
        Some(Refusal::OutOfRange)
    } else if any(|l| spans(l).iter().any(|s| past_end(l.text, *s))) {
        Some(Refusal::SpanPastEnd)
    } else if any(|l| spans(l).iter().any(|s| not_utf8(l.text, *s))) {
        Some(Refusal::SpanNotUtf8)
    } else {
        None
    }
}

fn out_of_range(lent: &Lent) -> bool {
    let board = lent.board;
    let texts = [board.title, board.room_board, board.board_header];
    let flags = texts.map(|t| t.present);
    let rows = || lent.rows.chunks_exact(ROW);
    board.dealer > 3
        || board.vulnerability > 3
        || flags.iter().any(|f| *f > 1)
        || board.claimed > 1
        || board.claimed == 1 && board.claim > 255
        || lent.cards.iter().any(|c| *c > 51)
        || rows().any(|row| row[2] > 1 || row[3] > 1)
}

/// The spans that a board names.
fn spans(lent: &Lent) -> Vec<Span> {
    let board = lent.board;
    let names = board.names.chunks(2).map(|n| Span::new(n[0], n[1]));
    let texts = [board.title, board.room_board, board.board_header];
    let present = texts.into_iter().filter(|t| t.present != 0);
    let mut all: Vec<Span> = names
        .chain(present.map(|t| Span::new(t.start, t.len)))
        .collect();
    for row in lent.rows.chunks_exact(ROW) {
        all.push(Span::new(row[0], row[1]));
        if row[3] != 0 {
            all.push(Span::new(row[4], row[5]));
        }
    }
    all
}

fn past_end(text: &[u8], span: Span) -> bool {
    u64::from(span.start) + u64::from(span.len) > text.len() as u64
}

fn not_utf8(text: &[u8], span: Span) -> bool {
    std::str::from_utf8(span.of(text)).is_err()
}

/// An append in plain Rust.
pub fn append(lent: Lent, out: &mut [u8], used: u64) -> Expected<Result<u64, Refusal>> {
    let room = out.len().min(LIMIT);
    if let Some(refusal) = refusal(&[lent], used > room as u64) {
        return Ok(Err(refusal));
    }
    let written = expected::written(&upstream::data(lent))?;
    let after = used as usize + written.len();
    if after > room {
        return Ok(Err(Refusal::OutputTooSmall(written.len() as u64)));
    }
    out[used as usize..after].copy_from_slice(written.as_bytes());
    Ok(Ok(after as u64))
}

/// A board as it is read after it was written.
pub fn settled(board: &LinData) -> LinData {
    let cleaned = |text: &Option<String>| text.as_deref().map(clean);
    let filled = |text: &Option<String>| cleaned(text).filter(|t| !t.is_empty());
    let bid = |call: &BidWithAnnotation| {
        let bid = clean(&call.bid);
        BidWithAnnotation {
            alert: call.alert || bid.ends_with('!'),
            bid: bid.trim_end_matches('!').to_string(),
            annotation: cleaned(&call.annotation),
        }
    };
    let mut deal = board.deal.clone();
    if let Some(east) = implied_east(board) {
        deal.set_hand(Direction::East, east);
    }
    LinData {
        player_names: board.player_names.each_ref().map(|name| clean_name(name)),
        deal,
        title: filled(&board.title),
        room_board: filled(&board.room_board),
        board_header: cleaned(&board.board_header),
        auction: board.auction.iter().map(bid).collect(),
        ..board.clone()
    }
}

/// The bytes and the boards of the accepted calls.
#[derive(Debug, Clone)]
pub struct Log {
    room: usize,
    /// T: the written forms, one after another.
    pub bytes: Vec<u8>,
    /// L: the settled forms.
    pub boards: Vec<LinData>,
}

impl Log {
    /// For an output of so many bytes.
    pub fn new(len: usize) -> Log {
        Log {
            room: len.min(LIMIT),
            bytes: Vec::new(),
            boards: Vec::new(),
        }
    }

    /// Enters a call, or says which refusal meets it.
    pub fn enter(&mut self, lent: Lent) -> Expected<Result<u64, Refusal>> {
        if let Some(refusal) = refusal(&[lent], false) {
            return Ok(Err(refusal));
        }
        let board = upstream::data(lent);
        let written = expected::written(&board)?;
        if self.bytes.len() + written.len() > self.room {
            return Ok(Err(Refusal::OutputTooSmall(written.len() as u64)));
        }
        self.bytes.extend(written.as_bytes());
        self.boards.push(settled(&board));
        Ok(Ok(self.bytes.len() as u64))
    }
}
