//! From PBN in plain Rust: the refusals that meet a lent record or annotation,
//! the text of an annotation, and where the texts of the board that is made stand.

use super::{fresh_board, made, number};
use crate::upstream;
use lin_host_rust::{
    boards::{LinBoard, LinHeading, LinText, ROW},
    pbn::{Lent, LinConverted, NoteWords, GAP},
    tokens::Span,
    LinAnswer, Refusal, RowKind, LIMIT,
};
use oracle::lin::LinData;
use std::collections::BTreeMap;

/// The texts of the notes that are given, by number.
pub type NoteTexts<'a> = BTreeMap<u8, &'a str>;

/// The parts of a raw annotation.
fn parts(raw: &str) -> Vec<&str> {
    let mut all = Vec::new();
    let mut rest = raw;
    while let Some(first) = rest.chars().next() {
        let after = &rest[first.len_utf8()..];
        let run = |test: fn(char) -> bool| after.chars().take_while(|c| test(*c)).count();
        let more = match first {
            '=' => match after.split_once('=') {
                Some((within, _)) => within.len() + 1,
                None => after.len(),
            },
            '$' => run(|c| c.is_ascii_digit()),
            '!' | '?' => run(|c| c == '!' || c == '?'),
            _ => 0,
        };
        let (part, left) = rest.split_at(first.len_utf8() + more);
        all.push(part);
        rest = left;
    }
    all
}

/// The word of a part, empty where it goes.
fn word<'a>(part: &'a str, notes: &NoteTexts<'a>) -> &'a str {
    const MARKS: [&str; 6] = ["!", "?", "!!", "??", "!?", "?!"];
    match part.as_bytes() {
        [b'=', .., b'='] => {
            let within = &part[1..part.len() - 1];
            let note = number(within.as_bytes()).and_then(|n| notes.get(&n));
            note.copied().unwrap_or(part)
        }
        [b'!' | b'?', ..] => part,
        [b'$', n @ b'1'..=b'6'] => MARKS[usize::from(n - b'1')],
        _ => "",
    }
}

/// The text of a raw annotation, or none.
pub fn annotation_text(raw: &str, notes: &NoteTexts) -> Option<String> {
    let words = parts(raw).into_iter().map(|part| word(part, notes));
    let words: Vec<&str> = words.filter(|word| !word.is_empty()).collect();
    (!words.is_empty()).then(|| words.join(" "))
}

/// The places of the notes that are given.
fn note_spans(notes: &NoteWords) -> Vec<(u8, Span)> {
    let all = (0..=255).zip(notes.chunks_exact(3));
    let given = all.filter(|(_, note)| note[0] != 0);
    given
        .map(|(n, note)| (n, Span::new(note[1], note[2])))
        .collect()
}

/// The texts of the notes that are given, all of them UTF-8.
pub fn note_texts<'a>(text: &'a [u8], notes: &NoteWords) -> NoteTexts<'a> {
    let string = |span: Span| std::str::from_utf8(span.of(text)).expect("UTF-8");
    let all = note_spans(notes).into_iter();
    all.map(|(n, span)| (n, string(span))).collect()
}

/// The first of the refusals 5 and 6 that meets these spans.
pub(super) fn spans_refused(text: &[u8], spans: &[Span]) -> Option<Refusal> {
    let past = |s: &Span| u64::from(s.start) + u64::from(s.len) > text.len() as u64;
    if spans.iter().any(past) {
        return Some(Refusal::SpanPastEnd);
    }
    let ill = |s: &Span| std::str::from_utf8(s.of(text)).is_err();
    spans.iter().any(ill).then_some(Refusal::SpanNotUtf8)
}

/// The text of the raw annotation at a span, put into the output; its length,
/// or none, or the refusal.
pub fn annotation(
    text: &[u8],
    raw: Span,
    notes: &NoteWords,
    out: &mut [u8],
) -> Result<Option<u64>, Refusal> {
    if text.len() > LIMIT {
        return Err(Refusal::TextTooLong);
    }
    let mut spans: Vec<Span> = note_spans(notes).into_iter().map(|(_, s)| s).collect();
    spans.push(raw);
    if let Some(refusal) = spans_refused(text, &spans) {
        return Err(refusal);
    }
    let raw = std::str::from_utf8(raw.of(text)).expect("UTF-8");
    let Some(words) = annotation_text(raw, &note_texts(text, notes)) else {
        return Ok(None);
    };
    if words.len() > out.len().min(LIMIT) {
        return Err(Refusal::OutputTooSmall(words.len() as u64));
    }
    out[..words.len()].copy_from_slice(words.as_bytes());
    Ok(Some(words.len() as u64))
}

fn texts(lent: &Lent) -> [LinText; 7] {
    let b = lent.board;
    [b.south, b.west, b.north, b.east, b.event, b.date, b.id]
}

fn out_of_range(lent: &Lent) -> bool {
    let board = lent.board;
    let call = |row: &[u32]| {
        let bid = row[0] == 3 && !((1..=7).contains(&row[1]) && row[2] < 5);
        row[0] > 5 || bid || row[3] > 1
    };
    texts(lent).iter().any(|t| t.present > 1)
        || board.number_given > 1
        || board.number_given == 1 && !(1..=65_535).contains(&board.number)
        || board.dealer_given > 1
        || board.dealer_given == 1 && board.dealer > 3
        || board.vulnerability > 3
        || board.result_given > 1
        || lent.calls.chunks_exact(ROW).any(call)
        || lent.plays.iter().any(|c| *c > 51 && *c != GAP)
}

/// The spans that a record names: those of dropped calls and of unused notes
/// too.
fn spans(lent: &Lent) -> Vec<Span> {
    let given = texts(lent).into_iter().filter(|t| t.present != 0);
    let mut all: Vec<Span> = given.map(|t| Span::new(t.start, t.len)).collect();
    for row in lent.calls.chunks_exact(ROW).filter(|row| row[3] != 0) {
        all.push(Span::new(row[4], row[5]));
    }
    all.extend(note_spans(lent.notes).into_iter().map(|(_, s)| s));
    all
}

/// The first of the refusals 1, 8, 5 and 6 that meets a record.
pub fn refusal(lent: &Lent) -> Option<Refusal> {
    if lent.text.len() > LIMIT {
        return Some(Refusal::TextTooLong);
    }
    if out_of_range(lent) {
        return Some(Refusal::OutOfRange);
    }
    spans_refused(lent.text, &spans(lent))
}

/// Texts put back to back.
#[derive(Default)]
struct Laid(Vec<u8>);

impl Laid {
    fn put(&mut self, text: &str) -> [u32; 2] {
        let place = [self.0.len() as u32, text.len() as u32];
        self.0.extend(text.as_bytes());
        place
    }

    fn put_some(&mut self, text: &Option<String>) -> LinText {
        let [start, len] = text.as_ref().map_or([0, 0], |text| self.put(text));
        LinText {
            present: text.is_some().into(),
            start,
            len,
        }
    }
}

/// A board as the export gives it: the board, its rows and its texts.
pub struct Told {
    /// The board without its rows.
    pub board: LinBoard,
    /// Six words for each call.
    pub rows: Vec<u32>,
    /// A byte for each card of the play.
    pub cards: Vec<u8>,
    /// The texts, back to back.
    pub texts: Vec<u8>,
}

impl From<&LinData> for Told {
    /// The texts in document 01's order, from the first byte on.
    fn from(made: &LinData) -> Told {
        let mut laid = Laid::default();
        let names = [0, 1, 2, 3].map(|n| laid.put(&made.player_names[n]));
        let own = upstream::board(made).heading;
        let board = LinBoard {
            names: std::array::from_fn(|i| names[i / 2][i % 2]),
            dealer: own.dealer as u32,
            vulnerability: own.vulnerability as u32,
            title: laid.put_some(&made.title),
            room_board: laid.put_some(&made.room_board),
            board_header: laid.put_some(&made.board_header),
            claimed: own.claim.is_some().into(),
            claim: own.claim.unwrap_or(0).into(),
            counts: *own.deal.counts(),
        };
        let mut rows = Vec::new();
        for call in &made.auction {
            let bid = laid.put(&call.bid);
            let note = laid.put_some(&call.annotation);
            rows.extend(bid);
            rows.extend([call.alert.into(), note.present, note.start, note.len]);
        }
        Told {
            board,
            rows,
            cards: made
                .play
                .iter()
                .map(|c| upstream::card(c).number())
                .collect(),
            texts: laid.0,
        }
    }
}

/// What a refused call answers.
fn refused(refusal: Refusal) -> LinConverted {
    LinConverted {
        heading: LinHeading {
            answer: refusal.into(),
            calls: 0,
            cards: 0,
            board: fresh_board(),
        },
        len: 0,
    }
}

/// The answer to a record, and the output, the rows and the cards after it.
pub fn convert(lent: Lent, out: &mut [u8], rows: &mut [u32], cards: &mut [u8]) -> LinConverted {
    if let Some(refusal) = refusal(&lent) {
        return refused(refusal);
    }
    let told = Told::from(&made(&upstream::record(lent)));
    let calls = told.rows.len() / ROW;
    if rows.len() / ROW < calls {
        return refused(Refusal::TooFewRows(RowKind::Calls, calls as u64));
    }
    if cards.len() < told.cards.len() {
        return refused(Refusal::TooFewRows(RowKind::Cards, told.cards.len() as u64));
    }
    if told.texts.len() > out.len().min(LIMIT) {
        return refused(Refusal::OutputTooSmall(told.texts.len() as u64));
    }
    out[..told.texts.len()].copy_from_slice(&told.texts);
    rows[..told.rows.len()].copy_from_slice(&told.rows);
    cards[..told.cards.len()].copy_from_slice(&told.cards);
    LinConverted {
        heading: LinHeading {
            answer: LinAnswer {
                refusal: 0,
                kind: 0,
                value: 0,
            },
            calls: calls as u64,
            cards: told.cards.len() as u64,
            board: told.board,
        },
        len: told.texts.len() as u64,
    }
}
