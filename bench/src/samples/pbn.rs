//! What is lent for a PBN record or a raw annotation: texts anywhere in one
//! text, about one record in three with byte order marks, at times with faults.

use super::{
    lent::{any_words, junk, place},
    marks,
};
use crate::upstream;
use lin_host_rust::{
    boards::{LinText, ROW},
    pbn::{Gathered, LinPbn, NoteWords},
    tokens::Span,
    LIMIT,
};
use oracle::{
    annotation::mixed::{some_notes, some_piece},
    built,
    pbn::{mixed::some_record, Record},
    random::Rng,
    texts,
};

/// A record by chance, few of them with many calls and a long play.
pub fn record(rng: &mut Rng) -> Record {
    let record = match rng.below(24) {
        0 => some_record(rng, 60, 60),
        1 => some_record(rng, 12, 20),
        _ => some_record(rng, 4, 6),
    };
    marks::record(rng, record)
}

fn texts_of(board: &mut LinPbn) -> [&mut LinText; 7] {
    [
        &mut board.south,
        &mut board.west,
        &mut board.north,
        &mut board.east,
        &mut board.event,
        &mut board.date,
        &mut board.id,
    ]
}

/// A record with its texts anywhere in one text; what is not looked at holds
/// any words.
pub fn scattered(rng: &mut Rng, record: &Record) -> Gathered {
    let Gathered {
        text: dense,
        mut board,
        mut calls,
        plays,
        mut notes,
    } = Gathered::from(&upstream::pbn_record(record));
    let mut text = junk(rng);
    let mut moved = |rng: &mut Rng, start: &mut u32, len: &mut u32, there: bool| {
        if there {
            *start = place(rng, &mut text, Span::new(*start, *len).of(&dense));
        } else {
            [*start, *len] = any_words(rng);
        }
    };
    for row in calls.chunks_exact_mut(ROW) {
        let [kind, level, strain, annotated, start, len] = row else {
            unreachable!("six words");
        };
        moved(rng, start, len, *annotated == 1);
        if *kind != 3 {
            [*level, *strain] = any_words(rng);
        }
    }
    for t in texts_of(&mut board) {
        moved(rng, &mut t.start, &mut t.len, t.present == 1);
    }
    for note in notes.chunks_exact_mut(3) {
        let [present, start, len] = note else {
            unreachable!("three words");
        };
        moved(rng, start, len, *present == 1);
        if *present == 1 && rng.once_in(8) {
            *present = *rng.pick(&[2, 256, u32::MAX]);
        }
    }
    ungiven(rng, &mut board);
    if rng.once_in(4) {
        // a rest that is no call
        calls.extend((0..1 + rng.below(5)).map(|_| u32::MAX));
    }
    text.extend(junk(rng));
    Gathered {
        text,
        board,
        calls,
        plays,
        notes,
    }
}

/// Any words where the number, the dealer or the result is not given.
fn ungiven(rng: &mut Rng, board: &mut LinPbn) {
    let [a, b] = any_words(rng);
    if board.number_given == 0 {
        board.number = a;
    }
    if board.dealer_given == 0 {
        board.dealer = b;
    }
    if board.result_given == 0 {
        board.result = a as i32;
    }
}

/// Puts one fault in, or what looks like one.
pub fn fault(rng: &mut Rng, lent: &mut Gathered) {
    match rng.below(9) {
        0..=3 => code(rng, lent),
        4..=7 => span(rng, lent),
        _ if rng.once_in(300) => lent.text.resize(LIMIT + rng.below(2), b' '),
        _ => lent.text = texts::damaged(rng, &lent.text, 2),
    }
}

/// A code, a number or an entry of the play about the end of its range.
fn code(rng: &mut Rng, lent: &mut Gathered) {
    let over = |rng: &mut Rng, most: u32| *rng.pick(&[0, most, most + 1, most + 2, u32::MAX]);
    let calls = lent.calls.len() / ROW;
    let board = &mut lent.board;
    match rng.below(10) {
        0 => texts_of(board)[rng.below(7)].present = over(rng, 1),
        1 => board.number_given = over(rng, 1),
        2 => board.number = over(rng, 65_535),
        3 => board.dealer_given = over(rng, 1),
        4 => board.dealer = over(rng, 3),
        5 => board.vulnerability = over(rng, 3),
        6 => board.result_given = over(rng, 1),
        7 | 8 if calls > 0 => {
            let word = rng.below(4);
            let most = [5, 7, 4, 1][word];
            lent.calls[ROW * rng.below(calls) + word] = over(rng, most);
        }
        _ => {
            let entry = *rng.pick(&[51, 52, 254, 255]);
            lent.plays.insert(rng.below(lent.plays.len() + 1), entry);
        }
    }
}

/// A start or a length at any place of the text, or past its end: of a text, a
/// call's annotation or a note, used or not.
fn span(rng: &mut Rng, lent: &mut Gathered) {
    let word = any_place(rng, lent.text.len());
    let calls = lent.calls.len() / ROW;
    match rng.below(4) {
        0 => texts_of(&mut lent.board)[rng.below(7)].start = word,
        1 => texts_of(&mut lent.board)[rng.below(7)].len = word,
        2 if calls > 0 => lent.calls[ROW * rng.below(calls) + 4 + rng.below(2)] = word,
        _ => wrong_note(rng, &mut lent.notes, word),
    }
}

fn any_place(rng: &mut Rng, len: usize) -> u32 {
    match rng.below(4) {
        0 => *rng.pick(&[0, len as u32, len as u32 + 1, u32::MAX]),
        _ => rng.below(len + 1) as u32,
    }
}

fn wrong_note(rng: &mut Rng, notes: &mut NoteWords, word: u32) {
    let at = 3 * rng.below(256);
    notes[at] = 1;
    notes[at + 1 + rng.below(2)] = word;
    if rng.once_in(2) {
        notes[at + 2] = 0;
    }
}

/// A raw annotation with notes, about one in three with byte order marks, at times
/// with faults: a text, the annotation's place in it, and the notes.
pub fn annotation(rng: &mut Rng) -> (Vec<u8>, Span, Box<NoteWords>) {
    let pieces = match rng.below(30) {
        0 => 60,
        _ => 6,
    };
    let mut raw: String = match rng.below(6) {
        0 => built::text(rng),
        _ => (0..rng.below(pieces)).map(|_| some_piece(rng)).collect(),
    };
    let mut given = some_notes(rng, 5);
    let texts_given = [&mut raw].into_iter().chain(given.values_mut());
    marks::texts(rng, texts_given.collect());
    let mut text = junk(rng);
    let mut raw = Span::new(place(rng, &mut text, raw.as_bytes()), raw.len() as u32);
    let mut notes = Box::new([0; 768]);
    for (number, note) in given {
        let at = 3 * usize::from(number);
        let start = place(rng, &mut text, note.as_bytes());
        notes[at..at + 3].copy_from_slice(&[1, start, note.len() as u32]);
    }
    text.extend(junk(rng));
    if rng.once_in(8) {
        let word = any_place(rng, text.len());
        match rng.below(4) {
            0 => raw.start = word,
            1 => raw.len = word,
            2 => wrong_note(rng, &mut notes, word),
            _ => text = texts::damaged(rng, &text, 2),
        }
    }
    (text, raw, notes)
}
