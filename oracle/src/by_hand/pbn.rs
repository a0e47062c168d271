//! Boards from PBN records: refusals, codes outside their range, the order of refusals, and
//! outputs longer than their room. (Document 01, From PBN; Eight refusals)

use super::{
    annotation::{note, CLEARED},
    *,
};

/// A record without anything, and no note; a blank call, whose annotation is absent.
const BLANK_RECORD: usize = OWN_BLOCK + 4;
const BLANK_CALL: usize = OWN_BLOCK + 7;

/// The answer is a board with so many bytes of texts, calls and cards, and the bytes after
/// them are as they were.
fn accepted(s: &mut Steps, len: u32, calls: u32, cards: u32) {
    s.call(Call::FromBoard);
    s.is(ANSWER, &[0, 0, 0, calls, cards, len, 0, 0]);
    s.is(HIGH, &[0; 8]);
    s.set(REST, &[len]);
    s.copy(REST_LEN, OUT_LEN, 1, 1);
    s.sub(REST_LEN, REST);
    s.all_are(REST, MARK);
}

/// The answer is this refusal, without a board and without a byte, and all that was lent is
/// as it was.
fn is_refused(s: &mut Steps, number: u32, kind: u32, carried: u64) {
    refused(s, Call::FromBoard, number, kind, carried);
    s.go(UNTOUCHED);
    s.stayed();
}

fn lend_calls(s: &mut Steps, calls: &[u32]) {
    s.set(READ_ROWS, calls);
    s.set(ROWS + 1, &[calls.len() as u32]);
}

fn number(s: &mut Steps, n: u32) {
    s.set(RECORD + 21, &[1, n]);
}

fn text(s: &mut Steps, place: usize, start: u32, len: u32) {
    s.set(RECORD + 3 * place, &[1, start, len]);
}

/// The places of texts: the names 0 to 3, event 4, date 5, id 6, the raw annotations of a
/// pass 7, of a continue 8 and of a blank 9, and from 10 on the notes.
fn record_with(s: &mut Steps, place: usize, start: u32, len: u32) {
    s.go(BLANK_RECORD);
    match place {
        7 => lend_calls(s, &[0, 0, 0, 1, start, len]),
        8 => lend_calls(s, &[4, 0, 0, 1, start, len]),
        9 => lend_calls(s, &[5, 0, 0, 1, start, len]),
        _ => s.go(BLANK_CALL),
    }
    match place {
        0..=6 => text(s, place, start, len),
        7..=9 => (),
        _ => note(s, place - 10, start, len),
    }
}

/// The bytes that are made of a text of so many bytes, none of them a part that stays: a name
/// or an event is itself, a date has its dash, an id stands three times, and a pass is a
/// byte.
fn bytes(place: usize, len: u32) -> u32 {
    match (place, len) {
        (0..=4, _) => len,
        (5 | 6, 0) => 0,
        (5, _) => len + 3,
        (6, _) => 3 * len + 14,
        (7, _) => 1,
        _ => 0,
    }
}

/// The number that must be answered, and the bytes and calls that are made; the blocks
/// that ask for that refusal, and for a board.
const EXPECTED: usize = OWN_NUMBER;
const LEN: usize = OWN_NUMBER + 1;
const MADE_CALLS: usize = OWN_NUMBER + 2;
const REFUSED: usize = OWN_BLOCK + 5;
const MADE: usize = OWN_BLOCK + 6;

fn define_places(s: &mut Steps) {
    s.block(BLANK_CALL, |b| lend_calls(b, &[5, 0, 0, 0, u32::MAX, 1]));
    s.block(REFUSED, |b| {
        b.call(Call::FromBoard);
        b.same(ANSWER, EXPECTED);
        b.is(ANSWER + 1, &[0; 15]);
        b.go(FRESH);
        b.go(UNTOUCHED);
        b.stayed();
        b.case(0);
    });
    s.block(MADE, |b| {
        b.call(Call::FromBoard);
        b.is(ANSWER, &[0, 0, 0]);
        b.same(ANSWER + 3, MADE_CALLS);
        b.is(ANSWER + 4, &[0]);
        b.same(ANSWER + 5, LEN);
        b.is(ANSWER + 6, &[0; 10]);
        b.copy(REST, LEN, 1, 1);
        b.copy(REST_LEN, OUT_LEN, 1, 1);
        b.sub(REST_LEN, LEN);
        b.all_are(REST, MARK);
        b.case(0);
        b.mark_again();
    });
}

/// A span in each place of a record: those of dropped calls and of notes that no annotation
/// names too.
fn places(s: &mut Steps, (start, len, number): Refused) {
    s.set(EXPECTED, &[number]);
    for place in 0..266 {
        record_with(s, place, start, len);
        if number == 0 {
            s.set(LEN, &[bytes(place, len), u32::from(place == 7)]);
            s.go(MADE);
        } else {
            s.go(REFUSED);
        }
    }
}

fn refusals(s: &mut Steps) {
    define_places(s);
    s.mark(32);
    s.set(ROOM, &[31]);
    s.set(LENT_WORDS, &[6, 0]);
    spans_of_texts(s, places);
    spaces(s, b"", LONG);
    places(s, (0, 1, 1));
    s.set(TEXT + 1, &[LIMIT as u32]);
    places(s, (0, 1, 0));
}

/// The record is answered so: a board of so many bytes, calls and cards, or refusal 8.
fn coded(s: &mut Steps, board: Option<[u32; 3]>) {
    match board {
        Some([len, calls, cards]) => {
            accepted(s, len, calls, cards);
            s.mark_again();
        }
        None => is_refused(s, 8, 0, 0),
    }
    s.case(1);
}

/// Calls, with what is made of them: kinds, 0 to 5; levels 1 to 7 and strains 0 to 4, of a bid
/// alone; flags, 0 or 1, of dropped calls too; a second call, and a rest of five words, which
/// is none.
const CALLS: [(&[u32], Option<[u32; 3]>); 22] = [
    (&[0, 0, 0, 0, 0, 0], Some([1, 1, 0])),
    (&[1, 8, 0, 0, 0, 0], Some([1, 1, 0])),
    (&[2, 0, 5, 0, 0, 0], Some([1, 1, 0])),
    (&[4, 9, 9, 0, 0, 0], Some([0, 0, 0])),
    (&[5, u32::MAX, u32::MAX, 0, 9, 9], Some([0, 0, 0])),
    (&[6, 1, 0, 0, 0, 0], None),
    (&[256, 1, 0, 0, 0, 0], None),
    (&[u32::MAX, 1, 0, 0, 0, 0], None),
    (&[3, 1, 0, 0, 0, 0], Some([2, 1, 0])),
    (&[3, 7, 4, 0, 0, 0], Some([2, 1, 0])),
    (&[3, 0, 0, 0, 0, 0], None),
    (&[3, 8, 0, 0, 0, 0], None),
    (&[3, 257, 0, 0, 0, 0], None),
    (&[3, 1, 5, 0, 0, 0], None),
    (&[3, 1, u32::MAX, 0, 0, 0], None),
    (&[0, 0, 0, 1, 0, 2], Some([1, 1, 0])),
    (&[0, 0, 0, 2, 0, 2], None),
    (&[4, 0, 0, 2, 0, 2], None),
    (&[5, 0, 0, u32::MAX, 0, 2], None),
    (&[0, 0, 0, 0, 0, 0, 1, 0, 0, 0, 0, 0], Some([2, 2, 0])),
    (&[0, 0, 0, 0, 0, 0, 6, 0, 0, 0, 0, 0], None),
    (&[0, 0, 0, 0, 0, 0, 6, 0, 0, 2, 0], Some([1, 1, 0])),
];

/// Entries of the play: 0 to 51 and 255.
const PLAYS: [(&[u8], Option<[u32; 3]>); 4] = [
    (&[255, 0, 255, 51, 255], Some([0, 0, 2])),
    (&[0, 52], None),
    (&[254, 0], None),
    (&[255, 255, 255, 255, 200], None),
];

/// Numbers outside their range, each beside the nearest within it; board numbers, 1 to 65,535,
/// with an id of a byte or without, where the number stands three times.
fn codes(s: &mut Steps) {
    s.lend(TEXT, b"ab");
    s.mark(64);
    s.set(ROOM, &[64]);
    s.set(LENT_WORDS, &[18, 4]);
    for (calls, board) in CALLS {
        s.go(BLANK_RECORD);
        lend_calls(s, calls);
        coded(s, board);
    }
    for (plays, board) in PLAYS {
        s.go(BLANK_RECORD);
        s.lend(CARDS, plays);
        coded(s, board);
    }
    for (n, digits) in [
        (1, Some(3)),
        (65_535, Some(15)),
        (0, None),
        (65_536, None),
        (65_537, None),
        (u32::MAX, None),
    ] {
        for id in [true, false] {
            s.go(BLANK_RECORD);
            number(s, n);
            if id {
                text(s, 6, 0, 1);
            }
            coded(s, digits.map(|d| [if id { 17 } else { 14 + d }, 0, 0]));
        }
    }
}

/// A span that passes every end, and the first byte of `é`.
const PAST: [u32; 2] = [u32::MAX, 2];
const ILL: [u32; 2] = [0, 1];

/// Every choice of seven faults, each number's fault in one of three places: a text that is too
/// long; a code; a span that passes the end; one that is not UTF-8; a word of the rows, a place
/// and a byte of the output too few. The first in the order 1, 8, 5, 6, 3, 7.
fn order(s: &mut Steps) {
    spaces(s, "éab".as_bytes(), LONG);
    s.mark(32);
    for n in 0..384 {
        let turn = n / 128;
        let [long, code, past, ill, calls, cards, small] =
            [1, 2, 4, 8, 16, 32, 64].map(|bit| n & bit != 0);
        let pick = |fault, place, bad, good| if fault && turn == place { bad } else { good };
        s.go(BLANK_RECORD);
        s.set(TEXT + 1, &[if long { LONG as u32 } else { 4 }]);
        let [start, len] = pick(ill, 0, ILL, [0, 2]);
        text(s, 0, start, len);
        text(s, 4, 2, 2);
        if past && turn == 2 {
            text(s, 5, PAST[0], PAST[1]);
        }
        text(s, 6, 2, 1);
        number(s, if code && turn == 0 { 65_536 } else { 7 });
        // A bid, two calls that are dropped with their annotations, and a pass.
        let level = if code && turn == 1 { 8 } else { 1 };
        let [a, b] = pick(ill, 2, ILL, [2, 1]);
        let [c, d] = pick(past, 1, PAST, [2, 1]);
        lend_calls(
            s,
            &[
                [3, level, 0, 0, 9, 9],
                [4, 0, 0, 1, a, b],
                [5, 0, 0, 1, c, d],
                [0, 0, 0, 0, 9, 9],
            ]
            .concat(),
        );
        // Two notes, neither of which is named.
        if past && turn == 0 {
            note(s, 255, PAST[0], PAST[1]);
        }
        if ill && turn == 1 {
            note(s, 0, ILL[0], ILL[1]);
        }
        s.lend(CARDS, &[12, 255, if code && turn == 2 { 52 } else { 51 }]);
        s.set(LENT_WORDS, &[12 - u32::from(calls), 2 - u32::from(cards)]);
        s.set(ROOM, &[24 - u32::from(small)]);
        match [long, code, past, ill, calls, cards, small]
            .iter()
            .position(|fault| *fault)
        {
            Some(first) => {
                let met = [
                    (1, 0, 0),
                    (8, 0, 0),
                    (5, 0, 0),
                    (6, 0, 0),
                    (3, 0, 2),
                    (3, 1, 2),
                    (7, 0, 24),
                ];
                let (number, kind, carried) = met[first];
                is_refused(s, number, kind, carried);
            }
            None => {
                accepted(s, 24, 2, 2);
                s.wrote(ZERO, "éaboa,BOARD aBoard a1Cp".as_bytes());
                s.mark_again();
            }
        }
        s.case(2);
    }
}

/// An output longer than the longest text: its room is 1,048,576 bytes, which two names of half the
/// room fill, and a third of a byte passes. And a pass with 8,192 references to a note of 1,000,000
/// bytes: their bytes, the spaces between them and the pass are more than 32 bits count.
fn outputs(s: &mut Steps) {
    let limit = LIMIT as u32;
    let (front, note_len) = (24_576, 1_000_000);
    s.lend_many(TEXT, b'a', (front + note_len) as usize);
    s.patch(TEXT, &b"=1=".repeat(8_192));
    s.go(BLANK_RECORD);
    s.set(LENT_WORDS, &[0, 0]);
    s.mark(LIMIT + 2);
    s.set(ROOM, &[limit + 2]);
    text(s, 0, front, limit / 2);
    text(s, 1, front, limit / 2);
    text(s, 2, front, 1);
    is_refused(s, 7, 0, u64::from(limit) + 1);
    s.case(3);
    text(s, 2, front, 0);
    accepted(s, limit, 0, 0);
    s.set(REST, &[0, limit]);
    s.all_are(REST, b'a');
    s.case(3);
    s.mark(8);
    s.set(ROOM, &[8]);
    s.set(LENT_WORDS, &[6, 1]);
    lend_calls(s, &[0, 0, 0, 1, 0, front]);
    note(s, 1, front, note_len);
    is_refused(s, 7, 0, 8_193_056_768);
    s.case(3);
}

pub fn put(s: &mut Steps) {
    s.block(BLANK_RECORD, |b| {
        b.repeat(RECORD, MOST, 28);
        (0..7).for_each(|n| b.set(RECORD + 3 * n, &[0]));
        for at in [21, 23, 25, 26] {
            b.set(RECORD + at, &[0]);
        }
        b.repeat(RECORD + 28, ZERO, 208);
        b.set(ROWS + 1, &[0]);
        b.set(CARDS + 1, &[0]);
        b.go(CLEARED);
    });
    refusals(s);
    codes(s);
    order(s);
    outputs(s);
    s.say("by hand pbn", &["refusals", "codes", "order", "outputs"]);
}
