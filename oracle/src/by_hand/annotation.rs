//! Annotations: what stays uncleaned, refusals and their order, and an output longer than
//! its room. (Document 01, From PBN, "Annotation parts .."; Eight refusals, 1, 5, 6 and 7)

use super::*;
use crate::annotation::define_notes;

/// The number that must be answered; the blocks that take all notes away, and that ask
/// for a refusal of this number or, with 0, for no text.
const EXPECTED: usize = OWN_NUMBER;
pub const CLEARED: usize = OWN_BLOCK + 2;
const ASKED: usize = OWN_BLOCK + 3;

pub fn note(s: &mut Steps, number: usize, start: u32, len: u32) {
    s.set(NOTES + 3 * number, &[1, start, len]);
}

/// The answer is this text, and the output has it; all after it is as it was.
fn is_text(s: &mut Steps, text: &[u8]) {
    s.is(ANSWER, &[0, 0, text.len() as u32, 1]);
    s.is(ANSWER + 4, &[0; 12]);
    s.wrote(ZERO, text);
    s.set(REST, &[text.len() as u32]);
    s.copy(REST_LEN, OUT_LEN, 1, 1);
    s.sub(REST_LEN, REST);
    s.all_are(REST, MARK);
    s.mark_again();
}

/// Pipes and ends of lines, which annotation_text leaves as they are; from_board cleans
/// them. Byte order marks, which are not trimmed here. So many bytes are the raw
/// annotation and the rest note 1, which give this text or none.
fn kept(s: &mut Steps) {
    s.mark(64);
    s.set(ROOM, &[64]);
    let cases: [(&[u8], u32, Option<&[u8]>); 15] = [
        (b"=|=", 3, Some(b"=|=")),
        (b"=\r\n=", 4, Some(b"=\r\n=")),
        (b"!|?\n$1", 6, Some(b"! ? !")),
        (b"=1\n=$2", 6, Some(b"=1\n= ?")),
        (b"|\r\n", 3, None),
        (b"=1=a|b\r\n,", 3, Some(b"a|b\r\n,")),
        (b"=1=!=01=|", 8, Some(b"| ! |")),
        (b"=1=\n", 3, Some(b"\n")),
        (b"=1=", 3, None),
        // A byte order mark beside the number: it is not trimmed, so the reference stays.
        (b"=\xEF\xBB\xBF1=weak", 6, Some(b"=\xEF\xBB\xBF1=")),
        (b"=1\xEF\xBB\xBF=$1weak", 8, Some(b"=1\xEF\xBB\xBF= !")),
        // Beside other parts it goes, as any other character does; a note's text keeps it.
        (b"\xEF\xBB\xBF", 3, None),
        (b"\xEF\xBB\xBF=1=\xEF\xBB\xBFweak", 9, Some(b"weak")),
        (b"=1=$1\xEF\xBB\xBF", 5, Some(b"\xEF\xBB\xBF !")),
        (b"$\xEF\xBB\xBF1!\xEF\xBB\xBF?", 10, Some(b"! ?")),
    ];
    for (text, raw, made) in cases {
        s.go(CLEARED);
        s.lend(TEXT, text);
        s.set(SPAN, &[0, raw]);
        note(s, 1, raw, text.len() as u32 - raw);
        s.call(Call::AnnotationText);
        match made {
            Some(made) => is_text(s, made),
            None => {
                s.answer(0, 0, 0);
                s.stayed();
            }
        }
        s.case(0);
    }
}

/// A span as each note, which no part names, and as the raw annotation. There is no room
/// for a text.
fn places(s: &mut Steps, (start, len, number): Refused) {
    s.set(EXPECTED, &[number]);
    s.set(SPAN, &[0, 0]);
    for place in 0..256 {
        s.go(CLEARED);
        note(s, place, start, len);
        s.go(ASKED);
    }
    s.go(CLEARED);
    s.set(SPAN, &[start, len]);
    s.go(ASKED);
}

fn refusals(s: &mut Steps) {
    s.mark(8);
    s.set(ROOM, &[0]);
    spans_of_texts(s, places);
    spaces(s, b"", LONG);
    places(s, (0, 1, 1));
    s.set(TEXT + 1, &[LIMIT as u32]);
    places(s, (0, 1, 0));
}

/// Every choice of five faults: a text that is too long; a last note that passes the end; a
/// raw annotation that begins within `é`; a first note that ends within it; an output a
/// byte too short. The first in the order 1, 5, 6, 7.
fn order(s: &mut Steps) {
    spaces(s, "é$3".as_bytes(), LONG);
    s.mark(8);
    for n in 0..32 {
        let [long, past, raw, first, small] = [1, 2, 4, 8, 16].map(|bit| n & bit != 0);
        s.go(CLEARED);
        s.set(TEXT + 1, &[if long { LONG as u32 } else { 4 }]);
        s.set(SPAN, if raw { &[1, 3] } else { &[2, 2] });
        s.set(ROOM, &[if small { 1 } else { 2 }]);
        if past {
            note(s, 255, u32::MAX, 2);
        }
        if first {
            note(s, 0, 0, 1);
        }
        s.call(Call::AnnotationText);
        match (long, past, raw || first, small) {
            (true, ..) => s.answer(1, 0, 0),
            (_, true, ..) => s.answer(5, 0, 0),
            (_, _, true, _) => s.answer(6, 0, 0),
            (.., true) => s.answer(7, 0, 2),
            _ => is_text(s, b"!!"),
        }
        s.stayed();
        s.case(2);
    }
}

/// An output longer than the longest text: its room is 1,048,576 bytes. `=1==2=` with notes
/// of half the room, and of a byte less.
fn outputs(s: &mut Steps) {
    let half = LIMIT as u32 / 2;
    s.go(CLEARED);
    s.lend_many(TEXT, b'a', 6 + half as usize);
    s.patch(TEXT, b"=1==2=");
    s.set(SPAN, &[0, 6]);
    s.mark(LIMIT + 2);
    s.set(ROOM, &[LIMIT as u32 + 2]);
    note(s, 2, 6, half);
    note(s, 1, 6, half);
    s.call(Call::AnnotationText);
    s.answer(7, 0, LIMIT as u64 + 1);
    s.stayed();
    s.case(3);
    note(s, 1, 6, half - 1);
    s.call(Call::AnnotationText);
    s.is(ANSWER, &[0, 0, LIMIT as u32, 1]);
    s.is(ANSWER + 4, &[0; 12]);
    for (start, len, byte) in [
        (0, half - 1, b'a'),
        (half - 1, 1, b' '),
        (half, half, b'a'),
        (2 * half, 2, MARK),
    ] {
        s.set(REST, &[start, len]);
        s.all_are(REST, byte);
    }
    s.case(3);
}

pub fn put(s: &mut Steps) {
    define_notes(s);
    s.block(CLEARED, |b| b.copy(NOTES, NO_NOTES, 768, 1));
    s.block(ASKED, |b| {
        b.call(Call::AnnotationText);
        b.same(ANSWER, EXPECTED);
        b.is(ANSWER + 1, &[0; 15]);
        b.stayed();
        b.case(1);
    });
    kept(s);
    refusals(s);
    order(s);
    outputs(s);
    s.say(
        "by hand annotation",
        &["kept", "refusals", "order", "outputs"],
    );
}
