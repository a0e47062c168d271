//! The cursor and the document writer: refusals, their order, a cursor at any place on any
//! bytes, and texts and outputs as long as the limit. (Document 01, Tokens; Eight refusals, 1,
//! 2, 5, 6 and 7)

use super::*;

/// A text is opened so.
fn opens(s: &mut Steps, number: u32, carried: u64) {
    s.call(Call::Open);
    s.answer(number, 0, carried);
    s.case(0);
}

fn opening(s: &mut Steps) {
    let texts: [(&[u8], u32, u64); 6] = [
        (b"", 0, 0),
        (b"md|1|\xC3\xA9", 0, 0),
        (b"\xFF", 2, 0),
        (b"md|1|\xFF", 2, 5),
        (b"\xC3\xA9\xFF|", 2, 2),
        // The first two bytes of a character of three.
        (b"md|\xE2\x99", 2, 3),
    ];
    for (text, number, carried) in texts {
        s.lend(TEXT, text);
        opens(s, number, carried);
    }
}

/// A document of the lent text with these rows and this trailing span.
fn document(s: &mut Steps, rows: &[u32], trailing: [u32; 2], room: u32) {
    s.set(READ_ROWS, rows);
    s.set(ROWS + 1, &[rows.len() as u32]);
    s.set(SPAN, &trailing);
    s.set(ROOM, &[room]);
    s.call(Call::WriteDocument);
}

/// It is refused so, and the output stays.
fn bad(s: &mut Steps, rows: &[u32], trailing: [u32; 2], room: u32, number: u32, carried: u64) {
    document(s, rows, trailing, room);
    s.answer(number, 0, carried);
    s.stayed();
    s.case(0);
}

/// It is written, and the output is as it was after it.
fn good(s: &mut Steps, rows: &[u32], trailing: [u32; 2], room: u32, bytes: &[u8]) {
    document(s, rows, trailing, room);
    s.answer(0, 0, bytes.len() as u64);
    s.wrote(ZERO, bytes);
    s.set(REST, &[bytes.len() as u32, 64 - bytes.len() as u32]);
    s.all_are(REST, MARK);
    s.mark_again();
    s.case(0);
}

/// Texts without rows: trailing spans, with the number that refuses them or their bytes.
fn spans(s: &mut Steps) {
    type Span = ([u32; 2], Result<&'static [u8], u32>);
    let cases: [(&[u8], &[Span]); 4] = [
        (b"", &[([0, 0], Ok(b"")), ([1, 0], Err(5))]),
        (
            b"abcd",
            &[
                ([2, 2], Ok(b"cd")),
                ([4, 0], Ok(b"")),
                ([3, 2], Err(5)),
                ([5, 0], Err(5)),
                // An end of 33 bits.
                ([u32::MAX, 1], Err(5)),
                ([1, u32::MAX], Err(5)),
                ([u32::MAX, u32::MAX], Err(5)),
            ],
        ),
        // A part of a character, a character, and nothing within one.
        (
            b"a\xC3\xA9",
            &[
                ([1, 1], Err(6)),
                ([2, 1], Err(6)),
                ([1, 2], Ok(b"\xC3\xA9")),
                ([2, 0], Ok(b"")),
            ],
        ),
        // Only the span's own bytes are asked.
        (b"\xFFab\xC3", &[([0, 2], Err(6)), ([1, 2], Ok(b"ab"))]),
    ];
    for (text, spans) in cases {
        s.lend(TEXT, text);
        for (span, made) in spans {
            match made {
                Ok(bytes) => good(s, &[], *span, 64, bytes),
                Err(number) => bad(s, &[], *span, 64, *number, 0),
            }
        }
    }
}

/// Rows of four words over `aé|x`, and the words left over: up to three are no row, whatever
/// they hold.
fn rows(s: &mut Steps) {
    s.lend(TEXT, "aé|x".as_bytes());
    let x = [4, 1];
    for (row, number) in [
        ([0, 6, 1, 2], 5),
        ([0, 1, 6, 0], 5),
        ([0, 2, 1, 2], 6),
        ([0, 1, 2, 1], 6),
    ] {
        bad(s, &row, x, 64, number, 0);
    }
    let nines = [9; 4];
    (0..4).for_each(|n| good(s, &nines[..n], x, 64, b"x"));
    bad(s, &nines, x, 64, 5, 0);
    let row = [0, 1, 1, 2, 9, 9, 9, 9];
    (4..8).for_each(|n| good(s, &row[..n], x, 64, "a|é|x".as_bytes()));
    bad(s, &row, x, 64, 5, 0);
}

/// Several faults over `aé`: a 5 in the trailing span or in the last row is later than a 6 of the
/// first row, and beats it; 5 and 6 beat 7.
fn order(s: &mut Steps) {
    s.lend(TEXT, "aé".as_bytes());
    let six = [0, 2, 0, 0, 0, 0, 3, 1];
    bad(s, &six[..4], [0, 0], 64, 6, 0);
    bad(s, &six[..4], [4, 0], 64, 5, 0);
    bad(s, &six, [0, 0], 64, 5, 0);
    let row = [0, 1, 0, 1];
    bad(s, &row, [0, 0], 0, 7, 4);
    bad(s, &row, [3, 1], 0, 5, 0);
    bad(s, &row, [2, 1], 0, 6, 0);
}

/// Small outputs over `abcd`: as long as the document, and shorter.
fn rooms(s: &mut Steps) {
    s.lend(TEXT, b"abcd");
    let row = [0, 2, 2, 1];
    good(s, &row, [3, 1], 6, b"ab|c|d");
    bad(s, &row, [3, 1], 5, 7, 6);
    bad(s, &row, [3, 1], 0, 7, 6);
    good(s, &row, [4, 0], 5, b"ab|c|");
    bad(s, &row, [4, 0], 4, 7, 5);
    good(s, &[], [4, 0], 0, b"");
    good(s, &[], [3, 1], 1, b"d");
    bad(s, &[], [3, 1], 0, 7, 1);
}

/// The cursor at a place finds no token, stays there, and shows these bytes.
fn ends(s: &mut Steps, text: &[u8], at: u64, rest: &[u8]) {
    s.lend(TEXT, text);
    s.long(NUMBER, at);
    s.call(Call::Next);
    s.is(ANSWER, &[0; 5]);
    s.agree(ANSWER + 5, NUMBER, ONE, 1, ZERO);
    s.is(ANSWER + 6, &[0, 0]);
    s.is(HIGH, &[0; 5]);
    s.same(HIGH + 5, NUMBER + 1);
    s.is(HIGH + 6, &[0, 0]);
    s.call(Call::Trailing);
    let start = at.min(text.len() as u64) as u32;
    s.is(ANSWER, &[start, rest.len() as u32, 0, 0, 0, 0, 0, 0]);
    s.is(HIGH, &[0; 8]);
    if !rest.is_empty() {
        s.shows(ANSWER, rest);
    }
    s.case(0);
}

/// It finds this token, and stands at that place after it.
fn finds(s: &mut Steps, text: &[u8], at: u64, command: &[u8], value: &[u8], after: u32) {
    s.lend(TEXT, text);
    s.long(NUMBER, at);
    s.call(Call::Next);
    s.is(ANSWER, &[1]);
    s.shows(ANSWER + 1, command);
    s.shows(ANSWER + 3, value);
    s.is(ANSWER + 5, &[after, 0, 0]);
    s.is(HIGH, &[0; 8]);
    s.case(0);
}

/// A cursor at places that no step gives, and on bytes that no text has.
fn cursor(s: &mut Steps) {
    ends(s, b"", 0, b"");
    ends(s, b"a|b|", 4, b"");
    ends(s, b"a|b|", 5, b"");
    ends(s, b"a|b|", u64::MAX, b"");
    // In the command, on its pipe, in the value, and after the token.
    finds(s, b"ab|c|d", 1, b"b", b"c", 5);
    finds(s, b"ab|c|d", 2, b"", b"c", 5);
    ends(s, b"ab|c|d", 3, b"c|d");
    ends(s, b"ab|c|d", 5, b"d");
    // In the middle of each character, before two pipes and before one.
    let text = "é|é|c".as_bytes();
    finds(s, text, 1, b"\xA9", b"\xC3\xA9", 6);
    ends(s, text, 4, b"\xA9|c");
    // On bytes that are not UTF-8.
    let text = b"\xFF|\xFE|\x80|\xBF";
    finds(s, text, 0, b"\xFF", b"\xFE", 4);
    ends(s, text, 4, b"\x80|\xBF");
}

/// Texts and outputs as long as the limit, and one byte longer.
fn large(s: &mut Steps) {
    let limit = LIMIT as u32;
    spaces(s, b"", LONG);
    opens(s, 1, 0);
    // A step on a text that is too long refuses nothing.
    s.set(NUMBER, &[0, 0]);
    s.call(Call::Next);
    s.is(ANSWER, &[0; 16]);
    s.call(Call::Trailing);
    s.is(ANSWER, &[0, limit + 1, 0, 0, 0, 0, 0, 0]);
    s.is(HIGH, &[0; 8]);
    s.case(0);
    spaces(s, b"", LIMIT);
    opens(s, 0, 0);
    spaces_ill(s, LONG);
    opens(s, 1, 0);
    s.mark(LONG);
    // 1 comes before 5, 6 and 7. The last byte is not UTF-8.
    let row = |start, len| [start, len, 0, 0];
    bad(s, &row(limit, 1), [limit + 1, 1], limit + 1, 1, 0);
    bad(s, &row(limit, 1), [0, limit + 1], limit + 1, 1, 0);
    spaces_ill(s, LIMIT);
    opens(s, 2, u64::from(limit) - 1);
    bad(s, &row(limit - 1, 1), [limit - 1, 2], limit + 1, 5, 0);
    bad(s, &row(0, limit - 1), [limit - 1, 1], limit + 1, 6, 0);
    let twice = 2 * u64::from(limit);
    bad(s, &row(0, limit - 1), [0, limit - 1], limit + 1, 7, twice);
    // The output has a byte more than the limit, and no more room than the limit.
    spaces(s, b"", LIMIT);
    let over = u64::from(limit) + 1;
    bad(s, &row(0, limit - 1), [0, 0], limit + 1, 7, over);
    document(s, &row(0, limit - 2), [0, 0], limit + 1);
    s.answer(0, 0, u64::from(limit));
    for (start, len, byte) in [(0, limit - 2, b' '), (limit - 2, 2, b'|'), (limit, 1, MARK)] {
        s.set(REST, &[start, len]);
        s.all_are(REST, byte);
    }
    s.case(0);
}

pub fn put(s: &mut Steps) {
    s.mark(64);
    opening(s);
    spans(s);
    rows(s);
    order(s);
    rooms(s);
    cursor(s);
    large(s);
    s.say("by hand tokens", &["refusals"]);
}
