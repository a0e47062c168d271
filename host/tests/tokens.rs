//! Tokens and documents as Rust values, the refusals of opening and of writing
//! with what each carries, and refusals as numbers.

use lin_host_rust::{
    tokens::{self, Cursor, Part, Span},
    LinAnswer, Refusal, RowKind, LIMIT,
};

// Tokens

#[test]
fn what_the_cursor_shows() {
    let text = b"a|b|c|";
    let first = Cursor::open(text).unwrap();
    assert_eq!(first.place(), 0);
    let (second, token) = first.next(text);
    let token = token.unwrap();
    assert_eq!(token.command.of(text), b"a");
    assert_eq!(token.value.of(text), b"b");
    assert_eq!(second.place(), 4);
    assert_eq!(second.next(text), (second, None));
    assert_eq!(second.trailing(text).of(text), b"c|");
    assert_eq!(
        Cursor::from_place(9).trailing(text),
        Part { start: 6, len: 0 }
    );
}

#[test]
fn tokens_one_after_another() {
    let text = b"a|b|c|d|e|";
    let mut all = tokens::Tokens::open(text).unwrap();
    assert_eq!(all.trailing().as_bytes(), text);
    assert_eq!(all.next(), Some(("a", "b")));
    assert_eq!(all.trailing(), "c|d|e|");
    assert_eq!(all.next(), Some(("c", "d")));
    assert_eq!((all.next(), all.next()), (None, None));
    assert_eq!(all.trailing(), "e|");
    assert_eq!(
        tokens::Tokens::open(b"a|\xFF").err(),
        Some(Refusal::NotUtf8(2))
    );
}

// Refusals of opening

#[test]
fn open_refuses_1_then_2() {
    let open = |text: &[u8]| Cursor::open(text).map(Cursor::place);
    assert_eq!(open(&vec![b' '; LIMIT]), Ok(0));
    assert_eq!(open(&vec![b' '; LIMIT + 1]), Err(Refusal::TextTooLong));
    assert_eq!(open(&vec![0xFF; LIMIT + 1]), Err(Refusal::TextTooLong));
    assert_eq!(open(b"\xFF"), Err(Refusal::NotUtf8(0)));
    assert_eq!(open(b""), Ok(0));

    let good = "mn|é|md|1|";
    let mut bad = good.as_bytes().to_vec();
    bad.push(0xFF);
    assert_eq!(open(&bad), Err(Refusal::NotUtf8(good.len() as u64)));
    bad.extend(b"|a|");
    assert_eq!(open(&bad), Err(Refusal::NotUtf8(good.len() as u64)));
    let mut bad = vec![b'|'; LIMIT];
    bad[LIMIT - 1] = 0xFF;
    assert_eq!(open(&bad), Err(Refusal::NotUtf8(LIMIT as u64 - 1)));
}

// Writing

/// The document that these rows are: each piece with its pipe, then the trailing
/// text.
fn joined(text: &[u8], rows: &[u32], trailing: Span) -> Vec<u8> {
    let mut all = Vec::new();
    for piece in rows[..rows.len() / 4 * 4].chunks_exact(2) {
        all.extend(Span::new(piece[0], piece[1]).of(text));
        all.push(b'|');
    }
    all.extend(trailing.of(text));
    all
}

/// The answer. What is accepted stands from the output's first byte on, and no
/// other byte is changed.
fn write(text: &[u8], rows: &[u32], trailing: (u32, u32), len: usize) -> Result<u64, Refusal> {
    let trailing = Span::new(trailing.0, trailing.1);
    let mut out = vec![0xA5; len];
    let answer = tokens::write_document(text, rows, trailing, &mut out);
    let mut want = vec![0xA5; len];
    if let Ok(written) = answer {
        let document = joined(text, rows, trailing);
        assert_eq!(document.len() as u64, written);
        want[..document.len()].copy_from_slice(&document);
    }
    assert!(out == want, "{rows:?}, {trailing:?}: another output");
    answer
}

const PAST: Result<u64, Refusal> = Err(Refusal::SpanPastEnd);
const CUT: Result<u64, Refusal> = Err(Refusal::SpanNotUtf8);

fn small(needed: u64) -> Result<u64, Refusal> {
    Err(Refusal::OutputTooSmall(needed))
}

#[test]
fn a_span_past_the_end() {
    let text = b"abcd";
    assert_eq!(write(text, &[], (3, 2), 9), PAST);
    assert_eq!(write(text, &[], (3, 1), 9), Ok(1));
    assert_eq!(write(text, &[], (5, 0), 9), PAST);
    assert_eq!(write(text, &[], (4, 0), 9), Ok(0));
    assert_eq!(write(text, &[], (u32::MAX, 1), 9), PAST);
    assert_eq!(write(text, &[], (1, u32::MAX), 9), PAST);
    assert_eq!(write(text, &[], (u32::MAX, u32::MAX), 9), PAST);
    // each place of a row
    assert_eq!(write(text, &[5, 0, 0, 0], (0, 0), 9), PAST);
    assert_eq!(write(text, &[4, 0, 4, 0], (0, 0), 9), Ok(2));
    assert_eq!(write(text, &[0, 0, 5, 0], (0, 0), 9), PAST);
    assert_eq!(write(text, &[u32::MAX, 1, 0, 0], (0, 0), 9), PAST);
    assert_eq!(write(text, &[0, 0, u32::MAX, 1], (0, 0), 9), PAST);
    assert_eq!(write(b"", &[], (0, 1), 9), PAST);
    assert_eq!(write(b"", &[], (0, 0), 0), Ok(0));
}

#[test]
fn a_span_that_cuts_a_character() {
    let text = "aé€".as_bytes();
    assert_eq!(write(text, &[0, 1, 1, 2], (3, 3), 9), Ok(8));
    assert_eq!(write(text, &[0, 1, 1, 1], (0, 0), 9), CUT);
    assert_eq!(write(text, &[0, 1, 2, 1], (0, 0), 9), CUT);
    assert_eq!(write(text, &[0, 2, 0, 0], (0, 0), 9), CUT);
    assert_eq!(write(text, &[], (4, 2), 9), CUT);
    assert_eq!(write(text, &[], (0, 5), 9), CUT);
    // nothing is cut by an empty span, nor looked at outside of the spans
    assert_eq!(write(text, &[2, 0, 5, 0], (4, 0), 9), Ok(2));
    assert_eq!(write(b"\xFFab\x80", &[1, 1, 2, 1], (1, 2), 9), Ok(6));
    assert_eq!(write("é".as_bytes(), &[], (0, 1), 9), CUT);
}

#[test]
fn the_order_of_refusals() {
    let text = "aé".as_bytes();
    let cut = [0, 1, 1, 1];
    let past = [0, 4, 0, 0];
    let rows = [cut, [0, 1, 0, 1], past].concat();
    assert_eq!(write(text, &rows, (0, 0), 99), PAST);
    assert_eq!(write(text, &cut, (4, 0), 99), PAST);
    assert_eq!(write(text, &past, (1, 1), 99), PAST);
    assert_eq!(write(text, &past, (0, 0), 0), PAST);
    assert_eq!(write(text, &cut, (0, 0), 0), CUT);
    assert_eq!(write(text, &[], (1, 1), 0), CUT);
    let long = vec![0xFF; LIMIT + 1];
    let refused = Err(Refusal::TextTooLong);
    assert_eq!(write(&long, &[], (0, 0), 0), refused);
    assert_eq!(write(&long, &[], (0, 1), 0), refused);
    assert_eq!(write(&long, &past, (u32::MAX, 1), 9), refused);
}

#[test]
fn an_output_too_small() {
    let text = b"mn|one|pn|two|rest";
    let rows = [0, 2, 3, 3, 7, 2, 10, 3];
    assert_eq!(write(text, &rows, (14, 4), 18), Ok(18));
    for len in 0..18 {
        assert_eq!(write(text, &rows, (14, 4), len), small(18));
    }

    let mut out = [0xA5; 17];
    let refused = tokens::write_document(text, &rows, Span::new(14, 4), &mut out);
    assert_eq!((refused, out), (small(18), [0xA5; 17]));

    let mut out = [0xA5; 30];
    let accepted = tokens::write_document(text, &rows, Span::new(14, 4), &mut out);
    assert_eq!(accepted, Ok(18));
    assert_eq!(&out[..18], text);
    assert_eq!(out[18..], [0xA5; 12]);
}

#[test]
fn the_room_of_a_long_output() {
    let text = vec![b'x'; LIMIT];
    let limit = LIMIT as u32;
    for len in [LIMIT, LIMIT + 1, 2 * LIMIT] {
        assert_eq!(write(&text, &[], (0, limit), len), Ok(LIMIT as u64));
        assert_eq!(
            write(&text, &[0, 0, 0, limit - 2], (0, 0), len),
            Ok(LIMIT as u64)
        );
        assert_eq!(
            write(&text, &[0, 0, 0, limit - 2], (0, 1), len),
            small(LIMIT as u64 + 1)
        );
        assert_eq!(
            write(&text, &[0, limit, 0, limit], (0, limit), len),
            small(3 * LIMIT as u64 + 2)
        );
    }
    let rows = [0, 0, 0, limit - 2];
    assert_eq!(write(&text, &rows, (0, 0), LIMIT - 1), small(LIMIT as u64));
}

#[test]
#[ignore = "looks at more than 4 GiB of spans"]
fn more_than_32_bits_needed() {
    let text = vec![b'x'; LIMIT];
    let limit = LIMIT as u32;
    let rows = [0, limit, 0, limit].repeat(2_100);
    assert_eq!(
        write(&text, &rows, (0, 7), LIMIT),
        small(2_100 * (2 * LIMIT as u64 + 2) + 7)
    );
}

#[test]
fn a_rest_is_no_row() {
    let text = b"abcd";
    for rest in 0..4 {
        let mut rows = vec![0, 1, 1, 2];
        rows.extend([u32::MAX; 3].iter().take(rest));
        assert_eq!(write(text, &rows, (3, 1), 9), Ok(6));
        assert_eq!(write(text, &rows[4..], (3, 1), 9), Ok(1));
    }
}

#[test]
fn rows_in_any_order() {
    // spans that overlap, hold pipes or stand backwards
    let text = "a|b|cé|d".as_bytes();
    assert_eq!(write(text, &[0, 3, 2, 5], (0, 9), 30), Ok(19));
    assert_eq!(write(text, &[4, 3, 0, 1, 0, 1, 4, 3], (2, 1), 30), Ok(13));
}

#[test]
fn documents_of_parts() {
    for text in ["", "a", "a|b|", "mn|t|pn||\n", "||||", "é|ü|€|x", "a|b|c"] {
        let mut all = tokens::Tokens::open(text.as_bytes()).unwrap();
        let pairs: Vec<_> = all.by_ref().collect();
        let written = tokens::document(&pairs, all.trailing()).unwrap();
        assert_eq!(written, text);
    }
}

#[test]
fn documents_too_long() {
    let half = "a".repeat(LIMIT / 2);
    assert_eq!(
        tokens::document(&[(&half, &half)], "b"),
        Err(Refusal::TextTooLong)
    );
    let more = Err(Refusal::OutputTooSmall(LIMIT as u64 + 2));
    assert_eq!(tokens::document(&[(&half, &half)], ""), more);
}

// Refusals as numbers

#[test]
fn refusals_by_number_and_value() {
    let all = [
        Refusal::TextTooLong,
        Refusal::NotUtf8(7),
        Refusal::TooFewRows(RowKind::Calls, 8),
        Refusal::NoBoard(9),
        Refusal::SpanPastEnd,
        Refusal::SpanNotUtf8,
        Refusal::OutputTooSmall(u64::MAX),
        Refusal::OutOfRange,
        Refusal::BidUnknown(5),
    ];
    assert_eq!(all.map(Refusal::number), [1, 2, 3, 4, 5, 6, 7, 8, 9]);
    let carried = [
        None,
        Some(7),
        Some(8),
        Some(9),
        None,
        None,
        Some(u64::MAX),
        None,
        Some(5),
    ];
    assert_eq!(all.map(Refusal::carried), carried);
    let cards = Refusal::TooFewRows(RowKind::Cards, 1);
    for refusal in all.into_iter().chain([cards]) {
        assert_eq!(LinAnswer::from(refusal).read(), Err(refusal));
        assert!(!refusal.to_string().is_empty());
    }
}

/// Numbers that no export gives are told apart from all that one gives.
#[test]
fn numbers_that_are_no_answer() {
    for [refusal, kind, value] in [
        [0, 1, 0],
        [1, 0, 7],
        [2, 1, 0],
        [3, 2, 1],
        [5, 0, 1],
        [6, 1, 0],
        [8, 0, 1],
        [9, 1, 0],
        [10, 0, 0],
        [u32::MAX, 0, 0],
    ] {
        let answer = LinAnswer {
            refusal,
            kind,
            value: value.into(),
        };
        let read = std::panic::catch_unwind(|| answer.read());
        assert!(read.is_err(), "{answer:?}");
    }
}
