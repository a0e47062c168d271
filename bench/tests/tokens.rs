//! The tokenizer and the document writer against the oracle and the model.

use lin_bench::compare::{self, Same};
use lin_host_rust::{
    tokens::{self, Cursor, Span},
    Refusal, LIMIT,
};
use oracle::{random::Rng, records, texts};

fn holds(subject: &dyn std::fmt::Debug, outcome: Same) {
    if let Err(difference) = outcome {
        panic!("{difference}\nfor {subject:?}");
    }
}

fn text(text: &str) {
    holds(&text, compare::text(text));
}

fn bytes(bytes: &[u8]) {
    let outcome = compare::open(bytes).and_then(|()| compare::steps(bytes));
    holds(&bytes, outcome);
}

// Tokens

#[test]
fn stored_texts() {
    oracle::tokens::texts().iter().for_each(|t| text(t));
}

#[test]
fn short_words() {
    for t in texts::words(&["|", "a"], 10) {
        text(&t);
        bytes(t.as_bytes());
    }
    texts::words(&["|", "a", "é", "\n"], 6)
        .iter()
        .for_each(|t| text(t));
}

#[test]
fn random_texts() {
    let rng = &mut Rng::new(11);
    for _ in 0..5_000 {
        text(&texts::mixture(rng, 14));
    }
    for _ in 0..100 {
        text(&texts::mixture(rng, 400));
    }
}

#[test]
fn realistic_texts() {
    let rng = &mut Rng::new(12);
    for n in 0..60 {
        text(&records::file(rng, n % 8));
        text(&records::lines(rng, n % 8));
        text(&records::movie(rng, n));
    }
}

#[test]
fn a_text_at_the_limit() {
    let rng = &mut Rng::new(13);
    let mut long = records::file(rng, 300).repeat(8);
    assert!(long.len() > LIMIT);
    let mut end = LIMIT;
    while !long.is_char_boundary(end) {
        end -= 1;
    }
    long.truncate(end);
    long += &" ".repeat(LIMIT - end);
    text(&long);
    text(&"|".repeat(LIMIT));
    text(&"é".repeat(LIMIT / 2));
}

// Steps on any bytes from any place

#[test]
fn every_place() {
    oracle::utf8::texts()
        .iter()
        .filter(|t| t.len() < 200)
        .for_each(|t| bytes(t));
    oracle::tokens::texts()
        .iter()
        .filter(|t| t.len() < 200)
        .for_each(|t| bytes(t.as_bytes()));
    bytes("mn|Nguyễn €|pn|😀,é|\r\nqx|o1|\u{FEFF}md|3SA|".as_bytes());
    bytes(b"\xFF|\x80|\xC3|\xA9|\xF0\x9F|\x98\x80||\xED\xA0\x80|");
}

#[test]
fn random_bytes() {
    let rng = &mut Rng::new(14);
    for _ in 0..2_000 {
        bytes(&texts::bytes(rng, 40));
    }
    for _ in 0..200 {
        let movie = records::movie(rng, 2);
        let text = texts::damaged(rng, movie.as_bytes(), 5);
        holds(&text, compare::open(&text));
        for _ in 0..50 {
            let at = rng.below(text.len() + 5) as u64;
            holds(&text, compare::step(&text, at));
        }
    }
}

#[test]
#[ignore = "lends more than 4 GiB, though hardly any of it is held"]
fn places_beyond_four_gib() {
    let gib4 = 1usize << 32;
    let mut text = vec![0u8; gib4 + 16];
    for at in [1, 3, 10] {
        text[gib4 + at] = b'|';
    }
    for at in (gib4 - 1..gib4 + 20).chain([u64::MAX as usize]) {
        holds(&at, compare::step(&text, at as u64));
    }
    assert_eq!(Cursor::open(&text), Err(Refusal::TextTooLong));
    let refused = tokens::write_document(&text, &[], Span::default(), &mut []);
    assert_eq!(refused, Err(Refusal::TextTooLong));
}

// Opening

#[test]
fn longest_well_formed_starts() {
    for t in oracle::utf8::texts() {
        holds(&t, compare::open(&t));
    }
}

// Writing

fn write(text: &[u8], rows: &[u32], trailing: (u32, u32), len: usize) {
    let trailing = Span::new(trailing.0, trailing.1);
    holds(
        &(text.len(), rows, trailing, len),
        compare::document(text, rows, trailing, len),
    );
}

/// Every span about the ends and the characters of short texts, at each place of
/// a row and behind the rows, alone and beside each other, in outputs of every
/// length about the one that is needed.
#[test]
fn every_span_of_short_texts() {
    let texts: [&[u8]; 6] = [
        b"",
        b"abcd",
        "aé€".as_bytes(),
        b"\xFFab\x80",
        "é".as_bytes(),
        "a|b|cé|d".as_bytes(),
    ];
    for text in texts {
        let n = text.len() as u32;
        let numbers: Vec<u32> = (0..=n + 1).chain([u32::MAX]).collect();
        for start in &numbers {
            for len in &numbers {
                let x = (*start, *len);
                let needed = (*len).min(n) as usize;
                for room in needed.saturating_sub(1)..=needed + 4 {
                    write(text, &[], x, room);
                    write(text, &[x.0, x.1, 0, 0], (0, 0), room);
                    write(text, &[0, 0, x.0, x.1], (0, 0), room);
                }
                for room in [0, 99] {
                    write(text, &[x.0, x.1, 0, n], x, room);
                    write(text, &[0, 1, 0, 1, x.0, x.1, 1, 1], (1, 1), room);
                    write(text, &[1, 1, 0, 1, 0, 0, x.0, x.1], (n, 1), room);
                }
            }
        }
    }
}

#[test]
fn rows_that_are_not_whole() {
    for rest in 0..4 {
        let mut rows = vec![0, 1, 1, 2];
        rows.extend([u32::MAX; 3].iter().take(rest));
        write(b"abcd", &rows, (3, 1), 9);
        write(b"abcd", &rows[4..], (3, 1), 9);
    }
}

#[test]
fn texts_and_outputs_about_the_limit() {
    let limit = LIMIT as u32;
    let long = vec![0xFF; LIMIT + 1];
    for rows in [&[][..], &[0, 4, 0, 0]] {
        for trailing in [(0, 0), (0, 1), (u32::MAX, 1)] {
            write(&long, rows, trailing, 9);
        }
    }
    let text = vec![b'x'; LIMIT];
    for len in [LIMIT - 1, LIMIT, LIMIT + 1, 2 * LIMIT] {
        write(&text, &[], (0, limit), len);
        write(&text, &[0, 0, 0, limit - 2], (0, 0), len);
        write(&text, &[0, 0, 0, limit - 2], (0, 1), len);
        write(&text, &[0, limit, 0, limit], (0, limit), len);
    }
}

#[test]
#[ignore = "looks at more than 4 GiB of spans"]
fn more_than_32_bits_needed() {
    let text = vec![b'x'; LIMIT];
    let limit = LIMIT as u32;
    let rows = [0, limit, 0, limit].repeat(2_100);
    write(&text, &rows, (0, 7), LIMIT);
}

#[test]
fn documents_of_parts() {
    for text in texts::NAMED {
        let mut all = tokens::Tokens::open(text.as_bytes()).unwrap();
        let pairs: Vec<_> = all.by_ref().collect();
        let written = tokens::document(&pairs, all.trailing()).unwrap();
        assert_eq!(&written, text);
    }
}
