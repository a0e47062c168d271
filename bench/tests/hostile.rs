//! Records whose spans name the same bytes again and again: what they are
//! answered, how soon, and how that grows.

use lin_bench::{
    clock::milliseconds,
    samples::hostile::{
        board, call_rows, document_rows, notes, record, span, whole, Asked, Hostile, ALL,
        BY_NATURE, CONTINUE,
    },
};
use lin_host_rust::{tokens::Span, LIMIT};
use oracle::random::Rng;

/// The number of the refusal, 0 for none, and the value, 0 where it is refused.
type Told = (u32, u64);

fn told(asked: &Asked) -> Told {
    match asked.answer() {
        Ok(value) => (0, value),
        Err(refusal) => (refusal.number(), 0),
    }
}

/// What is answered for a text of so many bytes is as the record says, and all
/// boards that are compared are equal.
fn answers_as_said(hostile: &Hostile, len: usize) -> Asked {
    let asked = (hostile.made)(len);
    let (refusal, value) = told(&asked);
    assert_eq!(refusal, hostile.refusal, "{}, {len}", hostile.name);
    if let Asked::Same(..) = asked {
        assert_eq!(value, 1, "{}, {len}", hostile.name);
    }
    asked
}

/// The time of one call, in milliseconds.
fn once(asked: &Asked) -> f64 {
    let start = milliseconds();
    let _ = asked.answer();
    milliseconds() - start
}

/// The least of some times.
fn time(asked: &Asked) -> f64 {
    (0..3).map(|_| once(asked)).fold(f64::INFINITY, f64::min)
}

/// A text of the limit's length within the bound, and twice the text in at most
/// three times the time; a machine that is busy gets some tries.
fn grows(hostile: &Hostile) {
    let [half, whole] = [LIMIT / 2, LIMIT].map(|len| answers_as_said(hostile, len));
    let mut seen = Vec::new();
    for _ in 0..4 {
        let (short, long) = (time(&half), time(&whole));
        assert!(long < 2000.0, "{}: {long:?}", hostile.name);
        if long <= 3.0 * short + 2.0 {
            return;
        }
        seen.push((short, long));
    }
    panic!("{}: {seen:?}", hostile.name);
}

#[test]
fn growth_of_hostile_records() {
    ALL.iter().for_each(grows);
}

#[test]
fn answers_that_take_all_bytes() {
    for hostile in BY_NATURE {
        let took = once(&answers_as_said(hostile, LIMIT / 16));
        assert!(took < 2000.0, "{}: {took}", hostile.name);
    }
}

/// A row has 24 bytes: the rows have fewer bytes than the text, or more. Either
/// way the text is not read again for each of its spans.
#[test]
fn rows_about_as_long_as_the_text() {
    for calls in [43_690, 43_691] {
        let all = span(0, LIMIT);
        for (asked, refusal) in [
            (Asked::Append(board(whole(LIMIT), calls, all)), 7),
            (Asked::Auction(whole(LIMIT), call_rows(calls, all)), 9),
        ] {
            let took = once(&asked);
            assert!(took < 500.0, "{calls}: {took}");
            assert_eq!(told(&asked).0, refusal, "{calls}");
        }
    }
}

/// Lengths about the ends of short texts and of blocks, and the limit.
#[test]
fn answers_at_all_lengths() {
    let lengths = [
        48, 254, 256, 258, 1022, 1024, 1026, 2046, 2048, 2050, 4094, 4096, 4098, LIMIT,
    ];
    for hostile in ALL {
        for len in lengths {
            answers_as_said(hostile, len);
        }
    }
}

/// Characters of every length, and bytes that are no character.
const PIECES: &[&[u8]] = &[
    b"a",
    "é".as_bytes(),
    "€".as_bytes(),
    "𝄞".as_bytes(),
    b"\xFF",
    b"\x80",
    b"\xC3",
    b"\xE2\x82",
    b"\xED\xA0\x80",
    b"\xF0\x9F\x98",
];

/// About so many bytes: whole characters for the most part, and once in so many
/// pieces any.
fn damaged(rng: &mut Rng, len: usize, once_in: usize) -> Vec<u8> {
    let mut text = Vec::new();
    while text.len() < len {
        let any = if rng.once_in(once_in) {
            PIECES.len()
        } else {
            4
        };
        let piece: &&[u8] = rng.pick(&PIECES[..any]);
        text.extend_from_slice(piece);
    }
    text
}

/// How often a span is named so that it has more bytes together than the text,
/// if it has one.
fn times(text: &[u8], x: Span) -> usize {
    text.len() / x.len.max(1) as usize + 1
}

/// The name of every call, its answer where this span is named so often, or by
/// all notes, and the answer that follows from the standard library's. No such bid is a
/// call.
fn answers(text: &[u8], x: Span) -> [(&'static str, Told, Told); 6] {
    let ill = std::str::from_utf8(x.of(text)).is_err();
    let rows = times(text, x);
    let copy = || text.to_vec();
    let one = || board(copy(), rows, x);
    [
        ("append", Asked::Append(one()), (7, 0)),
        ("same_board", Asked::Same(one(), one()), (0, 1)),
        (
            "write_document",
            Asked::Document(copy(), document_rows(rows, x)),
            (7, 0),
        ),
        (
            "from_board",
            Asked::Convert(record(copy(), rows, CONTINUE, x)),
            (0, 0),
        ),
        (
            "annotation_text",
            Asked::Annotation(copy(), notes(x)),
            (0, 0),
        ),
        (
            "check_auction",
            Asked::Auction(copy(), call_rows(rows, x)),
            (9, 0),
        ),
    ]
    .map(|(name, asked, well)| (name, told(&asked), if ill { (6, 0) } else { well }))
}

/// A place from there on, most often one where no character is cut.
fn place(rng: &mut Rng, text: &[u8], from: usize) -> usize {
    let mut at = from + rng.below(text.len() - from + 1);
    let cut = rng.once_in(8);
    while !cut && from < at && text.get(at).is_some_and(|b| (0x80..0xC0).contains(b)) {
        at -= 1;
    }
    at
}

/// What is UTF-8, and what is not, is as the standard library has it, also where
/// the whole text is looked at once.
#[test]
fn spans_of_damaged_texts() {
    let rng = &mut Rng::new(18);
    let mut met = [0, 0];
    for _ in 0..400 {
        let (len, once_in) = (rng.below(6_000), 1 + rng.below(600));
        let text = damaged(rng, len, once_in);
        for _ in 0..20 {
            let start = place(rng, &text, 0);
            let x = span(start, place(rng, &text, start));
            for (name, answer, expected) in answers(&text, x) {
                assert_eq!(answer, expected, "{name}, {:?}", x.of(&text));
                met[usize::from(answer.0 == 6)] += 1;
            }
        }
    }
    assert!(met.iter().all(|n| 5_000 < *n), "{met:?}");
}

/// The text with another byte at each of these places, or one more at its end.
fn changed(text: &[u8], places: [usize; 2]) -> Vec<u8> {
    let mut other = text.to_vec();
    for at in places {
        match other.get_mut(at) {
            Some(byte) => *byte = b'b',
            None => other.push(b'b'),
        }
    }
    other
}

/// Boards of the same rows, all their texts one span, are equal exactly if that
/// part of both texts is: for spans that begin and end about the edges of blocks.
fn compare_at_edges(text: &[u8], places: [usize; 2]) {
    let other = changed(text, places);
    let len = text.len();
    let edges = [0, 1, 1023, 1024, 1025, 2047, 2048, len];
    for (i, start) in edges.into_iter().enumerate() {
        for end in edges.into_iter().skip(i + 1) {
            let x = span(start, end);
            let [a, b] = [text, &other].map(|t| board(t.to_vec(), times(text, x), x));
            let equal = text[start..end] == other[start..end];
            let answer = told(&Asked::Same(a, b));
            assert_eq!(answer, (0, equal.into()), "{len}, {places:?}, {x:?}");
        }
    }
}

#[test]
fn texts_that_differ_at_one_place_or_two() {
    for len in [3_000, 3_072, 4_096, 4_097, 5_000] {
        let text = vec![b'a'; len];
        let places = [0, 1].into_iter().chain(1022..=1026).chain(2046..=2050);
        let places: Vec<usize> = places.chain([len - 1, len]).collect();
        for (i, first) in places.iter().enumerate() {
            for second in &places[i..] {
                compare_at_edges(&text, [*first, *second]);
            }
        }
    }
}
