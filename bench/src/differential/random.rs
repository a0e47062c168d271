//! Random cases of each kind.

use super::{Kind, Report};
use crate::{
    compare::{self, Same},
    samples::{self, auctions, built, lent, marks, names, pbn},
};
use lin_host_rust::{tokens::Span, writer::Gathered, LIMIT};
use oracle::{random::Rng, records, texts};

/// Some comparisons: one of each of a few kinds.
pub fn round(rng: &mut Rng, report: &mut Report) {
    if rng.once_in(500) {
        long(rng, report);
    }
    text(rng, report);
    bytes(rng, report);
    document(rng, report);
    for _ in 0..3 {
        board(rng, report);
        annotation(rng, report);
        record(rng, report);
        play(rng, report);
        auction(rng, report);
    }
    written(rng, report);
    pair(rng, report);
    reads(rng, report);
    names(rng, report);
    match rng.below(3) {
        0 => file(rng, report),
        1 => appends(rng, report),
        _ => {}
    }
}

fn text(rng: &mut Rng, report: &mut Report) {
    let text = any_text(rng);
    let outcome = compare::text(&text);
    report.add(Kind::Texts, text.as_bytes(), outcome, || {
        format!("text {text:?}")
    });
}

fn bytes(rng: &mut Rng, report: &mut Report) {
    let bytes = any_bytes(rng);
    let outcome = compare::open(&bytes).and_then(|()| steps(rng, report, &bytes));
    report.add(Kind::Bytes, &bytes, outcome, || format!("bytes {bytes:?}"));
}

fn board(rng: &mut Rng, report: &mut Report) {
    let bytes = any_record(rng);
    let outcome = compare::board(&bytes);
    report.add(Kind::Boards, &bytes, outcome, || {
        format!("board {}", bytes.escape_ascii())
    });
}

fn file(rng: &mut Rng, report: &mut Report) {
    let bytes = any_file(rng);
    let outcome = compare::file(&bytes).and_then(|()| visits(rng, report, &bytes));
    report.add(Kind::Files, &bytes, outcome, || {
        format!("file {}", bytes.escape_ascii())
    });
}

/// A raw annotation with notes, at times with faults, and in an output of any
/// length.
fn annotation(rng: &mut Rng, report: &mut Report) {
    let (text, raw, notes) = pbn::annotation(rng);
    let len = rng.below(40);
    let outcome = compare::annotations(&text, raw, &notes)
        .and_then(|()| compare::annotation(&text, raw, &notes, len));
    report.add(Kind::Annotations, &text, outcome, || {
        format!(
            "annotation {raw:?} of {:?}, notes {notes:?}",
            text.escape_ascii()
        )
    });
}

/// A PBN record, at times with faults.
fn record(rng: &mut Rng, report: &mut Report) {
    let record = pbn::record(rng);
    let mut lent = pbn::scattered(rng, &record);
    if rng.once_in(3) {
        (0..1 + rng.below(2)).for_each(|_| pbn::fault(rng, &mut lent));
    }
    let outcome = compare::record(lent.lent());
    report.add(Kind::Records, &lent.text, outcome, || format!("{lent:?}"));
}

/// An auction, at times with faults.
fn auction(rng: &mut Rng, report: &mut Report) {
    let mut lent = auctions::lent(rng);
    if rng.once_in(4) {
        (0..1 + rng.below(2)).for_each(|_| auctions::fault(rng, &mut lent));
    }
    let outcome = compare::auction(&lent.text, lent.dealer, &lent.rows);
    report.add(Kind::Auctions, &lent.text, outcome, || format!("{lent:?}"));
}

/// A text of any kind, about one in three with byte order marks.
fn any_text(rng: &mut Rng) -> String {
    let text = match rng.below(16) {
        0 => {
            let boards = rng.below(5);
            records::file(rng, boards)
        }
        1 => {
            let boards = rng.below(5);
            records::lines(rng, boards)
        }
        2 => {
            let pages = rng.below(20);
            records::movie(rng, pages)
        }
        3 => texts::mixture(rng, 300),
        _ => texts::mixture(rng, 16),
    };
    marks::text(rng, text)
}

/// A record of one board, now and then another text, or with faults.
fn any_record(rng: &mut Rng) -> Vec<u8> {
    let text = match rng.below(16) {
        0 => any_text(rng),
        1 => {
            let text = records::file(rng, 1);
            marks::text(rng, text)
        }
        2 => samples::record(rng, 200),
        _ => samples::record(rng, 12),
    };
    at_times_damaged(rng, text)
}

/// A file of some boards, now and then another text, or with faults.
fn any_file(rng: &mut Rng) -> Vec<u8> {
    let text = match rng.below(16) {
        0 => any_text(rng),
        1 => (0..rng.below(4)).map(|_| any_text(rng)).collect(),
        2 => samples::file(rng, 150),
        _ => samples::file(rng, 16),
    };
    at_times_damaged(rng, text)
}

/// The text, once in a while with faults or with marks that are cut short.
fn at_times_damaged(rng: &mut Rng, text: String) -> Vec<u8> {
    match rng.below(20) {
        0 => texts::damaged(rng, text.as_bytes(), 3),
        1 => marks::cut(rng, text.as_bytes()),
        _ => text.into_bytes(),
    }
}

/// Any bytes, or a text with faults; at times with marks, whole or cut short.
fn any_bytes(rng: &mut Rng) -> Vec<u8> {
    let bytes = if rng.once_in(2) {
        texts::bytes(rng, 40)
    } else {
        let text = any_text(rng);
        texts::damaged(rng, text.as_bytes(), 4)
    };
    if rng.once_in(3) {
        return marks::cut(rng, &bytes);
    }
    bytes
}

fn steps(rng: &mut Rng, report: &mut Report, bytes: &[u8]) -> Same {
    if bytes.len() <= 60 {
        report.add_many(Kind::Places, bytes, bytes.len() + 9);
        return compare::steps(bytes);
    }
    for _ in 0..40 {
        let at = rng.below(bytes.len() + 4);
        report.add_many(Kind::Places, bytes, 1);
        compare::step(bytes, at as u64)?;
    }
    Ok(())
}

/// Steps of the board cursor from some places, with any number.
fn visits(rng: &mut Rng, report: &mut Report, bytes: &[u8]) -> Same {
    for _ in 0..8 {
        let at = rng.below(bytes.len() + 4);
        let number = *rng.pick(&[0, 1, u64::from(u32::MAX), u64::MAX - 1, u64::MAX]);
        report.add_many(Kind::Places, bytes, 1);
        compare::visit(bytes, at as u64, number)?;
    }
    Ok(())
}

/// Steps that read a board, from some places of any bytes and with any number,
/// with rows and places that at times are too few; and a walk from the start.
fn reads(rng: &mut Rng, report: &mut Report) {
    let bytes = read_bytes(rng);
    for _ in 0..6 {
        let at = match rng.below(8) {
            0 => *rng.pick(&[bytes.len() as u64 + 5, 1 << 32, u64::MAX]),
            1 | 2 => 0,
            _ => rng.below(bytes.len() + 3) as u64,
        };
        let number = *rng.pick(&[0, 1, u64::from(u32::MAX), u64::MAX - 1, u64::MAX]);
        let lines = *rng.pick(&[0, 0, 1, 1, 2, u32::MAX]);
        let cursor = (at, number, lines);
        let lent = [rng.below(24), rng.below(4)];
        let outcome = compare::read_board(&bytes, cursor, lent);
        report.add(Kind::Reads, &bytes, outcome, || {
            format!("file {}, {cursor:?}, {lent:?}", bytes.escape_ascii())
        });
    }
    let lines = rng.below(2) as u32;
    let outcome = compare::walk(&bytes, lines);
    report.add(Kind::Walks, &bytes, outcome, || {
        format!("file {}, lines {lines}", bytes.escape_ascii())
    });
}

/// Names looked for in a file whose names have accents, most of them there in another
/// spelling or nearly there; in work space of several lengths, and of any.
fn names(rng: &mut Rng, report: &mut Report) {
    let names::Asked { text, names } = names::asked(rng);
    for name in names {
        let places = rng.below(40);
        let outcome =
            compare::name(&text, &name).and_then(|()| compare::name_in(&text, &name, places));
        report.add(
            Kind::Names,
            &[&text[..], &name].join(&b'|'),
            outcome,
            || {
                let (text, name) = (text.escape_ascii(), name.escape_ascii());
                format!("name {name} in file {text}, {places} places")
            },
        );
    }
}

/// A file of some boards, at times with a fault anywhere or near its end or with
/// marks that are cut short, or any bytes.
fn read_bytes(rng: &mut Rng) -> Vec<u8> {
    let mut bytes = match rng.below(8) {
        0 => any_bytes(rng),
        1 => any_file(rng),
        _ => samples::file(rng, 14).into_bytes(),
    };
    match rng.below(5) {
        0 => texts::damaged(rng, &bytes, 2),
        1 => marks::cut(rng, &bytes),
        2 => {
            // the first boards are well-formed
            let last = bytes.len() / 4;
            let place = bytes.len() - rng.below(last + 1);
            bytes.insert(place, *rng.pick(&[0xFF, 0xC3, 0x80, 0xE2]));
            bytes
        }
        _ => bytes,
    }
}

/// A document of few rows: spans at the bounds of characters for the most
/// part, so that some documents are accepted, and an output that nearly fits.
fn document(rng: &mut Rng, report: &mut Report) {
    let text = match rng.below(3) {
        0 => any_bytes(rng),
        1 => {
            let letters = texts::letters(rng, 20);
            marks::text(rng, letters).into_bytes()
        }
        _ => any_text(rng).into_bytes(),
    };
    let wild = rng.once_in(6);
    let mut words: Vec<u32> = Vec::new();
    for _ in 0..rng.below(6) {
        for _ in 0..2 {
            let span = span(rng, &text, wild);
            words.extend([span.start, span.len]);
        }
    }
    let trailing = span(rng, &text, wild);
    let used: u64 = words
        .chunks(4)
        .map(|r| 2 + u64::from(r[1]) + u64::from(r[3]))
        .sum();
    let needed = used + u64::from(trailing.len);
    let near = (needed.min(100_000) + rng.below(8) as u64).saturating_sub(3);
    if rng.once_in(8) {
        // a rest that is no row
        words.extend([u32::MAX, 1, 7].iter().take(1 + rng.below(3)));
    }
    let outcome = compare::document(&text, &words, trailing, near as usize);
    report.add(Kind::Documents, &text, outcome, || {
        format!("bytes {text:?}\nrows {words:?}, trailing {trailing:?}, output of {near}")
    });
}

/// A text, a document and an output about the limit, at times with a fault.
fn long(rng: &mut Rng, report: &mut Report) {
    let near = |rng: &mut Rng| LIMIT - 2 + rng.below(5);
    let (n, len, out) = (near(rng), near(rng), near(rng));
    let mut text = vec![b'x'; n];
    if rng.once_in(2) {
        let at = rng.below(n);
        text[at] = rng.byte();
    }
    let rows = [0, 0, 0, 1];
    let rows = if rng.once_in(2) { &rows[..] } else { &[] };
    let trailing = Span::new(0, len as u32);
    let outcome = compare::open(&text).and_then(|()| compare::document(&text, rows, trailing, out));
    report.add(Kind::Documents, &text, outcome, || {
        format!("a text of {n}, rows {rows:?}, trailing {len}, output of {out}")
    });
}

fn span(rng: &mut Rng, text: &[u8], wild: bool) -> Span {
    if wild && rng.once_in(8) {
        let edge = [
            0,
            1,
            text.len() as u32,
            text.len() as u32 + 1,
            u32::MAX - 1,
            u32::MAX,
        ];
        return Span::new(*rng.pick(&edge), *rng.pick(&edge));
    }
    let mut ends = [rng.below(text.len() + 1), rng.below(text.len() + 1)];
    ends.sort();
    if !(wild && rng.once_in(4)) {
        ends = ends.map(|end| bound(text, end));
    }
    Span::new(ends[0] as u32, (ends[1] - ends[0]) as u32)
}

/// The nearest place at or before this one where no character is cut.
fn bound(text: &[u8], mut place: usize) -> usize {
    while text.get(place).is_some_and(|b| (0x80..0xC0).contains(b)) && place > 0 {
        place -= 1;
    }
    place
}

/// What is lent for a board: built by hand or realistic, at times with faults.
fn any_lent(rng: &mut Rng) -> Gathered {
    let board = match rng.below(16) {
        0 => {
            let board = records::board(rng, 1);
            marks::board(rng, board)
        }
        1 => built::board(rng, 40, 60),
        _ => built::board(rng, 5, 9),
    };
    let mut lent = lent::scattered(rng, &board);
    if rng.once_in(4) {
        (0..1 + rng.below(2)).for_each(|_| lent::fault(rng, &mut lent));
    }
    lent
}

/// A board written, and appended to an output of any length.
fn written(rng: &mut Rng, report: &mut Report) {
    let lent = any_lent(rng);
    let len = rng.below(600);
    let used = rng.below(len + 2) as u64;
    let outcome =
        compare::written(lent.lent()).and_then(|()| compare::append(lent.lent(), len, used));
    report.add(Kind::Written, &lent.text, outcome, || format!("{lent:?}"));
}

/// A play of which one card may be none, in an output that nearly fits.
fn play(rng: &mut Rng, report: &mut Report) {
    let most = *rng.pick(&[6, 60, 600]);
    let mut cards: Vec<u8> = (0..rng.below(most)).map(|_| rng.below(52) as u8).collect();
    if rng.once_in(6) {
        cards.insert(rng.below(cards.len() + 1), *rng.pick(&[51, 52, 64, 255]));
    }
    let len = (3 * cards.len() + rng.below(5)).saturating_sub(3);
    let outcome = compare::play_text(&cards, len);
    report.add(Kind::Plays, &[], outcome, || {
        format!("play {cards:?}, output of {len}")
    });
}

/// Two boards, the same or nearly, at times with faults.
fn pair(rng: &mut Rng, report: &mut Report) {
    let (one, two) = built::pair(rng);
    let mut lent = [one, two].map(|board| lent::scattered(rng, &board));
    if rng.once_in(6) {
        for _ in 0..1 + rng.below(3) {
            let side = rng.below(2);
            lent::fault(rng, &mut lent[side]);
        }
    }
    let outcome = compare::equality(lent[0].lent(), lent[1].lent());
    let texts = [&lent[0].text[..], &lent[1].text].join(&b'|');
    report.add(Kind::Pairs, &texts, outcome, || format!("{lent:?}"));
}

/// Appends to an output of any bytes.
fn appends(rng: &mut Rng, report: &mut Report) {
    let most = *rng.pick(&[3, 8, 8, 30]);
    let calls = lent::calls(rng, most);
    let len = rng.below(250 * most);
    let first: Vec<u8> = (0..len).map(|_| rng.byte()).collect();
    let texts: Vec<&[u8]> = calls.iter().map(|call| &call.text[..]).collect();
    texts
        .iter()
        .for_each(|text| report.add_many(Kind::Appends, text, 1));
    let outcome = compare::appends(first, &calls);
    report.add(Kind::Lists, &texts.join(&b'|'), outcome, || {
        format!("output of {len}, {calls:?}")
    });
}
