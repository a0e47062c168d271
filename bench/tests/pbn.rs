//! Annotations and boards made of PBN records against the oracle and the model:
//! the oracle's records, random ones, and records lent with any numbers.

use lin_bench::{
    compare::{self, Sizes},
    samples::pbn as samples,
    upstream,
};
use lin_host_rust::{
    boards::{Card, Seat, ROW},
    pbn::{Bid, Call, Gathered, NoteWords, Record, Strain},
    tokens::Span,
    LIMIT,
};
use oracle::random::Rng;

fn holds(subject: &dyn std::fmt::Debug, outcome: compare::Same) {
    if let Err(difference) = outcome {
        panic!("{difference}\nfor {subject:?}");
    }
}

// Annotations

fn lent_annotation(raw: &str, notes: &[(u8, &str)]) -> (Vec<u8>, Span, Box<NoteWords>) {
    let mut text = raw.as_bytes().to_vec();
    let mut words = Box::new([0; 768]);
    for (number, note) in notes {
        let at = 3 * usize::from(*number);
        words[at..at + 3].copy_from_slice(&[1, text.len() as u32, note.len() as u32]);
        text.extend(note.as_bytes());
    }
    (text, Span::new(0, raw.len() as u32), words)
}

#[test]
fn stored_annotations() {
    for (raw, notes) in oracle::annotation::all() {
        let notes: Vec<_> = notes.iter().map(|(n, t)| (*n, t.as_str())).collect();
        let (text, span, words) = lent_annotation(&raw, &notes);
        holds(&raw, compare::annotations(&text, span, &words));
    }
}

#[test]
fn random_annotations() {
    let mut rng = Rng::new(80);
    for _ in 0..20_000 {
        let (text, raw, notes) = samples::annotation(&mut rng);
        holds(&(&text, raw), compare::annotations(&text, raw, &notes));
    }
}

/// Every span of short texts and some beyond them, as the raw annotation and as
/// a note, in outputs of some lengths.
#[test]
fn any_span_of_annotations() {
    let texts: [&[u8]; 3] = [b"$1!", b"abc", b"ab\xC3\xA9"];
    for text in texts {
        let n = text.len() as u32;
        let numbers: Vec<u32> = (0..=n + 1).chain([u32::MAX]).collect();
        for start in &numbers {
            for len in &numbers {
                let x = Span::new(*start, *len);
                let mut notes = [0; 768];
                for out in [0, 2, 3, 9] {
                    holds(&x, compare::annotation(text, x, &notes, out));
                }
                notes[765..].copy_from_slice(&[1, x.start, x.len]);
                for raw in [Span::new(0, 2), Span::new(0, 3), Span::new(1, n)] {
                    holds(&(raw, x), compare::annotation(text, raw, &notes, 9));
                }
            }
        }
    }
    let long = vec![b' '; LIMIT + 1];
    let notes = [0; 768];
    let past = Span::new(0, u32::MAX);
    holds(&past, compare::annotation(&long, past, &notes, 9));
    let one = Span::new(0, 1);
    holds(&one, compare::annotation(&long[1..], one, &notes, 9));
}

// Records

fn compared(record: &Record) {
    holds(record, compare::record(Gathered::from(record).lent()));
}

#[test]
fn stored_records() {
    for record in oracle::pbn::all() {
        let lent = Gathered::from(&upstream::pbn_record(&record));
        holds(&lent, compare::record(lent.lent()));
    }
}

#[test]
fn random_records() {
    let mut rng = Rng::new(81);
    for _ in 0..6_000 {
        let record = samples::record(&mut rng);
        let mut lent = samples::scattered(&mut rng, &record);
        if rng.once_in(3) {
            (0..1 + rng.below(2)).for_each(|_| samples::fault(&mut rng, &mut lent));
        }
        holds(&lent, compare::record(lent.lent()));
    }
}

/// The records of which `host/tests/pbn.rs` tells what is made.
#[test]
fn records_by_hand() {
    compared(&Record::default());
    for (event, date, id, number) in [
        ("Cup", "", "", 7),
        ("", "May", "a|", 7),
        ("C\n", "M,", "1-1", 7),
        ("", "", "x", 1),
        ("", "", "x", 2),
        ("", "", "x", 3),
        ("", "", "x", 4),
    ] {
        compared(&Record {
            event: Some(event),
            date: Some(date),
            id: Some(id),
            number: Some(number),
            ..Record::default()
        });
    }
    compared(&Record {
        names: ["é", "e\u{301}", "", "e,\u{301}"].map(Some),
        dealer: Some(Seat::West),
        number: Some(1),
        play: Card::all().map(Some).collect(),
        ..Record::default()
    });
    let bids = [
        Bid::Level(7, Strain::NoTrump),
        Bid::Blank,
        Bid::Double,
        Bid::Continue,
        Bid::Redouble,
        Bid::Pass,
    ];
    let call = |bid| Call {
        bid,
        annotation: Some("=1="),
    };
    for result in [0, 255, 256, -1, i32::MIN] {
        compared(&Record {
            calls: bids.map(call).to_vec(),
            notes: [(1, "a|b")].into(),
            play: vec![Card::new(0), None, Card::new(51)],
            result: Some(result),
            ..Record::default()
        });
    }
}

/// `1C` and `p` around calls that are dropped, with two cards.
fn sample() -> Gathered {
    let call = |bid| Call {
        bid,
        annotation: None,
    };
    let dropped = |bid| Call {
        bid,
        annotation: Some("z"),
    };
    Gathered::from(&Record {
        names: [Some("é"), None, None, None],
        id: Some("a"),
        number: Some(7),
        calls: vec![
            call(Bid::Level(1, Strain::Clubs)),
            dropped(Bid::Continue),
            dropped(Bid::Blank),
            call(Bid::Pass),
        ],
        play: vec![Card::new(12), None, Card::new(51)],
        ..Record::default()
    })
}

fn lent(lent: &Gathered, sizes: [usize; 3]) {
    let [bytes, words, places] = sizes;
    let sizes = Sizes {
        bytes,
        words,
        places,
    };
    holds(&lent, compare::converted(lent.lent(), sizes));
}

const ENOUGH: [usize; 3] = [22, 2 * ROW, 2];

#[test]
fn sizes_about_those_needed() {
    for bytes in [0, 21, 22, 23] {
        for words in [0, 11, 12, 13, 24] {
            for places in [0, 1, 2, 3] {
                lent(&sample(), [bytes, words, places]);
            }
        }
    }
}

/// A change of the sample's numbers.
type Change = fn(&mut Gathered, u32);

#[test]
fn any_code() {
    let changes: [Change; 16] = [
        |l, n| l.board.south.present = n,
        |l, n| l.board.east.present = n,
        |l, n| l.board.event.present = n,
        |l, n| l.board.number_given = n,
        |l, n| l.board.number = n,
        |l, n| l.board.dealer_given = n,
        |l, n| l.board.dealer = n,
        |l, n| (l.board.dealer_given, l.board.dealer) = (1, n),
        |l, n| l.board.vulnerability = n,
        |l, n| l.board.result_given = n,
        |l, n| l.calls[0] = n,
        |l, n| l.calls[1] = n,
        |l, n| l.calls[2] = n,
        |l, n| l.calls[3] = n,
        |l, n| l.calls[ROW + 1] = n,
        |l, n| l.plays[1] = n as u8,
    ];
    for change in changes {
        for n in [
            0,
            1,
            2,
            3,
            4,
            5,
            6,
            7,
            8,
            51,
            52,
            254,
            255,
            65_535,
            65_536,
            u32::MAX,
        ] {
            let mut record = sample();
            change(&mut record, n);
            lent(&record, ENOUGH);
            lent(&record, [99, 99, 99]);
        }
    }
}

/// One fault after another, each refused before those that are there already.
#[test]
fn the_order_of_refusals() {
    let faults: [fn(&mut Gathered); 4] = [
        |l| l.notes[..3].copy_from_slice(&[1, 0, 1]),
        |l| l.calls[2 * ROW + 4] = u32::MAX,
        |l| l.board.number = 65_536,
        |l| l.text.resize(LIMIT + 1, b' '),
    ];
    let mut record = sample();
    for fault in faults {
        fault(&mut record);
        lent(&record, [0, 0, 0]);
        lent(&record, ENOUGH);
    }
}

#[test]
fn the_room_of_a_long_output() {
    let half = "a".repeat(LIMIT / 2);
    for more in ["", "b"] {
        let mut record = Gathered::from(&Record {
            names: [Some(half.as_str()), None, Some(more), None],
            ..Record::default()
        });
        // the same half again
        record.board.west = record.board.south;
        lent(&record, [LIMIT + 2, 0, 0]);
    }
}
