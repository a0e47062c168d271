//! Boards made of PBN records and annotations as text, as Rust values: document
//! 01's cases, and the refusals by number and value.

use lin_host_rust::{
    boards::{self, Card, Seat, ROW},
    pbn::{self, Bid, Call, Gathered, LinConverted, Notes, Record, Strain, GAP},
    tokens::Span,
    Refusal, RowKind, LIMIT,
};

fn text(raw: &str, notes: &[(u8, &str)]) -> Option<String> {
    let notes: Notes = notes.iter().copied().collect();
    pbn::annotation_text(raw, &notes).unwrap()
}

// Annotations

#[test]
fn cases_of_annotations() {
    let notes = [(1, "weak"), (2, ""), (255, "a|b\n")];
    for (raw, expected) in [
        ("=1=$2z", Some("weak ?")),
        ("==", Some("==")),
        ("=", None),
        ("=1", None),
        ("===", Some("==")),
        ("====", Some("== ==")),
        ("=+1=", Some("weak")),
        ("=0000000000000000000000001=", Some("weak")),
        ("= 1=", Some("= 1=")),
        ("=++1=", Some("=++1=")),
        ("=256=", Some("=256=")),
        ("=4294967297=", Some("=4294967297=")),
        ("=18446744073709551617=", Some("=18446744073709551617=")),
        ("=2=", None),
        ("=3=", Some("=3=")),
        ("=255=", Some("a|b\n")),
        ("=|=", Some("=|=")),
        ("$", None),
        ("$0", None),
        ("$01", None),
        ("$7", None),
        ("$10", None),
        ("$1$2$3$4$5$6", Some("! ? !! ?? !? ?!")),
        ("$$1", Some("!")),
        ("$1!", Some("! !")),
        ("!?é?!", Some("!? ?!")),
        ("", None),
    ] {
        assert_eq!(text(raw, &notes).as_deref(), expected, "{raw}");
    }
}

#[test]
fn refusals_of_annotations() {
    let answer = |text: &[u8], raw: Span, note: Option<[u32; 2]>, len: usize| {
        let mut notes = [0; 768];
        if let Some([start, len]) = note {
            notes[765..].copy_from_slice(&[1, start, len]);
        }
        let mut out = vec![0xA5; len];
        let got = pbn::annotation_numbers(text, raw, &notes, &mut out).read();
        assert!(got.is_ok() || out == vec![0xA5; len]);
        got
    };
    let raw = Span::new(0, 3);
    assert_eq!(answer(b"$1!", raw, None, 3), Ok(Some(3)));
    assert_eq!(
        answer(b"$1!", raw, None, 2),
        Err(Refusal::OutputTooSmall(3))
    );
    assert_eq!(answer(b"abc", raw, None, 0), Ok(None));
    assert_eq!(answer(b"abc", raw, Some([3, 0]), 0), Ok(None));
    assert_eq!(
        answer(b"abc", raw, Some([4, 0]), 0),
        Err(Refusal::SpanPastEnd)
    );
    assert_eq!(
        answer(b"abc", Span::new(1, 3), None, 9),
        Err(Refusal::SpanPastEnd)
    );
    let ill = b"ab\xC3\xA9";
    assert_eq!(answer(ill, raw, None, 9), Err(Refusal::SpanNotUtf8));
    assert_eq!(
        answer(ill, Span::new(0, 2), Some([3, 1]), 9),
        Err(Refusal::SpanNotUtf8)
    );
    assert_eq!(
        answer(ill, raw, Some([u32::MAX, 2]), 9),
        Err(Refusal::SpanPastEnd)
    );
    let long = vec![b' '; LIMIT + 1];
    assert_eq!(
        answer(&long, Span::new(0, u32::MAX), None, 9),
        Err(Refusal::TextTooLong)
    );
    assert_eq!(answer(&long[1..], Span::new(0, 1), None, 9), Ok(None));
}

// Records

fn made(record: &Record) -> pbn::Made {
    pbn::from_board(record).unwrap()
}

#[test]
fn nothing_given() {
    let made = made(&Record::default());
    assert_eq!(made.board(), Default::default());
    assert_eq!(made.texts(), "");
}

#[test]
fn titles_and_labels() {
    fn head<'a>(event: &'a str, date: &'a str, id: &'a str, number: u32) -> Record<'a> {
        Record {
            event: Some(event),
            date: Some(date),
            id: Some(id),
            number: Some(number),
            ..Record::default()
        }
    }
    let texts = |record: &Record| made(record).texts().to_string();
    assert_eq!(texts(&head("Cup", "", "", 7)), "Cupo7,BOARD 7Board 7");
    assert_eq!(
        texts(&head("", "May", "a|", 7)),
        " - Mayoa/,BOARD a/Board a/"
    );
    assert_eq!(
        texts(&head("C\n", "M,", "1-1", 7)),
        "C  - M,o1-1,BOARD 1-1Board 1-1"
    );
    let dealer = |record: &Record| made(record).board().heading.dealer;
    let seats = [1, 2, 3, 4].map(|n| dealer(&head("", "", "x", n)));
    assert_eq!(seats, [Seat::North, Seat::East, Seat::South, Seat::West]);
    let given = Record {
        dealer: Some(Seat::West),
        number: Some(1),
        ..Record::default()
    };
    assert_eq!(dealer(&given), Seat::West);
}

#[test]
fn spellings_are_kept() {
    let names = ["é", "e\u{301}", "", "e,\u{301}"].map(Some);
    let record = Record {
        names,
        ..Record::default()
    };
    let made = made(&record);
    let board = made.board();
    assert_eq!(board.heading.names, ["é", "e\u{301}", "", "e\u{301}"]);
}

#[test]
fn calls_play_and_claim() {
    let bids = [
        Bid::Level(7, Strain::NoTrump),
        Bid::Blank,
        Bid::Double,
        Bid::Continue,
        Bid::Redouble,
        Bid::Pass,
    ];
    let call = |bid| Call {
        bid,
        annotation: Some("=1="),
    };
    let mut record = Record {
        calls: bids.map(call).to_vec(),
        notes: [(1, "a|b")].into(),
        play: vec![Card::new(0), None, Card::new(51)],
        result: Some(256),
        ..Record::default()
    };
    let board = made(&record);
    let board = board.board();
    let texts: Vec<_> = board.calls.iter().map(|c| (c.bid, c.annotation)).collect();
    let note = Some("a/b");
    assert_eq!(texts, ["7N", "d", "r", "p"].map(|bid| (bid, note)));
    assert!(board.calls.iter().all(|c| !c.alerted));
    assert_eq!(board.play, [0, 51].map(|n| Card::new(n).unwrap()));
    assert_eq!(board.heading.claim, None);
    for (result, claim) in [(0, Some(0)), (255, Some(255)), (-1, None), (i32::MIN, None)] {
        record.result = Some(result);
        assert_eq!(made(&record).board().heading.claim, claim, "{result}");
    }
}

/// The answer to a record that is lent with so many bytes, words and places. A
/// refusal changes none of them and gives a fresh board.
fn answer(lent: &Gathered, sizes: [usize; 3]) -> LinConverted {
    let [bytes, words, places] = sizes;
    let (mut out, mut rows, mut cards) = (vec![5; bytes], vec![6; words], vec![7; places]);
    let lent = lent.lent();
    let got = lent.convert_numbers(&mut out, &mut rows, &mut cards);
    if got.heading.answer.refusal != 0 {
        assert_eq!(got.heading.board, boards::heading_numbers(b"").board);
        assert_eq!((got.heading.calls, got.heading.cards, got.len), (0, 0, 0));
        assert_eq!(out, vec![5; bytes]);
        assert_eq!((rows, cards), (vec![6; words], vec![7; places]));
    }
    got
}

fn refusal(lent: &Gathered, sizes: [usize; 3]) -> Option<Refusal> {
    answer(lent, sizes).heading.answer.read().err()
}

/// `1C` and `p` around calls that are dropped, with two cards.
fn sample() -> Gathered {
    let call = |bid| Call {
        bid,
        annotation: None,
    };
    let dropped = |bid| Call {
        bid,
        annotation: Some("z"),
    };
    Gathered::from(&Record {
        names: [Some("é"), None, None, None],
        id: Some("a"),
        number: Some(7),
        calls: vec![
            call(Bid::Level(1, Strain::Clubs)),
            dropped(Bid::Continue),
            dropped(Bid::Blank),
            call(Bid::Pass),
        ],
        play: vec![Card::new(12), None, Card::new(51)],
        ..Record::default()
    })
}

const ENOUGH: [usize; 3] = [22, 2 * ROW, 2];

#[test]
fn too_little_lent() {
    let lent = sample();
    assert_eq!(answer(&lent, ENOUGH).len, 22);
    let few = |kind| Some(Refusal::TooFewRows(kind, 2));
    assert_eq!(
        refusal(&lent, [21, 12, 2]),
        Some(Refusal::OutputTooSmall(22))
    );
    assert_eq!(refusal(&lent, [22, 11, 2]), few(RowKind::Calls));
    assert_eq!(refusal(&lent, [0, 0, 0]), few(RowKind::Calls));
    assert_eq!(refusal(&lent, [0, 12, 1]), few(RowKind::Cards));
    assert_eq!(
        refusal(&lent, [0, 12, 2]),
        Some(Refusal::OutputTooSmall(22))
    );
}

#[test]
fn the_order_of_refusals() {
    let mut lent = sample();
    lent.notes[..3].copy_from_slice(&[1, 0, 1]);
    assert_eq!(refusal(&lent, [0, 0, 0]), Some(Refusal::SpanNotUtf8));
    // the annotation of a dropped call
    lent.calls[2 * ROW + 4] = u32::MAX;
    assert_eq!(refusal(&lent, ENOUGH), Some(Refusal::SpanPastEnd));
    // the number beside the id
    lent.board.number = 65_536;
    assert_eq!(refusal(&lent, ENOUGH), Some(Refusal::OutOfRange));
    lent.text.resize(LIMIT + 1, b' ');
    assert_eq!(refusal(&lent, ENOUGH), Some(Refusal::TextTooLong));
}

#[test]
fn codes_outside_their_range() {
    let faults: [fn(&mut Gathered); 14] = [
        |l| l.board.south.present = 2,
        |l| l.board.east.present = u32::MAX,
        |l| l.board.event.present = 2,
        |l| l.board.number_given = 2,
        |l| l.board.number = 0,
        |l| l.board.dealer_given = 2,
        |l| (l.board.dealer_given, l.board.dealer) = (1, 4),
        |l| l.board.vulnerability = 4,
        |l| l.board.result_given = 2,
        |l| l.calls[0] = 6,
        |l| l.calls[1] = 8,
        |l| l.calls[2] = 5,
        |l| l.calls[3] = 2,
        |l| l.plays[1] = 254,
    ];
    for (n, fault) in faults.iter().enumerate() {
        let mut lent = sample();
        fault(&mut lent);
        assert_eq!(refusal(&lent, ENOUGH), Some(Refusal::OutOfRange), "{n}");
    }
    let mut lent = sample();
    lent.board.dealer = 4;
    lent.board.west.start = u32::MAX;
    lent.calls[ROW + 1] = 8;
    assert_eq!(refusal(&lent, ENOUGH), None);
}

/// Every level and every number that the safe types can hold: those outside
/// their range are refused, and no gap is made of a card.
#[test]
fn the_safe_types() {
    for level in 0..=255 {
        let record = Record {
            calls: vec![Bid::Level(level, Strain::Clubs).into()],
            ..Record::default()
        };
        let refusal = (!(1..=7).contains(&level)).then_some(Refusal::OutOfRange);
        assert_eq!(pbn::from_board(&record).err(), refusal, "{level}");
    }
    for number in [0, 1, 65_535, 65_536, 65_537, 1 << 31, u32::MAX] {
        let record = Record {
            number: Some(number),
            ..Record::default()
        };
        let refusal = (!(1..=65_535).contains(&number)).then_some(Refusal::OutOfRange);
        assert_eq!(pbn::from_board(&record).err(), refusal, "{number}");
    }
    assert_eq!(Card::new(GAP), None);
    let play: Vec<Card> = Card::all().collect();
    let record = Record {
        play: play.iter().copied().map(Some).collect(),
        ..Record::default()
    };
    assert_eq!(made(&record).board().play, play);
}

#[test]
fn the_room_of_a_long_output() {
    let half = "a".repeat(LIMIT / 2);
    let lent = |more: &'static str| {
        let mut lent = Gathered::from(&Record {
            names: [Some(half.as_str()), None, Some(more), None],
            ..Record::default()
        });
        // the same half again
        lent.board.west = lent.board.south;
        lent
    };
    let got = answer(&lent(""), [LIMIT + 2, 0, 0]);
    assert_eq!(got.len, LIMIT as u64);
    let small = Some(Refusal::OutputTooSmall(LIMIT as u64 + 1));
    assert_eq!(refusal(&lent("b"), [LIMIT + 2, 0, 0]), small);
}
