//! Whole records: one by hand, records by chance, and long texts.

use super::{calls, Record};
use crate::{
    annotation::{mixed, table, Notes},
    built::{self, cards, SEATS, SIDES},
    random::Rng,
};
use bridge_types::{AnnotatedCall, Call, Strain, Vulnerability};

/// A record with most fields, and the one without any.
pub fn named() -> Vec<Record> {
    let bid = AnnotatedCall {
        call: Call::Bid {
            level: 1,
            strain: Strain::NoTrump,
        },
        annotation: Some("=1=$2z".to_string()),
    };
    let blank = AnnotatedCall {
        call: Call::Blank,
        annotation: None,
    };
    let ace = cards("SA");
    let record = Record {
        names: [None, None, Some("N,1|".to_string()), None],
        event: Some("Cup".to_string()),
        date: Some("2026.09.14".to_string()),
        number: Some(6),
        deal: built::deal([ace.clone(), Vec::new(), Vec::new(), Vec::new()]),
        vulnerable: Vulnerability::Both,
        calls: vec![bid, blank],
        notes: table(&[(1, "weak")]),
        play: vec![None, Some(ace[0])],
        result: Some(-1),
        ..Record::default()
    };
    vec![record, Record::default()]
}

fn some_call(rng: &mut Rng) -> AnnotatedCall {
    let raw = |rng: &mut Rng| match rng.below(3) {
        0 => built::text(rng),
        _ => (0..rng.below(4)).map(|_| mixed::some_piece(rng)).collect(),
    };
    AnnotatedCall {
        call: *rng.pick(&calls::kinds()),
        annotation: rng.once_in(2).then(|| raw(rng)),
    }
}

/// A record with everything by chance, at most so many calls and so many entries
/// of play.
pub fn some_record(rng: &mut Rng, calls: usize, entries: usize) -> Record {
    const RESULTS: &[i32] = &[i32::MIN, -1, 0, 7, 9, 13, 255, 256, i32::MAX];
    let maybe = |rng: &mut Rng| (!rng.once_in(3)).then(|| built::text(rng));
    Record {
        names: [(); 4].map(|_| maybe(rng)),
        event: maybe(rng),
        date: maybe(rng),
        id: rng.once_in(3).then(|| built::text(rng)),
        number: (!rng.once_in(4)).then(|| 1 + rng.below(65_535) as u32),
        dealer: rng.once_in(2).then(|| *rng.pick(&SEATS)),
        deal: built::some_deal(rng),
        vulnerable: *rng.pick(&SIDES),
        calls: (0..rng.below(calls + 1)).map(|_| some_call(rng)).collect(),
        notes: mixed::some_notes(rng, 4),
        play: calls::some_play(rng, entries),
        result: (!rng.once_in(4)).then(|| *rng.pick(RESULTS)),
    }
}

/// Records with everything by chance.
pub fn random() -> Vec<Record> {
    let rng = &mut Rng::new(72);
    (0..450).map(|_| some_record(rng, 5, 9)).collect()
}

/// Long texts in each place, and every note at once.
pub fn long() -> Vec<Record> {
    let long = || Some("Count — |,\r\n!é".repeat(60));
    let all: Notes = (0..=255).map(|n| (n, format!("n|{n}"))).collect();
    let raw = (0..=256).map(|n| format!("={n}=")).collect();
    let pass = |raw| AnnotatedCall {
        call: Call::Pass,
        annotation: Some(raw),
    };
    vec![
        Record {
            names: [long(), long(), long(), long()],
            ..Record::default()
        },
        Record {
            event: long(),
            date: long(),
            id: long(),
            number: Some(4),
            ..Record::default()
        },
        Record {
            calls: vec![pass(raw), pass("=0==255=".to_string())],
            notes: all,
            ..Record::default()
        },
        Record {
            calls: vec![pass("=1=z".repeat(8))],
            notes: [(1, long().unwrap())].into(),
            ..Record::default()
        },
    ]
}
