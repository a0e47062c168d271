//! Records for what stands before the calls: names, event, date, id, number,
//! dealer, vulnerability, deal and result.

use super::Record;
use crate::{
    built::{self, cards, SEATS, SIDES, TRAPS},
    random::Rng,
    texts::SAMPLES,
};

fn some(text: &str) -> Option<String> {
    Some(text.to_string())
}

/// Each text at each seat.
pub fn names() -> Vec<Record> {
    let mut all = Vec::new();
    for text in TRAPS.iter().chain(SAMPLES) {
        for seat in 0..4 {
            let mut record = Record::default();
            record.names[seat] = some(text);
            all.push(record);
        }
    }
    all
}

/// Characters with a mark, as one character and as two.
pub const SPELLINGS: &[[&str; 2]] = &[
    ["é", "e\u{301}"],
    ["José", "Jose\u{301}"],
    ["Å", "A\u{30A}"],
    ["Ś", "S\u{301}"],
    ["Nguyễn", "Nguye\u{302}\u{303}n"],
    ["ñ,|", "n\u{303},|"],
];

/// Both spellings beside one another: at every two seats, and as event and date,
/// or id.
pub fn spellings() -> Vec<Record> {
    let mut all = Vec::new();
    for [one, two] in SPELLINGS {
        for first in 0..4 {
            for second in (0..4).filter(|n| *n != first) {
                let mut record = Record::default();
                record.names[first] = some(one);
                record.names[second] = some(two);
                all.push(record);
            }
        }
        for (event, date) in [(one, two), (two, one)] {
            all.push(Record {
                names: [some(two), some(one), some(two), some(one)],
                event: some(event),
                date: some(date),
                id: some(date),
                number: Some(3),
                ..Record::default()
            });
        }
    }
    all
}

/// Every name absent, empty, empty once its commas are gone, and given.
pub fn given() -> Vec<Record> {
    let text = |seat: usize, n: usize| match n % 4 {
        0 => None,
        1 => some(""),
        2 => some(",,"),
        _ => some(["South", "W|", "N\r\n", "É,st"][seat]),
    };
    let record = |n: usize| Record {
        names: [0, 1, 2, 3].map(|seat| text(seat, n >> (2 * seat))),
        ..Record::default()
    };
    (0..256).map(record).collect()
}

const TITLES: [Option<&str>; 11] = [
    None,
    Some(""),
    Some("x"),
    Some(" "),
    Some("a|b"),
    Some("|"),
    Some("\r\n"),
    Some(","),
    Some(" - "),
    Some("é"),
    Some("e\u{301}"),
];

/// Every event with every date.
pub fn titles() -> Vec<Record> {
    let mut all = Vec::new();
    for event in TITLES {
        for date in TITLES {
            all.push(Record {
                event: event.map(str::to_string),
                date: date.map(str::to_string),
                ..Record::default()
            });
        }
    }
    all
}

/// Each text as event, as date and as id.
pub fn texts() -> Vec<Record> {
    let mut all = Vec::new();
    for text in TRAPS.iter().chain(SAMPLES) {
        for place in 0..3 {
            let mut record = Record::default();
            match place {
                0 => record.event = some(text),
                1 => record.date = some(text),
                _ => record.id = some(text),
            }
            all.push(record);
        }
    }
    all
}

/// Ids beside numbers: the id gives the label, the number the dealer.
pub fn labels() -> Vec<Record> {
    const IDS: [Option<&str>; 9] = [
        None,
        Some(""),
        Some("1-1"),
        Some("7"),
        Some("a|b"),
        Some("\n"),
        Some(","),
        Some("é"),
        Some("e\u{301}"),
    ];
    let mut all = Vec::new();
    for id in IDS {
        for number in [
            None,
            Some(1),
            Some(2),
            Some(3),
            Some(4),
            Some(10),
            Some(65_535),
        ] {
            all.push(Record {
                id: id.map(str::to_string),
                number,
                ..Record::default()
            });
        }
    }
    all
}

/// Small numbers, and those around each power of ten and of two.
pub fn numbers() -> Vec<Record> {
    let mut all: Vec<u32> = (1..=64).collect();
    for edge in [
        100, 128, 256, 1_000, 1_024, 4_096, 10_000, 16_384, 32_768, 65_534,
    ] {
        all.extend(edge - 2..=edge + 1);
    }
    let record = |n| Record {
        number: Some(n),
        ..Record::default()
    };
    all.into_iter().map(record).collect()
}

/// Dealers given and not, numbers of every remainder and none, all sides.
pub fn dealers() -> Vec<Record> {
    let mut all = Vec::new();
    for dealer in [None].into_iter().chain(SEATS.map(Some)) {
        for number in [0, 1, 2, 3, 4, 65_532, 65_533, 65_534, 65_535] {
            for side in SIDES {
                all.push(Record {
                    dealer,
                    number: (number > 0).then_some(number),
                    vulnerable: side,
                    ..Record::default()
                });
            }
        }
    }
    all
}

/// No result, every claim, and numbers that are none.
pub fn results() -> Vec<Record> {
    let mut all = vec![None];
    all.extend((0..=260).map(Some));
    for near in [0, 128, 256, 512, 32_768, 65_536, 65_792, 16_777_216] {
        all.extend([-near - 1, -near, 1 - near, near - 1, near, near + 13].map(Some));
    }
    for far in [i32::MIN, i32::MAX - 1] {
        all.extend([far, far + 1].map(Some));
    }
    all.extend([i32::MIN + 13, i32::MIN + 255, i32::MAX - 255].map(Some));
    let record = |result| Record {
        result,
        ..Record::default()
    };
    all.into_iter().map(record).collect()
}

/// Deals by chance, and cards repeated.
pub fn deals() -> Vec<Record> {
    let rng = &mut Rng::new(70);
    let mut all: Vec<_> = (0..60).map(|_| built::some_deal(rng)).collect();
    for letters in ["SA", "SAA", "SAAKHQDJCT", "C22"] {
        for seat in 0..4 {
            let mut hands = [const { Vec::new() }; 4];
            hands[seat] = cards(letters);
            all.push(built::deal(hands));
        }
    }
    let record = |deal| Record {
        deal,
        ..Record::default()
    };
    all.into_iter().map(record).collect()
}
