//! Records for the calls, their annotations and the notes, and for the play.

use super::{Record, STRAINS};
use crate::{
    annotation::{parts, table, Notes},
    built::{self, TRAPS},
    random::Rng,
    texts::{self, SAMPLES},
};
use bridge_types::{AnnotatedCall, Call, Card, Strain};

/// Every call.
pub fn kinds() -> Vec<Call> {
    let mut all = vec![
        Call::Pass,
        Call::Double,
        Call::Redouble,
        Call::Continue,
        Call::Blank,
    ];
    for level in 1..=7 {
        all.extend(STRAINS.map(|strain| Call::Bid { level, strain }));
    }
    all
}

fn call(call: Call, annotation: Option<&str>) -> AnnotatedCall {
    AnnotatedCall {
        call,
        annotation: annotation.map(str::to_string),
    }
}

fn with(calls: Vec<AnnotatedCall>, notes: Notes) -> Record {
    Record {
        calls,
        notes,
        ..Record::default()
    }
}

/// Each call alone, without an annotation and with several.
pub fn single() -> Vec<Record> {
    let mut all = Vec::new();
    for kind in kinds() {
        for raw in [None, Some(""), Some("z"), Some("!"), Some("=1=$2")] {
            all.push(with(vec![call(kind, raw)], table(&[(1, "weak")])));
        }
    }
    all
}

/// Every word of at most four calls, of which some are dropped with their
/// annotations.
pub fn dropped() -> Vec<Record> {
    let of = |(n, c): (usize, char)| {
        let kind = match c {
            'p' => Call::Pass,
            'b' => Call::Bid {
                level: 1 + n as u8,
                strain: Strain::Hearts,
            },
            'c' => Call::Continue,
            _ => Call::Blank,
        };
        call(kind, [None, Some("!?"), Some("=4=")][n % 3])
    };
    let word = |w: &String| with(w.chars().enumerate().map(of).collect(), Notes::new());
    let words = texts::words(&["p", "b", "c", "-"], 4);
    words.iter().map(word).collect()
}

/// Auctions of 0 to 40 calls and a long one.
pub fn auctions() -> Vec<Record> {
    let kinds = kinds();
    let turn = |n: usize| {
        let raw = [None, Some("=1="), None, Some("$1=2="), Some("q")][n % 5];
        call(kinds[7 * n % kinds.len()], raw)
    };
    let notes = || table(&[(1, "5+ hearts"), (2, "a|b")]);
    let mut all: Vec<Record> = (0..=40)
        .map(|n| with((0..n).map(turn).collect(), notes()))
        .collect();
    all.push(with((0..100).map(turn).collect(), notes()));
    all
}

/// Pipes and ends of lines in annotations and notes, cleaned once the words are
/// joined.
pub fn cleaned() -> Vec<Record> {
    let mut all = Vec::new();
    let one = |raw: String, notes| with(vec![call(Call::Pass, Some(&raw))], notes);
    for text in TRAPS.iter().chain(SAMPLES) {
        all.push(one(format!("={text}="), Notes::new()));
        all.push(one(format!("!{text}$2"), Notes::new()));
        all.push(one("=1=!=1=".to_string(), table(&[(1, text)])));
    }
    for text in texts::words(&["|", "\r", "\n", "="], 3) {
        all.push(one(format!("={text}="), table(&[(1, &text)])));
        all.push(one(format!("=1={text}=1="), table(&[(1, &text)])));
    }
    all
}

/// Each annotation that document 01 and upstream name, by a call that is kept,
/// one that is dropped and one that follows, with notes to clean and with none.
pub fn annotated() -> Vec<Record> {
    let notes = table(&[(1, "we|ak"), (2, ""), (11, "é\r\n")]);
    let bid = Call::Bid {
        level: 4,
        strain: Strain::NoTrump,
    };
    let mut all = Vec::new();
    for (raw, given) in parts::named() {
        let notes = if given.is_empty() {
            given
        } else {
            notes.clone()
        };
        let kinds = [Call::Redouble, Call::Continue, bid, Call::Blank, Call::Pass];
        let calls = kinds.map(|kind| call(kind, Some(&raw)));
        all.push(with(calls.to_vec(), notes));
    }
    all
}

/// Notes of each tenth number and at the edges, named and not, by several calls.
pub fn notes() -> Vec<Record> {
    let mut all = Vec::new();
    for n in (0..=255).step_by(10).chain([1, 9, 99, 254, 255]) {
        let raws = [format!("={n}="), format!("=+0{n}=!"), "=1=".to_string()];
        for notes in [
            Notes::new(),
            [(n as u8, format!("note {n}|"))].into(),
            [(n as u8, String::new()), (1, "one".to_string())].into(),
        ] {
            let calls = raws.iter().map(|raw| call(Call::Double, Some(raw)));
            all.push(with(calls.collect(), notes));
        }
    }
    all.push(with(Vec::new(), table(&[(1, "unused")])));
    all.push(with(vec![call(Call::Pass, None)], table(&[(0, "unused|")])));
    all
}

fn played(play: Vec<Option<Card>>) -> Record {
    Record {
        play,
        ..Record::default()
    }
}

/// Every word of at most seven cards and gaps.
pub fn gaps() -> Vec<Record> {
    let pack = built::pack();
    let entry = |(n, c): (usize, char)| (c == 'c').then(|| pack[5 * n]);
    let word = |w: &String| played(w.chars().enumerate().map(entry).collect());
    texts::words(&["c", "-"], 7).iter().map(word).collect()
}

/// Plays of 0 to 60 cards, plays with gaps by chance, and gaps alone.
pub fn plays() -> Vec<Record> {
    let rng = &mut Rng::new(71);
    let mut pack = built::pack();
    rng.shuffle(&mut pack);
    let turn = |n: usize| pack.iter().cycle().take(n).copied().map(Some).collect();
    let mut all: Vec<Record> = (0..=60).map(|n| played(turn(n))).collect();
    all.extend((8..=16).map(|n| played(vec![None; n])));
    all.extend((0..80).map(|_| played(some_play(rng, 60))));
    all
}

/// Cards and gaps by chance.
pub fn some_play(rng: &mut Rng, most: usize) -> Vec<Option<Card>> {
    let often = 2 + rng.below(5);
    let cards = built::some_cards(rng, most).into_iter();
    cards.map(|c| (!rng.once_in(often)).then_some(c)).collect()
}
