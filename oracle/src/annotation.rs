//! Annotation cases: raw annotations with a table of notes, and what
//! `annotation_text` makes of them. It is private upstream, so the answer is that
//! of `from_board` for a board with one annotated call. `from_board` cleans the
//! joined text: no raw annotation or note here has a pipe, CR or LF, so that
//! cleaning changes nothing.

pub mod mixed;
pub mod numbers;
pub mod parts;

use crate::{lin::LinData, steps::*, vectors::Vectors};
use bridge_types::{AnnotatedCall, Auction, Board};
use std::collections::{BTreeMap, HashSet};

/// The texts of the notes that are given, by number.
pub type Notes = BTreeMap<u8, String>;

/// A raw annotation, and the notes.
pub type Case = (String, Notes);

/// A name, and the cases that go by it.
type Group = (&'static str, fn() -> Vec<Case>);

const GROUPS: &[Group] = &[
    ("named", parts::named),
    ("marks", numbers::marks),
    ("marks beside", numbers::marks_beside),
    ("references", numbers::references),
    ("absent", numbers::absent),
    ("unclosed", parts::unclosed),
    ("equals", parts::equals),
    ("runs", parts::runs),
    ("between", parts::between),
    ("characters", parts::characters),
    ("notes", parts::notes),
    ("pairs", mixed::pairs),
    ("triples", mixed::triples),
    ("pieces", mixed::pieces),
    ("letters", mixed::letters),
    ("long", mixed::long),
];

/// The notes with these numbers and texts.
pub fn table(notes: &[(u8, &str)]) -> Notes {
    notes.iter().map(|(n, t)| (*n, t.to_string())).collect()
}

/// The text without what `from_board` cleans.
pub fn plain(text: &str) -> String {
    text.replace(['|', '\r', '\n'], "")
}

/// What `from_board` makes of the annotation of its one call.
fn text((raw, notes): &Case) -> Option<String> {
    let call = AnnotatedCall {
        call: bridge_types::Call::Pass,
        annotation: Some(raw.clone()),
    };
    let auction = Auction {
        calls: vec![call],
        notes: notes.clone().into_iter().collect(),
    };
    let made = LinData::from_board(&Board {
        auction: Some(auction),
        ..Board::default()
    });
    made.auction[0].annotation.clone()
}

/// The number of the notes, and the number and text of each.
pub(crate) fn put_notes(out: &mut Vectors, notes: &Notes) {
    out.number(notes.len());
    for (number, text) in notes {
        out.number((*number).into());
        out.field(text.as_bytes());
    }
}

/// Lends the notes, with texts that are added to others.
pub(crate) fn lend_notes(s: &mut Steps, notes: &Notes, texts: &mut Vec<u8>) {
    for (number, text) in notes {
        let place = [1, texts.len() as u32, text.len() as u32];
        s.set(NOTES + 3 * usize::from(*number), &place);
        texts.extend(text.as_bytes());
    }
}

/// Notes that are all absent, their places beyond every text.
pub(crate) fn define_notes(s: &mut Steps) {
    s.set(NO_NOTES, &[0, u32::MAX, u32::MAX].repeat(256));
}

/// The length of the text; the blocks that take all notes away, that hold the
/// output to the text, and that ask for a text or for none.
const LEN: usize = OWN_NUMBER;
const CLEARED: usize = OWN_BLOCK;
const TEXT_IS: usize = OWN_BLOCK + 1;
const GIVEN: usize = OWN_BLOCK + 2;
const ABSENT: usize = OWN_BLOCK + 3;

/// More bytes than any text has.
const MOST_BYTES: usize = 4_096;

/// The answer is the text's length, the output has the text, and all after it is as
/// it was.
fn whole(b: &mut Steps, group: usize) {
    b.call(Call::AnnotationText);
    b.is(ANSWER, &[0, 0]);
    b.same(ANSWER + 2, LEN);
    b.is(ANSWER + 3, &[1]);
    b.is(ANSWER + 4, &[0; 12]);
    b.go(TEXT_IS);
    b.copy(REST, LEN, 1, 1);
    b.copy(REST_LEN, OUT_LEN, 1, 1);
    b.sub(REST_LEN, LEN);
    b.all_are(REST, MARK);
    b.case(group);
    b.mark_again();
}

fn define(s: &mut Steps) {
    s.mark(MOST_BYTES);
    define_notes(s);
    s.block(CLEARED, |b| b.copy(NOTES, NO_NOTES, 768, 1));
    // With room to spare, with exactly enough, and with a byte less.
    s.block(GIVEN, |b| {
        b.copy(ROOM, OUT_LEN, 1, 1);
        whole(b, 0);
        b.copy(ROOM, LEN, 1, 1);
        whole(b, 1);
        b.sub(ROOM, ONE);
        b.call(Call::AnnotationText);
        b.is(ANSWER, &[7, 0]);
        b.same(ANSWER + 2, LEN);
        b.is(ANSWER + 3, &[0; 13]);
        b.stayed();
        b.case(2);
    });
    // Where there is no text, no room is enough.
    s.block(ABSENT, |b| {
        b.copy(ROOM, OUT_LEN, 1, 1);
        for group in 0..2 {
            b.call(Call::AnnotationText);
            b.answer(0, 0, 0);
            b.stayed();
            b.case(group);
            b.set(ROOM, &[0]);
        }
    });
}

fn put(s: &mut Steps, case: &Case) {
    let mut texts = case.0.as_bytes().to_vec();
    s.go(CLEARED);
    s.set(SPAN + 1, &[texts.len() as u32]);
    lend_notes(s, &case.1, &mut texts);
    s.lend(TEXT, &texts);
    match text(case) {
        Some(text) => {
            s.set(LEN, &[text.len() as u32]);
            s.block(TEXT_IS, |b| b.wrote(ZERO, text.as_bytes()));
            s.go(GIVEN);
        }
        None => s.go(ABSENT),
    }
}

/// The cases of all groups, each once.
pub fn all() -> Vec<Case> {
    let mut seen = HashSet::new();
    let all = GROUPS.iter().flat_map(|(_, cases)| cases());
    all.filter(|c| seen.insert(c.clone())).collect()
}

/// The file `annotation.bin`: the text of each case with room to spare, with
/// exactly enough and with a byte less.
pub fn vectors() -> Vectors {
    let mut s = Steps::new();
    define(&mut s);
    s.set(SPAN, &[0]);
    for case in all() {
        put(&mut s, &case);
    }
    s.say("annotation", &["text", "text exactly", "text a byte less"]);
    s.done()
}

#[cfg(test)]
mod tests {
    use super::*;

    /// No answer depends on cleaning.
    #[test]
    fn nothing_to_clean() {
        for (raw, notes) in all() {
            assert_eq!(raw, plain(&raw));
            notes.values().for_each(|t| assert_eq!(*t, plain(t)));
        }
    }

    /// The traps that are known by name.
    #[test]
    fn traps() {
        let notes = table(&[(1, "weak"), (2, "")]);
        for (raw, expected) in [
            ("", None),
            ("=", None),
            ("=1", None),
            ("==", Some("==")),
            ("===", Some("==")),
            ("====", Some("== ==")),
            ("=a==b=", Some("=a= =b=")),
            ("=+1=", Some("weak")),
            ("=01=", Some("weak")),
            ("= 1=", Some("= 1=")),
            ("=++1=", Some("=++1=")),
            ("=256=", Some("=256=")),
            ("=2=", None),
            ("=3=", Some("=3=")),
            ("$01", None),
            ("$7", None),
            ("$10", None),
            ("$$1", Some("!")),
            ("$1!", Some("! !")),
        ] {
            let found = text(&(raw.to_string(), notes.clone()));
            assert_eq!(found.as_deref(), expected, "{raw}");
            assert!(all().iter().any(|(r, _)| r == raw), "{raw}");
        }
    }

    /// The replay has 4,096 bytes for a text. A text is never empty.
    #[test]
    fn texts_of_every_kind() {
        let texts: Vec<_> = all().iter().map(text).collect();
        let absent = texts.iter().filter(|t| t.is_none()).count();
        let lengths: HashSet<_> = texts.iter().flatten().map(String::len).collect();
        println!("absent {absent} of {}", texts.len());
        assert!(absent >= 1_000 && texts.len() - absent >= 2_000);
        assert!(!lengths.contains(&0) && (1..=30).all(|n| lengths.contains(&n)));
        assert!((2_000..4_000).contains(lengths.iter().max().unwrap()));
    }

    #[test]
    fn every_group_has_cases_of_its_own() {
        let mut seen = HashSet::new();
        for (name, cases) in GROUPS {
            let new = cases().into_iter().filter(|c| seen.insert(c.clone()));
            let n = new.count();
            println!("{name}: {n}");
            assert!(n > 0, "{name}");
        }
        assert_eq!(seen.len(), all().len());
    }
}
