//! File cases: texts as files, every board that `parse_lin_file` gives, and how
//! many of them have a name at one seat or more. Names are compared by their bytes, so
//! only those are asked for that have no character that the finder maps or orders
//! (document 02, N3).

mod cursor;
pub mod lines;
pub mod mixed;
pub mod names;
pub mod parts;

use crate::{
    lin::{parse_lin_file, LinData},
    steps::*,
    texts,
    vectors::Vectors,
};

/// A name, and the texts that go by it.
type Group = (&'static str, fn() -> Vec<String>);

const GROUPS: &[Group] = &[
    ("named", parts::named),
    ("orders", parts::orders),
    ("runs", parts::runs),
    ("separated", parts::separated),
    ("ends", parts::ends),
    ("commands", parts::commands),
    ("crossing", lines::crossing),
    ("short", lines::short),
    ("separators", lines::separators),
    ("blank", lines::blank),
    ("beside", lines::beside),
    ("names", names::texts),
    ("records", mixed::records),
    ("damaged", mixed::damaged),
    ("random", mixed::random),
    ("long", mixed::long),
];

fn texts() -> Vec<String> {
    texts::distinct(GROUPS.iter().flat_map(|(_, texts)| texts()).collect())
}

/// How many boards have the name, at any seat.
fn having(boards: &[LinData], name: &str) -> usize {
    let has = |b: &&LinData| {
        b.player_names
            .iter()
            .any(|n| n.as_bytes() == name.as_bytes())
    };
    boards.iter().filter(has).count()
}

/// The text has these boards, by their numbers and by the cursor, and these names.
pub(crate) fn put(s: &mut Steps, text: &str, list: &[LinData]) {
    s.lend(TEXT, text.as_bytes());
    s.set(COUNT_OF, &[list.len() as u32]);
    s.go(COUNTED);
    s.go(cursor::OPENED);
    for board in list {
        readers::read(s, board);
        s.go(cursor::STEPPED);
    }
    s.go(cursor::ENDED);
    s.go(MISSING);
    for name in names::asked(text, list) {
        s.lend(TEXT2, name.as_bytes());
        match names::places(&name, list) {
            Some(places) => finder::finds_in(s, having(list, &name), places),
            None => finder::finds(s, having(list, &name)),
        }
    }
}

/// The groups: a case for each text, for each board or for each name.
pub(crate) const LINES: [&str; 12] = [
    "counts",
    "headings",
    "boards",
    "exact",
    "few calls",
    "few cards",
    "few both",
    "missing",
    "cursor",
    "names",
    "names exactly",
    "names a place less",
];

/// The blocks of these groups.
pub(crate) fn define(s: &mut Steps) {
    readers::define(s, Call::FileHeading, Call::FileBoard, 1);
    readers::define_file(s, 0, 7);
    cursor::define(s, 8);
    finder::define(s, 9);
}

/// The file `files.bin`: the boards of each text by their numbers and by the
/// cursor, and how many of them have each name that is asked for.
pub fn vectors() -> Vectors {
    let mut s = Steps::new();
    define(&mut s);
    for text in texts() {
        let Ok(list) = parse_lin_file(&text);
        put(&mut s, &text, &list);
    }
    s.say("files", &LINES);
    s.done()
}

#[cfg(test)]
mod tests {
    use super::*;
    fn boards(text: &str) -> Vec<LinData> {
        let Ok(list) = parse_lin_file(text);
        list
    }

    /// 32 rows and 64 places for cards are enough for a replay.
    #[test]
    fn rows_are_enough() {
        for board in texts().iter().flat_map(|t| boards(t)) {
            assert!(board.auction.len() < 32 && board.play.len() < 64);
        }
    }

    /// The places that are lent to spare are enough for every name that is asked for: a
    /// name of n bytes is mapped to at most n + n/2 characters.
    #[test]
    fn places_are_enough() {
        for text in texts() {
            let list = boards(&text);
            let names = list.iter().flat_map(|b| &b.player_names);
            let longest = names.map(String::len).max().unwrap_or(0);
            for name in names::asked(&text, &list) {
                let most = (3 * (name.len() + longest)).div_ceil(2);
                assert!(most <= finder::TO_SPARE as usize, "{most}");
            }
        }
    }

    /// Files of every kind, of no board, and of up to 12 boards and more; names
    /// that are there, that are not, and that are in some boards only.
    #[test]
    fn texts_of_every_kind() {
        let all = texts();
        let qx = |t: &String| {
            crate::tokens(t)
                .0
                .iter()
                .any(|(c, _)| c.trim().eq_ignore_ascii_case("qx"))
        };
        let parted = all.iter().filter(|t| qx(t)).count();
        assert!(
            parted >= 700 && all.len() - parted >= 700,
            "{parted} of {}",
            all.len()
        );
        for n in 0..=12 {
            let texts = |parts| {
                all.iter()
                    .filter(|t| qx(t) == parts && boards(t).len() == n)
                    .count()
            };
            assert!(texts(true) > 0 && texts(false) > 0, "{n}");
        }
        let mut seen = [0; 3];
        for text in &all {
            let list = boards(text);
            for name in names::asked(text, &list) {
                let n = having(&list, &name);
                seen[usize::from(n > 0) + usize::from(n > 0 && n < list.len())] += 1;
            }
        }
        println!("names in none, in all, in some boards: {seen:?}");
        assert!(seen.iter().all(|n| *n >= 100));
    }

    #[test]
    fn every_group_has_texts_of_its_own() {
        let mut seen = std::collections::HashSet::new();
        for (name, texts) in GROUPS {
            let new = texts().into_iter().filter(|t| seen.insert(t.clone()));
            let n = new.count();
            println!("{name}: {n}");
            assert!(n > 0, "{name}");
        }
        assert_eq!(seen.len(), texts().len());
    }
}
