//! Names in plain Rust: when two are the same, and what the finder answers. (Document
//! 01, names; document 02, N3)

mod table;

pub use table::{CLASSES, MAPPINGS};

use super::{open, parse_lin_file};
use lin_host_rust::{Refusal, LIMIT};
use oracle::lin::LinData;

/// What a character is mapped to, if a mapping applies.
pub fn mapping(c: char) -> Option<&'static [char]> {
    let line = MAPPINGS.binary_search_by_key(&c, |(from, _)| *from).ok()?;
    Some(MAPPINGS[line].1)
}

/// The combining class of a character: 0 outside of U+0300 to U+036F.
pub fn class(c: char) -> u8 {
    let run = CLASSES.iter().find(|(run, _)| run.contains(&c));
    run.map_or(0, |(_, class)| *class)
}

/// Each character by its mapping, once.
fn map_once(all: Vec<char>) -> Vec<char> {
    let mapped = |c: char| mapping(c).map_or(vec![c], <[char]>::to_vec);
    all.into_iter().flat_map(mapped).collect()
}

/// "map by UnicodeData's canonical mappings .. until none applies"
pub fn mapped(name: &str) -> Vec<char> {
    let mut all: Vec<char> = name.chars().collect();
    while all.iter().any(|c| mapping(*c).is_some()) {
        all = map_once(all);
    }
    all
}

/// "then order marks by combining class within each run of nonzero classes, equal
/// classes in their old order"
fn order(all: &mut [char]) {
    let marks = |a: &char, b: &char| class(*a) > 0 && class(*b) > 0;
    for run in all.chunk_by_mut(marks) {
        run.sort_by_cached_key(|c| class(*c));
    }
}

/// A name mapped and ordered.
pub fn canonical(name: &str) -> Vec<char> {
    let mut all = mapped(name);
    order(&mut all);
    all
}

/// "Two names are the same exactly when the results are equal."
pub fn same_name(one: &str, other: &str) -> bool {
    canonical(one) == canonical(other)
}

/// What the finder finds: how many boards have the name, and the places that it
/// needs for that.
#[derive(Debug, Clone, Copy, PartialEq, Eq)]
pub struct Found {
    /// The boards that have the name at one seat or more.
    pub boards: u64,
    /// The places of work space that are needed.
    pub places: usize,
}

impl Found {
    /// The answer in work space of so many places: refusal 7 if they are too few.
    pub fn within(self, places: usize) -> Result<u64, Refusal> {
        if places < self.places {
            return Err(Refusal::OutputTooSmall(self.places as u64));
        }
        Ok(self.boards)
    }
}

/// "the mapped characters of the sought name plus the most in any name of the file's
/// boards, 0 without boards"
fn places(boards: &[LinData], name: &str) -> usize {
    let names = boards.iter().flat_map(|board| &board.player_names);
    let most = names.map(|n| mapped(n).len()).max().unwrap_or(0);
    mapped(name).len() + most
}

/// What is found among the boards of a file.
pub fn among(boards: &[LinData], name: &str) -> Found {
    let sought = canonical(name);
    let has = |board: &&LinData| board.player_names.iter().any(|n| canonical(n) == sought);
    Found {
        boards: boards.iter().filter(has).count() as u64,
        places: places(boards, name),
    }
}

/// A file and a name that the finder accepts; refusals 1 and 2, each of the file and
/// then of the name.
pub fn asked<'a>(text: &'a [u8], name: &'a [u8]) -> Result<(&'a str, &'a str), Refusal> {
    if text.len() > LIMIT || name.len() > LIMIT {
        return Err(Refusal::TextTooLong);
    }
    open(text)?;
    open(name)?;
    let shown = |bytes| std::str::from_utf8(bytes).expect("UTF-8 that was opened");
    Ok((shown(text), shown(name)))
}

/// The finder over any bytes, in work space of so many places.
pub fn find_name(text: &[u8], name: &[u8], places: usize) -> Result<u64, Refusal> {
    let (text, name) = asked(text, name)?;
    among(&parse_lin_file(text), name).within(places)
}

#[cfg(test)]
mod tests {
    use super::*;

    /// As many mappings as UnicodeData has in the three ranges, ascending; each gives
    /// one character or two, and of these only the first may be mapped again.
    #[test]
    fn the_table() {
        assert_eq!(MAPPINGS.len(), 501);
        assert!(MAPPINGS.is_sorted_by(|one, next| one.0 < next.0));
        let singles = MAPPINGS.iter().filter(|(_, to)| to.len() == 1);
        let singles: Vec<char> = singles.map(|(c, _)| *c).collect();
        assert_eq!(singles, ['\u{340}', '\u{341}', '\u{343}']);
        assert!(MAPPINGS.iter().all(|(_, to)| matches!(to.len(), 1 | 2)));
        assert!(MAPPINGS
            .iter()
            .all(|(_, to)| to[1..].iter().all(|c| mapping(*c).is_none())));
    }

    #[test]
    fn the_classes() {
        assert!(CLASSES.is_sorted_by(|one, next| one.0.end() < next.0.start()));
        let marks = CLASSES.iter().flat_map(|(run, _)| run.clone());
        assert_eq!(marks.count(), 111);
        let of = [
            '\u{300}', '\u{323}', '\u{31B}', '\u{34F}', '\u{345}', '\u{36F}', 'a',
        ];
        assert_eq!(of.map(class), [230, 220, 216, 0, 240, 230, 0]);
        // marks outside of the range
        assert_eq!(['\u{59A}', '\u{1DC4}', '\u{20D0}'].map(class), [0; 3]);
    }

    fn hex(name: &str) -> Vec<u32> {
        canonical(name).into_iter().map(u32::from).collect()
    }

    /// Document 02's rule by hand.
    #[test]
    fn names_by_hand() {
        assert_eq!(hex("é"), [0x65, 0x301]);
        // mapped twice, and then ordered
        assert_eq!(mapped("\u{1EF1}"), ['u', '\u{31B}', '\u{323}']);
        assert_eq!(hex("\u{1EE5}\u{31B}"), [0x75, 0x31B, 0x323]);
        assert_eq!(hex("\u{344}\u{323}"), [0x323, 0x308, 0x301]);
        // one class keeps its order, and a character of class 0 ends a run
        assert_eq!(hex("a\u{301}\u{300}"), [0x61, 0x301, 0x300]);
        assert_eq!(hex("\u{301}\u{34F}\u{323}"), [0x301, 0x34F, 0x323]);
        assert_eq!(hex("\u{301}\u{59A}\u{323}"), [0x301, 0x59A, 0x323]);
        assert_eq!(hex("Я\u{301}\u{323}"), [0x42F, 0x323, 0x301]);
        // outside of the ranges, and compatibility mappings
        for kept in [
            "\u{212B}", "\u{451}", "\u{132}", "\u{149}", "\u{17F}", "\u{1E9A}",
        ] {
            assert_eq!(canonical(kept), kept.chars().collect::<Vec<_>>());
        }
        assert_eq!(hex("\u{1E9B}"), [0x17F, 0x307]);
        assert!(!same_name("\u{1E9B}", "\u{1E61}"));
        assert!(same_name("José", "Jose\u{301}"));
    }

    /// Whether mapping and ordering a second time changes something.
    fn changes_again(name: &str) -> bool {
        let once = canonical(name);
        canonical(&String::from_iter(&once)) != once
    }

    /// Mapping and ordering a second time changes nothing.
    #[test]
    fn a_second_time() {
        for (c, _) in MAPPINGS {
            let marks = '\u{300}'..='\u{36F}';
            let mut names = marks.map(|mark| format!("\u{301}{c}{mark}\u{323}"));
            assert_eq!(names.find(|name| changes_again(name)), None);
        }
    }

    #[test]
    fn the_finder() {
        let text =
            "pn|José,Ng|md|1|qx||pn|Jose\u{301}\u{1EAF},x|pn|Jose\u{301}|md|2|qx||pn|long name|";
        let found = |name: &str, places| find_name(text.as_bytes(), name.as_bytes(), places);
        assert_eq!(found("José", 10), Ok(2));
        assert_eq!(found("José", 9), Err(Refusal::OutputTooSmall(10)));
        assert_eq!(found("", 5), Ok(2));
        assert_eq!(find_name(b"", "é".as_bytes(), 2), Ok(0));
        let few = Err(Refusal::OutputTooSmall(2));
        assert_eq!(find_name(b"", "é".as_bytes(), 1), few);
        assert_eq!(find_name(b"", b"", 0), Ok(0));
        assert_eq!(find_name(b"a\xFF", b"\xFF", 0), Err(Refusal::NotUtf8(1)));
        assert_eq!(find_name(b"a", b"ab\xFF", 0), Err(Refusal::NotUtf8(2)));
        let long = vec![0xFF; LIMIT + 1];
        assert_eq!(find_name(b"\xFF", &long, 0), Err(Refusal::TextTooLong));
        assert_eq!(find_name(&long, b"", 0), Err(Refusal::TextTooLong));
    }
}
