//! Names with accents: files of boards whose names are texts that Python judged, and how
//! many of them have a name that is the same as another of these texts. Two names are the
//! same exactly when their NFDs are equal (document 02, N3, over characters of its three
//! ranges and ASCII). No answer is upstream's, which has no such rule: the NFDs are
//! Python's, in `judged/accents.txt`.

use crate::{random::Rng, steps::*, vectors::Vectors};
use std::ops::RangeInclusive;

/// The characters that are mapped or ordered where UnicodeData says so.
pub const RANGES: [RangeInclusive<char>; 3] = [
    '\u{C0}'..='\u{24F}',
    '\u{300}'..='\u{36F}',
    '\u{1E00}'..='\u{1EFF}',
];

/// Whether a character of the text is of the three ranges.
pub fn accented(text: &str) -> bool {
    text.chars().any(|c| RANGES.iter().any(|r| r.contains(&c)))
}

/// What Python said, made by `judge_accents.py`.
const JUDGED: &str = include_str!("../judged/accents.txt");

/// A text, and its NFD by Python.
#[derive(Clone, Debug, PartialEq, Eq, Hash)]
pub struct Judged {
    /// The text, which can be a name.
    pub text: String,
    /// Its NFD.
    pub nfd: String,
}

impl Judged {
    /// How many characters it is mapped to.
    pub fn places(&self) -> usize {
        self.nfd.chars().count()
    }
}

/// The characters of their numbers in hex.
fn characters(numbers: &str) -> String {
    let number = |hex| u32::from_str_radix(hex, 16).expect("a number in hex");
    let character = |hex| char::from_u32(number(hex)).expect("a character");
    numbers.split(' ').map(character).collect()
}

fn judged(line: &str) -> Judged {
    let (text, nfd) = line.split_once(';').expect("a text and its NFD");
    Judged {
        text: characters(text),
        nfd: characters(nfd),
    }
}

/// How many lines the file has of each kind, by the last line of its head.
fn counts() -> [usize; 3] {
    let head = JUDGED.lines().find_map(|l| l.strip_prefix("# Lines: "));
    let mut parts = head.expect("the numbers of lines").split(", ");
    ["mapped ", "pairs ", "runs "].map(|kind| {
        let count = parts.next().and_then(|part| part.strip_prefix(kind));
        count.expect("a kind").parse().expect("a number of lines")
    })
}

/// The judged texts of the three kinds: mapped characters alone, beside marks and spelled
/// out; two marks behind a letter; letters with runs of marks.
pub fn kinds() -> [Vec<Judged>; 3] {
    let mut lines = JUDGED.lines().skip_while(|l| l.starts_with('#'));
    let all = counts().map(|n| lines.by_ref().take(n).map(judged).collect());
    assert!(lines.next().is_none());
    all
}

/// A file of boards and the names that are sought in it. A board has one to four names.
struct Asked {
    boards: Vec<Vec<Judged>>,
    sought: Vec<Judged>,
    parts: bool,
}

impl Asked {
    /// The file: a line for each board, or a part.
    fn text(&self) -> String {
        let board = |names: &Vec<Judged>| {
            let names: Vec<&str> = names.iter().map(|n| n.text.as_str()).collect();
            let names = names.join(",");
            match self.parts {
                true => format!("qx||md|1|pn|{names}|rh||"),
                false => format!("pn|{names}|\n"),
            }
        };
        self.boards.iter().map(board).collect()
    }

    /// How many boards have a name that is the same.
    fn having(&self, name: &Judged) -> usize {
        let has = |names: &&Vec<Judged>| names.iter().any(|n| n.nfd == name.nfd);
        self.boards.iter().filter(has).count()
    }

    /// The places that the finder needs for the name.
    fn places(&self, name: &Judged) -> usize {
        let most = self.boards.iter().flatten().map(Judged::places).max();
        name.places() + most.unwrap_or(0)
    }
}

/// The texts in lists of about 110, each from the beginning of a character's texts on,
/// which is that character alone.
fn lists(all: &[Judged]) -> Vec<Vec<Judged>> {
    let mut lists = Vec::new();
    let mut list = Vec::new();
    for t in all {
        let begins = t.text != t.nfd && t.text.chars().count() == 1;
        if begins && list.len() >= 110 {
            lists.push(std::mem::take(&mut list));
        }
        list.push(t.clone());
    }
    lists.push(list);
    lists
}

/// A file for each list, in which all of it is sought. Some are no names of the file: every
/// spelling of a text whose NFD has 7 bytes more than a multiple of 8, and of the others
/// every third that is spelled otherwise than its NFD.
fn mapped(all: &[Judged]) -> Vec<Asked> {
    let is_name =
        |(i, t): &(usize, &Judged)| t.nfd.len() % 8 != 7 && (i % 3 != 2 || t.text == t.nfd);
    let file = |sought: Vec<Judged>| {
        let named = sought.iter().enumerate().filter(is_name);
        Asked {
            boards: named.map(|(_, t)| vec![t.clone()]).collect(),
            parts: false,
            sought,
        }
    };
    lists(all).into_iter().map(file).collect()
}

/// A file for each first mark, of all 112 second ones. The pairs with this mark as the
/// second one are sought, and every fifth of the file's own.
fn pairs(all: &[Judged]) -> Vec<Asked> {
    let firsts: Vec<&[Judged]> = all.chunks(112).collect();
    let file = |(mark, own): (usize, &&[Judged])| Asked {
        boards: own.iter().map(|t| vec![t.clone()]).collect(),
        sought: firsts
            .iter()
            .map(|others| others[mark].clone())
            .chain(own.iter().skip(mark % 5).step_by(5).cloned())
            .collect(),
        parts: false,
    };
    firsts.iter().enumerate().map(file).collect()
}

/// Boards of one to four names, in this order.
fn seated(rng: &mut Rng, mut names: &[Judged]) -> Vec<Vec<Judged>> {
    let mut boards = Vec::new();
    while !names.is_empty() {
        let (some, rest) = names.split_at(names.len().min(1 + rng.below(4)));
        boards.push(some.to_vec());
        names = rest;
    }
    boards
}

/// Files in parts, of 64 texts in a row, in an order by chance in every other file. The
/// last quarter are no names of it; all are sought.
fn runs(all: &[Judged]) -> Vec<Asked> {
    let rng = &mut Rng::new(15);
    let mut files = Vec::new();
    for (i, texts) in all.chunks(64).enumerate() {
        let mut names = texts.to_vec();
        if i % 2 == 1 {
            rng.shuffle(&mut names);
        }
        names.truncate(texts.len() * 3 / 4);
        files.push(Asked {
            boards: seated(rng, &names),
            sought: texts.to_vec(),
            parts: true,
        });
    }
    files
}

/// The files of each kind.
fn files() -> [Vec<Asked>; 3] {
    let [of_mapped, of_pairs, of_runs] = kinds();
    [mapped(&of_mapped), pairs(&of_pairs), runs(&of_runs)]
}

/// The groups: a case for each name that is sought.
const LINES: [&str; 9] = [
    "mapped",
    "mapped exactly",
    "mapped a place less",
    "pairs",
    "pairs exactly",
    "pairs a place less",
    "runs",
    "runs exactly",
    "runs a place less",
];

fn put(s: &mut Steps, file: &Asked) {
    s.lend(TEXT, file.text().as_bytes());
    for name in &file.sought {
        s.lend(TEXT2, name.text.as_bytes());
        finder::finds_in(s, file.having(name), file.places(name));
    }
}

/// The file `accents.bin`: how many boards of each file have each name that is sought
/// there, with the places that it takes.
pub fn vectors() -> Vectors {
    let mut s = Steps::new();
    for (kind, files) in files().iter().enumerate() {
        finder::define(&mut s, 3 * kind);
        files.iter().for_each(|file| put(&mut s, file));
    }
    s.say("accents", &LINES);
    s.done()
}

#[cfg(test)]
mod tests {
    use super::*;
    use crate::lin::parse_lin_file;
    use std::collections::HashSet;

    /// Whether a text is of the ranges and ASCII, and can be a name.
    fn is_name(t: &Judged) -> bool {
        let allowed = |c: char| c.is_ascii() || accented(&c.to_string());
        t.text.chars().all(allowed) && !t.text.contains(['|', ',', '\r', '\n'])
    }

    /// Every text is of the ranges and ASCII, and can be a name; none is twice among its
    /// kind.
    #[test]
    fn texts_are_names() {
        for kind in kinds() {
            let texts: HashSet<&String> = kind.iter().map(|t| &t.text).collect();
            assert_eq!(texts.len(), kind.len());
            assert_eq!(kind.iter().find(|t| !is_name(t)), None);
        }
    }

    /// All 501 mapped characters stand alone among the first kind, and all pairs of the
    /// 112 marks are the second.
    #[test]
    fn all_characters_and_pairs() {
        let [mapped, pairs, _] = kinds();
        let alone = |t: &&Judged| t.text.chars().count() == 1 && t.text != t.nfd;
        assert_eq!(mapped.iter().filter(alone).count(), 501);
        let marks = || '\u{300}'..='\u{36F}';
        let want = marks().flat_map(|m| marks().map(move |n| format!("a{m}{n}")));
        assert!(pairs.iter().map(|t| t.text.clone()).eq(want));
    }

    /// A text that is the NFD of another is its own NFD.
    #[test]
    fn results_stay() {
        let all = kinds().concat();
        let results: HashSet<&String> = all.iter().map(|t| &t.nfd).collect();
        let again = all.iter().filter(|t| results.contains(&t.text));
        let mut n = 0;
        for t in again {
            assert_eq!(t.text, t.nfd);
            n += 1;
        }
        println!("{n} texts are results");
        assert!(n >= 1_000);
    }

    /// The names of the four seats, empty where none is set.
    fn seats(names: &[Judged]) -> [String; 4] {
        let name = |seat: usize| names.get(seat).map(|name| name.text.clone());
        [0, 1, 2, 3].map(|seat| name(seat).unwrap_or_default())
    }

    /// The boards of a file are those that were meant, by upstream.
    #[test]
    fn boards_are_those_meant() {
        for file in files().iter().flatten() {
            let Ok(boards) = parse_lin_file(&file.text());
            let names = boards.into_iter().map(|board| board.player_names);
            let want = file.boards.iter().map(|names| seats(names));
            assert_eq!(Vec::from_iter(names), Vec::from_iter(want));
        }
    }

    /// Whether no board has the name, one has it, and more have it; and whether it is
    /// spelled otherwise on all that have it.
    fn seen(file: &Asked, name: &Judged) -> [bool; 4] {
        let n = file.having(name);
        let as_it_is = |t: &Judged| t.text == name.text;
        let here = file.boards.iter().flatten().any(as_it_is);
        [n == 0, n == 1, n > 1, n > 0 && !here]
    }

    /// Names that no board has, that one has, and that several have, among them spelled
    /// otherwise on all of these.
    #[test]
    fn names_of_every_kind() {
        for (files, line) in files().iter().zip(LINES.iter().step_by(3)) {
            let sought = files
                .iter()
                .flat_map(|f| f.sought.iter().map(move |n| (f, n)));
            let all: Vec<[bool; 4]> = sought.map(|(file, name)| seen(file, name)).collect();
            let seen = [0, 1, 2, 3].map(|kind| all.iter().filter(|s| s[kind]).count());
            println!("{line}: on no board, one, more; spelled otherwise: {seen:?}");
            assert!(seen.iter().all(|n| *n >= 100), "{line} {seen:?}");
        }
    }

    /// The places that are lent to spare are enough to walk a file once.
    #[test]
    fn places_to_spare() {
        for file in files().iter().flatten() {
            let most = file.sought.iter().map(Judged::places).max();
            let once = most.unwrap_or(0) + (3 * file.text().len()).div_ceil(2);
            assert!(once <= finder::TO_SPARE as usize, "{once}");
        }
    }
}
