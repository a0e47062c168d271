//! Names with accents, by chance: composed, taken apart, with marks in another order,
//! and names that are nearly the same; and files of boards with such names. (Document
//! 02, N3)

use super::marks;
use crate::model::names::{class, mapped, mapping, CLASSES, MAPPINGS};
use oracle::{random::Rng, texts};

const ASCII: &[char] = &['a', 'e', 'o', 'u', 's', 'n', 'A', 'U', 'J', ' ', '-', '7'];

/// Letters of the ranges that no mapping applies to: some have none, and some have
/// one for compatibility.
const KEPT: &[char] = &[
    'Đ', 'ł', 'ø', 'æ', '\u{132}', '\u{149}', '\u{17F}', '\u{1C4}', '\u{1E9A}', '\u{1E9E}',
];

/// Marks that end a run: one of class 0, and some outside of the ranges, which Unicode
/// gives other classes.
const PARTING: &[char] = &['\u{34F}', '\u{59A}', '\u{1DC4}', '\u{20D0}', '\u{3099}'];

/// Characters outside of the ranges, about their ends and further off, some of which
/// Unicode maps.
const OUTSIDE: &[char] = &[
    '\u{212B}',
    '\u{451}',
    '\u{435}',
    '\u{3AC}',
    '\u{1F71}',
    '\u{AC00}',
    '\u{1D15E}',
    '\u{FB01}',
    '\u{BF}',
    '\u{250}',
    '\u{2FF}',
    '\u{370}',
    '\u{1DFF}',
    '\u{1F00}',
    'Я',
    '李',
    '😀',
    '\u{FEFF}',
    '\u{10FFFF}',
];

/// Texts that look or mean alike and are not the same.
const ALIKE: &[[&str; 2]] = &[
    ["Å", "\u{212B}"],
    ["A\u{30A}", "\u{212B}"],
    ["\u{435}\u{308}", "\u{451}"],
    ["\u{301}", "\u{1DC4}"],
    ["\u{323}", "\u{59A}"],
    ["s", "\u{17F}"],
    ["\u{1E61}", "\u{1E9B}"],
    ["s\u{307}", "\u{1E9B}"],
    ["IJ", "\u{132}"],
    ["a\u{2BE}", "\u{1E9A}"],
    ["a", "\u{430}"],
    ["e", "\u{435}"],
    ["o", "\u{F8}"],
    ["u", "U"],
];

fn letter(rng: &mut Rng) -> char {
    match rng.below(8) {
        0..=2 => *rng.pick(ASCII),
        3..=5 => rng.pick(MAPPINGS).0,
        6 => *rng.pick(KEPT),
        _ => *rng.pick(OUTSIDE),
    }
}

/// A mark of any class, none of which is rare, or one that ends a run.
fn mark(rng: &mut Rng) -> char {
    if rng.once_in(8) {
        return *rng.pick(PARTING);
    }
    let run = rng.pick(CLASSES).0.clone();
    let all: Vec<char> = run.collect();
    *rng.pick(&all)
}

/// A name of one letter to so many, each with marks or without; at times only marks.
pub fn name(rng: &mut Rng, letters: usize) -> String {
    let mut name = String::new();
    for _ in 0..1 + rng.below(letters) {
        if !rng.once_in(12) {
            name.push(letter(rng));
        }
        let most = *rng.pick(&[1, 1, 3, 3, 9]);
        let marks = if rng.once_in(150) { 300 } else { most };
        name.extend((0..rng.below(marks)).map(|_| mark(rng)));
    }
    name
}

/// One change that leaves the name the same, if there is one at this place: a
/// character taken apart, one or two put together, or two marks of other classes
/// exchanged.
fn respell(rng: &mut Rng, all: &mut Vec<char>, at: usize) {
    let rest = &all[at..];
    match rng.below(3) {
        0 => {
            let apart = mapping(all[at]).unwrap_or(&all[at..=at]).to_vec();
            all.splice(at..=at, apart);
        }
        1 => {
            let lines = MAPPINGS.iter().filter(|(_, to)| rest.starts_with(to));
            let lines: Vec<_> = lines.collect();
            if !lines.is_empty() {
                let (one, to) = rng.pick(&lines);
                all.splice(at..at + to.len(), [*one]);
            }
        }
        _ => {
            let classes: Vec<u8> = rest.iter().take(2).map(|c| class(*c)).collect();
            if matches!(classes[..], [a, b] if a > 0 && b > 0 && a != b) {
                all.swap(at, at + 1);
            }
        }
    }
}

/// The same name, spelled by chance: as it is, taken apart, or changed in any places.
pub fn respelled(rng: &mut Rng, name: &str) -> String {
    let mut all: Vec<char> = match rng.below(3) {
        0 => mapped(name),
        _ => name.chars().collect(),
    };
    let changes = *rng.pick(&[0, 1, 4]) * all.len();
    for _ in 0..changes {
        let at = rng.below(all.len());
        respell(rng, &mut all, at);
    }
    String::from_iter(all)
}

/// A place by chance of those where this holds.
fn place(rng: &mut Rng, all: &[char], holds: fn(&[char]) -> bool) -> Option<usize> {
    let places = (0..all.len()).filter(|at| holds(&all[*at..]));
    let places: Vec<usize> = places.collect();
    (!places.is_empty()).then(|| *rng.pick(&places))
}

/// Whether the first of these is a mark.
fn is_mark(rest: &[char]) -> bool {
    class(rest[0]) > 0
}

/// Whether the first two of these are different marks of one class.
fn one_class(rest: &[char]) -> bool {
    is_mark(rest) && rest.len() > 1 && rest[0] != rest[1] && class(rest[0]) == class(rest[1])
}

/// Whether one of the first two is a mark and the other is none.
fn past_a_letter(rest: &[char]) -> bool {
    rest.len() > 1 && is_mark(rest) != is_mark(&rest[1..])
}

/// Exchanges a character with the next, at a place by chance of those where this holds.
fn exchange(rng: &mut Rng, all: &mut [char], holds: fn(&[char]) -> bool) {
    if let Some(at) = place(rng, all, holds) {
        all.swap(at, at + 1);
    }
}

/// The name with one thing changed among its marks: two of one class exchanged, one
/// taken past a letter, left out or put in, or a run parted.
fn marks_changed(rng: &mut Rng, name: &str) -> String {
    let mut all = mapped(name);
    let any = rng.below(all.len() + 1);
    match rng.below(7) {
        0 | 1 => exchange(rng, &mut all, one_class),
        2 | 3 => exchange(rng, &mut all, past_a_letter),
        4 => {
            if let Some(at) = place(rng, &all, is_mark) {
                all.remove(at);
            }
        }
        5 => all.insert(any, mark(rng)),
        _ => all.insert(any, *rng.pick(PARTING)),
    }
    String::from_iter(all)
}

/// The name with a part of it changed for one that looks or means alike, or with a
/// blank at its end.
fn alike(rng: &mut Rng, name: &str) -> String {
    let both = ALIKE
        .iter()
        .flat_map(|[one, other]| [[one, other], [other, one]]);
    let pairs: Vec<_> = both.filter(|[from, _]| name.contains(**from)).collect();
    if pairs.is_empty() || rng.once_in(8) {
        return format!("{name}{}", rng.pick(&[" ", "\u{FEFF}", "\u{A0}"]));
    }
    let [from, to] = rng.pick(&pairs);
    name.replacen(**from, to, 1)
}

/// A name that is nearly the same, spelled by chance.
pub fn nearly(rng: &mut Rng, name: &str) -> String {
    let other = match rng.below(3) {
        0 => alike(rng, name),
        _ => marks_changed(rng, name),
    };
    respelled(rng, &other)
}

/// A name of a seat: one of those known, nearly one of them, another or none.
fn seated(rng: &mut Rng, known: &[String]) -> String {
    let one = rng.pick(known).clone();
    match rng.below(8) {
        0..=2 => respelled(rng, &one),
        3 | 4 => nearly(rng, &one),
        5 => one,
        6 => name(rng, 4),
        _ => String::new(),
    }
}

/// A pn of some names.
fn seats(rng: &mut Rng, known: &[String]) -> String {
    let names: Vec<String> = (0..1 + rng.below(5)).map(|_| seated(rng, known)).collect();
    format!("pn|{}|", names.join(","))
}

/// A file of some boards with names like those known, in parts or in lines; at times a
/// later pn replaces names, and a part is no board.
pub fn file(rng: &mut Rng, known: &[String]) -> String {
    let lines = rng.once_in(3);
    let mut text = String::new();
    for _ in 0..rng.below(7) {
        let names: String = (0..1 + rng.below(2)).map(|_| seats(rng, known)).collect();
        text += &match (lines, rng.below(6)) {
            (true, 0) => " \n".to_string(),
            (true, _) => format!("{names}\n"),
            (false, 0) => format!("qx||{names}mb|p|"),
            (false, 1) => format!("qx||md|1|{names}"),
            (false, _) => format!("qx||{names}md|1|"),
        };
    }
    text
}

/// A file, and names to look for in it.
#[derive(Debug, Clone)]
pub struct Asked {
    /// The file.
    pub text: Vec<u8>,
    /// The names.
    pub names: Vec<Vec<u8>>,
}

/// A file with accents and names to look for, most of which it has or nearly has; once
/// in a while the bytes of one are no text.
pub fn asked(rng: &mut Rng) -> Asked {
    let known: Vec<String> = (0..1 + rng.below(3)).map(|_| name(rng, 4)).collect();
    let text = file(rng, &known);
    let text = match rng.below(8) {
        0 => marks::text(rng, text),
        _ => text,
    };
    let damaged = |rng: &mut Rng, bytes: &[u8]| match rng.below(20) {
        0 => texts::damaged(rng, bytes, 2),
        _ => bytes.to_vec(),
    };
    let names = (0..3).map(|_| {
        let name = seated(rng, &known);
        damaged(rng, name.as_bytes())
    });
    Asked {
        names: names.collect(),
        text: damaged(rng, text.as_bytes()),
    }
}

#[cfg(test)]
mod tests {
    use super::*;
    use crate::model::{
        names::{among, asked as opened, same_name},
        parse_lin_file,
    };

    /// A name stays the same when it is spelled anew, often with other bytes; and one
    /// that is nearly the same is most often another.
    #[test]
    fn spellings() {
        let rng = &mut Rng::new(61);
        let (mut other_bytes, mut other_names) = (0, 0);
        for _ in 0..4_000 {
            let one = name(rng, 4);
            let anew = respelled(rng, &one);
            assert!(same_name(&one, &anew), "{one:?}, {anew:?}");
            other_bytes += usize::from(one != anew);
            other_names += usize::from(!same_name(&one, &nearly(rng, &one)));
        }
        assert!(other_bytes > 1_500, "{other_bytes}");
        assert!(other_names > 2_500, "{other_names}");
    }

    /// Whether boards have the name by its bytes, whether more have it by accents, and
    /// whether there are boards and none has it; none of these where a text is refused.
    fn found(text: &[u8], name: &[u8]) -> [bool; 3] {
        let Ok((text, name)) = opened(text, name) else {
            return [false; 3];
        };
        let boards = parse_lin_file(text);
        let found = among(&boards, name).boards;
        let same = boards
            .iter()
            .filter(|b| b.player_names.contains(&name.to_string()));
        let same = same.count() as u64;
        [same > 0, found > same, found == 0 && !boards.is_empty()]
    }

    /// Names are found often, not by their bytes alone, and often not found in files
    /// that have boards.
    #[test]
    fn found_and_not() {
        let rng = &mut Rng::new(62);
        let mut all = Vec::new();
        for _ in 0..2_000 {
            let Asked { text, names } = asked(rng);
            all.extend(names.iter().map(|name| found(&text, name)));
        }
        let count = |kind: usize| all.iter().filter(|found| found[kind]).count();
        let [by_bytes, by_accents, none] = [0, 1, 2].map(count);
        println!("{by_bytes} by bytes, {by_accents} by accents, {none} not");
        assert!(by_bytes > 500 && by_accents > 500 && none > 500);
    }
}
