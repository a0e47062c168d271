//! Generators of texts and bytes, shared by the vectors and the runs of `bench/`.

use crate::random::Rng;
use std::{collections::HashSet, hash::Hash};

/// Keeps the first of equal items, in order.
pub fn distinct<T: Clone + Eq + Hash>(items: Vec<T>) -> Vec<T> {
    let mut seen = HashSet::new();
    items
        .into_iter()
        .filter(|item| seen.insert(item.clone()))
        .collect()
}

/// Every word of at most `longest` of these letters, shorter words first.
pub fn words(letters: &[&str], longest: usize) -> Vec<String> {
    let mut all = vec![String::new()];
    let mut last = 0;
    for _ in 0..longest {
        let ends = last..all.len();
        last = all.len();
        for i in ends {
            for letter in letters {
                all.push(format!("{}{letter}", all[i]));
            }
        }
    }
    all
}

/// Document 01's list of white space characters.
pub const WHITE: [char; 25] = [
    '\u{9}', '\u{A}', '\u{B}', '\u{C}', '\u{D}', '\u{20}', '\u{85}', '\u{A0}', '\u{1680}',
    '\u{2000}', '\u{2001}', '\u{2002}', '\u{2003}', '\u{2004}', '\u{2005}', '\u{2006}', '\u{2007}',
    '\u{2008}', '\u{2009}', '\u{200A}', '\u{2028}', '\u{2029}', '\u{202F}', '\u{205F}', '\u{3000}',
];

/// The byte order mark. Trimming removes it as well as white space (document 02, N2),
/// and upstream's does not: no text that upstream is asked about holds it, and the
/// cases by hand have those that do. In its place stands U+FFFE, which is like it.
pub const BYTE_ORDER_MARK: char = '\u{FEFF}';

/// Texts that document 01 and the upstream comments name.
pub const NAMED: &[&str] = &[
    "",
    "a|b",
    "a|b|c|",
    "md|1|",
    "md|3SA|md|0SK|",
    "mc|9|mc|x|",
    "mc|+009|",
    "pc|SA|pc|S|pc|!SA|",
    "sv|b|sv|x|",
    "mb|1C!!|",
    "=1=$2z",
    "==",
    "md|1|qx|a|md|2|",
    "qx|a|",
    "hello",
    "qx|o1|md|3SAK,SQJ,ST9|mb|1C!|pc|SA|mc|9|",
    "mb|p|",
    "abcd",
    "é",
    "md|0|",
    "md|0",
    "pn||",
    "md|11SA|",
    "mb|1C! |",
    "mb|!!|",
    "a|b\nqx|c|d|",
    "ah|Board+7|",
    "an|5+ hearts|",
    "md|1S…,,,|",
    "qx|o1-1,BOARD 1-1|",
    "ah|Board 1-1|",
    "pc|s|up|1|",
    "vg|Final,Segment 1,I,1,16,Home,0,Away,0|\nrs|4SN=,3NE-1|\n",
    "mn||pn|,,,|qx||rh||md|3,,,|sv|0|\nsa|0|pg||\n",
    "st||md|3SAK,SQJ,ST9|at|Lead a spade|\n\npg||pc|s|up|1|",
    "D2 DA D6 D5|S3 S2 SQ SA|...",
    "mn|<title>|pn|S,W,N,E|qx|o1,BOARD 1|rh||ah|Board 1|md|3<S>,<W>,<N>|sv|n|\n\
     sa|0|mb|1N|mb|p|an|explanation|...|pg||\n\
     pc|D2|pc|D3|pc|DJ|pc|DQ|pg||          one line per trick\n\
     mc|9|pg||\n",
];

/// Characters and runs worth standing next to a pipe.
pub const SAMPLES: &[&str] = &[
    // composed and decomposed names
    "é",
    "e\u{301}",
    "Å",
    "A\u{30A}",
    "\u{212B}",
    "José",
    "Jose\u{301}",
    "Nguyễn",
    "Nguye\u{302}\u{303}n",
    "Nguyê\u{303}n",
    "Đặng",
    "S\u{301}",
    "Ś",
    // the ends of each length of a character
    "\u{7F}",
    "\u{80}",
    "\u{7FF}",
    "\u{800}",
    "\u{D7FF}",
    "\u{E000}",
    "\u{FFFF}",
    "\u{10000}",
    "\u{10FFFF}",
    "€",
    "😀",
    // like a pipe, or with its number in the last byte of the code point
    "¦",
    "ż",
    "\u{207C}",
    "\u{FF5C}",
    "\u{1F67C}",
    // marks, blanks and ends of lines
    "\u{FFFE}",
    "\0",
    "\u{85}",
    "\u{A0}",
    "\u{2028}",
    "\u{2029}",
    "\u{3000}",
    "\r\n",
    "\r",
    "\t",
];

/// A sample before, between and behind pipes.
pub fn beside_pipes(sample: &str) -> Vec<String> {
    vec![
        sample.to_string(),
        format!("|{sample}"),
        format!("{sample}|"),
        format!("|{sample}|"),
        format!("{sample}||{sample}"),
        format!("{sample}mn{sample}|{sample}{sample}|{sample}"),
        format!("pn|{sample},{sample}|md|1{sample}|{sample}|"),
    ]
}

/// Letters of the random texts: pipes, letters, marks, digits, white space and
/// characters of several bytes.
pub const ALPHABET: &[&str] = &[
    "|",
    "|",
    "|",
    "a",
    "b",
    "m",
    "d",
    "p",
    "n",
    "q",
    "x",
    "S",
    "H",
    "D",
    "C",
    "A",
    "K",
    "T",
    ",",
    ",",
    "!",
    "!",
    "?",
    "=",
    "$",
    "+",
    "-",
    "/",
    "0",
    "1",
    "2",
    "3",
    "9",
    " ",
    " ",
    "\n",
    "\r",
    "\t",
    "\u{85}",
    "\u{A0}",
    "\u{2028}",
    "\u{3000}",
    "\u{FFFE}",
    "é",
    "e\u{301}",
    "ż",
    "ễ",
    "€",
    "♠",
    "😀",
    "\u{10FFFF}",
    "\0",
];

/// Commands as records and movies write them.
pub const COMMANDS: &[&str] = &[
    "pn", "md", "sv", "mn", "qx", "ah", "mb", "an", "pc", "mc", "pg", "st", "at", "nt", "rh", "sa",
    "hs", "up", "\nmd", " qx ", "Md", "AT", "\r\npg", "zz", "",
];

/// At most `longest` letters of the alphabet.
pub fn letters(rng: &mut Rng, longest: usize) -> String {
    let n = rng.below(longest + 1);
    (0..n).map(|_| *rng.pick(ALPHABET)).collect()
}

/// Up to `pieces` pieces of at most 12 letters with a pipe between any two,
/// the commands now and then known ones.
pub fn mixture(rng: &mut Rng, pieces: usize) -> String {
    let n = rng.below(pieces + 1);
    let piece = |i: usize| {
        if i.is_multiple_of(2) && rng.once_in(3) {
            rng.pick(COMMANDS).to_string()
        } else {
            letters(rng, 12)
        }
    };
    (0..n).map(piece).collect::<Vec<_>>().join("|")
}

/// At most `longest` bytes, of any value or likely to be well formed in part.
pub fn bytes(rng: &mut Rng, longest: usize) -> Vec<u8> {
    const LIKELY: &[u8] = &[
        b'|', b'|', b'a', 0, 0x7F, 0x80, 0x8F, 0x90, 0x9F, 0xA0, 0xA9, 0xBF, 0xC0, 0xC2, 0xC3,
        0xDF, 0xE0, 0xE1, 0xE2, 0xED, 0xEF, 0xF0, 0xF1, 0xF4, 0xF5, 0xFF,
    ];
    let n = rng.below(longest + 1);
    let any = rng.once_in(2);
    let byte = |_| if any { rng.byte() } else { *rng.pick(LIKELY) };
    (0..n).map(byte).collect()
}

/// The bytes with up to `faults` of them replaced, removed or put in.
pub fn damaged(rng: &mut Rng, text: &[u8], faults: usize) -> Vec<u8> {
    let mut bytes = text.to_vec();
    for _ in 0..rng.below(faults + 1) {
        let at = rng.below(bytes.len() + 1);
        let kind = rng.below(4);
        if kind == 0 || at == bytes.len() {
            bytes.insert(at, rng.byte());
        } else if kind == 1 {
            bytes.remove(at);
        } else if kind == 2 {
            bytes[at] = rng.byte();
        } else {
            bytes[at] = b'|';
        }
    }
    bytes
}
