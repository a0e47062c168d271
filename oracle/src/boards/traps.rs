//! Texts for each command of a board but md. (Document 01, section Board, and
//! the errors that it has seen in sketches)
//!
//! Lists of values are written between pipes, since no value holds one.

use super::deals::THREE;
use crate::texts;

/// Each command of a board with a value.
pub const TOKENS: [(&str, &str); 10] = [
    ("pn", "a,b,c,d"),
    ("md", "2SA,HK,DQ,CJ"),
    ("sv", "e"),
    ("mn", "t"),
    ("qx", "r"),
    ("ah", "h"),
    ("mb", "1C!"),
    ("an", "x"),
    ("pc", "D2"),
    ("mc", "9"),
];

/// The text of these tokens.
pub fn joined<C: AsRef<str>, V: AsRef<str>>(tokens: &[(C, V)]) -> String {
    let token = |(c, v): &(C, V)| format!("{}|{}|", c.as_ref(), v.as_ref());
    tokens.iter().map(token).collect()
}

/// The visible characters of ASCII, which all are but the pipe.
pub fn visible() -> impl Iterator<Item = char> {
    ('!'..='~').filter(|c| *c != '|')
}

/// Beside the texts that document 01 names.
const NAMED: &[&str] = &[
    "sv|\u{A0}b\u{2003}|mc|\u{3000}9\u{85}|",
    "mb| 1C! |mn| t |",
    "mb|\n1C!\n|mn|\nt\n|",
    "mc|9|mc||",
    "mc|9|mc| |",
    "mn|a+b|pn|a+b,c+d|mb|1+C|an|5++|qx|o+1|",
    "md|2SA|md|0|",
    "md|0SA,SK,SQ,SJ|",
    "md|0|md|4|",
    "mb|p|an|a|qx|r|an|b|",
    "qx|a|mb|1C|qx|b|mb|1D|",
];

/// What document 01 names, and the errors that it has seen in sketches.
pub fn named() -> Vec<String> {
    let all = texts::NAMED.iter().chain(NAMED).map(|t| t.to_string());
    all.chain([format!("md|1{THREE},x|")]).collect()
}

/// A letter of ASCII as bit `i` of `n` says, small or a capital.
fn mixed(c: char, n: usize, i: usize) -> char {
    match n >> i & 1 {
        0 => c.to_ascii_lowercase(),
        _ => c.to_ascii_uppercase(),
    }
}

/// Every way to write a word of ASCII in small letters and capitals.
pub fn mixes(word: &str) -> Vec<String> {
    let letters = || word.chars().enumerate();
    let mix = |n| letters().map(|(i, c)| mixed(c, n, i)).collect();
    (0..1 << word.len()).map(mix).collect()
}

/// Words like a command, none of which is it.
pub fn near(word: &str) -> Vec<String> {
    let (a, b) = word.split_at(1);
    vec![
        a.to_string(),
        b.to_string(),
        format!("{b}{a}"),
        format!("{word}{b}"),
        format!("{a}{word}"),
        format!("{a} {b}"),
        format!("{word}\u{301}"),
        format!("{a}\u{301}{b}"),
        format!("\u{FFFE}{word}"),
        format!("{word}\0"),
    ]
}

/// All tokens, with the command of one of them written in another way.
pub fn rewritten(i: usize, command: String) -> String {
    let mut tokens = TOKENS.map(|(c, v)| (c.to_string(), v));
    tokens[i].0 = command;
    joined(&tokens)
}

/// Commands in letters beyond ASCII that look like theirs, or whose capitals
/// or small letters are theirs.
const FOREIGN: &[&str] = &[
    "\u{17F}v|b|",
    "ｓｖ|b|",
    "ｍｄ|1SA|",
    "ⓜⓓ|1SA|",
    "ᵐd|1SA|",
    "q\u{445}|r|",
    "\u{440}\u{441}|SA|",
];

/// Each command in every case mix, and words like it.
pub fn commands() -> Vec<String> {
    let forms = |i: usize| {
        let word = TOKENS[i].0;
        let all = mixes(word).into_iter().chain(near(word));
        all.map(move |form| rewritten(i, form))
    };
    let mut all: Vec<String> = (0..10).flat_map(forms).collect();
    all.push(joined(&TOKENS.map(|(c, v)| (c.to_uppercase(), v))));
    all.extend(FOREIGN.iter().map(|t| t.to_string()));
    all
}

/// All tokens with two of them in each other's place.
fn swapped(i: usize, k: usize) -> String {
    let mut tokens = TOKENS;
    tokens.swap(i, k);
    joined(&tokens)
}

/// All tokens cut short, with a pipe dropped or doubled, with a token removed,
/// doubled or changed for another.
pub fn broken() -> Vec<String> {
    let whole = joined(&TOKENS);
    let mut all: Vec<String> = (0..=whole.len()).map(|n| whole[..n].to_string()).collect();
    for (at, _) in whole.match_indices('|') {
        let (a, b) = whole.split_at(at);
        all.push(format!("{a}{}", &b[1..]));
        all.push(format!("{a}|{b}"));
    }
    all.extend((0..10).map(|i| joined(&[&TOKENS[..i], &TOKENS[i + 1..]].concat())));
    all.extend((0..10).map(|i| joined(&[&TOKENS[..=i], &TOKENS[i..]].concat())));
    all.extend((0..10).flat_map(|k| (0..k).map(move |i| swapped(i, k))));
    all
}

/// Every two of the values between pipes.
fn pairs(values: &str) -> impl Iterator<Item = (&str, &str)> {
    let all = move || values.split('|');
    all().flat_map(move |x| all().map(move |y| (x, y)))
}

/// pn: more and fewer pieces than four, one after another.
pub fn names() -> Vec<String> {
    const VALUES: &str = "|,|,,|,,,|,,,,|a|a,b|a,b,c|a,b,c,d|a,b,c,d,e|,,c|\
        José, Jose\u{301} ,\nÅsa,李雷";
    let alone = VALUES.split('|').map(|x| format!("pn|{x}|"));
    let mut all: Vec<String> = alone.collect();
    all.extend(pairs(VALUES).map(|(x, y)| format!("pn|{x}|pn|{y}|")));
    all.push("pn|a,b,c,d|pn|,f|pn||pn|,,g|".to_string());
    all
}

/// mn, qx and ah: values one after another, the empty one too.
pub fn titles() -> Vec<String> {
    const VALUES: &str = "|a| |b+c,d|\r\n";
    let texts = |c| pairs(VALUES).map(move |(x, y)| format!("{c}|{x}|{c}|{y}|"));
    let mut all: Vec<String> = ["mn", "qx", "ah"].into_iter().flat_map(texts).collect();
    all.extend(["mn||", "qx||", "ah||", "mn||qx||ah||"].map(str::to_string));
    all
}

/// sv: every spelling in every case, and others.
pub fn vulnerable() -> Vec<String> {
    const OTHERS: &str = "| |o|O|0|-|x|none|nse|n s|s|w|sn|we|n/s|ns.|nn|bo|bot|botH!|bothh|al|\
        alll|n\u{17F}|\u{17F}|ＮＳ|ｂ|ns\u{301}|e\u{301}w|é|\u{FFFE}b|b\u{FFFE}|b\0|+b|n,s|Ⓑ|\
        \u{130}|\u{212A}";
    let words = ["n", "ns", "e", "ew", "b", "both", "all"];
    let known = words.into_iter().flat_map(mixes);
    let mut all: Vec<String> = known.map(|v| format!("sv|{v}|")).collect();
    all.extend(OTHERS.split('|').map(|v| format!("sv|b|sv|{v}|")));
    all.extend(["sv|n|sv|e|", "sv|e|sv|All|", "sv|both|sv|NS|sv|o|sv|Ew|"].map(str::to_string));
    all
}

/// mb and an: every order of up to four tokens, and bids alone.
pub fn calls() -> Vec<String> {
    const BIDS: &str = "|!|!!|! !|1C! | 1C!|1C !|1C\n!|1C!\n|!1C|!1C!|1C!!!!!!!!|1C!?|1C?!|1C！|\
        1C!\u{301}|1C\u{301}!|1C!\u{A0}|1C!\0|1C!\u{FFFE}|ż!|é!!|\u{1F621}!|p!p!p!";
    let mut all = texts::words(&["mb|1C|", "mb|p!|", "an|x|", "an||"], 4);
    for bid in BIDS.split('|') {
        all.push(format!("mb|{bid}|"));
        all.push(format!("an|a|mb|{bid}|an|b!|an|{bid}|"));
        all.push(format!("mb|{bid}|pc|SA|an|{bid}|mb|{bid}!|"));
    }
    all
}

/// A pc for each of these suits and ranks.
fn pack(suits: &str, ranks: &str) -> String {
    let card = |s| ranks.chars().map(move |r| format!("pc|{s}{r}|"));
    suits.chars().flat_map(card).collect()
}

/// pc: every letter beside a suit and beside a rank, and other values.
pub fn cards() -> Vec<String> {
    const VALUES: &str = "|S|A|s|AS|SAK|SSA|!SA|SA!|S A|S,A|10|S1|S10|ST|sT|St|♠A|ＳＡ|S\u{301}A|\
        SA\u{301}|\u{301}SA|\u{15A}A|S\u{C1}|\u{17F}A|S\u{212A}|SK\0|\0SK|SA\u{FFFE}|NA|?|S٢|S２|\
        -S2|S2SA";
    let mut all = vec![
        pack("SHDC", "23456789TJQKA"),
        pack("shdc", "akqjt98765432"),
        pack("sHdC", "aKqJt9"),
        visible().map(|c| format!("pc|{c}A|")).collect(),
        visible().map(|c| format!("pc|S{c}|")).collect(),
        visible().map(|c| format!("pc|{c}|")).collect(),
    ];
    all.extend(VALUES.split('|').map(|v| format!("pc|HK|pc|{v}|pc|C2|")));
    all
}

/// mc: numbers near a bound, and other values after a good one.
pub fn claims() -> Vec<String> {
    const VALUES: &str = "|+|++|-|-0|+0|+00|-9|+9|++5|+-5|-+5|+ 7|7 7|7+|1,0|1.0|1_0|0x9|1e1|x|9x|\
        x9|9!|+255|+256|0256|000|00255|999|1000|2550|65535|65536|65545|4294967296|4294967305|\
        18446744073709551616|18446744073709551625|340282366920938463463374607431768211465|٩|９|\
        ²|9²|Ⅸ|9\u{301}|\u{301}9|\u{FFFE}9|9\u{FFFE}|9\0|\09|+\u{A0}9|＋9|−9";
    let (zeros, spaces) = ("0".repeat(65_000), "\u{2003} ".repeat(150));
    let numbers = (0..=14).chain(95..=101).chain(195..=201).chain(245..=261);
    let mut all: Vec<String> = numbers.map(|n| format!("mc|{n}|")).collect();
    all.extend(VALUES.split('|').map(|v| format!("mc|7|mc|{v}|")));
    all.push(format!("mc|{zeros}9|"));
    all.push(format!("mc|7|mc|+{}256|", &zeros[..3_000]));
    all.push(format!("mc|7|mc|{}|", "9".repeat(500)));
    all.push(format!("mc|{spaces}255{spaces}|"));
    all
}
