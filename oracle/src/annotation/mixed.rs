//! Mixtures of parts, in every order and by chance, and long annotations.

use super::{parts::usual, plain, Case, Notes};
use crate::{built, random::Rng, texts};

const PIECES: &[&str] = &[
    "!", "?", "!?", "$1", "$4", "$0", "$7", "$", "=1=", "=2=", "=3=", "=+1=", "= 1=", "==", "=",
    "=1", "é", "1", " ", "+",
];

const FEW: &[&str] = &["!", "$2", "=1=", "=2=", "=", "$", "é", "1"];

fn words(pieces: &[&str], longest: usize) -> Vec<Case> {
    let words = texts::words(pieces, longest).into_iter();
    words.map(|raw| (raw, usual())).collect()
}

/// Every two pieces.
pub fn pairs() -> Vec<Case> {
    words(PIECES, 2)
}

/// Every three of fewer pieces.
pub fn triples() -> Vec<Case> {
    words(FEW, 3)
}

/// Some notes by chance, of small numbers for the most part.
pub fn some_notes(rng: &mut Rng, most: usize) -> Notes {
    let number = |rng: &mut Rng| match rng.below(4) {
        0 => rng.byte(),
        _ => rng.below(8) as u8,
    };
    (0..rng.below(most + 1))
        .map(|_| (number(rng), built::text(rng)))
        .collect()
}

fn plain_notes(rng: &mut Rng) -> Notes {
    let notes = some_notes(rng, 6).into_iter();
    notes.map(|(n, t)| (n, plain(&t))).collect()
}

/// A piece by chance.
pub fn some_piece(rng: &mut Rng) -> String {
    match rng.below(8) {
        0 | 1 => rng.pick(PIECES).to_string(),
        2 => rng.pick(texts::SAMPLES).to_string(),
        3 => format!("${}", rng.below(9)),
        4 | 5 => format!("={}=", rng.below(9)),
        6 => format!(
            "={}{}=",
            rng.pick(&["", "+", "0", "+00", " "]),
            rng.below(260)
        ),
        _ => rng.pick(&["!", "?"]).repeat(1 + rng.below(4)),
    }
}

/// Pieces by chance, with notes by chance.
pub fn pieces() -> Vec<Case> {
    let rng = &mut Rng::new(60);
    let case = |_| {
        let raw: String = (0..rng.below(9)).map(|_| some_piece(rng)).collect();
        (plain(&raw), plain_notes(rng))
    };
    (0..900).map(case).collect()
}

/// Letters by chance, most of them those that begin a part.
pub fn letters() -> Vec<Case> {
    const LETTERS: &[&str] = &[
        "=", "=", "=", "$", "$", "!", "?", "0", "1", "2", "3", "5", "6", "9", "+", " ", "a", "é",
    ];
    let rng = &mut Rng::new(61);
    let case = |n: usize| {
        let raw = match n % 3 {
            0 => plain(&texts::letters(rng, 12)),
            _ => (0..rng.below(14)).map(|_| *rng.pick(LETTERS)).collect(),
        };
        (raw, plain_notes(rng))
    };
    (0..600).map(case).collect()
}

/// Every note, and annotations that name them all; long notes and long runs.
pub fn long() -> Vec<Case> {
    let full: Notes = (0..=255).map(|n| (n, format!("note{n}"))).collect();
    let thin: Notes = (0..=255)
        .map(|n| (n, "é".repeat(usize::from(n % 3))))
        .collect();
    let all: String = (0..=255).map(|n| format!("={n}=")).collect();
    let back: String = (0..=257).rev().map(|n| format!("=+{n}=$1")).collect();
    let one: Notes = [(7, "long — ".repeat(60))].into();
    vec![
        (all.clone(), full.clone()),
        (back.clone(), full),
        (all.clone(), thin.clone()),
        (back, thin),
        (all, Notes::new()),
        ("=7=".to_string(), one.clone()),
        ("=7=".repeat(5), one.clone()),
        ("=007=x!".repeat(5), one),
        ("!?".repeat(1_500), Notes::new()),
        ("$1".repeat(1_500), Notes::new()),
        ("é$0=".repeat(500), Notes::new()),
        (format!("${}", "1".repeat(2_000)), Notes::new()),
        (
            format!("={}=", "0".repeat(2_000)),
            [(0, "zero".to_string())].into(),
        ),
        (format!("={}1", "0".repeat(2_000)), usual()),
        ("z".repeat(3_000), usual()),
    ]
}
