//! Annotations of few parts: `=` that are closed or not, runs of marks,
//! characters of several bytes, and the texts of notes.

use super::{plain, table, Case, Notes};
use crate::{
    built::TRAPS,
    texts::{self, SAMPLES},
};

/// Notes 1 and 11 have a text, note 2 an empty one, note 3 is absent.
pub(super) fn usual() -> Notes {
    table(&[(1, "weak"), (2, ""), (11, "é–")])
}

fn with_usual(raws: Vec<String>) -> Vec<Case> {
    raws.into_iter().map(|raw| (raw, usual())).collect()
}

/// Annotations that document 01 and upstream name, and their neighbours.
pub fn named() -> Vec<Case> {
    const RAWS: &[&str] = &[
        "=1=$2z", "", "=", "=1", "==", "===", "====", "=====", "=+1=", "=01=", "= 1=", "=1 =",
        "=++1=", "=-1=", "=256=", "=2=", "=3=", "=a==b=", "=1==1=", "=2==3=", "$", "$0", "$01",
        "$1", "$2", "$3", "$4", "$5", "$6", "$7", "$10", "$$1", "$1!", "!$1", "$1$2", "$1 $2",
        "!=1=", "!=1", "!?", "??", "=+=", "=0=", "=+0=", "=1=2=", "1=", "+1", "weak",
    ];
    let mut all = with_usual(RAWS.iter().map(|r| r.to_string()).collect());
    all.extend(RAWS.iter().map(|r| (r.to_string(), Notes::new())));
    all
}

/// A `=` that nothing closes, before each text and after each piece.
pub fn unclosed() -> Vec<Case> {
    let mut all = Vec::new();
    for before in ["", "!", "$1", "=1=", "=2=", "=3=", "é", "=="] {
        for after in ["", "1", "2", "3", "+1", "!", "!?", "$1", "é", " ", "1 !$2"] {
            all.push(format!("{before}={after}"));
            all.push(format!("{after}={before}"));
        }
    }
    with_usual(all)
}

/// Every word of at most five of these letters.
pub fn equals() -> Vec<Case> {
    let mut all = texts::words(&["=", "1", "a"], 5);
    all.extend((6..=12).map(|n| "=".repeat(n)));
    with_usual(all)
}

/// Every run of at most four marks, alone, beside other parts, and as a note's
/// number.
pub fn runs() -> Vec<Case> {
    let mut all = Vec::new();
    for run in texts::words(&["!", "?"], 4) {
        for other in ["$1", "=1=", "=2=", "=3=", "=", "$", "z", "é", "€", "😀"] {
            all.push(format!("{run}{other}"));
            all.push(format!("{other}{run}"));
        }
        all.push(format!("={run}="));
        all.push(run);
    }
    with_usual(all)
}

/// Runs of every two lengths with something between them that is no mark.
pub fn between() -> Vec<Case> {
    let mut all = Vec::new();
    for first in ["!", "??", "!?!", "????"] {
        for second in ["?", "!!", "?!?", "!!!!"] {
            for middle in [
                "é", "e\u{301}", "€", "😀", "！", "？", " ", "z", "$", "$9", "=2=",
            ] {
                all.push(format!("{first}{middle}{second}"));
            }
        }
    }
    with_usual(all)
}

/// Characters of one to four bytes between, before and within other parts.
pub fn characters() -> Vec<Case> {
    let samples = SAMPLES.iter().map(|s| plain(s));
    let like = [
        "＝",
        "＄",
        "！",
        "？",
        "１",
        "٣",
        "ℽ",
        "Ľ",
        "ġ",
        "Ŀ",
        "\u{33D}",
        "\u{3D}\u{301}",
    ];
    let mut all = Vec::new();
    for c in samples.chain(like.map(str::to_string)) {
        all.push(format!("!{c}$1{c}=1={c}?"));
        all.push(format!("${c}1"));
        all.push(format!("={c}1="));
        all.push(format!("=1{c}="));
        all.push(format!("={c}="));
        all.push(format!("{c}{c}={c}"));
        all.push(c);
    }
    with_usual(all)
}

/// Notes of every kind of text, which stay as they are, alone and joined.
pub fn notes() -> Vec<Case> {
    const LIKE: &[&str] = &[
        "=1=", "=2=", "=3=", "=", "==", "$1", "$7", "!", "?!", " ", "  ", " a ", "=1", "$",
    ];
    let mut all = Vec::new();
    let kept = TRAPS.iter().chain(SAMPLES).map(|t| plain(t));
    for text in kept.chain(LIKE.iter().map(|t| t.to_string())) {
        let notes: Notes = [(1, text.clone()), (2, String::new()), (3, text)].into();
        for raw in ["=1=", "=1==2==3=", "=2==1=", "!=3=$2", "=1=z=4=", "=2==2="] {
            all.push((raw.to_string(), notes.clone()));
        }
    }
    all
}
