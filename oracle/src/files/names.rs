//! Names: files in which they stand at several seats, are replaced or moved to
//! another board, and the names that are asked for in each text. (Document 01,
//! "the finder counts a file's boards with a given name .."; document 02, N3)

use crate::{accents::accented, lin::LinData, texts::distinct};

/// How many names of boards are asked for in one text, at the most.
const ASKED: usize = 12;

/// The pieces of every pn in the text.
fn written(text: &str) -> Vec<String> {
    let (tokens, _) = crate::tokens(text);
    let pn = tokens
        .iter()
        .filter(|(c, _)| c.trim().eq_ignore_ascii_case("pn"));
    pn.flat_map(|(_, v)| v.split(','))
        .map(str::to_string)
        .collect()
}

/// A name in other letters, longer, shorter, and with its ends trimmed.
fn near(name: &str) -> Vec<String> {
    let mut shorter = name.to_string();
    shorter.pop();
    vec![
        name.to_uppercase(),
        format!("{name} "),
        shorter,
        name.trim().to_string(),
    ]
}

/// The names to ask for: those of the boards and of every pn, replaced or not,
/// the empty one, one like the first, and one that is nowhere. None is accented: another
/// name is the same exactly when it has the same bytes, since what an accented one is
/// mapped to is accented.
pub fn asked(text: &str, boards: &[LinData]) -> Vec<String> {
    let names = boards.iter().flat_map(|b| b.player_names.clone());
    let mut all = distinct(names.chain(written(text)).collect());
    all.retain(|name| !name.is_empty() && !accented(name));
    all.truncate(ASKED);
    let like = all.first().map(|name| near(name)[text.len() % 4].clone());
    all.extend(like);
    all.extend(["", "nowhere"].map(str::to_string));
    all.retain(|name| !accented(name));
    distinct(all)
}

/// The places that the finder needs, where no name of the boards is accented: then each
/// has as many mapped characters as characters. What else they are mapped to is not for
/// this file to say.
pub fn places(name: &str, boards: &[LinData]) -> Option<usize> {
    let all = || boards.iter().flat_map(|b| &b.player_names);
    if all().any(|n| accented(n)) {
        return None;
    }
    let most = all().map(|n| n.chars().count()).max();
    Some(name.chars().count() + most.unwrap_or(0))
}

/// Names of one part or line.
const PIECES: &[&str] = &[
    "",
    "pn||",
    "pn|a|",
    "pn|a,a,a,a|",
    "pn|,a|",
    "pn|b,a|pn|a|",
    "pn|a,b,c,d|pn|e,f|pn|,,a|",
    "pn|a,b,c,d,a|",
    "pn| a,A,a ,\ta|",
    "pn|José,Jose\u{301},JOSÉ|",
    "pn|Åsa,A\u{30A}sa,\u{212B}sa|",
    "pn|aa,ab,ba|",
];

/// Every two of them as two boards: with the names after the md, and before
/// the qx of the next part; and as two lines.
pub fn texts() -> Vec<String> {
    let mut all = Vec::new();
    for x in PIECES {
        for y in PIECES {
            all.push(format!("qx||md|1|{x}rh||qx||md|2|{y}rh||"));
            all.push(format!("md|1|{x}qx||md|2|{y}"));
            all.push(format!("{x}md|1|\n{y}"));
        }
    }
    all
}
