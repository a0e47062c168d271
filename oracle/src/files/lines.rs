//! Files without qx, a board for each line that is not blank, and the tokens
//! that cross lines. (Document 01, section File, "Otherwise each line ..";
//! Records, "White space is ..")

use crate::{boards::places::characters, texts};

/// Every text of up to four of a pipe, an LF, the start of a qx and an md: the
/// tokens of the whole text decide whether there are parts or lines.
pub fn crossing() -> Vec<String> {
    texts::words(&["|", "\n", "qx|", "md|1|"], 4)
}

/// Every text of up to three characters, lines of one byte, and LFs alone.
pub fn short() -> Vec<String> {
    let mut all = texts::words(&["\n", "\r", " ", "a", "|"], 3);
    all.extend((0..=20).map(|n| "\n".repeat(n)));
    all.extend((0..=12).map(|n| "x\n".repeat(n)));
    all.extend((1..=12).map(|n| "|\r\n".repeat(n)));
    all
}

/// Two lines with each separator between them and at their ends. Only an LF
/// splits.
pub fn separators() -> Vec<String> {
    const LINES: [&str; 6] = [
        "",
        "md|1|",
        "hello",
        "a|b",
        "mn|t|md|2SA,HK|pn|a|",
        "mb|p|an|x",
    ];
    const BETWEEN: [&str; 12] = [
        "\n", "\r\n", "\r", "\n\r", "\n\n", "\r\n\r\n", "\n \t\n", "\u{B}", "\u{C}", "\u{85}",
        "\u{2028}", "\u{2029}",
    ];
    let mut all = Vec::new();
    for (i, x) in LINES.iter().enumerate() {
        for y in LINES {
            all.extend(BETWEEN.map(|s| format!("{x}{s}{y}")));
        }
        all.extend(BETWEEN.map(|s| format!("{s}{x}{s}{}{s}", LINES[5 - i])));
    }
    all
}

/// A line of a character: alone, among others, between two boards, at the ends of
/// one, and after an LF at the end.
pub fn lines_of(c: char) -> [String; 5] {
    [
        format!("{c}"),
        format!(" {c}\u{3000}{c}\r"),
        format!("md|1|\n{c}\nmd|2|"),
        format!("{c}md{c}|1|{c}\n{c}hello{c}\n\n"),
        format!("x\n{c}"),
    ]
}

/// Lines of each character that is white space or like it.
pub fn blank() -> Vec<String> {
    characters().flat_map(lines_of).collect()
}

/// The same characters beside the commands of a file with qx, and after its
/// last token.
pub fn beside() -> Vec<String> {
    let texts = |c: char| {
        [
            format!("{c}md|1|{c}mn|t|{c}pn{c}|a|qx{c}|r|{c}Md|2|{c}"),
            format!("md|1|pn{c}|a|{c}QX{c}|{c}|{c}\n{c}md{c}|{c}3{c}|"),
        ]
    };
    characters().flat_map(texts).collect()
}
