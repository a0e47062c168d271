//! Files with qx: where parts begin, and which of them are boards. (Document
//! 01, section File, "With a qx token ..")

use crate::{
    boards::traps::{joined, mixes, near},
    texts,
};

/// Beside the texts that document 01 names.
const NAMED: &[&str] = &[
    // the tokens of the whole text decide, then those of each line
    "a|b\nqx|c|md|1|",
    "a|b\nqx|c|d|\nmd|1|",
    "a|b|\nqx|c|d|",
    "a\nqx|c|md|1|",
    "md|1\nqx|a|md|2|",
    "md|1|\nat|one\nqx|two|md|2|\nmd|3|",
    "mn|a\nb|qx|c\nd|md|1|pn|e\nf,g\r\nh|an|\n|mb|\n1C!\n|an|\n|",
    "md|1|qx|a\n|md|2|\nqx|b|\nmd|\n3\n|",
    // skipped md and several md
    "md|0|qx|a|md|x|qx|b|md||",
    "qx|a|md|0|",
    "qx|a|md|2SA|md|0SK|md|3|qx|b|md|0|md|4HK|md|0|",
    "md|1|md|2|qx|a|mb|p|qx|b|md|3|md|4|md|0|",
    // before the first qx
    "md|1SA|mb|p|qx|a|",
    "pc|SA|md|1|mn|t|pn|a|qx|a|",
    "vg|Final|\nrs|4SN=|\npw|a,b|\nqx|o1|md|1|\nqx|c1|md|2|",
    "vg|Final|\nrs|4SN=|\nmn|t|pn|a|md|4|qx|o1|md|1|",
    // an annotation belongs to a call of its own part
    "mb|1C|md|1|qx|a|an|x|md|2|mb|p|an|y|qx|b|md|3|an|z|",
    // text set in a part that is no board is lost
    "mn|t|pn|a,b,c,d|ah|h|qx|r|sv|b|qx|s|md|1|",
    "pn|a|mn|t|rh||qx|r|md|1|qx|s|pn|b|mn|u|md|2|",
];

/// What document 01 names.
pub fn named() -> Vec<String> {
    let all = texts::NAMED.iter().chain(NAMED);
    all.map(|t| t.to_string()).collect()
}

/// A token for each letter: q, d, m, p and r for qx, md, mn, pn and rh. Its value
/// says where it stands.
fn spelled(word: &str) -> String {
    let token = |(i, c): (usize, char)| {
        let letter = char::from(b'a' + i as u8).to_string();
        match c {
            'q' => ("qx", letter),
            'd' => ("md", (1 + i % 4).to_string()),
            'm' => ("mn", letter),
            'p' => ("pn", letter),
            _ => ("rh", letter),
        }
    };
    joined(&word.chars().enumerate().map(token).collect::<Vec<_>>())
}

/// Every order of up to four tokens.
pub fn orders() -> Vec<String> {
    let all = texts::words(&["q", "d", "m", "p", "r"], 4);
    all.iter().map(|word| spelled(word)).collect()
}

/// The tokens with their commands in every case mix by turns.
fn turned(text: &str, from: usize) -> String {
    let (mut tokens, _) = crate::tokens(text);
    for (i, (command, _)) in tokens.iter_mut().enumerate() {
        *command = mixes(command)[(from + i) % 4].clone();
    }
    joined(&tokens)
}

/// Up to six mn and pn before a qx: at the start, and after a board.
pub fn runs() -> Vec<String> {
    let runs = texts::words(&["m", "p"], 6);
    let texts = |(i, run): (usize, &String)| {
        let first = spelled(&format!("{run}qd"));
        let later = spelled(&format!("d{run}qdmp"));
        [turned(&first, i), turned(&later, i / 4)]
    };
    runs.iter().enumerate().flat_map(texts).collect()
}

/// The same with another token among them: only what follows it is moved back.
pub fn separated() -> Vec<String> {
    let between = ["rh||", "ah|h|", "zz|z|", "|x|", "an|x|", "\u{FFFE}mn|t|"];
    let mut all = Vec::new();
    for run in texts::words(&["m", "p"], 3) {
        for at in 0..=run.len() {
            let other = between[all.len() % 6];
            let (a, b) = run.split_at(at);
            all.push(format!(
                "md|1|{}{other}{}",
                spelled(a),
                spelled(&format!("{b}qd"))
            ));
            let other = between[all.len() % 6];
            all.push(format!(
                "{}{other}{}",
                spelled(&format!("d{a}")),
                spelled(&format!("{b}q{a}qd"))
            ));
        }
    }
    all
}

/// qx after qx, empty, without md, and at the very end; and what trails the
/// last token.
pub fn ends() -> Vec<String> {
    const ENDS: &[&str] = &[
        "",
        "\n",
        " \u{3000}\r\n",
        "qx",
        "qx|",
        "qx|b",
        "md|3",
        "mn|t|",
        "pn|a|mn||",
        "trailing",
        "\nqx|c|",
    ];
    let words = texts::words(&["qx||", "qx|a|", "md|2|"], 2);
    let ended = |word: String| ENDS.iter().map(move |end| format!("{word}{end}"));
    words.into_iter().flat_map(ended).collect()
}

/// A file of three boards in which qx, md, mn and pn are written in these ways.
fn rewritten(i: usize, form: &str) -> String {
    let mut word = ["qx", "md", "mn", "pn"];
    word[i] = form;
    let [qx, md, mn, pn] = word;
    format!("{mn}|t|{md}|1|{mn}|u|{pn}|a|{qx}|r|{md}|2|{pn}|b|{mn}|v|{qx}|s|{md}|3|")
}

/// Each command of a file in every case mix, and words like it.
pub fn commands() -> Vec<String> {
    let forms = |i: usize| {
        let word = ["qx", "md", "mn", "pn"][i];
        let all = mixes(word).into_iter().chain(near(word));
        let white = ["\n", "\r\n\t", "\u{85}\u{A0}", "\u{2028} ", "\u{3000}"];
        let spaced = white.into_iter().map(move |w| format!("{w}{word}{w}"));
        all.chain(spaced).map(move |form| rewritten(i, &form))
    };
    let mut all: Vec<String> = (0..4).flat_map(forms).collect();
    for (qx, md) in mixes("qx").into_iter().zip(mixes("md")) {
        all.push(format!("{md}|1|{qx}|r|{md}|2|"));
        all.push(format!("{md}|1|\n {qx}\t|r|\r\n\u{A0}{md} |2|\n"));
    }
    all.extend(
        [
            "ｑｘ|a|md|1|",
            "q\u{445}|a|md|1|",
            "ⓠⓧ|a|md|1|",
            "qx|a|ｍｄ|1|",
            "qx|a|ⓜⓓ|1|",
        ]
        .map(str::to_string),
    );
    all
}
