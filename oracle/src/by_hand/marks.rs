//! Byte order marks: every place that is trimmed, every place that is not, the lines and
//! parts of a file, tokens, boards that are written, compared and made of records, and bytes
//! that are a part of a mark. (Document 02, N2)
//!
//! Upstream's trim does not know the mark. The smallest texts have their answers written
//! out, and so has whatever keeps a mark. Where a text has marks only where they go or
//! change nothing, the answer is upstream's for the text without them: that they go is
//! document 02's rule.

use super::*;
use crate::{
    boards::{deals::THREE as HANDS, places, traps},
    built::{self, cards},
    equality,
    files::{self, lines},
    lin::{parse_lin, parse_lin_file, LinData},
    pbn::{replayed, Record},
    random::Rng,
    records, texts, tokens, writer,
};
use bridge_types::{AnnotatedCall, Direction, Vulnerability};

/// The text with the mark for each `@`.
fn marked(text: &str) -> String {
    text.replace('@', &texts::BYTE_ORDER_MARK.to_string())
}

/// The text without its marks.
fn unmarked(text: &str) -> String {
    text.replace(texts::BYTE_ORDER_MARK, "")
}

/// The marked text is this board.
fn reads(s: &mut Steps, text: &str, board: &LinData) {
    s.lend(TEXT, marked(text).as_bytes());
    readers::read(s, board);
}

/// The smallest text for each place that is trimmed.
fn smallest(s: &mut Steps) {
    let fresh = built::fresh;
    let south = LinData {
        dealer: Direction::South,
        ..fresh()
    };
    let both = LinData {
        vulnerability: Vulnerability::Both,
        ..fresh()
    };
    let played = LinData {
        play: cards("SA"),
        ..fresh()
    };
    let claimed = LinData {
        claim: Some(9),
        ..fresh()
    };
    for text in ["@md|1|", "md@|1|", "@md@|1|", "md|@1|", "md|1@|", "md|@1@|"] {
        reads(s, text, &south);
    }
    for text in ["@sv|b|", "sv|@b|", "sv|b@|", "sv|@Both@|"] {
        reads(s, text, &both);
    }
    for text in ["@pc|SA|", "pc|@SA|", "pc|SA@|", "pc|@sa@|"] {
        reads(s, text, &played);
    }
    for text in ["@mc|9|", "mc|@9|", "mc|9@|", "mc|@+009@|"] {
        reads(s, text, &claimed);
    }
    // In any order and number, with white space between.
    for around in ["@@", "@ @", "\u{3000}@\n@", "@\u{85}@\u{A0}"] {
        reads(s, &format!("{around}md{around}|{around}1{around}|"), &south);
    }
}

/// Texts that have marks at trimmed places alone.
fn trimmed_texts() -> Vec<String> {
    let mut all = places::at_the_ends(texts::BYTE_ORDER_MARK);
    let commands = traps::TOKENS.iter().enumerate();
    all.extend(commands.map(|(i, (word, _))| traps::rewritten(i, marked(&format!("@{word}")))));
    let long = "@ @\u{2003}".repeat(200);
    let record = records::file(&mut Rng::new(13), 1);
    let more = [
        "md|2SA,HK,DQ,CJ|md|@3HA,D2|".to_string(),
        "sv|e|sv|b@|".to_string(),
        "pc|HK|pc|SA@|pc|C2|".to_string(),
        "mc|7|mc|@9|".to_string(),
        "mc|7|mc|@|".to_string(),
        "md|1SA|md|@|md|@0SK|".to_string(),
        format!("md|3,,,SA|md|4{HANDS},@|"),
        format!("md|4{HANDS},@ @,SA|"),
        format!("{long}md{long}|{long}1SA{long}|sv|{long}b{long}|"),
        format!("@{record}"),
    ];
    all.extend(more.map(|text| marked(&text)));
    all
}

fn trimmed(s: &mut Steps) {
    for text in trimmed_texts() {
        let Ok(board) = parse_lin(&unmarked(&text));
        reads(s, &text, &board);
    }
}

/// A board with these texts, in the order of `built::put`.
fn with_texts(all: [&str; built::PLACES]) -> LinData {
    let mut board = built::fresh();
    for (place, text) in all.into_iter().enumerate() {
        built::put(&mut board, place, &marked(text));
    }
    board
}

/// Values that are not trimmed, which keep their marks.
fn kept(s: &mut Steps) {
    let all = "pn|@a@,b@,@,@@|mn|@t@|qx|@|ah|@h|mb|@1C|an|@n@|";
    let board = with_texts(["@a@", "b@", "@", "@@", "@t@", "@", "@h", "@1C", "@n@"]);
    reads(s, all, &board);
    let calls = |all: &[(&str, bool, Option<&str>)]| {
        let call = |&(bid, alert, note): &(&str, bool, Option<&str>)| {
            built::call(&marked(bid), alert, note.map(marked).as_deref())
        };
        LinData {
            auction: all.iter().map(call).collect(),
            ..built::fresh()
        }
    };
    // A mark after `!` is the end of the bid, and no alert is before it.
    reads(s, "mb|1C!@|", &calls(&[("1C!@", false, None)]));
    reads(s, "mb|1C@!|", &calls(&[("1C@", true, None)]));
    reads(
        s,
        "mb|@!|mb|@|",
        &calls(&[("@", true, None), ("@", false, None)]),
    );
    reads(s, "mb|p|an|@|", &calls(&[("p", false, Some("@"))]));
    reads(s, "mb|p|an|x|@an|@y|", &calls(&[("p", false, Some("@y"))]));
}

/// Marks within a word, and beside characters that are like a mark and stay.
fn within(s: &mut Steps) {
    let hands = ["SAK", "H2", "C2", ""].map(cards);
    let dealt = LinData {
        dealer: Direction::South,
        ..built::dealt(built::deal(hands))
    };
    reads(s, "md|1S@A@K,@H2@,C@2|sv|n@s|pc|S@A|mc|1@2|m@b|1C|", &dealt);
    let like = ["\u{FFFE}", "\u{200B}", "\u{2060}", "\u{FEFE}", "\u{1EFF}"];
    let texts = |c: &str| {
        [
            format!("@{c}md|1|"),
            format!("{c}@md|1|"),
            format!("md{c}@|1|"),
            format!("md|@{c}1|sv|@b{c}|pc|{c}@SA|mc|9{c}@|"),
        ]
    };
    for text in like.into_iter().flat_map(texts) {
        reads(s, &text, &built::fresh());
    }
    // East's field is not blank, and holds no card.
    let Ok(without_east) = parse_lin(&format!("md|1{HANDS},x|"));
    reads(s, &format!("md|1{HANDS},@\u{200B},|"), &without_east);
}

/// The file without its marks has the same boards.
fn same_file(s: &mut Steps, text: &str) {
    let text = marked(text);
    let Ok(list) = parse_lin_file(&unmarked(&text));
    files::put(s, &text, &list);
}

/// Lines that trim to nothing; a qx that is recognised behind a mark, and so makes parts
/// of what would be lines; mn and pn behind one, which are moved back over.
fn whole_files(s: &mut Steps) {
    for text in [
        "@",
        "@@ @",
        "@\n@\r\n",
        "@qx|a|sv|n|",
        "@qx@|a|",
        "qx|a|@mn|t|",
    ] {
        files::put(s, &marked(text), &[]);
    }
    for text in lines::lines_of(texts::BYTE_ORDER_MARK) {
        same_file(s, &text);
    }
    for text in [
        "@qx|a|md|1|",
        "@md|1|\nmd|2|",
        "md|1|\n@md|2|\n@",
        "@md|1|@mn|t|@pn@|a|qx@|r|@Md|2|@",
        "md|1|mn|t|@pn|a|rh||mn|u|@qx|r|md|2|",
        "md|1|@mn|t|pn|a|@mn|u|qx|r|md|2|",
        "qx|a|@md|0|@qx|b|md@|1|",
        "qx|a|zz|@|md|1|pn|Ann,Bob|",
    ] {
        same_file(s, text);
    }
    let file = records::file(&mut Rng::new(14), 3);
    same_file(s, &format!("@{file}"));
    same_file(s, &file.replace('\n', "\n@"));
    // Not blank: a character that is like the mark stands beside it.
    files::put(s, &marked("@\u{200B}\n@"), &[built::fresh()]);
    // The value of the qx is a mark, and stays.
    let mut parts = [built::fresh(), built::fresh()];
    parts[0].dealer = Direction::South;
    built::put(&mut parts[1], 0, "a");
    built::put(&mut parts[1], 5, &marked("@"));
    files::put(s, &marked("md|1|pn@|a|@QX@|@|@\n@md@|@3@|"), &parts);
}

/// Tokens are as they are, marks and all.
fn verbatim(s: &mut Steps) {
    let cases: [(&str, &[(&str, &str)], &str); 8] = [
        ("@", &[], "@"),
        ("|@", &[], "|@"),
        ("@|", &[], "@|"),
        ("|@|", &[("", "@")], ""),
        ("@||@", &[("@", "")], "@"),
        ("@mn@|@@|@", &[("@mn@", "@@")], "@"),
        ("pn|@,@|md|1@|@|", &[("pn", "@,@"), ("md", "1@")], "@|"),
        ("@md|@1|\n@pg||", &[("@md", "@1"), ("\n@pg", "")], ""),
    ];
    for (text, all, trailing) in cases {
        let pair = |(command, value): &(&str, &str)| (marked(command), marked(value));
        let all: Vec<_> = all.iter().map(pair).collect();
        tokens::put(s, &marked(text), &all, &marked(trailing));
    }
}

/// What is written of `marked_board`, which is the same board when it is read back.
const WRITTEN: &str = "mn|@t|pn|@,a@,@@,@d|qx|@o1|rh||ah|@|md|3,,,|sv|0|\n\
                       sa|0|mb|1C@|an|@n@|pg||\npc|SA|pg||\n";

/// A board with marks in all its texts.
fn marked_board() -> LinData {
    LinData {
        play: cards("SA"),
        ..with_texts(["@", "a@", "@@", "@d", "@t", "@o1", "@", "1C@", "@n@"])
    }
}

/// Boards that are equal but for a mark are not equal, in whichever text it stands.
fn compared(s: &mut Steps) {
    let board = marked_board();
    equality::put(s, &(board.clone(), board.clone()), [1, 1]);
    for place in 0..built::PLACES {
        let mut other = board.clone();
        built::put(&mut other, place, "x");
        let mut one = board.clone();
        built::put(&mut one, place, &marked("x@"));
        equality::put(s, &(one, other), [0, 0]);
    }
}

/// A record with marks in all its texts, and the board that is made of it. A mark alone in a
/// raw annotation goes, as any other character does; in a note it stays.
fn made(s: &mut Steps) {
    let text = |text: &str| Some(marked(text));
    let call = AnnotatedCall {
        call: bridge_types::Call::Pass,
        annotation: text("@=1=$1@=@1="),
    };
    let record = Record {
        names: [text("@,a|"), None, text("@"), text("d@")],
        event: text("@"),
        date: text("@May"),
        id: text("@"),
        calls: vec![call],
        notes: [(1, marked("@\n"))].into(),
        play: cards("SA").into_iter().map(Some).collect(),
        ..Record::default()
    };
    let mut board = with_texts([
        "@a/",
        "",
        "@",
        "d@",
        "@ - @May",
        "o@,BOARD @",
        "Board @",
        "p",
        "@  ! =@1=",
    ]);
    board.play = cards("SA");
    replayed::put(s, &record, &board);
}

/// The step of a board cursor from the first byte of any bytes, and whether its section,
/// all of them, is a board.
fn visits(s: &mut Steps, bytes: &[u8], in_lines: bool, board: bool) {
    let (len, board) = (bytes.len() as u32, board.into());
    s.lend(TEXT, bytes);
    s.long(NUMBER, 0);
    s.long(SECOND, 0);
    s.set(LINES, &[in_lines.into()]);
    s.call(Call::NextBoard);
    let next = len + u32::from(in_lines);
    s.is(ANSWER, &[1, 0, 0, len, board, next, board, 0]);
    s.is(HIGH, &[0; 8]);
    s.case(0);
}

/// A mark that is cut short is none, and the bytes about it stay.
fn cut_short(s: &mut Steps) {
    let bom: &[u8] = b"\xEF\xBB\xBF";
    visits(s, bom, true, false);
    visits(s, &[bom, b" ", bom].concat(), true, false);
    for part in [&bom[..1], &bom[..2], &bom[1..], &bom[2..], b"\xEF\xBB\xBE"] {
        visits(s, part, true, true);
        visits(s, &[bom, part].concat(), true, true);
        visits(s, &[part, bom].concat(), true, true);
        visits(s, &[part, b"md|1|"].concat(), false, false);
        visits(s, &[b"md", part, b"|1|"].concat(), false, false);
    }
    visits(s, &[bom, b"md|1|"].concat(), false, true);
    visits(s, &[b"md", bom, b"|1|"].concat(), false, true);
    for (text, carried) in [(&bom[..1], 0), (&bom[..2], 0), (b"md|1|\xEF\xBB", 5)] {
        s.lend(TEXT, text);
        for call in [Call::Open, Call::CountBoards, Call::ParseHeading] {
            s.call(call);
            s.answer(2, 0, carried);
        }
        s.case(1);
    }
}

pub fn put(s: &mut Steps) {
    readers::define(s, Call::ParseHeading, Call::ParseLin, 0);
    smallest(s);
    trimmed(s);
    kept(s);
    within(s);
    s.say("by hand marks boards", &readers::GROUPS);
    files::define(s);
    whole_files(s);
    files::put(s, &marked(WRITTEN), &[marked_board()]);
    let twice = [marked_board(), marked_board()];
    files::put(s, &marked(&WRITTEN.repeat(2)), &twice);
    s.say("by hand marks files", &files::LINES);
    // The numbers that no board has are behind us: a place is of 32 bits from here on.
    s.long(NUMBER, 0);
    tokens::define(s);
    verbatim(s);
    s.say("by hand marks", &tokens::LINES);
    writer::define(s);
    writer::put(s, &marked_board(), &marked(WRITTEN));
    s.say("by hand marks writer", &writer::LINES);
    equality::define(s);
    compared(s);
    s.say("by hand marks equality", &equality::LINES);
    replayed::define(s);
    made(s);
    s.say("by hand marks pbn", &replayed::LINES);
    cut_short(s);
    s.say("by hand marks cut", &["steps", "refused"]);
}
