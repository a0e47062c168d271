//! The refusals of the file's entries, each with what it carries, beside the nearest
//! text that is read. (Document 01, Eight refusals, 1 to 4)

use super::*;

mod reader;

/// Every entry refuses the file so, whatever is lent, and for a board that it has as for
/// one that it has not.
fn closed(s: &mut Steps, number: u32, carried: u64) {
    for call in [Call::CountBoards, Call::OpenBoards] {
        s.call(call);
        s.answer(number, 0, carried);
    }
    s.lend(TEXT2, b"");
    finder::refuses(s, number, carried);
    for (board, words) in [(0, 0), (u64::MAX, 18)] {
        s.long(NUMBER, board);
        refused(s, Call::FileHeading, number, 0, carried);
        stays(s, Call::FileBoard, [words, 0], number, 0, carried);
    }
    s.case(0);
}

fn closed_by(s: &mut Steps, text: &[u8], carried: u64) {
    s.lend(TEXT, text);
    closed(s, 2, carried);
}

/// No board has this number, which is refused by 4 with the count, also with no rows
/// lent, and all stays.
fn none(s: &mut Steps, text: &[u8], number: u64, count: u64) {
    s.lend(TEXT, text);
    s.long(NUMBER, number);
    refused(s, Call::FileHeading, 4, 0, count);
    stays(s, Call::FileBoard, [0, 0], 4, 0, count);
    stays(s, Call::FileBoard, [18, 3], 4, 0, count);
    s.case(0);
}

/// The heading of a number is accepted, which needs no row, and the board is refused by 3
/// with so many words.
fn few(s: &mut Steps, text: &[u8], number: u64, words: u32, kind: u32) {
    s.lend(TEXT, text);
    s.long(NUMBER, number);
    s.call(Call::FileHeading);
    s.is(ANSWER, &[0, 0, 0]);
    stays(s, Call::FileBoard, [words, 0], 3, kind, 1);
    s.case(0);
}

/// Files that are not UTF-8, with the length of their longest well-formed start. 2 comes
/// before 4 and 3.
fn not_utf8(s: &mut Steps) {
    closed_by(s, b"\xFF", 0);
    closed_by(s, b"md|1|\xFF", 5);
    closed_by(s, b"qx||md|1|mb|p|\nqx||md|2|\xC3", 24);
    closed_by(s, b"\xC3\xA9\n\xFF\n", 3);
    closed_by(s, b"mb|p|pc|SA|\n\xE2\x99", 12);
}

/// Numbers that no board has, and rows too few; 4 comes before 3.
fn numbers(s: &mut Steps) {
    let two = b"md|1|mb|p|pc|SA|qx||md|2|pc|h2|";
    none(s, b"md|1|", 1, 1);
    none(s, b"md|1|", 1 << 32, 1);
    none(s, b"md|1|", u64::MAX, 1);
    none(s, b"", 0, 0);
    none(s, b"qx|a|mb|p|", 0, 0);
    none(s, two, 2, 2);
    few(s, b"mb|p|", 0, 0, 0);
    few(s, two, 0, 5, 0);
    few(s, two, 0, 6, 1);
    few(s, two, 1, 0, 1);
}

/// Spaces, one too many and as many as may be, then with a last byte that is not UTF-8: 1
/// comes before 2.
fn long(s: &mut Steps) {
    spaces(s, b"", LONG);
    closed(s, 1, 0);
    spaces_ill(s, LONG);
    closed(s, 1, 0);
    spaces_ill(s, LIMIT);
    s.call(Call::CountBoards);
    s.answer(2, 0, LIMIT as u64 - 1);
    s.case(0);
    spaces(s, b"", LIMIT);
    s.call(Call::CountBoards);
    s.answer(0, 0, 0);
    s.case(0);
}

pub fn put(s: &mut Steps) {
    not_utf8(s);
    numbers(s);
    long(s);
    reader::put(s);
    s.say("by hand files", &["refusals", "reading steps"]);
}
