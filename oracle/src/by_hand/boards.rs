//! The reader of one board: where spans begin, and its refusals. (Document 01, Board;
//! Eight refusals, 1 to 3)

use super::*;

/// The names of a text are at these spans.
fn names(s: &mut Steps, text: &[u8], words: [u32; 8]) {
    s.lend(TEXT, text);
    s.call(Call::ParseHeading);
    s.is(BOARD, &words);
    s.case(0);
}

/// Its title, room and board, and header are at these.
fn titles(s: &mut Steps, text: &[u8], [a, b, c, d, e, f]: [u32; 6]) {
    s.lend(TEXT, text);
    s.call(Call::ParseHeading);
    s.is(BOARD + 10, &[1, a, b, 1, c, d, 1, e, f]);
    s.case(0);
}

/// Its calls are these rows, and all words after them are as they were.
fn rows(s: &mut Steps, text: &[u8], words: &[u32]) {
    s.lend(TEXT, text);
    s.set(LENT_WORDS, &[24, 1]);
    s.call(Call::ParseLin);
    s.is(FILLED_ROWS, words);
    s.set(REST_WORDS, &[MOST_WORDS - words.len() as u32]);
    s.agree(FILLED_ROWS + words.len(), MARK_WORD, REST_WORDS, 0, ZERO);
    s.case(0);
}

/// Names that were never set and empty pieces, texts set twice, bids and annotations.
fn spans(s: &mut Steps) {
    names(s, b"", [0, 0, 0, 0, 0, 0, 0, 0]);
    names(s, b"pn||", [3, 0, 0, 0, 0, 0, 0, 0]);
    names(s, b"pn|a,,c|", [3, 1, 5, 0, 6, 1, 0, 0]);
    names(s, b"pn|a,b,c,d|pn|e|", [14, 1, 5, 1, 7, 1, 9, 1]);
    let text = "x|y|pn|é,b,,,e|";
    names(s, text.as_bytes(), [7, 2, 10, 1, 12, 0, 13, 0]);
    titles(s, b"mn|a|qx|b|ah||", [3, 1, 8, 1, 13, 0]);
    titles(s, b"ah|a|mn|a|qx|a|mn|a|", [18, 1, 13, 1, 3, 1]);
    let words = [3, 2, 1, 1, 10, 1, 15, 0, 1, 0, 0, 0];
    rows(s, b"mb|1C!|an|x|mb|!!|", &words);
    rows(s, b"mb|p|an|x|an||", &[3, 1, 0, 1, 13, 0]);
    rows(s, b"an|x|mb|p|an|x|an|x|", &[8, 1, 0, 1, 18, 1]);
}

/// Both calls refuse the text so, whatever is lent.
fn closed(s: &mut Steps, number: u32, carried: u64) {
    refused(s, Call::ParseHeading, number, 0, carried);
    stays(s, Call::ParseLin, [0, 0], number, 0, carried);
    stays(s, Call::ParseLin, [18, 3], number, 0, carried);
    s.case(1);
}

fn closed_by(s: &mut Steps, text: &[u8], carried: u64) {
    s.lend(TEXT, text);
    closed(s, 2, carried);
}

/// The board call refuses a text by 3, of so many words and places; the heading call
/// needs none.
fn few(s: &mut Steps, text: &[u8], lent: [u32; 2], kind: u32, carried: u64) {
    s.lend(TEXT, text);
    s.call(Call::ParseHeading);
    s.is(ANSWER, &[0, 0, 0]);
    stays(s, Call::ParseLin, lent, 3, kind, carried);
    s.case(1);
}

/// Both calls read the text, with so many words and places.
fn taken(s: &mut Steps, lent: [u32; 2], calls: u32, cards: u32) {
    s.set(LENT_WORDS, &lent);
    for call in [Call::ParseHeading, Call::ParseLin] {
        s.call(call);
        s.is(ANSWER, &[0, 0, 0, calls, cards, 0, 0, 0]);
        s.is(HIGH, &[0; 8]);
    }
    s.case(1);
}

fn takes(s: &mut Steps, text: &[u8], lent: [u32; 2], calls: u32, cards: u32) {
    s.lend(TEXT, text);
    taken(s, lent, calls, cards);
}

/// Texts that are not UTF-8, with the length of their longest well-formed start; 2
/// comes before 3.
fn not_utf8(s: &mut Steps) {
    closed_by(s, b"\xFF", 0);
    closed_by(s, b"md|1|\xFF", 5);
    closed_by(s, b"\xC3\xA9\xFF|", 2);
    closed_by(s, b"mb|p|pc|SA|\xFF", 11);
    // The first two bytes of a character of three.
    closed_by(s, b"md|\xE2\x99", 3);
}

/// One to five words are no row; a pc that is no card needs no place; calls come before
/// cards.
fn too_few(s: &mut Steps) {
    let (one, two) = (b"mb|p|", b"mb|p|mb|p!|");
    few(s, one, [0, 0], 0, 1);
    few(s, one, [5, 0], 0, 1);
    takes(s, one, [6, 0], 1, 0);
    few(s, two, [11, 3], 0, 2);
    takes(s, two, [12, 0], 2, 0);
    let (one, two) = (b"pc|SA|", b"pc|SA|pc|S|pc|h2|");
    few(s, one, [0, 0], 1, 1);
    takes(s, one, [0, 1], 0, 1);
    few(s, two, [18, 1], 1, 2);
    takes(s, two, [0, 2], 0, 2);
    let both = b"mb|p|pc|SA|";
    few(s, both, [0, 0], 0, 1);
    few(s, both, [0, 1], 0, 1);
    few(s, both, [6, 0], 1, 1);
    takes(s, both, [6, 1], 1, 1);
}

/// Spaces, one too many and as many as may be, then with a last byte that is not UTF-8:
/// 1 comes before 2. As many as may be are a fresh board.
fn long(s: &mut Steps) {
    spaces(s, b"", LONG);
    closed(s, 1, 0);
    spaces(s, b"", LIMIT);
    s.call(Call::ParseHeading);
    s.go(FRESH);
    s.case(1);
    taken(s, [0, 0], 0, 0);
    spaces_ill(s, LONG);
    closed(s, 1, 0);
    spaces_ill(s, LIMIT);
    closed(s, 2, LIMIT as u64 - 1);
}

pub fn put(s: &mut Steps) {
    spans(s);
    not_utf8(s);
    too_few(s);
    long(s);
    s.say("by hand boards", &["spans", "refusals"]);
}
