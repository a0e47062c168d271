//! Byte order marks put into texts by chance, and what looks like one: about one
//! text in three has marks, and one in six something alike.

use crate::model::MARK;
use oracle::{lin::LinData, pbn::Record, random::Rng, texts::WHITE};

/// Characters that stay: one with the halves of the mark's number exchanged, two
/// without width, and with the mark's first two bytes, its first and its last two.
pub const ALIKE: [char; 6] = [
    '\u{FFFE}', '\u{200B}', '\u{2060}', '\u{FEFE}', '\u{FF00}', '\u{1EFF}',
];

/// The mark cut short, alone and beside other bytes or a whole one.
pub const CUT: &[&[u8]] = &[
    b"\xEF",
    b"\xEF\xBB",
    b"\xBB\xBF",
    b"\xBF",
    b"\xEF\xBB|",
    b"\xEF\xBB\n",
    b"\xEF\xBB ",
    b"\xEF\xBBa",
    b"\xEF\xBB\xC3\xA9",
    b" \xBB\xBF",
    b"\xEF\xBB\xEF\xBB\xBF",
    b"\xEF\xEF\xBB\xBF",
    b"\xEF\xBB\xBF\xBF",
    b"\xEF\xBB\xBF\xBB\xBF",
    b"\xEF\xBB\xBF\xEF\xBB",
    b"\xE2\x80\xEF\xBB\xBF",
];

/// The ends of a text and of its pieces between pipes, commas, ends of lines and what
/// parts annotations, and now and then another place that cuts no character.
fn edges(rng: &mut Rng, text: &[u8]) -> Vec<usize> {
    let edge = |b: u8| b"|,\n=$!?".contains(&b);
    let mut all: Vec<usize> = (0..=text.len()).collect();
    all.retain(|at| match text.get(at.wrapping_sub(1)..at + 1) {
        Some([before, after]) => {
            edge(*before) || edge(*after) || (after & 0xC0 != 0x80 && rng.once_in(16))
        }
        _ => true,
    });
    all
}

/// The text with runs at some of its edges, at one of them at least.
fn put(rng: &mut Rng, text: &[u8], run: impl Fn(&mut Rng) -> Vec<u8>) -> Vec<u8> {
    let edges = edges(rng, text);
    let sure = *rng.pick(&edges);
    let rare = *rng.pick(&[2, 6, 40]);
    let mut all = Vec::new();
    let mut from = 0;
    for edge in edges {
        all.extend(&text[from..edge]);
        if edge == sure || rng.once_in(rare) {
            all.extend(run(rng));
        }
        from = edge;
    }
    all
}

/// One to four characters: this one, and others that are it, white space or alike.
fn run(rng: &mut Rng, of: char) -> Vec<u8> {
    let mut run = vec![of];
    for _ in 0..rng.below(4) {
        run.push(match rng.below(8) {
            0..=3 => of,
            4..=6 => *rng.pick(&WHITE),
            _ => *rng.pick(&ALIKE),
        });
    }
    rng.shuffle(&mut run);
    String::from_iter(run).into_bytes()
}

/// What is put into a text: the mark, something alike, or nothing.
fn chosen(rng: &mut Rng) -> Option<char> {
    match rng.below(6) {
        0 | 1 => Some(MARK),
        2 => Some(*rng.pick(&ALIKE)),
        _ => None,
    }
}

fn with(rng: &mut Rng, text: &str, of: char) -> String {
    let put = put(rng, text.as_bytes(), |rng| run(rng, of));
    String::from_utf8(put).expect("no character is cut")
}

/// The text, at times with marks.
pub fn text(rng: &mut Rng, text: String) -> String {
    match chosen(rng) {
        Some(of) => with(rng, &text, of),
        None => text,
    }
}

/// The bytes with marks that are cut short.
pub fn cut(rng: &mut Rng, bytes: &[u8]) -> Vec<u8> {
    put(rng, bytes, |rng| rng.pick(CUT).to_vec())
}

/// Puts marks into some of the texts that belong together, at times.
pub fn texts(rng: &mut Rng, texts: Vec<&mut String>) {
    let Some(of) = chosen(rng) else {
        return;
    };
    let sure = rng.below(texts.len().max(1));
    for (n, text) in texts.into_iter().enumerate() {
        if n == sure || rng.once_in(3) {
            *text = with(rng, text, of);
        }
    }
}

fn texts_of(board: &mut LinData) -> Vec<&mut String> {
    let given = [
        &mut board.title,
        &mut board.room_board,
        &mut board.board_header,
    ];
    let mut all: Vec<&mut String> = board.player_names.iter_mut().collect();
    all.extend(given.into_iter().flatten());
    for call in &mut board.auction {
        all.push(&mut call.bid);
        all.extend(&mut call.annotation);
    }
    all
}

/// The board, at times with marks in its texts.
pub fn board(rng: &mut Rng, mut board: LinData) -> LinData {
    texts(rng, texts_of(&mut board));
    board
}

/// Puts marks into one text of a board.
pub fn one_text(rng: &mut Rng, board: &mut LinData) {
    let mut all = texts_of(board);
    let text = all.swap_remove(rng.below(all.len()));
    *text = with(rng, text, MARK);
}

/// The record, at times with marks in its texts.
pub fn record(rng: &mut Rng, mut record: Record) -> Record {
    let given = [&mut record.event, &mut record.date, &mut record.id];
    let given = record.names.iter_mut().chain(given).flatten();
    let annotations = record
        .calls
        .iter_mut()
        .flat_map(|call| &mut call.annotation);
    let all = given.chain(annotations).chain(record.notes.values_mut());
    texts(rng, all.collect());
    record
}
