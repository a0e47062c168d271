//! The board cursor's step that reads: from any place it goes on to the next board,
//! and refuses by 1, by 2 for the bytes from the cursor's place to that board's end, or
//! by 3 for the rows of that board alone. (Document 01, File; Eight refusals, 1 to 3)

use super::*;

/// A cursor: its place, the number of its next board, and 0 for parts.
type Standing = (u64, u64, u32);

/// The group of these cases.
const GROUP: usize = 1;

fn stand(s: &mut Steps, (at, number, lines): Standing) {
    s.long(NUMBER, at);
    s.long(SECOND, number);
    s.set(LINES, &[lines]);
}

/// The numbers of the step.
fn stepped(s: &mut Steps, numbers: [u64; 6]) {
    let word = |shift: u32| numbers.map(|n| (n >> shift) as u32);
    s.is(STEP, &word(0));
    s.is(STEP + 6, &[0, 0]);
    s.is(STEP_HIGH, &word(32));
    s.is(STEP_HIGH + 6, &[0, 0]);
}

/// The lent text is refused so, or with 0 has no board: the cursor stands, and all that
/// is lent stays.
fn unread(s: &mut Steps, from: Standing, number: u32, kind: u32, carried: u64) {
    for lent in [[0, 0], [5, 3]] {
        unread_with(s, from, lent, number, kind, carried);
    }
}

fn unread_with(s: &mut Steps, from: Standing, lent: [u32; 2], number: u32, kind: u32, n: u64) {
    stand(s, from);
    stays(s, Call::ReadBoard, lent, number, kind, n);
    stepped(s, [0, 0, 0, 0, from.0, from.1]);
    s.case(GROUP);
}

/// What a step finds: where its section begins and ends, the next place, its dealer, the
/// words of its rows, and its cards.
struct Found<'a> {
    section: [u64; 2],
    next: u64,
    dealer: u32,
    rows: &'a [u32],
    cards: &'a [u32],
}

/// The lent text has this board, with exactly as much lent as it needs and with more.
fn read(s: &mut Steps, from: Standing, found: Found) {
    let (words, places) = (found.rows.len() as u32, found.cards.len() as u32);
    for lent in [[words, places], [words + 7, places + 2]] {
        stand(s, from);
        s.set(LENT_WORDS, &lent);
        s.call(Call::ReadBoard);
        s.is(ANSWER, &[0, 0, 0, words / 6, places, 0, 0, 0]);
        s.is(HIGH, &[0; 8]);
        s.is(BOARD + 8, &[found.dealer]);
        let [start, stop] = found.section;
        let after = from.1.saturating_add(1);
        stepped(s, [1, from.1, start, stop, found.next, after]);
        s.is(FILLED_ROWS, found.rows);
        s.is(FILLED_ROWS + found.rows.len(), &[WORD; 9]);
        s.is(FILLED_CARDS, found.cards);
        s.is(FILLED_CARDS + found.cards.len(), &[MARK.into(); 4]);
        s.case(GROUP);
    }
}

/// A board of a section without calls and cards.
fn plain(section: [u64; 2], next: u64, dealer: u32) -> Found<'static> {
    Found {
        section,
        next,
        dealer,
        rows: &[],
        cards: &[],
    }
}

/// Bytes that are not UTF-8 where a board would be; the place is one of the whole text.
fn ill(s: &mut Steps) {
    for lines in [0, 1, u32::MAX] {
        s.lend(TEXT, b"\xFF");
        unread(s, (0, 0, lines), 2, 0, 0);
        s.lend(TEXT, b"mb|\xFF|");
        for at in 0..=3 {
            unread(s, (at, 7, lines), 2, 0, 3);
        }
        // The bytes from the cursor's place on are looked at, and not those before.
        s.lend(TEXT, b"\xC3\xA9\xC3");
        unread(s, (1, 0, lines), 2, 0, 1);
        unread(s, (0, 0, lines), 2, 0, 2);
        // Beyond the end there are no bytes.
        for at in [4, 1 << 32, u64::MAX] {
            unread(s, (at, u64::MAX, lines), 0, 0, 0);
        }
    }
}

/// Sections that are no boards are passed, and take no number.
fn passed(s: &mut Steps) {
    s.lend(TEXT, b"mb|p|qx|a|md|1|");
    read(s, (0, 0, 0), plain([5, 15], 15, 0));
    unread(s, (15, 1, 0), 0, 0, 0);
    // They are looked at with the board behind them.
    s.lend(TEXT, b"mb|\xFF|qx|a|md|1|");
    unread(s, (0, 0, 0), 2, 0, 3);
    read(s, (5, 0, 0), plain([5, 15], 15, 0));
    // The last number stays.
    s.lend(TEXT, b" \n\nmd|4|\n \nx");
    read(s, (0, 2, 1), plain([3, 8], 9, 3));
    read(s, (9, u64::MAX - 1, 1), plain([11, 12], 13, 2));
    read(s, (9, u64::MAX, 2), plain([11, 12], 13, 2));
    unread(s, (13, 4, 1), 0, 0, 0);
    s.lend(TEXT, b"qx||mb|p|qx||mb|p|");
    unread(s, (0, 3, 0), 0, 0, 0);
}

/// A fault in a later board, or after the last, leaves the boards before it.
fn later(s: &mut Steps) {
    s.lend(TEXT, b"qx|a|md|1|qx|b|md|2|mb|\xFF|");
    read(s, (0, 0, 0), plain([0, 10], 10, 0));
    unread(s, (10, 1, 0), 2, 0, 23);
    s.lend(TEXT, b"md|1|qx|b|md|2|\xFF");
    read(s, (0, 0, 0), plain([0, 5], 5, 0));
    read(s, (5, 1, 0), plain([5, 15], 15, 1));
    unread(s, (15, 2, 0), 2, 0, 15);
    s.lend(TEXT, b"md|1|\n\xC3\xA9\xFF\nmd|2|");
    read(s, (0, 0, 1), plain([0, 5], 6, 0));
    unread(s, (6, 1, 1), 2, 0, 8);
    read(s, (10, 1, 1), plain([10, 15], 16, 1));
}

/// Rows too few for the next board, calls before cards, and then the same step with
/// enough. 2 comes before 3.
fn few(s: &mut Steps) {
    s.lend(TEXT, b"qx||mb|d|qx||md|1|mb|p|pc|SA|pc|h2|mb|1C!|qx||md|2|");
    let from = (0, 0, 0);
    for (lent, kind) in [([0, 0], 0), ([11, 9], 0), ([12, 0], 1), ([12, 1], 1)] {
        unread_with(s, from, lent, 3, kind, 2);
    }
    let board = Found {
        section: [9, 42],
        next: 42,
        dealer: 0,
        rows: &[21, 1, 0, 0, 0, 0, 38, 2, 1, 0, 0, 0],
        cards: &[12, 13],
    };
    read(s, from, board);
    read(s, (42, 1, 0), plain([42, 51], 51, 1));
    s.lend(TEXT, b"\nmb|p|\npc|SA|");
    unread_with(s, (0, 0, 1), [5, 9], 3, 0, 1);
    unread_with(s, (7, 1, 1), [6, 0], 3, 1, 1);
    s.lend(TEXT, b"md|1|mb|p|pc|SA|mb|\xFF|");
    unread_with(s, (0, 0, 0), [0, 0], 2, 0, 19);
}

/// Spaces, one too many and as many as may be: 1 comes before 2 and the end.
fn long(s: &mut Steps) {
    for lines in [0, 1] {
        spaces(s, b"", LONG);
        unread(s, (0, 0, lines), 1, 0, 0);
        unread(s, (u64::MAX, 1, lines), 1, 0, 0);
        spaces(s, b"\xFF", LONG);
        unread(s, (0, 0, lines), 1, 0, 0);
        spaces(s, b"\xFF", LIMIT);
        unread(s, (0, 0, lines), 2, 0, 0);
        unread(s, (1, 0, lines), 0, 0, 0);
        spaces_ill(s, LIMIT);
        unread(s, (3, 0, lines), 2, 0, LIMIT as u64 - 1);
    }
}

pub fn put(s: &mut Steps) {
    ill(s);
    passed(s);
    later(s);
    few(s);
    long(s);
}
