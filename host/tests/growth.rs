//! How the time of reading a file grows with its text, for the shapes of file
//! that a reader could be slow on; and that of looking for a name.

#[path = "common/clock.rs"]
mod clock;
#[path = "common/hostile_names.rs"]
mod hostile_names;

use clock::milliseconds;
use hostile_names::{Asked, HostileName};
use lin_host_rust::{
    boards::{Seat, ROW},
    files::{self, BoardCursor, Boards},
    Refusal, LIMIT,
};

/// The unit so many times, then blanks up to the length.
fn repeated(unit: &str, times: usize, len: usize) -> Vec<u8> {
    let mut text = unit.repeat(times).into_bytes();
    assert!(text.len() <= len);
    text.resize(len, b' ');
    text
}

/// Counted, read and walked by the cursor, and searched: the boards and the
/// sections.
fn walk(text: &[u8]) -> (u64, u64) {
    let boards = files::count_boards(text).unwrap();
    assert_eq!(files::find_name(text, b""), Ok(boards));
    let mut reader = files::read_boards(text).unwrap();
    let read = std::iter::from_fn(|| reader.read().map(|b| b.number));
    assert!(read.eq(0..boards));
    let mut cursor = BoardCursor::open(text).unwrap();
    for sections in 0.. {
        let (after, section) = cursor.next(text);
        if section.is_none() {
            assert_eq!(cursor.number(), boards);
            return (boards, sections);
        }
        cursor = after;
    }
    unreachable!()
}

/// The least of some times, in milliseconds.
fn time(text: &[u8]) -> f64 {
    let once = || {
        let start = milliseconds();
        walk(text);
        milliseconds() - start
    };
    (0..5).map(|_| once()).fold(f64::INFINITY, f64::min)
}

/// A whole text within the bound, and twice the text in at most three times
/// the time; a machine that is busy gets some tries.
fn grows(unit: &str, times: usize, boards: u64, sections: u64) {
    let whole = repeated(unit, times, LIMIT);
    assert_eq!(walk(&whole), (boards, sections));
    let half = repeated(unit, times / 2, LIMIT / 2);
    let slack = 2.0;
    let mut seen = Vec::new();
    for _ in 0..4 {
        let (short, long) = (time(&half), time(&whole));
        assert!(long < 5000.0, "{long:?}");
        if long <= 3.0 * short + slack {
            return;
        }
        seen.push((short, long));
    }
    panic!("{unit:?}: {seen:?}");
}

/// A walk by the step that reads in which each board is asked for with no rows
/// first, and the last step again and again: the boards, and how it ends.
fn asked_twice(text: &[u8], lines: u32, rows: &mut [u32]) -> (u64, Result<u64, Refusal>) {
    let (mut at, mut number) = (0, 0);
    loop {
        let few = files::read_board_numbers(text, at, number, lines, &mut [], &mut []);
        let read = files::read_board_numbers(text, at, number, lines, rows, &mut []);
        assert!(few.found == 0 || read.calls == 0);
        if read.found == 0 {
            assert_eq!((read.next_at, read.next_number), (at, number));
            for _ in 0..100 {
                let again = files::read_board_numbers(text, at, number, lines, rows, &mut []);
                assert_eq!(again.answer, read.answer);
            }
            return (number, read.answer.read());
        }
        (at, number) = (read.next_at, read.next_number);
    }
}

/// Such a walk over a text of the limit's length, with an end of its own, takes at
/// most three times as long as over half of it.
fn asked_grows(unit: &str, lines: u32, end: &[u8], boards: u64, ends: Result<u64, Refusal>) {
    let text = |len: usize| {
        let mut text = unit.repeat((len - end.len()) / unit.len()).into_bytes();
        text.extend(end);
        text
    };
    let (half, whole) = (text(LIMIT / 2), text(LIMIT));
    let mut rows = vec![0; ROW * 8];
    assert_eq!(asked_twice(&whole, lines, &mut rows), (boards, ends));
    let mut time = |text: &[u8]| {
        let mut once = || {
            let start = milliseconds();
            let _ = asked_twice(text, lines, &mut rows);
            milliseconds() - start
        };
        (0..3).map(|_| once()).fold(f64::INFINITY, f64::min)
    };
    let mut seen = Vec::new();
    for _ in 0..4 {
        let (short, long) = (time(&half), time(&whole));
        assert!(long < 5000.0, "{long:?}");
        if long <= 3.0 * short + 2.0 {
            return;
        }
        seen.push((short, long));
    }
    panic!("{unit:?}: {seen:?}");
}

#[test]
fn growth_of_steps_that_are_refused_or_end() {
    let limit = LIMIT as u64;
    // each board is refused by 3 first
    asked_grows("qx||md||mb||", 0, b"", limit / 12, Ok(0));
    asked_grows("mb|p|\n", 1, b"", limit / 6, Ok(0));
    // most sections are no boards
    asked_grows("qx||", 0, b"qx||md||mb|p|", 1, Ok(0));
    asked_grows(
        "qx||qx||qx||qx||qx||qx||qx||qx||md||",
        0,
        b"",
        limit / 36,
        Ok(0),
    );
    asked_grows("\n\n\n\n\n\n\n\nx\n", 1, b"", limit / 10, Ok(0));
    // the last step is refused by 2
    asked_grows(
        "qx||md||mb||",
        0,
        b"\xFF",
        (limit - 1) / 12,
        Err(Refusal::NotUtf8((limit - 1) / 12 * 12)),
    );
    asked_grows(
        "mb|p|\n",
        1,
        b"x\xFF",
        (limit - 2) / 6,
        Err(Refusal::NotUtf8((limit - 2) / 6 * 6 + 1)),
    );
}

#[test]
fn growth_of_lines() {
    grows("x\n", 500_000, 500_000, 500_001);
    grows("\n", LIMIT, 0, LIMIT as u64 + 1);
    grows("md||", LIMIT / 4, 1, 1);
}

#[test]
fn growth_of_parts() {
    grows("qx||", 250_000, 0, 250_000);
    grows("qx||md||", 125_000, 125_000, 125_000);
    grows("mn||qx||", 125_000, 0, 125_000);
}

#[test]
fn growth_of_moves_back() {
    let run = |n: usize| format!("{}qx||md||", "mn||".repeat(n));
    grows(&run(100), 2_500, 2_500, 2_500);
    grows(&run(10_000), 26, 26, 26);
    grows(&run(131_000), 2, 2, 2);
    let apart = |n: usize| format!("qx||md||{}an||", "pn||".repeat(n));
    grows(&apart(1), 65_000, 65_000, 65_000);
    grows(&apart(100), 2_500, 2_500, 2_500);
    grows(&apart(10_000), 26, 26, 26);
}

#[test]
fn half_a_million_boards() {
    let lines = repeated("x\n", 500_000, LIMIT);
    for number in [0, 1, 499_999] {
        let board = files::file_board(&lines, number).unwrap();
        assert_eq!((board.heading.dealer, board.calls.len()), (Seat::North, 0));
    }
    let none = files::file_heading(&lines, 500_000);
    assert_eq!(none, Err(Refusal::NoBoard(500_000)));
    let numbers = Boards::open(&lines).unwrap().map(|b| b.number);
    assert!(numbers.eq(0..500_000));
}

// The finder

/// How many places the finder needs.
fn needed(asked: &Asked) -> usize {
    let none = files::find_name_in(asked.text.as_bytes(), asked.name.as_bytes(), &mut []);
    match none {
        Err(Refusal::OutputTooSmall(places)) => places as usize,
        other => panic!("{other:?}"),
    }
}

/// The least of some times of the finder in so many places, in milliseconds.
fn finding(asked: &Asked, places: usize) -> f64 {
    let mut work = vec![0; places];
    let mut once = || {
        let start = milliseconds();
        let (text, name) = (asked.text.as_bytes(), asked.name.as_bytes());
        let found = files::find_name_in(text, name, &mut work);
        assert_eq!(found, Ok(asked.boards));
        milliseconds() - start
    };
    (0..3).map(|_| once()).fold(f64::INFINITY, f64::min)
}

/// A search of the limit's length within the bound, and in at most three times the
/// time of one of half the length.
fn search_grows(hostile: &HostileName, places: fn(&Asked) -> usize) {
    let (half, whole) = ((hostile.made)(LIMIT / 2), (hostile.made)(LIMIT));
    assert!(whole.text.len() > LIMIT - 8_000 && whole.text.len() <= LIMIT);
    let (few, many) = (places(&half), places(&whole));
    let mut seen = Vec::new();
    for _ in 0..4 {
        let (short, long) = (finding(&half, few), finding(&whole, many));
        assert!(long < 5000.0, "{long:?}");
        if long <= 3.0 * short + 2.0 {
            return;
        }
        seen.push((short, long));
    }
    panic!("{}: {seen:?}", hostile.name);
}

/// Half a million marks, in one name or in many, and a long name among short ones, in
/// places for one walk over the file and in no more than are needed.
#[test]
fn growth_of_the_finder() {
    for hostile in hostile_names::ALL {
        search_grows(hostile, needed);
        search_grows(hostile, |asked| {
            files::enough_places(asked.text.as_bytes(), asked.name.as_bytes())
        });
    }
}
