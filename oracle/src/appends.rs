//! Append cases: lists of append calls on one output, as document 01's plain book
//! keeps them: the answer of each call and the output after it, T, and the boards
//! of L. The log is that book; `parse_lin_file` over T must give L.

pub mod lists;
mod log;

use crate::{
    boards, built,
    lin::{parse_lin_file, LinData},
    steps::*,
    vectors::Vectors,
};
use log::{Answer, Log};
use std::collections::HashSet;

/// The room of an output, and the boards of the calls.
pub type List = (usize, Vec<LinData>);

/// A name, and the lists that go by it.
type Group = (&'static str, fn() -> Vec<List>);

const GROUPS: &[Group] = &[
    ("fresh", lists::fresh),
    ("single", lists::single),
    ("edges", lists::edges),
    ("between", lists::between),
    ("repeated", lists::repeated),
    ("settled", lists::settled),
    ("records", lists::records),
    ("random", lists::random),
];

/// The blocks that append a board, and that look at the used bytes.
const APPENDED: usize = OWN_BLOCK;
const USED_BYTES: usize = OWN_BLOCK + 1;

/// More bytes than the room of any list.
const MOST_BYTES: usize = 8_192;

/// The groups: a case for each call, for each list or for each board.
const LINES: [&str; 9] = [
    "calls",
    "used bytes",
    "headings",
    "boards",
    "exact",
    "few calls",
    "few cards",
    "few both",
    "missing",
];

fn define(s: &mut Steps) {
    lent::define(s, lent::ONE_BOARD);
    readers::define(s, Call::FileHeading, Call::FileBoard, 2);
    readers::define_file(s, 1, 8);
    s.mark(MOST_BYTES);
    // The used bytes are the beginning of T, and all after them as they were at
    // first.
    s.block(USED_BYTES, |b| {
        b.set(REST, &[0]);
        b.copy(REST_LEN, TEXT2 + 1, 1, 1);
        b.is_text2(REST);
        b.copy(REST, TEXT2 + 1, 1, 1);
        b.copy(REST_LEN, OUT_LEN, 1, 1);
        b.sub(REST_LEN, TEXT2 + 1);
        b.all_are(REST, MARK);
    });
    s.block(APPENDED, |b| {
        b.call(Call::Append);
        b.is(ANSWER + 3, &[0; 5]);
        b.is(HIGH, &[0; 8]);
        b.go(USED_BYTES);
    });
}

/// One call: its answer, and the output after it.
fn put_call(s: &mut Steps, log: &mut Log, room: usize, board: &LinData) {
    let mut texts = Vec::new();
    lent::board(s, lent::ONE_BOARD, board, &mut texts);
    s.lend(TEXT, &texts);
    s.set(NUMBER, &[log.text.len() as u32]);
    let (refusal, n) = match log.append(room, board) {
        Answer::Used(n) => (0, n),
        Answer::TooSmall(n) => (7, n),
    };
    s.set(TEXT2 + 1, &[log.text.len() as u32]);
    s.go(APPENDED);
    s.is(ANSWER, &[refusal, 0, n as u32]);
    s.case(0);
}

fn put(s: &mut Steps, (room, calls): &List) {
    let mut whole = Log::default();
    for board in calls {
        whole.append(*room, board);
    }
    check(&whole);
    s.mark_again();
    s.set(ROOM, &[*room as u32]);
    s.lend(TEXT2, whole.text.as_bytes());
    let mut log = Log::default();
    for board in calls {
        put_call(s, &mut log, *room, board);
    }
    // T, which the used bytes are, is read.
    s.go(USED_BYTES);
    s.set(COUNT_OF, &[log.boards.len() as u32]);
    s.copy(TEXT, TEXT2, 2, 1);
    s.go(COUNTED);
    for board in &log.boards {
        readers::read(s, board);
        readers::next_number(s);
    }
    s.go(MISSING);
    s.set(TEXT, &[0]);
    s.set(NUMBER + 1, &[0]);
}

/// The upstream's reader finds the log's boards in its text: fields by bytes,
/// hands by counts.
fn check(log: &Log) {
    let Ok(read) = parse_lin_file(&log.text);
    let read: Vec<_> = read.iter().map(built::bytes).collect();
    let kept: Vec<_> = log.boards.iter().map(built::bytes).collect();
    assert!(read == kept, "{}", log.text);
}

/// What a list is told from others by.
fn key((room, calls): &List) -> Vec<u8> {
    let mut out = Vectors::new();
    out.number(*room);
    calls.iter().for_each(|b| boards::put(&mut out, b));
    out.bytes().to_vec()
}

fn all() -> Vec<List> {
    let mut seen = HashSet::new();
    let all = GROUPS.iter().flat_map(|(_, lists)| lists());
    all.filter(|l| seen.insert(key(l))).collect()
}

/// The file `appends.bin`: the boards of each list appended one by one, and then
/// read from what was written.
pub fn vectors() -> Vectors {
    let mut s = Steps::new();
    define(&mut s);
    for list in all() {
        put(&mut s, &list);
    }
    s.say("appends", &LINES);
    s.done()
}

#[cfg(test)]
mod tests {
    use super::*;

    /// 8,192 bytes for an output, 32 rows and 64 places for cards are enough for a
    /// replay.
    #[test]
    fn rooms_and_rows_are_enough() {
        for (room, calls) in all() {
            assert!(room < 8_192 && (1..=6).contains(&calls.len()));
            for board in calls {
                assert!(board.auction.len() < 32 && board.play.len() < 64);
            }
        }
    }

    /// Lists of every length; rooms that are filled to the last byte, and that
    /// lack one byte; refused calls before, between and after accepted ones.
    #[test]
    fn lists_of_every_kind() {
        let mut lengths = [0; 7];
        let (mut filled, mut lacking, mut between) = (0, 0, 0);
        for (room, calls) in all() {
            lengths[calls.len()] += 1;
            let mut log = Log::default();
            let mut verdicts = String::new();
            for board in &calls {
                let used = log.text.len();
                match log.append(room, board) {
                    Answer::Used(n) => {
                        verdicts.push('a');
                        filled += usize::from(n == room);
                    }
                    Answer::TooSmall(n) => {
                        verdicts.push('r');
                        lacking += usize::from(used + n == room + 1);
                    }
                }
            }
            let middle = verdicts.trim_start_matches('r').trim_end_matches('r');
            between += usize::from(middle.contains('r'));
        }
        println!("lists {lengths:?}, filled {filled}, a byte less {lacking}, between {between}");
        assert!(lengths[1..].iter().all(|n| *n >= 20));
        assert!(filled >= 100 && lacking >= 100 && between >= 50);
    }

    #[test]
    fn every_group_has_lists_of_its_own() {
        let mut seen = HashSet::new();
        for (name, lists) in GROUPS {
            let new = lists().into_iter().filter(|l| seen.insert(key(l))).count();
            println!("{name}: {new}");
            assert!(new > 0, "{name}");
        }
        assert_eq!(seen.len(), all().len());
    }
}
