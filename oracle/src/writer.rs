//! Writer cases: boards built by hand, what `write_lin` writes of each, and its
//! play by `format_cardplay_by_trick`. Every hand is held by suit, ranks from A
//! down.

pub mod calls;
pub mod deals;
pub mod mixed;
pub mod texts;

use crate::{
    built,
    lin::{write_lin, LinData},
    steps::*,
    vectors::Vectors,
};

/// A name, and the boards that go by it.
type Group = (&'static str, fn() -> Vec<LinData>);

const GROUPS: &[Group] = &[
    ("named", mixed::named),
    ("texts", texts::each),
    ("words", texts::words),
    ("absent", texts::absent),
    ("calls", calls::single),
    ("auctions", calls::auctions),
    ("claims", calls::claims),
    ("plays", calls::plays),
    ("single", deals::single),
    ("repeated", deals::repeated),
    ("suits", deals::suits),
    ("hands", deals::hands),
    ("east", deals::east),
    ("lengths", deals::lengths),
    ("dealers", deals::dealers),
    ("records", mixed::records),
    ("random", mixed::random),
    ("long", mixed::long),
];

fn all() -> Vec<LinData> {
    built::distinct(GROUPS.iter().flat_map(|(_, boards)| boards()).collect())
}

/// What is written, its length, the used bytes before it, and where it ends.
const TEXT_LEN: usize = OWN_NUMBER;
const USED: usize = OWN_NUMBER + 1;
const END: usize = OWN_NUMBER + 2;
/// The block that holds the output to what is written, and those that lend room.
const WRITTEN: usize = OWN_BLOCK;
const PLAYED: usize = OWN_BLOCK + 1;
const WRITE: usize = OWN_BLOCK + 2;
const APPEND: usize = OWN_BLOCK + 3;
const PLAY: usize = OWN_BLOCK + 4;
const PLAY_LESS: usize = OWN_BLOCK + 5;

/// The groups: by `write_lin`, by append after seven used bytes, and the play as
/// text, each with room to spare, exactly enough, and a byte less.
pub(crate) const LINES: [&str; 9] = [
    "written",
    "written exactly",
    "written a byte less",
    "appended",
    "appended exactly",
    "appended a byte less",
    "play",
    "play exactly",
    "play a byte less",
];

/// More bytes than are written of any board.
const MOST_BYTES: u32 = 16_384;

/// The answer is where the text ends, and the output has the text after the used
/// bytes; those and all after it are as they were.
fn whole(b: &mut Steps, text: usize, group: usize) {
    b.is(ANSWER, &[0, 0]);
    b.same(ANSWER + 2, END);
    b.is(ANSWER + 3, &[0; 5]);
    b.is(HIGH, &[0; 8]);
    b.set(REST, &[0]);
    b.copy(REST_LEN, USED, 1, 1);
    b.all_are(REST, MARK);
    b.go(text);
    b.copy(REST, END, 1, 1);
    b.copy(REST_LEN, OUT_LEN, 1, 1);
    b.sub(REST_LEN, END);
    b.all_are(REST, MARK);
    b.case(group);
    b.mark_again();
}

/// A byte less than the text is refused by 7 with its length, and all stays.
fn less(b: &mut Steps, call: Call, group: usize) {
    b.copy(ROOM, END, 1, 1);
    b.sub(ROOM, ONE);
    b.call(call);
    b.is(ANSWER, &[7, 0]);
    b.same(ANSWER + 2, TEXT_LEN);
    b.is(ANSWER + 3, &[0; 5]);
    b.is(HIGH, &[0; 8]);
    b.stayed();
    b.case(group);
}

/// With room to spare and with exactly enough.
fn enough(b: &mut Steps, call: Call, used: u32, text: usize, group: usize) {
    b.set(USED, &[used]);
    b.copy(NUMBER, USED, 1, 1);
    b.copy(END, USED, 1, 1);
    b.add(END, TEXT_LEN);
    b.copy(ROOM, OUT_LEN, 1, 1);
    b.call(call);
    whole(b, text, group);
    b.copy(ROOM, END, 1, 1);
    b.call(call);
    whole(b, text, group + 1);
}

pub(crate) fn define(s: &mut Steps) {
    lent::define(s, lent::ONE_BOARD);
    s.mark(MOST_BYTES as usize);
    s.block(WRITE, |b| {
        enough(b, Call::WriteLin, 0, WRITTEN, 0);
        less(b, Call::WriteLin, 2);
    });
    s.block(APPEND, |b| {
        enough(b, Call::Append, 7, WRITTEN, 3);
        less(b, Call::Append, 5);
    });
    s.block(PLAY, |b| enough(b, Call::PlayText, 0, PLAYED, 6));
    s.block(PLAY_LESS, |b| less(b, Call::PlayText, 8));
}

/// This is written of the board.
pub(crate) fn put(s: &mut Steps, board: &LinData, written: &str) {
    let mut texts = Vec::new();
    lent::board(s, lent::ONE_BOARD, board, &mut texts);
    s.lend(TEXT, &texts);
    let play = board.format_cardplay_by_trick();
    s.set(TEXT_LEN, &[written.len() as u32]);
    s.block(WRITTEN, |b| b.wrote(USED, written.as_bytes()));
    s.go(WRITE);
    s.go(APPEND);
    s.set(TEXT_LEN, &[play.len() as u32]);
    s.block(PLAYED, |b| b.wrote(USED, play.as_bytes()));
    s.go(PLAY);
    if !play.is_empty() {
        s.go(PLAY_LESS);
    }
}

/// The file `writer.bin`: each board written and appended, and its play as text,
/// with room to spare, with exactly enough and with a byte less.
pub fn vectors() -> Vectors {
    let mut s = Steps::new();
    define(&mut s);
    for board in all() {
        put(&mut s, &board, &write_lin(&board));
    }
    s.say("writer", &LINES);
    s.done()
}

#[cfg(test)]
mod tests {
    use super::*;
    use bridge_types::Direction;
    use std::collections::HashSet;

    /// The hands are held as document 01 asks.
    #[test]
    fn hands_are_held_by_suit() {
        for board in all() {
            let held = built::hands(&board.deal);
            assert!(held == built::hands(&built::sorted(&board).deal));
        }
    }

    /// 128 rows, and 16,384 bytes for what is written, are enough for a replay.
    #[test]
    fn rows_and_bytes_are_enough() {
        let all = all();
        let calls = all.iter().map(|b| b.auction.len()).max().unwrap();
        let bytes = all.iter().map(|b| write_lin(b).len()).max().unwrap();
        assert!((64..128).contains(&calls) && (8_192..16_000).contains(&bytes));
    }

    /// What the boards are to show: claims, plays, sides, dealers, and East left
    /// out or written.
    #[test]
    fn boards_of_every_kind() {
        let all = all();
        let claims: HashSet<_> = all.iter().map(|b| b.claim).collect();
        assert_eq!(claims.len(), 257);
        let plays: HashSet<_> = all.iter().map(|b| b.play.len()).collect();
        assert!((0..=60).all(|n| plays.contains(&n)));
        for seat in built::SEATS {
            for side in built::SIDES {
                let of = |b: &&LinData| b.dealer == seat && b.vulnerability == side;
                assert!(all.iter().filter(of).count() >= 10);
            }
        }
        let mut seen = [0; 4];
        for board in &all {
            let lengths = built::SEATS.map(|d| board.deal.hand(d).len());
            if lengths[..3] == [13; 3] {
                let (tokens, _) = crate::tokens(&write_lin(board));
                let (_, md) = tokens.iter().find(|(c, _)| c == "md").unwrap();
                let fields = md.split(',').count();
                let empty = board.deal.hand(Direction::East).is_empty();
                seen[2 * (fields - 3) + usize::from(empty)] += 1;
            }
        }
        println!("East implied, empty, written: {seen:?}");
        assert!(seen[..3].iter().all(|n| *n >= 30) && seen[3] == 0);
    }

    #[test]
    fn every_group_has_boards_of_its_own() {
        let mut seen = HashSet::new();
        for (name, boards) in GROUPS {
            let new = boards()
                .into_iter()
                .filter(|b| seen.insert(built::bytes(b)))
                .count();
            println!("{name}: {new}");
            assert!(new > 0, "{name}");
        }
        assert_eq!(seen.len(), all().len());
    }
}
