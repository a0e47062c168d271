//! What the benchmark times: an upstream call, and the exports that do the
//! same. Their answers are compared in each run.

use lin_bench::{clock::milliseconds, upstream};
use lin_host_rust::{
    boards::{self, LinHeading, ROW},
    files, pbn,
    tokens::{self, Cursor, Span, Token},
    writer::Gathered,
    Refusal, LIMIT,
};
use oracle::{
    lin::{parse_lin_file, write_lin, write_lin_file, LinData, LinDocument},
    pbn::{board as pbn_board, mixed::some_record, Record},
    random::Rng,
};
use std::hint::black_box;

/// The least times in milliseconds, of upstream and of the exports, over so
/// many bytes read or written; or of the model, in plain Rust, where upstream has no
/// such call.
pub struct Times {
    pub bytes: usize,
    pub rust: f64,
    pub exports: f64,
    /// Of the standard library's check of UTF-8, where upstream's call is given a
    /// text that was checked before and the exports are given bytes.
    pub check: Option<f64>,
}

impl Times {
    /// How many times as fast the exports are.
    pub fn ratio(&self) -> f64 {
        self.rust / self.exports
    }

    /// The same where both begin with bytes.
    pub fn ratio_from_bytes(&self) -> Option<f64> {
        self.check.map(|check| (self.rust + check) / self.exports)
    }

    /// With the least time of the check of these texts, which the exports are
    /// given as bytes.
    fn checking<'a>(self, texts: impl Iterator<Item = &'a [u8]> + Clone, runs: usize) -> Times {
        let mut times = Vec::new();
        for _ in 0..runs {
            timed(&mut times, || {
                black_box(texts.clone().all(|t| str::from_utf8(black_box(t)).is_ok()));
            });
        }
        Times {
            check: Some(least(times)),
            ..self
        }
    }
}

/// A name in the table, and what times it over a file so many times.
pub struct Work {
    pub name: &'static str,
    pub time: fn(&str, usize) -> Times,
}

pub const ALL: &[Work] = &[
    Work {
        name: "from_utf8 | open",
        time: opening,
    },
    Work {
        name: "parse | open, next",
        time: tokenizing,
    },
    Work {
        name: "to_lin | write_document",
        time: document,
    },
    Work {
        name: "parse_lin_file | boards, parse_lin",
        time: reading,
    },
    Work {
        name: "parse_lin_file | boards, read_board",
        time: stepping,
    },
    Work {
        name: "parse_lin_file | boards, heading",
        time: headings,
    },
    Work {
        name: "parse_lin_file | last file_heading",
        time: last_heading,
    },
    Work {
        name: "parse_lin_file, names | find_name",
        time: finding,
    },
    Work {
        name: "parse_lin_file, names | find_name, ASCII",
        time: finding_ascii,
    },
    Work {
        name: "parse_lin_file, names | .., places needed",
        time: finding_in_few,
    },
    Work {
        name: "write_lin_file | append",
        time: writing,
    },
    Work {
        name: "== | same_board",
        time: equality,
    },
    Work {
        name: "== | same_board, texts apart",
        time: equality_apart,
    },
    Work {
        name: "from_board | from_board",
        time: converting,
    },
];

/// Both timed in turn, after their answers were held to be the same. What they
/// give is dropped within the clock.
pub fn in_turn<A, B>(
    bytes: usize,
    runs: usize,
    mut rust: impl FnMut() -> A,
    mut exports: impl FnMut() -> B,
    same: impl Fn(&A, &B) -> bool,
) -> Times {
    assert!(same(&rust(), &exports()), "the answers differ");
    let mut times = [Vec::new(), Vec::new()];
    for _ in 0..runs {
        timed(&mut times[0], || drop(black_box(rust())));
        timed(&mut times[1], || drop(black_box(exports())));
    }
    let [rust, exports] = times.map(least);
    Times {
        bytes,
        rust,
        exports,
        check: None,
    }
}

fn timed(times: &mut Vec<f64>, work: impl FnOnce()) {
    let start = milliseconds();
    work();
    times.push(milliseconds() - start);
}

fn least(times: Vec<f64>) -> f64 {
    times.into_iter().fold(f64::INFINITY, f64::min)
}

/// The least time of a call that upstream has no match for.
pub fn alone<A>(runs: usize, mut call: impl FnMut() -> A) -> f64 {
    let mut times = Vec::new();
    for _ in 0..runs {
        timed(&mut times, || drop(black_box(call())));
    }
    least(times)
}

/// The bytes found to be UTF-8.
fn opening(text: &str, runs: usize) -> Times {
    let bytes = text.as_bytes();
    let open = || Cursor::open(black_box(bytes)).is_ok();
    let check = || str::from_utf8(black_box(bytes)).is_ok();
    in_turn(bytes.len(), runs, check, open, |a, b| a == b)
}

/// All tokens, one step at a time.
fn tokenizing(text: &str, runs: usize) -> Times {
    let bytes = text.as_bytes();
    let steps = || {
        let mut cursor = Cursor::open(black_box(bytes)).expect("a text within the limit");
        let mut found = 0;
        loop {
            let step = cursor.step(bytes);
            if black_box(&step).found == 0 {
                return (found, cursor.trailing(bytes).len as usize);
            }
            found += 1;
            cursor = Cursor::from_place(step.next);
        }
    };
    let parse = || LinDocument::parse(black_box(text));
    in_turn(text.len(), runs, parse, steps, |doc, found| {
        (doc.tokens.len(), doc.trailing.len()) == *found
    })
    .checking([text.as_bytes()].into_iter(), runs)
}

/// The document written back.
fn document(text: &str, runs: usize) -> Times {
    let bytes = text.as_bytes();
    let doc = LinDocument::parse(text);
    let (all, trailing): (Vec<Token>, _) = tokens::tokens(bytes).expect("a text");
    let rows = tokens::rows(&all).expect("places within 32 bits");
    let trailing = Span::try_from(trailing).expect("places within 32 bits");
    let mut out = vec![0; bytes.len()];
    let write = || tokens::write_document(black_box(bytes), &rows, trailing, &mut out);
    let to_lin = || black_box(&doc).to_lin();
    let times = in_turn(bytes.len(), runs, to_lin, write, |lin, len| {
        *len == Ok(lin.len() as u64) && lin == text
    });
    assert_eq!(out, bytes);
    times.checking([bytes].into_iter(), runs)
}

/// How many calls and cards all boards have.
fn rows_of(boards: &[LinData]) -> (usize, usize) {
    let calls = boards.iter().map(|b| b.auction.len()).sum();
    (calls, boards.iter().map(|b| b.play.len()).sum())
}

/// All boards, each read by its part of the file.
fn boards_by(text: &str, runs: usize, mut read: impl FnMut(&[u8]) -> LinHeading) -> Times {
    let bytes = text.as_bytes();
    let read_all = || {
        let mut seen = (0, (0, 0));
        let opened = files::open_boards_numbers(black_box(bytes));
        assert_eq!(opened.answer.refusal, 0, "a text within the limit");
        let (mut at, mut number) = (opened.at, opened.number);
        loop {
            let step = files::next_board_numbers(bytes, at, number, opened.lines);
            if black_box(&step).found == 0 {
                return seen;
            }
            (at, number) = (step.next_at, step.next_number);
            if step.board == 1 {
                let h = read(&bytes[step.start as usize..step.stop as usize]);
                black_box(&h);
                seen.0 += 1;
                seen.1 .0 += h.calls as usize;
                seen.1 .1 += h.cards as usize;
            }
        }
    };
    let parse = || parse_lin_file(black_box(text)).expect("no error");
    in_turn(text.len(), runs, parse, read_all, |all, seen| {
        (all.len(), rows_of(all)) == *seen
    })
    .checking([text.as_bytes()].into_iter(), runs)
}

/// All boards with their rows.
fn reading(text: &str, runs: usize) -> Times {
    let (mut rows, mut cards) = (vec![0; ROW * LIMIT / 4], vec![0; LIMIT / 6]);
    boards_by(text, runs, |part| {
        boards::parse_lin_numbers(part, &mut rows, &mut cards)
    })
}

/// The same, each found and read by one step of the cursor.
fn stepping(text: &str, runs: usize) -> Times {
    let (mut rows, mut cards) = (vec![0; ROW * LIMIT / 4], vec![0; LIMIT / 4]);
    let bytes = text.as_bytes();
    let read_all = || {
        let mut seen = (0, (0, 0));
        let opened = files::open_boards_numbers(black_box(bytes));
        assert_eq!(opened.answer.refusal, 0, "a text within the limit");
        let (mut at, mut number) = (opened.at, opened.number);
        loop {
            let (rows, cards) = (&mut rows, &mut cards);
            let read = files::read_board_numbers(bytes, at, number, opened.lines, rows, cards);
            if black_box(&read).found == 0 {
                return seen;
            }
            (at, number) = (read.next_at, read.next_number);
            seen.0 += 1;
            seen.1 .0 += read.calls as usize;
            seen.1 .1 += read.cards as usize;
        }
    };
    let parse = || parse_lin_file(black_box(text)).expect("no error");
    in_turn(text.len(), runs, parse, read_all, |all, seen| {
        (all.len(), rows_of(all)) == *seen
    })
    .checking([text.as_bytes()].into_iter(), runs)
}

/// The headings of all boards.
fn headings(text: &str, runs: usize) -> Times {
    boards_by(text, runs, boards::heading_numbers)
}

/// One heading by its number, the last.
fn last_heading(text: &str, runs: usize) -> Times {
    let bytes = text.as_bytes();
    let last = files::count_boards(bytes).expect("a text within the limit") - 1;
    let read = || files::file_heading_numbers(black_box(bytes), last);
    let parse = || parse_lin_file(black_box(text)).expect("no error").pop();
    in_turn(text.len(), runs, parse, read, |board, heading| {
        let calls = board.as_ref().map(|b| b.auction.len() as u64);
        calls == Some(heading.calls)
    })
    .checking([text.as_bytes()].into_iter(), runs)
}

/// The boards in which a name sits, with accents that the file spells in the same way.
fn finding(text: &str, runs: usize) -> Times {
    finding_by(text, "Åsa Öberg", runs, |name| {
        files::find_name(black_box(text.as_bytes()), name)
    })
}

/// The same of a name in ASCII, whose bytes alone are it.
fn finding_ascii(text: &str, runs: usize) -> Times {
    finding_by(text, "van der Meer", runs, |name| {
        files::find_name(black_box(text.as_bytes()), name)
    })
}

/// The same in work space of just the places needed, for which the file is walked
/// before.
fn finding_in_few(text: &str, runs: usize) -> Times {
    let name = "van der Meer";
    let mut work = vec![0; places_needed(text.as_bytes(), name.as_bytes())];
    finding_by(text, name, runs, |name| {
        files::find_name_in(black_box(text.as_bytes()), name, &mut work)
    })
}

/// How many places of work space the finder needs.
pub fn places_needed(text: &[u8], name: &[u8]) -> usize {
    match files::find_name_in(text, name, &mut []) {
        Err(Refusal::OutputTooSmall(places)) => places as usize,
        other => panic!("no place is needed: {other:?}"),
    }
}

/// The boards that a finder finds, and those that upstream reads whose names have the
/// same bytes.
fn finding_by(
    text: &str,
    name: &str,
    runs: usize,
    mut find: impl FnMut(&[u8]) -> Result<u64, Refusal>,
) -> Times {
    let search = || {
        let all = parse_lin_file(black_box(text)).expect("no error");
        let has = |b: &&LinData| b.player_names.iter().any(|n| n == name);
        all.iter().filter(has).count() as u64
    };
    let find = || find(name.as_bytes());
    in_turn(text.len(), runs, search, find, |found, answer| {
        *answer == Ok(*found)
    })
    .checking([text.as_bytes()].into_iter(), runs)
}

/// The file's boards, as many as a file written of them has room for.
fn fitting(text: &str) -> Vec<LinData> {
    let mut room = text.len();
    let mut boards = parse_lin_file(text).expect("no error");
    let fits = |board: &LinData| {
        let left = room.checked_sub(write_lin(board).len());
        room = left.unwrap_or(0);
        left.is_some()
    };
    let keep = boards.iter().map(fits).take_while(|f| *f).count();
    boards.truncate(keep);
    boards
}

/// Boards written one after another, each lent with its text.
fn writing(text: &str, runs: usize) -> Times {
    let boards = fitting(text);
    let lent: Vec<Gathered> = boards
        .iter()
        .map(|b| Gathered::from(&upstream::board(b)))
        .collect();
    let file = write_lin_file(&boards);
    let mut out = vec![0; LIMIT];
    let append = || {
        black_box(&lent).iter().fold(0, |used, board| {
            let after = board.lent().append(&mut out, used);
            after.expect("room for the board")
        })
    };
    let write = || write_lin_file(black_box(&boards));
    let times = in_turn(file.len(), runs, write, append, |written, used| {
        written.len() as u64 == *used
    });
    assert_eq!(&out[..file.len()], file.as_bytes());
    times.checking(lent.iter().map(|b| &b.text[..]), runs)
}

/// Each board against its copy.
fn equality(text: &str, runs: usize) -> Times {
    equality_by(text, runs, |board| board)
}

/// The same, where each text of the copy stands a byte further on.
fn equality_apart(text: &str, runs: usize) -> Times {
    equality_by(text, runs, |mut board| {
        board.text.insert(0, b' ');
        let heading = &mut board.board;
        heading.names.iter_mut().step_by(2).for_each(|n| *n += 1);
        for text in [
            &mut heading.title,
            &mut heading.room_board,
            &mut heading.board_header,
        ] {
            text.start += text.present;
        }
        for row in board.rows.chunks_exact_mut(ROW) {
            row[0] += 1;
            row[4] += row[3];
        }
        board
    })
}

fn equality_by(text: &str, runs: usize, other: impl Fn(Gathered) -> Gathered) -> Times {
    let boards = fitting(text);
    let copies = boards.clone();
    let gather = |b: &LinData| Gathered::from(&upstream::board(b));
    let lent: Vec<Gathered> = boards.iter().map(gather).collect();
    let others: Vec<Gathered> = boards.iter().map(|b| other(gather(b))).collect();
    let same = || {
        let pairs = black_box(&lent).iter().zip(&others);
        pairs
            .filter(|(a, b)| a.lent().same(b.lent()).expect("lawful boards"))
            .count()
    };
    let equal = || {
        let pairs = black_box(&boards).iter().zip(&copies);
        pairs.filter(|(a, b)| a == b).count()
    };
    let texts = lent.iter().chain(&others).map(|b| &b.text[..]);
    in_turn(write_lin_file(&boards).len(), runs, equal, same, |a, b| {
        a == b
    })
    .checking(texts, runs)
}

/// How many bytes the texts of a board have.
fn text_bytes(board: &LinData) -> usize {
    let some = |text: &Option<String>| text.as_ref().map_or(0, String::len);
    let names: usize = board.player_names.iter().map(String::len).sum();
    let calls = board
        .auction
        .iter()
        .map(|c| c.bid.len() + some(&c.annotation));
    names
        + some(&board.title)
        + some(&board.room_board)
        + some(&board.board_header)
        + calls.sum::<usize>()
}

/// Boards made of PBN records, one for each 512 bytes of the file, whatever
/// these are.
fn converting(text: &str, runs: usize) -> Times {
    let rng = &mut Rng::new(7);
    let records: Vec<Record> = (0..text.len() / 512)
        .map(|_| some_record(rng, 20, 52))
        .collect();
    let boards: Vec<_> = records.iter().map(pbn_board).collect();
    let lent: Vec<pbn::Gathered> = records
        .iter()
        .map(|r| pbn::Gathered::from(&upstream::pbn_record(r)))
        .collect();
    let (mut out, mut rows, mut cards) = (vec![0; LIMIT], vec![0; ROW * 64], vec![0; 64]);
    let convert = || {
        black_box(&lent)
            .iter()
            .fold((0, 0), |(calls, bytes), record| {
                let made = record
                    .lent()
                    .convert_numbers(&mut out, &mut rows, &mut cards);
                (calls + made.heading.calls, bytes + made.len)
            })
    };
    let make = || -> Vec<LinData> { black_box(&boards).iter().map(LinData::from_board).collect() };
    let bytes = make().iter().map(text_bytes).sum();
    in_turn(bytes, runs, make, convert, |made, answer| {
        let calls: usize = made.iter().map(|b| b.auction.len()).sum();
        *answer == (calls as u64, bytes as u64)
    })
    .checking(lent.iter().map(|r| &r.text[..]), runs)
}
