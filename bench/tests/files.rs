//! The file reader, the board cursor and the name finder against the oracle and
//! the model.

use lin_bench::{compare, samples};
use lin_host_rust::{
    boards::ROW,
    files::{self, BoardCursor, Section, Sections},
    Refusal, LIMIT,
};
use oracle::{random::Rng, records, texts};

fn compared(text: &[u8]) {
    if let Err(difference) = compare::file(text) {
        panic!("{difference}\nfor {:?}", String::from_utf8_lossy(text));
    }
}

/// The files of which `host/tests/files.rs` tells what is read.
#[test]
fn files_by_hand() {
    for text in [
        "md|1|qx|a|md|2|",
        "qx|a|",
        "hello",
        "qx|o1|md|3SAK,SQJ,ST9|mb|1C!|pc|SA|mc|9|",
        "md|1|",
        "md|1|qx|b|md|2|mb|p|pc|SA|mb|1C!|an|x|pc|HK|pc|D2|",
        "mb|p|",
        "",
        " ",
        "\n\n",
        "\u{3000}\r\n\t",
        "qx||",
        "pg||qx||",
        "a\nmd|1|\r\n \n\nb",
        "a|b\nqx|c|d|",
        "a\rb",
        "a\u{85}b",
        "a\u{2028}b",
        "a\u{B}b",
        "\u{A0}\n\u{200B}\n",
        "md|1|mn|t|pn|a|qx|o|md|2|",
        "md|1|mn|t|pg||pn|a|qx|o|md|2|",
        "mn|t|qx|a|md|1|",
        "qx|a|qx|b|md|1|",
        "mn||qx|a|pn||qx|b|md|1|",
        "qx||md|0|\nqx||mb|p|md",
        "md|1|\n QX\u{A0}|a\nb|Md|2|\n",
        "md|1|mb|p|qx|b|an|x|md|2|mb|d|an|y|",
        "md|1|pn|Ann|qx|b|md|2|",
        "mb|p|qx|a|md|1|qx|b|",
        "a\n\nb",
    ] {
        compared(text.as_bytes());
        compare::visits(text.as_bytes()).unwrap();
    }
}

#[test]
fn refused_files() {
    compared(&vec![b' '; LIMIT + 1]);
    compared(&vec![0xFF; LIMIT + 1]);
    compared(b"mb|p|\xFF");
}

// The cursor

#[test]
fn steps_from_any_place() {
    let texts: [&[u8]; 8] = [
        b"",
        b"a|b|c",
        b"md|1|mn|t|pn|a|qx|o|md|2|",
        b"a\n\n md|1|\r\n \nb",
        b"\xFFmd\xE2\x80|1|qx|\xC3|md||\xE2\x80\x80\n\xE2\x80",
        "\u{3000}qx\u{2028}|\u{A0}|\nMD|é|".as_bytes(),
        b"mn||mn||qx||mn||qx||qx||md||",
        b"||||||\n||\n",
    ];
    for text in texts {
        compare::visits(text).unwrap();
    }
    let rng = &mut Rng::new(31);
    for _ in 0..300 {
        let text = samples::file(rng, 8);
        compare::visits(&texts::damaged(rng, text.as_bytes(), 3)).unwrap();
    }
}

#[test]
fn sections_follow_one_another() {
    let rng = &mut Rng::new(32);
    for _ in 0..2_000 {
        let text = samples::file(rng, 20);
        let bytes = text.as_bytes();
        let mut cursor = BoardCursor::open(bytes).unwrap();
        assert_eq!((cursor.place(), cursor.number()), (0, 0));
        loop {
            let (after, section) = cursor.next(bytes);
            let Some(Section { part, board }) = section else {
                assert_eq!(after, cursor);
                break;
            };
            let gap = u64::from(cursor.sections() == Sections::Lines);
            assert_eq!(part.start, cursor.place());
            assert_eq!(after.place(), part.start + part.len + gap);
            assert!(cursor.place() < after.place());
            assert_eq!(
                board,
                (after.number() > cursor.number()).then_some(cursor.number())
            );
            cursor = after;
        }
        assert_eq!(files::count_boards(bytes), Ok(cursor.number()));
    }
}

// The step that reads

/// Files whose steps `host/tests/files.rs` tells, from every place of them and
/// beyond their ends, with too few rows, just enough and more.
#[test]
fn steps_by_hand() {
    let texts: [&[u8]; 9] = [
        b"\xFF",
        b"mb|\xFF|",
        "é".as_bytes(),
        b"\xFFa\xFF",
        b"mb|p|qx|a|md|1|",
        b" \n\n\t\r\nmb|p|\n \n",
        b"qx|a|md|1|mb|p|qx|b|md|2|qx|c|md|3|mb|\xFF|qx|d|md|4|",
        b"md|1|\nmb|p|\n\xC3\xA9\xC3\nx",
        b"qx||md|1|mb|p|pc|SA|mb|1C!|an|x|qx||md|2|\xFFx",
    ];
    for text in texts {
        let n = text.len() as u64;
        for at in (0..=n + 2).chain([u64::MAX]) {
            for lines in [0, 1, 2] {
                for number in [0, 5, u64::MAX] {
                    for lent in [[0, 0], [6, 0], [11, 9], [12, 0], [12, 3], [13, 2]] {
                        let standing = (at, number, lines);
                        compare::read_board(text, standing, lent).unwrap();
                    }
                }
            }
        }
    }
}

#[test]
fn steps_over_texts_about_the_limit() {
    let mut long = vec![b' '; LIMIT + 1];
    let same = |text: &[u8]| {
        for at in [0, u64::MAX] {
            for lines in [0, 1] {
                for lent in [[0, 0], [12, 3]] {
                    compare::read_board(text, (at, 5, lines), lent).unwrap();
                }
            }
        }
    };
    same(&long);
    long[0] = 0xFF;
    same(&long);
    same(&long[..LIMIT]);
    same(&long[1..]);
}

/// A walk gives the boards that the file has by number.
#[test]
fn walks_are_the_boards_by_number() {
    let rng = &mut Rng::new(36);
    for _ in 0..2_000 {
        let text = samples::file(rng, 20);
        let bytes = text.as_bytes();
        let mut cursor = BoardCursor::open(bytes).unwrap();
        let most = bytes.len() / 4;
        let (mut rows, mut cards) = (vec![0; ROW * most], vec![0; most]);
        for number in 0.. {
            let (after, board) = cursor.read(bytes, &mut rows, &mut cards).unwrap();
            let want = files::file_board(bytes, number);
            let Some(board) = board else {
                assert_eq!(want, Err(Refusal::NoBoard(number)));
                break;
            };
            assert_eq!((board.number, Ok(board.board())), (number, want));
            assert_eq!(board.text().as_bytes(), board.part.of(bytes));
            // the spans are those of the whole text
            let (mut again, mut places) = (vec![0; ROW * most], vec![0; most]);
            let numbers = files::file_board_numbers(bytes, number, &mut again, &mut places);
            let lines = u32::from(cursor.sections() == Sections::Lines);
            let (at, from) = (cursor.place(), cursor.number());
            let read = files::read_board_numbers(bytes, at, from, lines, &mut rows, &mut cards);
            assert_eq!(read.heading(), Some(numbers));
            let (calls, played) = (ROW * numbers.calls as usize, numbers.cards as usize);
            assert_eq!(rows[..calls], again[..calls]);
            assert_eq!(cards[..played], places[..played]);
            cursor = after;
        }
    }
}

// The finder

#[test]
fn names() {
    let text = "pn|Ann,Bob,,Ann|md|1|qx||pn|Zoe,Bob,Cy,Di|pn|ann,Bob|md|2|";
    let text = format!("{text}qx||md|3|pn| Ann,José,Jose\u{301}|");
    compared(text.as_bytes());
    for name in [
        "Ann",
        "Bob",
        "Zoe",
        "ann",
        " Ann",
        "BOB",
        "Bob ",
        "Bo",
        "",
        "José",
        "Jose\u{301}",
        "Jose",
    ] {
        compare::name(text.as_bytes(), name.as_bytes()).unwrap();
    }
    compare::name(b"qx||pn|Ann|", b"Ann").unwrap();
}

#[test]
fn refusals_of_the_finder() {
    let long = vec![b' '; LIMIT + 1];
    let limit = vec![b' '; LIMIT];
    for (text, name) in [
        (&b"a"[..], &limit[..]),
        (&limit, &limit),
        (&long, b"\xFF"),
        (b"\xFF", &long),
        (b"ab\xFF", b"\xFF"),
        (b"ab", b"a\xC3"),
    ] {
        compare::name(text, name).unwrap();
    }
}

// Against upstream and the model

#[test]
fn stored_texts() {
    let all = [oracle::tokens::texts(), oracle::boards::texts()].concat();
    for text in all.iter().filter(|t| t.len() < 10_000) {
        compared(text.as_bytes());
    }
    oracle::utf8::texts().iter().for_each(|t| compared(t));
}

#[test]
fn short_files() {
    let tokens = ["qx||", "mn|t|", "pn|a|", "md|1|", "mb|p|", "\n", " |"];
    for text in texts::words(&tokens, 5) {
        compared(text.as_bytes());
    }
}

#[test]
fn random_files() {
    let rng = &mut Rng::new(33);
    for _ in 0..10_000 {
        compared(samples::file(rng, 12).as_bytes());
    }
    for _ in 0..40 {
        compared(samples::file(rng, 200).as_bytes());
    }
}

#[test]
fn realistic_files() {
    let rng = &mut Rng::new(34);
    for n in 0..24 {
        compared(records::file(rng, n).as_bytes());
        compared(records::lines(rng, n).as_bytes());
        let some = [records::movie(rng, n), records::file(rng, 2)];
        compared(some.concat().as_bytes());
    }
}

#[test]
fn damaged_files() {
    let rng = &mut Rng::new(35);
    for _ in 0..500 {
        let text = records::file(rng, 3);
        compared(&texts::damaged(rng, text.as_bytes(), 6));
        let text = records::lines(rng, 3);
        compared(&texts::damaged(rng, text.as_bytes(), 3));
        let text = samples::file(rng, 16);
        compared(&texts::damaged(rng, text.as_bytes(), 3));
    }
}

#[test]
fn texts_at_the_limit() {
    for unit in ["mb||", "md|1SA|", "pn|a,b,c,d|", "|", "x"] {
        let mut text = unit.repeat(LIMIT / unit.len()).into_bytes();
        text.resize(LIMIT, b' ');
        compared(&text);
    }
}
