//! Files as Rust values: count, boards by number, the board cursor and the step
//! that reads, and the name finder, with document 01's examples and the refusals.

use lin_host_rust::{
    boards::{self, Call, LinBoard, Seat},
    files::{self, BoardCursor, Boards, Section, Sections},
    Refusal, RowKind, LIMIT,
};

/// How many boards a text has: as many as the cursor gives and the reader reads.
fn count(text: &str) -> u64 {
    let count = files::count_boards(text.as_bytes()).unwrap();
    assert_eq!(parts(text).len() as u64, count);
    count
}

/// The parts of the text that are its boards, each read the same by its number,
/// as a text of its own, and by the step that reads.
fn parts(text: &str) -> Vec<&str> {
    let bytes = text.as_bytes();
    let mut reader = files::read_boards(bytes).unwrap();
    let mut parts = Vec::new();
    for board in files::boards(bytes).unwrap() {
        let read = files::file_board(bytes, board.number).unwrap();
        assert_eq!(board.board().as_ref(), Ok(&read));
        let stepped = reader.read().unwrap();
        assert_eq!((stepped.number, stepped.text()), (board.number, board.text));
        assert_eq!(stepped.board(), read);
        parts.push(board.text);
    }
    assert!(reader.read().is_none());
    parts
}

// Document 01's examples

#[test]
fn cases_of_files() {
    // C13
    let text = "md|1|qx|a|md|2|";
    assert_eq!(count(text), 2);
    assert_eq!(parts(text), ["md|1|", "qx|a|md|2|"]);
    let read = |n| files::file_heading(text.as_bytes(), n).unwrap();
    assert_eq!((read(0).dealer, read(0).room_board), (Seat::South, None));
    assert_eq!(
        (read(1).dealer, read(1).room_board),
        (Seat::West, Some("a"))
    );
    // C14
    assert_eq!(count("qx|a|"), 0);
    assert_eq!(count("hello"), 1);
    assert_eq!(parts("hello"), ["hello"]);
}

#[test]
fn the_listed_board() {
    let text = b"qx|o1|md|3SAK,SQJ,ST9|mb|1C!|pc|SA|mc|9|";
    let board = files::file_board(text, 0).unwrap();
    assert_eq!(board.heading.dealer, Seat::North);
    assert_eq!(
        Seat::ALL.map(|seat| board.heading.deal.len(seat)),
        [2, 2, 2, 0]
    );
    assert_eq!((board.calls.len(), board.play.len()), (1, 1));
    assert_eq!(board.heading.claim, Some(9));
}

/// The numbers of a board before its first token, which a refusal gives.
fn fresh() -> LinBoard {
    boards::heading_numbers(b"").board
}

#[test]
fn no_board_of_that_number() {
    let text = b"md|1|";
    for number in [1, 2, 1 << 32, u64::MAX] {
        let (mut rows, mut cards) = ([7; 12], [8; 3]);
        let got = files::file_board_numbers(text, number, &mut rows, &mut cards);
        let answer = got.answer;
        assert_eq!((answer.refusal, answer.kind, answer.value), (4, 0, 1));
        assert_eq!(got.board, fresh());
        assert_eq!((rows, cards), ([7; 12], [8; 3]));
        assert_eq!(files::file_heading(text, number), Err(Refusal::NoBoard(1)));
    }
    assert!(files::file_heading(text, 0).is_ok());
}

#[test]
fn too_few_rows() {
    let text = b"md|1|qx|b|md|2|mb|p|pc|SA|mb|1C!|an|x|pc|HK|pc|D2|";
    let few = |kind, n| Some(Refusal::TooFewRows(kind, n));
    for (words, places, refusal) in [
        (0, 0, few(RowKind::Calls, 2)),
        (11, 3, few(RowKind::Calls, 2)),
        (12, 2, few(RowKind::Cards, 3)),
        (12, 3, None),
    ] {
        let (mut rows, mut cards) = (vec![7; words], vec![8; places]);
        let answer = files::file_board_into(text, 1, &mut rows, &mut cards);
        assert_eq!(answer.err(), refusal, "{words}, {places}");
        if refusal.is_some() {
            assert_eq!((rows, cards), (vec![7; words], vec![8; places]));
        }
    }
    let none = files::file_board_into(text, 0, &mut [], &mut []);
    assert!(none.is_ok());
    // the spans are those of the whole text
    let (mut rows, mut cards) = ([7; 13], [8; 4]);
    files::file_board_into(text, 1, &mut rows, &mut cards).unwrap();
    assert_eq!(rows, [18, 1, 0, 0, 0, 0, 29, 2, 1, 1, 36, 1, 7]);
    assert_eq!(cards, [12, 24, 26, 8]);
}

#[test]
fn refusals_in_order() {
    let refused = |text: &[u8]| files::file_board_into(text, 9, &mut [], &mut []).err();
    let long = Some(Refusal::TextTooLong);
    assert_eq!(refused(&vec![b' '; LIMIT + 1]), long);
    assert_eq!(refused(&vec![0xFF; LIMIT + 1]), long);
    assert_eq!(refused(b"mb|p|\xFF"), Some(Refusal::NotUtf8(5)));
    // 4 comes before 3
    assert_eq!(refused(b"mb|p|"), Some(Refusal::NoBoard(1)));
    let few = files::file_board_into(b"mb|p|", 0, &mut [], &mut []).err();
    assert_eq!(few, Some(Refusal::TooFewRows(RowKind::Calls, 1)));
}

#[test]
fn an_empty_file() {
    for text in ["", " ", "\n\n", "\u{3000}\r\n\t", "qx||", "pg||qx||"] {
        assert_eq!(count(text), 0, "{text:?}");
        let none = files::file_heading(text.as_bytes(), 0);
        assert_eq!(none, Err(Refusal::NoBoard(0)));
        assert_eq!(files::find_name(text.as_bytes(), b""), Ok(0));
        assert_eq!(Boards::open(text.as_bytes()).unwrap().next(), None);
    }
}

// Points of parts and lines

#[test]
fn lines() {
    assert_eq!(parts("a\nmd|1|\r\n \n\nb"), ["a", "md|1|\r", "b"]);
    // a qx that no token of the whole text has
    let text = "a|b\nqx|c|d|";
    assert_eq!(parts(text), ["a|b", "qx|c|d|"]);
    let second = files::file_heading(text.as_bytes(), 1).unwrap();
    assert_eq!(second.room_board, Some("c"));
    for one in ["a\rb", "a\u{85}b", "a\u{2028}b", "a\u{B}b"] {
        assert_eq!(count(one), 1, "{one:?}");
    }
    // no md is needed, and a blank is white space of any kind or a byte order mark
    assert_eq!(parts("\u{A0}\n\u{200B}\n\u{FEFF}\n"), ["\u{200B}"]);
}

/// A file that is saved with a byte order mark at its front has the boards that it has
/// without one.
#[test]
fn a_mark_at_the_front() {
    let text = "qx|o1|md|1|qx|o2|md|2|";
    let marked = format!("\u{FEFF}{text}");
    assert_eq!(count(&marked), 2);
    for number in 0..2 {
        let plain = files::file_board(text.as_bytes(), number);
        assert_eq!(files::file_board(marked.as_bytes(), number), plain);
    }
    // without its qx the file would be one line, and a board
    assert_eq!(count("\u{FEFF}qx|a|sv|n|"), 0);
    assert_eq!(count("\u{FEFF}"), 0);
}

#[test]
fn beginnings() {
    // moved back over mn and pn, and over none else
    let text = "md|1|mn|t|pn|a|qx|o|md|2|";
    assert_eq!(parts(text), ["md|1|", "mn|t|pn|a|qx|o|md|2|"]);
    let text = "md|1|mn|t|pg||pn|a|qx|o|md|2|";
    assert_eq!(parts(text), ["md|1|mn|t|pg||", "pn|a|qx|o|md|2|"]);
    // not past the last beginning
    assert_eq!(parts("mn|t|qx|a|md|1|"), ["mn|t|qx|a|md|1|"]);
    assert_eq!(parts("qx|a|qx|b|md|1|"), ["qx|b|md|1|"]);
    assert_eq!(parts("mn||qx|a|pn||qx|b|md|1|"), ["pn||qx|b|md|1|"]);
    // a skipped md is one too; what trails the last token belongs to none
    assert_eq!(parts("qx||md|0|\nqx||mb|p|md"), ["qx||md|0|"]);
    // a value may hold LF, and commands any dress
    let text = "md|1|\n QX\u{A0}|a\nb|Md|2|\n";
    assert_eq!(parts(text), ["md|1|", "\n QX\u{A0}|a\nb|Md|2|"]);
}

#[test]
fn an_annotation_stays_in_its_part() {
    let text = "md|1|mb|p|qx|b|an|x|md|2|mb|d|an|y|";
    let calls = |n| files::file_board(text.as_bytes(), n).unwrap().calls;
    let call = |bid, annotation| Call {
        bid,
        alerted: false,
        annotation,
    };
    assert_eq!(calls(0), [call("p", None)]);
    assert_eq!(calls(1), [call("d", Some("y"))]);
}

#[test]
fn a_part_of_the_text() {
    let text = b"md|1|pn|Ann|qx|b|md|2|";
    let second = Boards::open(text).unwrap().nth(1).unwrap();
    assert_eq!(
        (second.number, second.text.as_ptr()),
        (1, text[5..].as_ptr())
    );
    let name = second.heading().unwrap().names[0];
    assert_eq!((name, name.as_ptr()), ("Ann", text[8..].as_ptr()));
}

// The cursor

#[test]
fn sections_one_after_another() {
    let text = b"mb|p|qx|a|md|1|qx|b|";
    let mut cursor = BoardCursor::open(text).unwrap();
    assert_eq!((cursor.place(), cursor.number()), (0, 0));
    assert_eq!(cursor.sections(), Sections::Parts);
    for (part, board) in [
        (&b"mb|p|"[..], None),
        (b"qx|a|md|1|", Some(0)),
        (b"qx|b|", None),
    ] {
        let (after, section) = cursor.next(text);
        let section: Section = section.unwrap();
        assert_eq!((section.part.of(text), section.board), (part, board));
        assert_eq!(section.part.start, cursor.place());
        cursor = after;
    }
    assert_eq!((cursor.place(), cursor.number()), (20, 1));
    assert_eq!(cursor.next(text), (cursor, None));

    let text = b"a\n\nb";
    let mut cursor = BoardCursor::open(text).unwrap();
    assert_eq!(cursor.sections(), Sections::Lines);
    for (part, board) in [(&b"a"[..], Some(0)), (b"", None), (b"b", Some(1))] {
        let (after, section) = cursor.next(text);
        let section = section.unwrap();
        assert_eq!((section.part.of(text), section.board), (part, board));
        cursor = after;
    }
    // one past the text's length
    assert_eq!((cursor.place(), cursor.number()), (5, 2));
    assert_eq!(cursor.next(text), (cursor, None));
}

// The step that reads

/// The answer with so many words and places lent: refused, or the number of the
/// board and the cursor after it, or none. Without a board nothing is stored.
fn read(
    text: &[u8],
    cursor: BoardCursor,
    lent: [usize; 2],
) -> Result<Option<(u64, BoardCursor)>, Refusal> {
    let (mut rows, mut cards) = (vec![7; lent[0]], vec![8; lent[1]]);
    let answer = cursor.read(text, &mut rows, &mut cards);
    let answer = answer.map(|(after, board)| (after, board.map(|b| b.number)));
    if !matches!(answer, Ok((_, Some(_)))) {
        assert_eq!((rows, cards), (vec![7; lent[0]], vec![8; lent[1]]));
    }
    let (after, number) = answer?;
    if number.is_none() {
        assert_eq!(after, cursor);
    }
    Ok(number.map(|number| (number, after)))
}

fn parts_from(at: u64, number: u64) -> BoardCursor {
    BoardCursor::from_place(at, number, Sections::Parts)
}

fn lines_from(at: u64, number: u64) -> BoardCursor {
    BoardCursor::from_place(at, number, Sections::Lines)
}

/// Refused so from both kinds of cursor, whatever is lent, and nothing is stored.
fn not_read(text: &[u8], at: u64, refusal: Refusal) {
    for lines in [0, 1] {
        for lent in [[0, 0], [12, 3]] {
            let (mut rows, mut cards) = (vec![7; lent[0]], vec![8; lent[1]]);
            let got = files::read_board_numbers(text, at, 5, lines, &mut rows, &mut cards);
            assert_eq!(got.answer.read(), Err(refusal), "{:?}", text.escape_ascii());
            let numbers = [got.number, got.start, got.stop, got.calls, got.cards];
            assert_eq!((got.found, numbers, got.heading()), (0, [0; 5], None));
            assert_eq!((got.next_at, got.next_number), (at, 5));
            assert_eq!(got.board, fresh());
            assert_eq!((rows, cards), (vec![7; lent[0]], vec![8; lent[1]]));
        }
    }
}

#[test]
fn refused_by_2() {
    not_read(b"\xFF", 0, Refusal::NotUtf8(0));
    not_read(b"mb|\xFF|", 0, Refusal::NotUtf8(3));
    // the place is counted from the text's start
    not_read(b"mb|\xFF|", 2, Refusal::NotUtf8(3));
    not_read(b"mb|\xFF|", 3, Refusal::NotUtf8(3));
    not_read("é".as_bytes(), 1, Refusal::NotUtf8(1));
    // and nothing before the step's place is looked at
    not_read(b"\xFFa\xFF", 0, Refusal::NotUtf8(0));
    not_read(b"\xFFa\xFF", 1, Refusal::NotUtf8(2));
    let told = Refusal::NotUtf8(2).to_string();
    assert_eq!(told, "the bytes read are UTF-8 only up to place 2");
    // there are no bytes beyond the end
    for at in [6, 9, u64::MAX] {
        assert_eq!(read(b"mb|\xFF|", parts_from(at, 1), [0, 0]), Ok(None));
        assert_eq!(read(b"mb|\xFF|", lines_from(at, 1), [0, 0]), Ok(None));
    }
}

#[test]
fn sections_that_are_no_boards_are_passed() {
    let text = b"mb|p|qx|a|md|1|";
    let (number, after) = read(text, parts_from(0, 0), [0, 0]).unwrap().unwrap();
    assert_eq!((number, after), (0, parts_from(15, 1)));
    assert_eq!(read(text, after, [0, 0]), Ok(None));
    let text = b" \n\n\t\r\nmb|p|\n \n";
    let (number, after) = read(text, lines_from(0, 3), [6, 0]).unwrap().unwrap();
    assert_eq!((number, after), (3, lines_from(12, 4)));
    assert_eq!(read(text, after, [0, 0]), Ok(None));
    let end = files::read_board_numbers(text, 12, 4, 1, &mut [], &mut []);
    assert_eq!((end.answer.read(), end.heading()), (Ok(0), None));
    // the last number stays
    let last = lines_from(0, u64::MAX);
    let (number, after) = read(text, last, [6, 0]).unwrap().unwrap();
    assert_eq!((number, after), (u64::MAX, lines_from(12, u64::MAX)));
}

#[test]
fn a_later_board_that_is_not_utf8() {
    let text = b"qx|a|md|1|mb|p|qx|b|md|2|qx|c|md|3|mb|\xFF|qx|d|md|4|";
    assert_eq!(files::count_boards(text), Err(Refusal::NotUtf8(38)));
    let first = parts_from(0, 0);
    let (_, second) = read(text, first, [6, 0]).unwrap().unwrap();
    let (_, third) = read(text, second, [6, 0]).unwrap().unwrap();
    assert_eq!((second, third), (parts_from(15, 1), parts_from(25, 2)));
    // the cursor stands, and 2 comes before 3
    for lent in [[0, 0], [6, 1]] {
        assert_eq!(read(text, third, lent), Err(Refusal::NotUtf8(38)));
    }
    // behind the fault the reading can go on
    let (number, end) = read(text, parts_from(40, 3), [0, 0]).unwrap().unwrap();
    assert_eq!((number, read(text, end, [0, 0])), (3, Ok(None)));

    let text = b"md|1|\nmb|p|\n\xC3\xA9\xC3\nx";
    let (_, second) = read(text, lines_from(0, 0), [0, 0]).unwrap().unwrap();
    let (_, third) = read(text, second, [6, 0]).unwrap().unwrap();
    assert_eq!(third, lines_from(12, 2));
    assert_eq!(read(text, third, [6, 0]), Err(Refusal::NotUtf8(14)));
}

#[test]
fn bytes_after_the_last_board() {
    let text = b"md|1|qx|b|md|2|\xFFx";
    let (_, second) = read(text, parts_from(0, 0), [0, 0]).unwrap().unwrap();
    let (_, end) = read(text, second, [0, 0]).unwrap().unwrap();
    assert_eq!(end, parts_from(15, 2));
    assert_eq!(read(text, end, [0, 0]), Err(Refusal::NotUtf8(15)));
    // a section that is no board is looked at with the board behind it
    let text = b"mb|\xFF|qx|b|md|2|";
    assert_eq!(
        read(text, parts_from(0, 0), [6, 0]),
        Err(Refusal::NotUtf8(3))
    );
}

#[test]
fn refused_by_3_and_made_again() {
    let text = b"qx||md|1|mb|p|pc|SA|mb|1C!|an|x|qx||md|2|";
    let first = parts_from(0, 0);
    let few = |kind, n| Err(Refusal::TooFewRows(kind, n));
    for (lent, answer) in [
        ([0, 0], few(RowKind::Calls, 2)),
        ([11, 9], few(RowKind::Calls, 2)),
        ([12, 0], few(RowKind::Cards, 1)),
    ] {
        assert_eq!(read(text, first, lent), answer, "{lent:?}");
    }
    let (mut rows, mut cards) = ([7; 13], [8; 2]);
    let (second, board) = first.read(text, &mut rows, &mut cards).unwrap();
    let board = board.unwrap();
    assert_eq!(board.board(), files::file_board(text, 0).unwrap());
    assert_eq!((board.rows().len(), board.cards()), (12, &[12][..]));
    assert_eq!((rows[12], cards[1]), (7, 8));
    // only that board's rows are asked for
    assert_eq!(read(text, second, [0, 0]), Ok(Some((1, parts_from(41, 2)))));
}

#[test]
fn too_long_is_refused_first() {
    let mut long = vec![b' '; LIMIT + 1];
    not_read(&long, 0, Refusal::TextTooLong);
    not_read(&long, u64::MAX, Refusal::TextTooLong);
    long[0] = 0xFF;
    not_read(&long, 0, Refusal::TextTooLong);
    not_read(&long[..LIMIT], 0, Refusal::NotUtf8(0));
    assert_eq!(read(&long[1..], lines_from(0, 0), [0, 0]), Ok(None));
}

// The finder

#[test]
fn names() {
    let text = "pn|Ann,Bob,,Ann|md|1|qx||pn|Zoe,Bob,Cy,Di|pn|ann,Bob|md|2|";
    let text = format!("{text}qx||md|3|pn| Ann,José,Jose\u{301}|");
    let found = |name: &str| files::find_name(text.as_bytes(), name.as_bytes()).unwrap();
    // at several seats a board counts once
    assert_eq!(found("Ann"), 1);
    assert_eq!(found("Bob"), 2);
    // the last names count; nothing is trimmed, and case counts
    assert_eq!((found("Zoe"), found("ann"), found(" Ann")), (0, 1, 1));
    assert_eq!((found("BOB"), found("Bob "), found("Bo")), (0, 0, 0));
    // an empty name is that of a seat never set too
    assert_eq!(found(""), 2);
    // an accent is spelled in either way
    assert_eq!(
        (found("José"), found("Jose\u{301}"), found("Jose")),
        (1, 1, 0)
    );
    // a part without md is no board
    assert_eq!(files::find_name(b"qx||pn|Ann|", b"Ann"), Ok(0));
}

#[test]
fn refusals_of_the_finder() {
    let long = vec![b' '; LIMIT + 1];
    let limit = vec![b' '; LIMIT];
    let refused = |text: &[u8], name: &[u8]| files::find_name(text, name).err();
    assert_eq!(refused(b"a", &limit), None);
    assert_eq!(refused(&limit, &limit), None);
    let too_long = Some(Refusal::TextTooLong);
    assert_eq!(refused(&long, b"\xFF"), too_long);
    // 1 of both comes before 2 of either
    assert_eq!(refused(b"\xFF", &long), too_long);
    assert_eq!(refused(b"ab\xFF", b"\xFF"), Some(Refusal::NotUtf8(2)));
    assert_eq!(refused(b"ab", b"a\xC3"), Some(Refusal::NotUtf8(1)));
}
