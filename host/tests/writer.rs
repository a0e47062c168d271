//! Boards written and appended, the play as a text and equality as Rust values:
//! document 01's examples, the written form, and the refusals with what each
//! carries.

use lin_host_rust::{
    boards::{self, Board, Call, Card, Heading, LinText, Seat, Vulnerability},
    files,
    writer::{self, Appender, Gathered},
    LinAnswer, Refusal, LIMIT,
};

const FRESH: &str = "mn||pn|,,,|qx||rh||md|3,,,|sv|0|\nsa|0|pg||\n";

fn fresh() -> Gathered {
    Gathered::from(&Board::default())
}

/// A board as a text, which the appender gives too.
fn text(board: &Board) -> String {
    let text = writer::write_lin(board).unwrap();
    let mut file = Appender::new(text.len());
    assert_eq!(file.append(board), Ok(text.len() as u64));
    assert_eq!(file.text(), text);
    text
}

fn headed(heading: Heading) -> String {
    text(&Board::new(heading, vec![], vec![]))
}

fn answer(refusal: u32, value: u64) -> LinAnswer {
    LinAnswer {
        refusal,
        kind: 0,
        value,
    }
}

// Document 01's examples, and points of the written form

#[test]
fn a_fresh_board() {
    assert_eq!(fresh().board, boards::heading_numbers(b"").board);
    assert_eq!(text(&Board::default()), FRESH);
    let mut out = [7; 10];
    let small = answer(7, 43);
    assert_eq!(fresh().lent().write_numbers(&mut out), small);
    assert_eq!(fresh().lent().append_numbers(&mut out, 0), small);
    assert_eq!(fresh().lent().append_numbers(&mut out, 10), small);
    assert_eq!(out, [7; 10]);
    let mut out = [7; 45];
    assert_eq!(fresh().lent().append_numbers(&mut out, 1), answer(0, 44));
    assert_eq!(out, [b"\x07", FRESH.as_bytes(), b"\x07"].concat()[..]);
}

#[test]
fn texts_are_cleaned() {
    let line = |heading| headed(heading).lines().next().unwrap().to_string();
    let names = Heading {
        names: ["a|b", "c,d|", "\r\n", ",,"],
        ..Heading::default()
    };
    assert_eq!(line(names), "mn||pn|a/b,cd/,  ,|qx||rh||md|3,,,|sv|0|");
    let others = Heading {
        title: Some("one, two|"),
        room_board: Some("o1,BOARD 1\r"),
        board_header: Some(""),
        vulnerability: Vulnerability::EastWest,
        ..Heading::default()
    };
    assert_eq!(
        line(others),
        "mn|one, two/|pn|,,,|qx|o1,BOARD 1 |rh||ah||md|3,,,|sv|e|"
    );
}

#[test]
fn calls_play_and_claim() {
    let call = |bid, alerted, annotation| Call {
        bid,
        alerted,
        annotation,
    };
    let calls = vec![
        call("1C", true, None),
        call("1C!", true, Some("a|b\n")),
        call("!", false, Some("")),
        call("", false, None),
    ];
    let heading = Heading {
        claim: Some(255),
        ..Heading::default()
    };
    let board = Board::new(heading, calls, Card::all().take(5).collect());
    let written = text(&board);
    let lines: Vec<&str> = written.lines().skip(1).collect();
    assert_eq!(
        lines,
        [
            "sa|0|mb|1C!|mb|1C!!|an|a/b |mb|!|an||mb||pg||",
            "pc|S2|pc|S3|pc|S4|pc|S5|pg||",
            "pc|S6|pg||",
            "mc|255|pg||",
        ]
    );
}

/// A board of these counts.
fn counted(counts: [u32; 208]) -> Gathered {
    let mut lent = fresh();
    lent.board.counts = counts;
    lent
}

#[test]
fn east_left_out() {
    let suit = |seat: usize, suit: usize| 52 * seat + 13 * suit..52 * seat + 13 * suit + 13;
    let md = |counts| {
        let lent = counted(counts);
        let mut out = [0; 200];
        let n = lent.lent().write(&mut out).unwrap();
        let text = String::from_utf8(out[..n as usize].to_vec()).unwrap();
        let value = text.split('|').nth(9).unwrap().to_string();
        value.matches(',').count()
    };
    let mut counts = [0; 208];
    for seat in 0..3 {
        counts[suit(seat, seat)].fill(1);
    }
    assert_eq!(md(counts), 2);
    counts[suit(3, 3)].fill(1);
    assert_eq!(md(counts), 2);
    // as long, each card in the remainder, one of them twice
    counts[207] = 2;
    counts[206] = 0;
    assert_eq!(md(counts), 2);
    counts[206] = 1;
    assert_eq!(md(counts), 3);
    counts[207] = 0;
    assert_eq!(md(counts), 3);
    counts[207] = 1;
    assert_eq!(md(counts), 2);
    // 13 cards less one
    counts[0] = 0;
    assert_eq!(md(counts), 3);
}

#[test]
fn counts_of_32_bits() {
    let max = u32::MAX;
    let all = counted([max; 208]);
    let needed = 43 + 4 * 4 + 208 * u64::from(max);
    assert_eq!(all.lent().write_numbers(&mut []), answer(7, needed));
    // 2^32 - 1 and 14 more are not 13
    let mut counts = [0; 208];
    for seat in 0..3 {
        counts[52 * seat] = max;
        counts[52 * seat + 1] = 14;
    }
    let needed = 43 + 3 * (4 + 14 + u64::from(max));
    assert_eq!(
        counted(counts).lent().write_numbers(&mut []),
        answer(7, needed)
    );
}

#[test]
fn every_claim_and_every_card() {
    for claim in 0..=255 {
        let heading = Heading {
            claim: Some(claim),
            ..Heading::default()
        };
        assert!(headed(heading).ends_with(&format!("mc|{claim}|pg||\n")));
    }
    for seat in Seat::ALL {
        for card in Card::all() {
            let mut heading = Heading::default();
            heading.deal.add(seat, card);
            let written = headed(heading);
            let read = boards::board(written.as_bytes()).unwrap();
            assert_eq!(read.heading.deal, heading.deal, "{written}");
        }
    }
}

// Lists of appends

/// A call that is refused leaves the output and the used count, and the boards
/// of the others are read back.
#[test]
fn a_list_of_appends() {
    let read = |text: &'static str| boards::board(text.as_bytes()).unwrap();
    let small = read("pn|Ann|md|1SA|mb|1C!|an|x|pc|SA|mc|9|");
    let large = read("qx|o2|ah|Board 2|md|2SK,SQ|sv|b|mb|1N|mb|p|mb|p|mb|p|");
    let mut file = Appender::new(300);
    let mut filed = Vec::new();
    for board in [&small, &large, &small, &large, &small, &large] {
        let before = file.clone();
        match file.append(board) {
            Ok(used) => {
                assert_eq!(used, before.used() + text(board).len() as u64);
                filed.push(board);
            }
            refused => {
                let needed = text(board).len() as u64;
                assert_eq!(refused, Err(Refusal::OutputTooSmall(needed)));
                assert_eq!(file, before);
            }
        }
    }
    assert!((1..6).contains(&filed.len()));
    let found: Vec<_> = files::read_boards(file.bytes()).unwrap().collect();
    assert_eq!(found.len(), filed.len());
    for (board, (_, read)) in filed.into_iter().zip(&found) {
        assert_eq!(&boards::board(text(board).as_bytes()).unwrap(), read);
        assert_eq!(writer::same_board(board, read), Ok(true));
    }
}

// Refusals

/// A board with two names, a title and a call, whose texts fill `abécd`.
fn small() -> Gathered {
    let mut lent = fresh();
    lent.text = "abécd".as_bytes().to_vec();
    lent.board.names = [0, 1, 1, 1, 2, 2, 0, 0];
    lent.board.title = LinText {
        present: 1,
        start: 4,
        len: 1,
    };
    lent.rows = vec![5, 1, 0, 1, 6, 0];
    lent.cards = vec![51];
    lent
}

/// The answer of every entry that is lent this board, which is the same; nothing
/// is written.
fn refused(lent: &Gathered) -> LinAnswer {
    let mut out = [7; 300];
    let got = lent.lent().append_numbers(&mut out, 0);
    assert_eq!(lent.lent().write_numbers(&mut out), got);
    assert_eq!(lent.lent().same_numbers(small().lent()), got);
    assert_eq!(small().lent().same_numbers(lent.lent()), got);
    assert_eq!(out, [7; 300]);
    got
}

/// No entry refuses this board: it is written, in an output that just fits too,
/// and equals itself.
fn accepted(lent: &Gathered) {
    let mut out = vec![7; LIMIT];
    let len = lent.lent().write(&mut out).unwrap();
    let n = len as usize;
    assert!(out[n..].iter().all(|b| *b == 7));
    let mut fitting = vec![7; n];
    assert_eq!(lent.lent().append(&mut fitting, 0), Ok(len));
    assert_eq!(fitting, out[..n]);
    let small = lent.lent().append(&mut fitting[..n - 1], 0);
    assert_eq!(small, Err(Refusal::OutputTooSmall(len)));
    assert_eq!(lent.lent().same(lent.lent()), Ok(true));
}

fn with(change: impl FnOnce(&mut Gathered)) -> Gathered {
    let mut lent = small();
    change(&mut lent);
    lent
}

#[test]
fn an_accepted_board() {
    accepted(&small());
    assert_eq!(small().lent().same(small().lent()), Ok(true));
    let mut out = [0; 300];
    let n = small().lent().write(&mut out).unwrap() as usize;
    let text = "mn|c|pn|a,b,é,|qx||rh||md|3,,,|sv|0|\nsa|0|mb|d|an||pg||\npc|CA|pg||\n";
    assert_eq!(out[..n], *text.as_bytes());
}

#[test]
fn refuses_1() {
    let long = |len| with(|l| l.text.resize(len, b' '));
    accepted(&long(LIMIT));
    assert_eq!(refused(&long(LIMIT + 1)), answer(1, 0));
    let mut worst = long(LIMIT + 1);
    worst.cards = vec![52];
    worst.board.names = [u32::MAX; 8];
    assert_eq!(refused(&worst), answer(1, 0));
}

#[test]
fn refuses_8() {
    for code in [4, 5, u32::MAX] {
        assert_eq!(refused(&with(|l| l.board.dealer = code)), answer(8, 0));
        let sides = with(|l| l.board.vulnerability = code);
        assert_eq!(refused(&sides), answer(8, 0));
    }
    for code in [2, 3, u32::MAX] {
        assert_eq!(
            refused(&with(|l| l.board.title.present = code)),
            answer(8, 0)
        );
        let room = with(|l| l.board.room_board.present = code);
        assert_eq!(refused(&room), answer(8, 0));
        let header = with(|l| l.board.board_header.present = code);
        assert_eq!(refused(&header), answer(8, 0));
        assert_eq!(refused(&with(|l| l.board.claimed = code)), answer(8, 0));
        assert_eq!(refused(&with(|l| l.rows[2] = code)), answer(8, 0));
        assert_eq!(refused(&with(|l| l.rows[3] = code)), answer(8, 0));
    }
    for claim in [256, 512 + 9, u32::MAX] {
        let claimed = with(|l| [l.board.claimed, l.board.claim] = [1, claim]);
        assert_eq!(refused(&claimed), answer(8, 0));
        // an absent claim is not looked at
        accepted(&with(|l| l.board.claim = claim));
    }
    for card in [52, 53, 255] {
        assert_eq!(refused(&with(|l| l.cards.push(card))), answer(8, 0));
    }
    // 8 comes before 5
    let both = with(|l| [l.board.dealer, l.board.names[0]] = [4, 9]);
    assert_eq!(refused(&both), answer(8, 0));
}

#[test]
fn refuses_5() {
    for (start, len) in [(6, 1), (7, 0), (0, 7), (u32::MAX, 1), (1, u32::MAX)] {
        let name = with(|l| l.board.names[..2].copy_from_slice(&[start, len]));
        assert_eq!(refused(&name), answer(5, 0), "{start}, {len}");
        let bid = with(|l| l.rows[..2].copy_from_slice(&[start, len]));
        assert_eq!(refused(&bid), answer(5, 0));
        let annotation = with(|l| l.rows[4..].copy_from_slice(&[start, len]));
        assert_eq!(refused(&annotation), answer(5, 0));
        let title = with(|l| [l.board.title.start, l.board.title.len] = [start, len]);
        assert_eq!(refused(&title), answer(5, 0));
        // what is absent is not looked at
        accepted(&with(|l| {
            l.board.title.present = 0;
            [l.board.title.start, l.board.title.len] = [start, len];
        }));
        accepted(&with(|l| l.rows[3..].copy_from_slice(&[0, start, len])));
        // nor is a rest of fewer than six words
        accepted(&with(|l| l.rows.extend([start, len, 2, 2, start])));
    }
    accepted(&with(|l| l.board.names[..2].copy_from_slice(&[6, 0])));
}

#[test]
fn refuses_6() {
    for (start, len) in [(2, 1), (3, 1), (0, 3), (3, 2)] {
        let name = with(|l| l.board.names[6..].copy_from_slice(&[start, len]));
        assert_eq!(refused(&name), answer(6, 0), "{start}, {len}");
    }
    // a late 5 comes before an early 6
    let both = with(|l| {
        l.board.names[..2].copy_from_slice(&[2, 1]);
        l.rows[5] = 1;
    });
    assert_eq!(refused(&both), answer(5, 0));
    // an empty span within a character is UTF-8
    accepted(&with(|l| l.board.names[6..].copy_from_slice(&[3, 0])));
    assert_eq!(refused(&with(|l| l.text[2] = b'|')), answer(6, 0));
}

#[test]
fn used_bytes_beyond_the_room() {
    let append = |len: usize, used| {
        let mut out = vec![7; len];
        let lent = fresh();
        let got = lent.lent().append_numbers(&mut out, used);
        if got.refusal != 0 {
            assert!(out.iter().all(|b| *b == 7));
        }
        got
    };
    assert_eq!(append(10, 10), answer(7, 43));
    assert_eq!(append(10, 11), answer(8, 0));
    assert_eq!(append(0, 0), answer(7, 43));
    assert_eq!(append(0, u64::MAX), answer(8, 0));
    let limit = LIMIT as u64;
    for len in [LIMIT, LIMIT + 1, LIMIT + 100] {
        assert_eq!(append(len, limit - 43), answer(0, limit));
        assert_eq!(append(len, limit - 42), answer(7, 43));
        assert_eq!(append(len, limit), answer(7, 43));
        assert_eq!(append(len, limit + 1), answer(8, 0));
        assert_eq!(append(len, 1 << 32), answer(8, 0));
    }
}

#[test]
fn equality_checks_both_boards_before_the_next() {
    let bad = with(|l| l.board.vulnerability = 4);
    let past = with(|l| l.board.names[0] = 9);
    let cut = with(|l| l.board.names[..2].copy_from_slice(&[2, 1]));
    let long = with(|l| l.text.resize(LIMIT + 1, b' '));
    let ranked = [&long, &bad, &past, &cut];
    for (a, numbers) in ranked.iter().zip([1, 8, 5, 6]) {
        for (b, other) in ranked.iter().zip([1, 8, 5, 6]) {
            let order = |n| [1, 8, 5, 6].iter().position(|m| *m == n);
            let first = if order(numbers) < order(other) {
                numbers
            } else {
                other
            };
            assert_eq!(a.lent().same_numbers(b.lent()), answer(first, 0));
        }
    }
}

#[test]
fn wrappers_refuse() {
    fn titled(title: &str) -> Board<'_> {
        let heading = Heading {
            title: Some(title),
            ..Heading::default()
        };
        Board::new(heading, vec![], vec![])
    }
    let long = " ".repeat(LIMIT + 1);
    let long = titled(&long);
    let refused = Refusal::TextTooLong;
    assert_eq!(writer::write_lin(&long), Err(refused));
    assert_eq!(writer::same_board(&long, &long), Err(refused));
    assert_eq!(writer::same_board(&titled(""), &long), Err(refused));
    let mut file = Appender::new(200);
    assert_eq!(file.append(&long), Err(refused));
    assert_eq!((file.used(), file.text()), (0, ""));
    assert_eq!(file.output(), [0; 200]);
    let full = " ".repeat(LIMIT - 42);
    let full = titled(&full);
    let needed = Refusal::OutputTooSmall(LIMIT as u64 + 1);
    assert_eq!(writer::write_lin(&full), Err(needed));
}

// Play text

#[test]
fn play_texts() {
    let shown = |cards: &[u8]| writer::play_text(&boards::play(cards)).unwrap();
    assert_eq!(shown(&[]), "");
    assert_eq!(
        shown(&[26, 38, 30, 29, 1, 0, 10, 12]),
        "D2 DA D6 D5|S3 S2 SQ SA"
    );
    assert_eq!(shown(&[12, 25, 38, 51, 0]), "SA HA DA CA|S2");
    for n in 0..20_u8 {
        let cards: Vec<u8> = (0..n).map(|c| c * 11 % 52).collect();
        let text = shown(&cards);
        assert_eq!(text.len(), (3 * usize::from(n)).saturating_sub(1));
        let mut out = vec![7; text.len() + 2];
        let len = text.len() as u64;
        assert_eq!(writer::play_text_numbers(&cards, &mut out), answer(0, len));
        assert_eq!(out, [text.as_bytes(), &[7; 2]].concat());
        for place in 0..usize::from(n) {
            let mut cards = cards.clone();
            cards[place] = 52;
            assert_eq!(writer::play_text_numbers(&cards, &mut []), answer(8, 0));
        }
    }
    let mut out = [7; 2];
    assert_eq!(writer::play_text_numbers(&[0; 9], &mut out), answer(7, 26));
    assert_eq!(writer::play_text_numbers(&[0, 255], &mut []), answer(8, 0));
    assert_eq!(writer::play_text_numbers(&[], &mut []), answer(0, 0));
}

#[test]
fn play_texts_at_the_limit() {
    let mut out = vec![0; LIMIT + 100];
    let most = LIMIT / 3;
    let fits = writer::play_text_numbers(&vec![0; most], &mut out);
    assert_eq!(fits, answer(0, 3 * most as u64 - 1));
    let over = writer::play_text_numbers(&vec![0; most + 1], &mut out);
    assert_eq!(over, answer(7, 3 * most as u64 + 2));
}

// Equality

#[test]
fn equality_is_lopsided() {
    let read = |text: &'static str| boards::board(text.as_bytes()).unwrap();
    let same = |a, b| writer::same_board(&read(a), &read(b)).unwrap();
    assert!(same("md|1SAA|", "md|1SAK|") && !same("md|1SAK|", "md|1SAA|"));
    assert!(same("md|1SAK|", "md|1SKA|"));
    assert!(!same("md|1SA|", "md|1SAA|"));
    assert!(same("mn||pn|a|", "pn|a,|mn|b|mn||"));
    assert!(!same("ah||", "") && !same("", "ah||"));
    assert!(!same("mb|p!|", "mb|p|") && same("mb|p!!|", "mb|p!|"));
    assert!(!same("mb|p|an||", "mb|p|") && !same("mc|0|", ""));
    assert!(!same("pn|José|", "pn|Jose\u{301}|"));
}
