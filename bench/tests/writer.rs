//! The writer, append, play text and equality against the oracle and the plain
//! book.

use lin_bench::{
    compare, expected, log,
    model::{self, MARK},
    samples::{self, built, lent},
    upstream,
};
use lin_host_rust::{
    boards::{self, Board, Card, Heading, LinText, Seat, ROW},
    files,
    writer::{self, Appender, Gathered, Lent},
    LIMIT,
};
use oracle::{lin::LinData, random::Rng, records, texts};

fn holds(subject: &dyn std::fmt::Debug, outcome: compare::Same) {
    if let Err(difference) = outcome {
        panic!("{difference}\nfor {subject:?}");
    }
}

fn compared(lent: &Gathered) {
    holds(lent, compare::written(lent.lent()));
}

fn gathered(board: &LinData) -> Gathered {
    Gathered::from(&upstream::board(board))
}

fn fresh() -> Gathered {
    Gathered::from(&Board::default())
}

// Boards by hand

#[test]
fn a_fresh_board() {
    assert_eq!(fresh().board, model::fresh_board());
    compared(&fresh());
}

/// Texts that are cleaned, calls with all their marks, and a play.
#[test]
fn boards_as_rust_values() {
    let call = |bid, alerted, annotation| boards::Call {
        bid,
        alerted,
        annotation,
    };
    let names = Heading {
        names: ["a|b", "c,d|", "\r\n", ",,"],
        ..Heading::default()
    };
    let others = Heading {
        title: Some("one, two|"),
        room_board: Some("o1,BOARD 1\r"),
        board_header: Some(""),
        vulnerability: boards::Vulnerability::EastWest,
        claim: Some(255),
        ..Heading::default()
    };
    let calls = vec![
        call("1C", true, None),
        call("1C!", true, Some("a|b\n")),
        call("!", false, Some("")),
        call("", false, None),
    ];
    for heading in [names, others] {
        let board = Board::new(heading, calls.clone(), Card::all().take(5).collect());
        compared(&Gathered::from(&board));
    }
}

#[test]
fn every_claim_and_every_card() {
    let headed = |heading| compared(&Gathered::from(&Board::new(heading, vec![], vec![])));
    for claim in 0..=255 {
        headed(Heading {
            claim: Some(claim),
            ..Heading::default()
        });
    }
    for seat in Seat::ALL {
        for card in Card::all() {
            let mut heading = Heading::default();
            heading.deal.add(seat, card);
            headed(heading);
        }
    }
}

/// Three hands of a suit each and East's cards about the fourth suit.
#[test]
fn easts() {
    let counted = |counts| {
        let mut lent = fresh();
        lent.board.counts = counts;
        compared(&lent);
    };
    let mut counts = [0; 208];
    for seat in 0..3 {
        counts[65 * seat..65 * seat + 13].fill(1);
    }
    counted(counts);
    counts[195..].fill(1);
    counted(counts);
    for last in [[0, 2], [1, 2], [1, 0], [0, 1], [2, 2]] {
        counts[206..].copy_from_slice(&last);
        counted(counts);
    }
    counts[206..].fill(1);
    counts[0] = 0;
    counted(counts);
}

// Boards lent with any numbers

/// A board with two names, a title and a call, whose texts fill `abécd`.
fn small() -> Gathered {
    let mut lent = fresh();
    lent.text = "abécd".as_bytes().to_vec();
    lent.board.names = [0, 1, 1, 1, 2, 2, 0, 0];
    lent.board.title = LinText {
        present: 1,
        start: 4,
        len: 1,
    };
    lent.rows = vec![5, 1, 0, 1, 6, 0];
    lent.cards = vec![51];
    lent
}

fn with(change: impl FnOnce(&mut Gathered)) -> Gathered {
    let mut lent = small();
    change(&mut lent);
    lent
}

#[test]
fn any_code() {
    compared(&small());
    for code in [0, 1, 2, 3, 4, 5, 52, 255, 256, 521, u32::MAX] {
        compared(&with(|l| l.board.dealer = code));
        compared(&with(|l| l.board.vulnerability = code));
        compared(&with(|l| l.board.title.present = code));
        compared(&with(|l| l.board.room_board.present = code));
        compared(&with(|l| l.board.board_header.present = code));
        compared(&with(|l| l.board.claimed = code));
        compared(&with(|l| l.board.claim = code));
        compared(&with(|l| [l.board.claimed, l.board.claim] = [1, code]));
        compared(&with(|l| l.rows[2] = code));
        compared(&with(|l| l.rows[3] = code));
        compared(&with(|l| [l.board.dealer, l.board.names[0]] = [code, 9]));
    }
    for card in [0, 51, 52, 53, 255] {
        compared(&with(|l| l.cards.push(card)));
    }
}

/// Every span of the text and some beyond it, at each place, and where what has
/// it is absent or no row.
#[test]
fn any_span() {
    let numbers: Vec<u32> = (0..=8).chain([u32::MAX]).collect();
    for start in &numbers {
        for len in &numbers {
            let (start, len) = (*start, *len);
            for name in [0, 2, 4, 6] {
                compared(&with(|l| {
                    l.board.names[name..name + 2].copy_from_slice(&[start, len]);
                }));
            }
            for present in [0, 1] {
                let x = LinText {
                    present,
                    start,
                    len,
                };
                compared(&with(|l| l.board.title = x));
                compared(&with(|l| l.board.room_board = x));
                compared(&with(|l| l.board.board_header = x));
                compared(&with(|l| {
                    l.rows[3..].copy_from_slice(&[present, start, len])
                }));
            }
            compared(&with(|l| l.rows[..2].copy_from_slice(&[start, len])));
            compared(&with(|l| l.rows.extend([start, len, 2, 2, start])));
            // a late 5 and an early 6
            compared(&with(|l| {
                l.board.names[..2].copy_from_slice(&[2, 1]);
                l.rows[4..].copy_from_slice(&[start, len]);
            }));
        }
    }
    compared(&with(|l| l.text[2] = b'|'));
}

#[test]
fn texts_about_the_limit() {
    for len in [LIMIT, LIMIT + 1] {
        compared(&with(|l| l.text.resize(len, b' ')));
        compared(&with(|l| {
            l.text.resize(len, b' ');
            l.cards = vec![52];
            l.board.names = [u32::MAX; 8];
        }));
    }
}

#[test]
fn used_bytes_about_the_room() {
    let fresh = fresh();
    let limit = LIMIT as u64;
    for (len, used) in [(10, 10), (10, 11), (0, 0), (0, u64::MAX)] {
        holds(&(len, used), compare::append(fresh.lent(), len, used));
    }
    for len in [LIMIT, LIMIT + 1, LIMIT + 100] {
        for used in [limit - 43, limit - 42, limit, limit + 1, 1 << 32] {
            holds(&(len, used), compare::append(fresh.lent(), len, used));
        }
    }
}

#[test]
fn equality_of_boards_with_faults() {
    let ranked = [
        small(),
        with(|l| l.text.resize(LIMIT + 1, b' ')),
        with(|l| l.board.vulnerability = 4),
        with(|l| l.board.names[0] = 9),
        with(|l| l.board.names[..2].copy_from_slice(&[2, 1])),
    ];
    for a in &ranked {
        for b in &ranked {
            holds(&(a.board, b.board), compare::equality(a.lent(), b.lent()));
        }
    }
}

// Play text

#[test]
fn play_texts() {
    for n in 0..20_u8 {
        let cards: Vec<u8> = (0..n).map(|c| c * 11 % 52).collect();
        let len = 3 * usize::from(n);
        for room in len.saturating_sub(2)..len + 2 {
            holds(&(n, room), compare::play_text(&cards, room));
        }
        for place in 0..usize::from(n) {
            let mut cards = cards.clone();
            cards[place] = 52;
            holds(&cards, compare::play_text(&cards, 0));
        }
    }
    let most = LIMIT / 3;
    for n in most - 1..most + 3 {
        holds(&n, compare::play_text(&vec![51; n], LIMIT + 9));
    }
}

// Equality

#[test]
fn pairs_of_boards() {
    let rng = &mut Rng::new(41);
    let mut equal = [0; 4];
    for _ in 0..20_000 {
        let (one, two) = built::pair(rng);
        equal[usize::from(one == two) + 2 * usize::from(two == one)] += 1;
        let (a, b) = (lent::scattered(rng, &one), lent::scattered(rng, &two));
        holds(&(&one, &two), compare::equality(a.lent(), b.lent()));
    }
    assert!(equal.iter().all(|n| *n > 100), "{equal:?}");
}

// Against upstream and the model

/// The board that a text gives, lent again as the reader gave it.
fn lent_again(bytes: &[u8]) {
    let Ok(heading) = boards::heading(bytes) else {
        return;
    };
    let mut rows = vec![0; ROW * heading.calls];
    let mut cards = vec![0; heading.cards];
    let board = boards::parse_lin_numbers(bytes, &mut rows, &mut cards).board;
    let lent = Lent {
        text: bytes,
        board,
        rows: &rows,
        cards: &cards,
    };
    let text = std::str::from_utf8(bytes).unwrap();
    let read = expected::board(text).unwrap();
    let want = expected::written(&read).unwrap();
    let mut out = vec![0; want.len()];
    assert_eq!(lent.write(&mut out), Ok(want.len() as u64), "{text:?}");
    assert_eq!(String::from_utf8(out).unwrap(), want);
    assert_eq!(lent.same(gathered(&read).lent()), Ok(true));
    holds(&text, compare::written(lent));
}

#[test]
fn stored_texts() {
    for text in oracle::tokens::texts() {
        lent_again(text.as_bytes());
    }
}

#[test]
fn random_records() {
    let rng = &mut Rng::new(42);
    for _ in 0..5_000 {
        lent_again(samples::record(rng, 10).as_bytes());
    }
    for n in 0..100 {
        lent_again(samples::record(rng, 200).as_bytes());
        lent_again(records::movie(rng, n).as_bytes());
    }
}

#[test]
fn realistic_boards() {
    let rng = &mut Rng::new(43);
    for n in 0..2_000 {
        compared(&gathered(&records::board(rng, n)));
    }
}

#[test]
fn boards_built_by_hand() {
    let rng = &mut Rng::new(44);
    for _ in 0..20_000 {
        let board = built::board(rng, 5, 9);
        compared(&gathered(&board));
        compared(&lent::scattered(rng, &board));
    }
    for _ in 0..50 {
        let board = built::board(rng, 300, 300);
        compared(&lent::scattered(rng, &board));
    }
}

#[test]
fn boards_with_faults() {
    let rng = &mut Rng::new(45);
    let mut met = [0; 9];
    for _ in 0..20_000 {
        let board = built::board(rng, 3, 4);
        let mut lent = lent::scattered(rng, &board);
        (0..1 + rng.below(3)).for_each(|_| lent::fault(rng, &mut lent));
        let answer = lent.lent().append_numbers(&mut [0; 2_000], 0);
        met[answer.refusal as usize] += 1;
        compared(&lent);
    }
    assert!([0, 1, 5, 6, 8].iter().all(|n| met[*n] > 0), "{met:?}");
}

/// Every character in every text, cleaned as expected; the byte order mark apart from
/// those that upstream is asked about.
#[test]
fn every_character() {
    let fresh = model::parse_lin("");
    let all: Vec<char> = ('\0'..=char::MAX).filter(|c| *c != MARK).collect();
    for some in all.chunks(3_000).chain([&[MARK][..]]) {
        let text: String = some.iter().collect();
        let board = LinData {
            player_names: [(); 4].map(|()| text.clone()),
            title: Some(text.clone()),
            board_header: Some(text.clone()),
            ..fresh.clone()
        };
        compared(&gathered(&board));
    }
}

// Lists of appends

#[test]
fn lists_of_appends() {
    let rng = &mut Rng::new(46);
    for _ in 0..3_000 {
        let len = rng.below(1_500);
        let first: Vec<u8> = (0..len).map(|_| rng.byte()).collect();
        let list = lent::calls(rng, 8);
        holds(&(len, &list), compare::appends(first, &list));
    }
}

#[test]
fn a_long_list_of_appends() {
    let rng = &mut Rng::new(47);
    let list: Vec<Gathered> = (1..=2_500)
        .map(|n| gathered(&records::board(rng, n)))
        .collect();
    let mut log = log::Log::new(LIMIT + 1_000);
    let mut file = Appender::new(LIMIT + 1_000);
    for call in &list {
        let want = log.enter(call.lent()).unwrap();
        assert_eq!(file.append_lent(call.lent()), want);
    }
    assert_eq!(file.bytes(), log.bytes);
    assert!(file.bytes().len() > LIMIT - 2_000);
    let count = log.boards.len();
    assert!(count < list.len());
    assert_eq!(files::count_boards(file.bytes()), Ok(count as u64));
    for number in [0, 1, count - 1] {
        let board = files::file_board(file.bytes(), number as u64).unwrap();
        assert_eq!(board, upstream::board(&log.boards[number]));
    }
}

/// What is read back is settled, and settled it stays.
#[test]
fn settled_boards() {
    let rng = &mut Rng::new(48);
    for _ in 0..5_000 {
        let board = built::board(rng, 4, 6);
        let settled = log::settled(&board);
        let want = upstream::board(&settled);
        for board in [&board, &settled] {
            let text = writer::write_lin(&upstream::board(board)).unwrap();
            assert_eq!(boards::board(text.as_bytes()), Ok(want.clone()));
        }
        assert_eq!(upstream::board(&log::settled(&settled)), want);
    }
}

#[test]
fn damaged_texts_of_boards() {
    let rng = &mut Rng::new(49);
    for _ in 0..1_000 {
        let text = records::file(rng, 1);
        lent_again(&texts::damaged(rng, text.as_bytes(), 4));
    }
}
