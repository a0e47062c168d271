//! One board from a text as Rust values: document 01's examples, the points of
//! each field, and the refusals with what each carries.

use lin_host_rust::{
    boards::{self, Board, Call, Card, Heading, Seat, Vulnerability},
    Refusal, RowKind, LIMIT,
};

/// The board of a text. Its heading alone is the same.
fn board(text: &str) -> Board<'_> {
    let board = boards::board(text.as_bytes()).unwrap();
    assert_eq!(boards::heading(text.as_bytes()), Ok(board.heading));
    board
}

fn heading(text: &str) -> Heading<'_> {
    board(text).heading
}

fn card(number: u8) -> Card {
    Card::new(number).unwrap()
}

/// The cards of a seat, as often as it holds them.
fn hand(heading: &Heading, seat: Seat) -> String {
    let card = |n: usize| card(n as u8).to_string();
    let counts = heading.deal.hand(seat).iter().enumerate();
    let cards: Vec<String> = counts
        .map(|(n, count)| card(n).repeat(*count as usize))
        .collect();
    cards.concat()
}

fn lengths(heading: &Heading) -> [u64; 4] {
    Seat::ALL.map(|seat| heading.deal.len(seat))
}

// Document 01's examples

#[test]
fn nothing_read() {
    for text in ["", "a|b", "hello", "pg||", "xx|md|3SA|"] {
        let Board {
            heading,
            calls,
            play,
        } = board(text);
        assert_eq!(heading, Heading::default());
        assert_eq!(heading.names, [""; 4]);
        assert_eq!(heading.dealer, Seat::North);
        assert_eq!(lengths(&heading), [0; 4]);
        assert_eq!(heading.vulnerability, Vulnerability::None);
        assert_eq!((heading.title, heading.room_board), (None, None));
        assert_eq!((heading.board_header, heading.claim), (None, None));
        assert_eq!((calls.len(), play.len()), (0, 0));
    }
}

#[test]
fn cases_of_deals() {
    let c4 = heading("md|1|");
    assert_eq!((c4.dealer, lengths(&c4)), (Seat::South, [0; 4]));
    let c5 = heading("md|3SA|md|0SK|");
    assert_eq!((c5.dealer, lengths(&c5)), (Seat::North, [1, 0, 0, 0]));
    assert_eq!(hand(&c5, Seat::South), "SA");
}

#[test]
fn cases_of_claims() {
    // C6 and C7
    assert_eq!(heading("mc|9|mc|x|").claim, None);
    assert_eq!(heading("mc|+009|").claim, Some(9));
    for (value, claim) in [
        ("0", Some(0)),
        ("255", Some(255)),
        (" +7\n", Some(7)),
        ("256", None),
        ("+", None),
        ("-0", None),
        ("++5", None),
        ("+ 7", None),
        ("", None),
    ] {
        assert_eq!(heading(&format!("mc|{value}|")).claim, claim, "{value:?}");
    }
    let long = format!("mc|{}9|", "0".repeat(65_000));
    assert_eq!(heading(&long).claim, Some(9));
}

#[test]
fn cases_of_play() {
    // C8
    assert_eq!(board("pc|SA|pc|S|pc|!SA|").play, [card(12)]);
    let play = board("pc| s2 |pc|HA|pc|dT|pc|Ck|pc|S10|").play;
    assert_eq!(play, [0, 25, 34, 50].map(card));
    let shown: Vec<String> = play.iter().map(Card::to_string).collect();
    assert_eq!(shown, ["S2", "HA", "DT", "CK"]);
}

#[test]
fn cases_of_vulnerability() {
    // C9
    assert_eq!(heading("sv|b|sv|x|").vulnerability, Vulnerability::None);
    for (value, vulnerability) in [
        ("n", Vulnerability::NorthSouth),
        (" Ns ", Vulnerability::NorthSouth),
        ("E", Vulnerability::EastWest),
        ("ew", Vulnerability::EastWest),
        ("B", Vulnerability::Both),
        ("both", Vulnerability::Both),
        ("ALL", Vulnerability::Both),
        ("n\u{17F}", Vulnerability::None),
        ("o", Vulnerability::None),
    ] {
        let text = format!("sv|{value}|");
        assert_eq!(heading(&text).vulnerability, vulnerability, "{value:?}");
    }
}

#[test]
fn cases_of_calls() {
    let call = |bid: &'static str, alerted| Call {
        bid,
        alerted,
        annotation: None,
    };
    // C10
    assert_eq!(board("mb|1C!!|").calls, [call("1C", true)]);
    let made = board("mb|p|mb|1C! |mb|!!|mb||mb| d|").calls;
    assert_eq!(
        made,
        [
            call("p", false),
            call("1C! ", false),
            call("", true),
            call("", false),
            call(" d", false),
        ]
    );
}

#[test]
fn annotations_of_calls() {
    let made = board("an|early|mb|1N|an|one|an|15-17|mb|p|pc|SA|an||mb|d|").calls;
    let annotations: Vec<_> = made.iter().map(|c| c.annotation).collect();
    assert_eq!(annotations, [Some("15-17"), Some(""), None]);
}

#[test]
fn the_listed_board() {
    let text = "qx|o1|md|3SAK,SQJ,ST9|mb|1C!|pc|SA|mc|9|";
    let Board {
        heading,
        calls,
        play,
    } = board(text);
    assert_eq!(heading.room_board, Some("o1"));
    assert_eq!(heading.dealer, Seat::North);
    assert_eq!(lengths(&heading), [2, 2, 2, 0]);
    assert_eq!(hand(&heading, Seat::West), "SJSQ");
    assert_eq!(heading.claim, Some(9));
    assert_eq!((calls.len(), calls[0].bid), (1, "1C"));
    assert_eq!(play, [card(12)]);
    // a part of the caller's text, not a copy
    assert_eq!(calls[0].bid.as_ptr(), text[25..].as_ptr());
}

// Points of the fields

#[test]
fn names() {
    let read = |text| heading(text).names;
    assert_eq!(read("pn|a, b,é|"), ["a", " b", "é", ""]);
    assert_eq!(read("pn|a,b,c,d|pn||"), ["", "b", "c", "d"]);
    assert_eq!(read("pn|a,b,c,d,e|pn|f,|"), ["f", "", "c", "d"]);
    // never set is 0, 0; an empty piece stands at its place
    let numbers = boards::heading_numbers(b"pn|a,,b|");
    assert_eq!(numbers.board.names, [3, 1, 5, 0, 6, 1, 0, 0]);
}

#[test]
fn texts_and_their_absence() {
    let read = |text| {
        let h = heading(text);
        [h.title, h.room_board, h.board_header]
    };
    let absent = [None, None, None];
    let empty_header = [None, None, Some("")];
    assert_eq!(read("mn|a|qx|b|mn||qx||"), absent);
    assert_eq!(read("ah|c|ah||"), empty_header);
    let kept = [Some(" a\n"), Some("o1"), Some("Board+7")];
    assert_eq!(read("mn| a\n|qx|o1|ah|Board+7|"), kept);

    let numbers = boards::heading_numbers(b"mn|ab|ah||").board;
    let words = |t: boards::LinText| [t.present, t.start, t.len];
    assert_eq!(words(numbers.title), [1, 3, 2]);
    assert_eq!(words(numbers.room_board), [0, 0, 0]);
    assert_eq!(words(numbers.board_header), [1, 9, 0]);
}

#[test]
fn commands_in_any_dress() {
    let dressed = heading("\r\nMD|1|\u{3000}mN\u{85}|a|\u{FEFF}qx|b|\u{200B}ah|c|");
    assert_eq!(dressed.dealer, Seat::South);
    assert_eq!(dressed.title, Some("a"));
    assert_eq!(dressed.room_board, Some("b"));
    assert_eq!(dressed.board_header, None);
}

/// Trimming removes the mark as well as white space, and what is not trimmed keeps it.
#[test]
fn byte_order_marks() {
    let trimmed = "\u{FEFF}md\u{FEFF}|\u{FEFF}1SA\u{FEFF}|sv| \u{FEFF}b\u{FEFF} |\
                   pc|\u{FEFF}SA\u{FEFF}|mc|\u{FEFF}\u{3000}9\u{FEFF}|";
    let plain = "md|1SA|sv|b|pc|SA|mc|9|";
    assert_eq!(heading(trimmed), heading(plain));
    let kept = "pn|\u{FEFF}a|mn|\u{FEFF}|qx|\u{FEFF}r|ah|h\u{FEFF}|mb|\u{FEFF}1C!|an|\u{FEFF}|";
    let board = boards::board(kept.as_bytes()).unwrap();
    assert_eq!(board.heading.names, ["\u{FEFF}a", "", "", ""]);
    assert_eq!(board.heading.title, Some("\u{FEFF}"));
    assert_eq!(board.heading.room_board, Some("\u{FEFF}r"));
    assert_eq!(board.heading.board_header, Some("h\u{FEFF}"));
    assert_eq!(board.calls[0].bid, "\u{FEFF}1C");
    assert_eq!(board.calls[0].annotation, Some("\u{FEFF}"));
    for like in ["\u{FFFE}", "\u{200B}", "\u{2060}"] {
        let text = format!("{like}md|1|mc|{like}9|");
        assert_eq!(heading(&text), heading(""));
    }
}

#[test]
fn hands() {
    let south = |text| hand(&heading(text), Seat::South);
    assert_eq!(south("md|11SA|"), "SA");
    assert_eq!(south("md|1AsaKxhq1|"), "SKSAHQ");
    assert_eq!(south("md|1SAA|"), "SASA");
    let apart = heading("md|1S,AK|");
    assert_eq!(lengths(&apart), [0; 4]);
    let again = heading("md|1SA,SK|md|2,SQ|");
    assert_eq!((again.dealer, lengths(&again)), (Seat::West, [0, 1, 0, 0]));
}

#[test]
fn implied_east() {
    let suits = ["S", "H", "D"].map(|s| format!("{s}AKQJT98765432"));
    let three = suits.join(",");
    for east in ["", ",", ", \u{3000}", ",\u{FEFF},", ",,SA", ", ,x"] {
        let text = format!("md|1{three}{east}|");
        let all = heading(&text);
        assert_eq!(lengths(&all), [13; 4], "{east:?}");
        assert_eq!(all.deal.hand(Seat::East)[39..], [1; 13]);
    }
    for (east, cards) in [(",x", 0), (",S", 0), (",\u{200B},", 0), (",SA", 1)] {
        let text = format!("md|1{three}{east}|");
        assert_eq!(lengths(&heading(&text))[3], cards, "{east:?}");
    }
    let repeated = ["SAAAAAAAAAAAAA"; 3].join(",");
    let text = format!("md|1{repeated}|");
    assert_eq!(lengths(&heading(&text)), [13, 13, 13, 51]);
}

// Refusals

const TEXT: &[u8] = b"mb|p|pc|SA|mb|1C!|an|x|pc|HK|pc|D2|";

#[test]
fn refuses_1_then_2() {
    let refused = |text: &[u8]| {
        assert_eq!(boards::heading(text).err(), boards::board(text).err());
        boards::board(text).err()
    };
    assert_eq!(refused(&vec![b' '; LIMIT]), None);
    let long = Some(Refusal::TextTooLong);
    assert_eq!(refused(&vec![b' '; LIMIT + 1]), long);
    assert_eq!(refused(&vec![0xFF; LIMIT + 1]), long);
    assert_eq!(refused(b"\xFF"), Some(Refusal::NotUtf8(0)));
    // 2 comes before 3
    assert_eq!(refused(b"mb|p|pc|SA|\xC3"), Some(Refusal::NotUtf8(11)));
    let refused = boards::parse_lin_into(b"mb|p|\xFF", &mut [], &mut []);
    assert_eq!(refused, Err(Refusal::NotUtf8(5)));
}

#[test]
fn too_few_rows() {
    let few = |kind, n| Some(Refusal::TooFewRows(kind, n));
    let no_calls = few(RowKind::Calls, 2);
    let no_cards = few(RowKind::Cards, 3);
    for (words, places, refusal) in [
        (0, 0, no_calls),
        (0, 3, no_calls),
        (11, 2, no_calls),
        (11, 9, no_calls),
        (12, 0, no_cards),
        (12, 2, no_cards),
        (99, 2, no_cards),
        (12, 3, None),
    ] {
        let (mut rows, mut cards) = (vec![7; words], vec![8; places]);
        let answer = boards::parse_lin_into(TEXT, &mut rows, &mut cards);
        assert_eq!(answer.err(), refusal, "{words}, {places}");
        if refusal.is_some() {
            assert_eq!((rows, cards), (vec![7; words], vec![8; places]));
        }
    }
    let one = boards::parse_lin_into(b"mb|p|", &mut [], &mut []);
    assert_eq!(one.err(), few(RowKind::Calls, 1));
}

#[test]
fn rows_beyond_those_needed() {
    let (mut rows, mut cards) = ([7; 20], [8; 5]);
    let heading = boards::parse_lin_into(TEXT, &mut rows, &mut cards).unwrap();
    assert_eq!((heading.calls, heading.cards), (2, 3));
    assert_eq!(rows[..12], [3, 1, 0, 0, 0, 0, 14, 2, 1, 1, 21, 1]);
    assert_eq!(rows[12..], [7; 8]);
    assert_eq!(cards, [12, 24, 26, 8, 8]);
}

/// A refusal gives the numbers of a fresh board, without calls and cards.
#[test]
fn a_refusal_has_a_fresh_board() {
    let fresh = boards::heading_numbers(b"");
    let no_rows = || boards::parse_lin_numbers(TEXT, &mut [], &mut []);
    for refused in [boards::heading_numbers(b"md|1|\xFF"), no_rows()] {
        assert_ne!(refused.answer.refusal, 0);
        assert_eq!(refused.board, fresh.board);
        assert_eq!((refused.calls, refused.cards), (0, 0));
    }
    assert_eq!((fresh.answer.read(), fresh.board.dealer), (Ok(0), 2));
    assert_eq!(fresh.board.names, [0; 8]);
    assert_eq!(fresh.board.counts, [0; 208]);
}

// Lengths

#[test]
fn texts_at_the_limit() {
    let calls = "mb||".repeat(LIMIT / 4);
    let read = boards::board(calls.as_bytes()).unwrap();
    assert_eq!(read.calls.len(), 262_144);
    let long = format!("md|1{}|", "SA".repeat((LIMIT - 5) / 2));
    assert_eq!(heading(&long).deal.hand(Seat::South)[12], 524_285);
}

// Cards

#[test]
fn cards_as_letters() {
    for (n, card) in (0..52).zip(Card::all()) {
        assert_eq!((card.number(), Card::new(n)), (n, Some(card)));
        assert_eq!(Card::of(card.suit(), card.rank()), card);
        let text = card.to_string();
        assert_eq!(text.parse(), Ok(card));
        assert_eq!(text.to_lowercase().parse(), Ok(card));
        assert_eq!(board(&format!("pc|{text}|")).play, [card]);
    }
    assert_eq!(Card::all().count(), 52);
    assert!((52..=255).all(|n| Card::new(n).is_none()));
    for text in ["", "S", "A", "SAK", "S1", "AS", "Ś2", "SÁ", " SA", "S10"] {
        assert!(text.parse::<Card>().is_err(), "{text}");
    }
}

#[test]
fn cards_of_a_hand() {
    let text = "md|1S2A2HK,|";
    let deal = heading(text).deal;
    let south: Vec<_> = deal.cards(Seat::South).map(|c| c.to_string()).collect();
    assert_eq!(south, ["SA", "S2", "S2", "HK"]);
    assert_eq!(deal.cards(Seat::West).count(), 0);
    assert_eq!(heading("pn|a,b|").name(Seat::West), "b");
}
