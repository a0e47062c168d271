//! Byte order marks: trimmed wherever trimming is done, kept where nothing is trimmed
//! (document 02, N2). What the model gives is told by hand, and that upstream, whose
//! trimming leaves the mark, gives something else.

use lin_bench::{
    compare::{self, Same},
    expected, log,
    model::{self, has_mark, trim, MARK},
    samples::{
        self, auctions, built,
        marks::{ALIKE, CUT},
        pbn,
    },
    upstream,
};
use lin_host_rust::{boards::Seat, files, pbn::annotation_text, writer::Gathered, Refusal};
use oracle::{
    bridge_types::{AnnotatedCall, Call, Direction, Vulnerability},
    lin::{self, BidWithAnnotation, LinData},
    pbn::Record,
    random::Rng,
    texts,
};

fn holds(subject: &dyn std::fmt::Debug, outcome: Same) {
    if let Err(difference) = outcome {
        panic!("{difference}\nfor {subject:?}");
    }
}

/// The model's board of a text, which is the export's.
fn read(text: &str) -> LinData {
    holds(&text, compare::board(text.as_bytes()));
    model::parse_lin(text)
}

/// Whether upstream reads another board than the model.
fn departs(text: &str) -> bool {
    let Ok(other) = lin::parse_lin(text);
    compare::same_boards(&model::parse_lin(text), &other).is_err()
}

/// The model's boards of a text, which are the export's.
fn boards(text: &str) -> Vec<LinData> {
    holds(&text, compare::file(text.as_bytes()));
    holds(&text, compare::visits(text.as_bytes()));
    model::parse_lin_file(text)
}

/// The cards of S, W, N, E.
fn hands(board: &LinData) -> [String; 4] {
    let deal = upstream::board(board).heading.deal;
    Seat::ALL.map(|seat| deal.cards(seat).map(|card| card.to_string()).collect())
}

fn play(board: &LinData) -> Vec<String> {
    let cards = board.play.iter().map(upstream::card);
    cards.map(|card| card.to_string()).collect()
}

/// A call with its alert and its annotation.
fn call(bid: &str, alert: bool, annotation: Option<&str>) -> BidWithAnnotation {
    BidWithAnnotation {
        bid: bid.to_string(),
        alert,
        annotation: annotation.map(str::to_string),
    }
}

/// A text behind marks, among white space too.
fn behind(text: &str) -> [String; 5] {
    [
        format!("\u{FEFF}{text}"),
        format!("\u{FEFF}\u{FEFF}\u{FEFF}{text}"),
        format!(" \u{FEFF}{text}"),
        format!("\u{FEFF}\u{3000}{text}"),
        format!("\r\n\u{FEFF} \u{FEFF}\t{text}"),
    ]
}

/// The same, and before marks, and between them.
fn about(text: &str) -> Vec<String> {
    let mut all = behind(text).to_vec();
    all.push(format!("{text}\u{FEFF}"));
    all.push(format!("{text} \u{FEFF}\u{FEFF}\u{85}"));
    all.push(format!("\u{FEFF}{text}\u{FEFF}"));
    all.push(format!("\u{2028}\u{FEFF}{text}\u{FEFF}\u{A0}\u{FEFF}"));
    all
}

/// What a board must be.
type Test = fn(&LinData) -> bool;

/// The table of docs/DIFFERENCES.md but East and files: a text for each place, what upstream
/// reads and what is read here.
const TABLE: [(&str, Test, Test); 5] = [
    ("\u{FEFF}md|1|", dealt_by_north, dealt_by_south),
    ("md|\u{FEFF}1|", dealt_by_north, dealt_by_south),
    (
        "sv|\u{FEFF}b|",
        |b| b.vulnerability == Vulnerability::None,
        |b| b.vulnerability == Vulnerability::Both,
    ),
    (
        "pc|SA\u{FEFF}|",
        |b| play(b).is_empty(),
        |b| play(b) == ["SA"],
    ),
    (
        "mc|\u{FEFF}9|",
        |b| b.claim.is_none(),
        |b| b.claim == Some(9),
    ),
];

fn dealt_by_north(board: &LinData) -> bool {
    board.dealer == Direction::North
}

fn dealt_by_south(board: &LinData) -> bool {
    board.dealer == Direction::South
}

#[test]
fn as_the_table_says() {
    for (text, theirs, ours) in TABLE {
        let Ok(upstreams) = lin::parse_lin(text);
        assert!(theirs(&upstreams) && ours(&read(text)), "{text:?}");
    }
    let text = format!("md|1{THREE},\u{FEFF},|");
    let Ok(upstreams) = lin::parse_lin(&text);
    let easts = [upstreams, read(&text)].map(|b| hands(&b)[3].clone());
    assert_eq!(easts, ["", "CACKCQCJCTC9C8C7C6C5C4C3C2"]);
    for text in ["\u{FEFF}", "\u{FEFF}qx|a|sv|n|"] {
        let Ok(upstreams) = lin::parse_lin_file(text);
        assert_eq!((upstreams.len(), boards(text).len()), (1, 0), "{text:?}");
    }
}

// What is trimmed

#[test]
fn commands() {
    let all: [(&str, &str, Test); 10] = [
        ("pn", "Ann", |b| b.player_names == ["Ann", "", "", ""]),
        ("MD", "1SA", |b| hands(b) == ["SA", "", "", ""]),
        ("sv", "b", |b| b.vulnerability == Vulnerability::Both),
        ("mn", "t", |b| b.title.as_deref() == Some("t")),
        ("qX", "o1", |b| b.room_board.as_deref() == Some("o1")),
        ("ah", "", |b| b.board_header.as_deref() == Some("")),
        ("mb", "1C!", |b| b.auction[1] == call("1C", true, None)),
        ("an", "x", |b| b.auction == [call("p", false, Some("x"))]),
        ("pc", "SA", |b| play(b) == ["SA"]),
        ("mc", "9", |b| b.claim == Some(9)),
    ];
    for (command, value, test) in all {
        for command in about(command) {
            let text = format!("mb|p|{command}|{value}|");
            assert!(test(&read(&text)), "{text:?}");
            assert!(departs(&text), "{text:?}");
        }
    }
}

#[test]
fn values() {
    let all: [(&str, &str, Test); 7] = [
        ("sv", "n", |b| b.vulnerability == Vulnerability::NorthSouth),
        ("sv", "EW", |b| b.vulnerability == Vulnerability::EastWest),
        ("sv", "all", |b| b.vulnerability == Vulnerability::Both),
        ("pc", "SA", |b| play(b) == ["SA"]),
        ("pc", "dt", |b| play(b) == ["DT"]),
        ("mc", "9", |b| b.claim == Some(9)),
        ("mc", "+013", |b| b.claim == Some(13)),
    ];
    for (command, value, test) in all {
        for value in about(value) {
            let text = format!("{command}|{value}|");
            assert!(test(&read(&text)), "{text:?}");
            assert!(departs(&text), "{text:?}");
        }
    }
}

/// Behind the mark stands the dealer. Before it the last hand ends, where upstream
/// skips it as any other character.
#[test]
fn dealers() {
    for value in about("1SA") {
        let text = format!("md|{value}|");
        let board = read(&text);
        assert_eq!(board.dealer, Direction::South, "{text:?}");
        assert_eq!(hands(&board), ["SA", "", "", ""], "{text:?}");
    }
    for value in behind("4,,,H2") {
        let text = format!("md|{value}|");
        let board = read(&text);
        assert_eq!(board.dealer, Direction::East, "{text:?}");
        assert_eq!(hands(&board), ["", "", "", "H2"], "{text:?}");
        assert!(departs(&text), "{text:?}");
    }
}

const THREE: &str = "SAKQJT98765432,HAKQJT98765432,DAKQJT98765432";

#[test]
fn easts() {
    let clubs = "CACKCQCJCTC9C8C7C6C5C4C3C2";
    for east in about("") {
        for rest in ["", ",x"] {
            let text = format!("md|2{THREE},{east}{rest}|");
            assert_eq!(hands(&read(&text))[3], clubs, "{text:?}");
            // without a further field, the mark is at the end of the md too
            assert!(departs(&text), "{text:?}");
        }
        let short = format!("md|2SA,HA,DA,{east}|");
        assert_eq!(hands(&read(&short)), ["SA", "HA", "DA", ""]);
    }
    for (east, held) in [
        ("\u{FEFF}x", ""),
        ("\u{FEFF}\u{200B}", ""),
        ("\u{FFFE}", ""),
        ("\u{FEFF}S\u{FEFF}", ""),
        ("\u{FEFF}SA\u{FEFF}", "SA"),
        ("S\u{FEFF}A", "SA"),
    ] {
        let text = format!("md|2{THREE},{east}|");
        assert_eq!(hands(&read(&text))[3], held, "{text:?}");
    }
}

/// Texts, how many boards they have, and how many upstream finds.
#[test]
fn lines() {
    for (text, many, upstreams) in [
        ("\u{FEFF}", 0, 1),
        ("\u{FEFF}\u{FEFF} \u{FEFF}", 0, 1),
        ("\u{3000}\u{FEFF}\t\r\n\u{FEFF}\n\n\u{FEFF}", 0, 3),
        ("md|1|\n\u{FEFF}\nmd|2|", 2, 3),
        ("\u{FEFF}\nhello", 1, 2),
        ("\u{FEFF}hello", 1, 1),
        ("\u{FEFF}|", 1, 1),
        ("\u{FEFF}\u{FFFE}\n\u{200B}\u{FEFF}", 2, 2),
    ] {
        assert_eq!(boards(text).len(), many, "{text:?}");
        let Ok(others) = lin::parse_lin_file(text);
        assert_eq!(others.len(), upstreams, "{text:?}");
    }
}

/// The same of texts with qx behind a mark: the mark decides whether the file has
/// parts, where they begin and whether they are boards.
#[test]
fn parts() {
    for (text, many, upstreams) in [
        ("\u{FEFF}qx|a|sv|n|", 0, 1),
        ("\u{FEFF}qx|a|", 0, 1),
        ("\u{FEFF}qx|a|\nmd|1|\n", 1, 2),
        ("md|1|\u{FEFF}qx|a|md|2|", 2, 1),
        ("qx|a|\u{FEFF}md|1|", 1, 0),
        ("qx|a|md\u{FEFF}|1|qx|b|md|2|", 2, 1),
        ("hello\n\u{FEFF}\n\u{FEFF}QX\u{FEFF}|a|", 2, 3),
        ("\u{FEFF}\n\u{FEFF}QX\u{FEFF}|a|MD|1|", 1, 2),
        ("md|1|\nmb|p\n\u{FEFF}qx|a|md|2|", 3, 3),
    ] {
        assert_eq!(boards(text).len(), many, "{text:?}");
        let Ok(others) = lin::parse_lin_file(text);
        assert_eq!(others.len(), upstreams, "{text:?}");
    }
}

/// mn and pn behind marks belong to the part whose qx they lead.
#[test]
fn leading_tokens() {
    let text = "md|1|\u{FEFF}mn|t|\u{FEFF} pn\u{FEFF}|Ann|qx|a|md|2|";
    let [first, second] = boards(text).try_into().unwrap();
    assert_eq!((first.title, first.dealer), (None, Direction::South));
    assert_eq!(second.title.as_deref(), Some("t"));
    assert_eq!(second.player_names[0], "Ann");
    let Ok(others) = lin::parse_lin_file(text);
    assert_eq!(others.len(), 2);
    assert_eq!(others[1].title, None);
}

/// Marks and white space at both ends, in any order and number.
#[test]
fn any_order_and_number() {
    let runs = texts::words(&["\u{FEFF}", " ", "\u{3000}", "\u{85}"], 3);
    for left in &runs {
        for right in &runs {
            let at = |text: &str| format!("{left}{text}{right}");
            assert_eq!(trim(at("a").as_bytes()), b"a");
            assert_eq!(trim(at("").as_bytes()), b"");
            let [pn, md, sv, pc, mc] = ["pn", "md", "sv", "pc", "mc"].map(at);
            let [deal, side, card, claim] = ["2SA", "b", "Ht", "9"].map(at);
            let text = format!("{pn}|Ann|{md}|{deal}|{sv}|{side}|{pc}|{card}|{mc}|{claim}|");
            let board = model::parse_lin(&text);
            assert_eq!(board.player_names[0], "Ann");
            assert_eq!(board.dealer, Direction::West);
            assert_eq!(hands(&board), ["SA", "", "", ""]);
            assert_eq!(board.vulnerability, Vulnerability::Both);
            assert_eq!((play(&board), board.claim), (vec!["HT".into()], Some(9)));
            holds(&text, compare::read(text.as_bytes()));
        }
    }
}

// What stays

#[test]
fn kept_where_nothing_is_trimmed() {
    let text = "pn|\u{FEFF}Ann\u{FEFF},\u{FEFF}, \u{FEFF}|mn|\u{FEFF}|qx|\u{FEFF}o1|ah|\u{FEFF}|\
                mb|\u{FEFF}1C!|an|\u{FEFF}x\u{FEFF}|mb|1C!\u{FEFF}|mb|\u{FEFF}|an|\u{FEFF}|";
    let board = read(text);
    let names = ["\u{FEFF}Ann\u{FEFF}", "\u{FEFF}", " \u{FEFF}", ""];
    assert_eq!(board.player_names, names);
    assert_eq!(board.title.as_deref(), Some("\u{FEFF}"));
    assert_eq!(board.room_board.as_deref(), Some("\u{FEFF}o1"));
    assert_eq!(board.board_header.as_deref(), Some("\u{FEFF}"));
    let calls = [
        call("\u{FEFF}1C", true, Some("\u{FEFF}x\u{FEFF}")),
        call("1C!\u{FEFF}", false, None),
        call("\u{FEFF}", false, Some("\u{FEFF}")),
    ];
    assert_eq!(board.auction, calls);
}

/// A mark within what is trimmed is as any other character.
#[test]
fn kept_within() {
    let board = read(
        "m\u{FEFF}b|p|md|1S\u{FEFF}AH\u{FEFF},\u{FEFF}2|sv|b|sv|n\u{FEFF}s|\
         pc|S\u{FEFF}A|mc|9|mc|1\u{FEFF}2|",
    );
    assert_eq!(board.auction, []);
    assert_eq!(hands(&board), ["SA", "", "", ""]);
    assert_eq!(board.vulnerability, Vulnerability::None);
    assert_eq!((play(&board), board.claim), (vec![], None));
}

#[test]
fn tokens_are_as_they_stand() {
    let text = "\u{FEFF}mb|\u{FEFF}|\u{FEFF}\n|\u{FEFF}";
    let tokens = [("\u{FEFF}mb", "\u{FEFF}")].map(|(c, v)| (c.to_string(), v.to_string()));
    let want = (tokens.to_vec(), "\u{FEFF}\n|\u{FEFF}".to_string());
    assert_eq!(expected::tokens(text), Ok(want));
    for text in texts::words(&["\u{FEFF}", "|", "a"], 6) {
        holds(&text, compare::text(&text));
    }
}

#[test]
fn names_are_not_trimmed() {
    for (text, name, many) in [
        ("\u{FEFF}pn|Ann|", "Ann", 1),
        ("pn|\u{FEFF}Ann|", "Ann", 0),
        ("pn|\u{FEFF}Ann|", "\u{FEFF}Ann", 1),
        ("pn|Ann|", "\u{FEFF}Ann", 0),
        ("pn|Ann,\u{FEFF}|\n\u{FEFF}\npn|a,b,c,d|", "", 1),
    ] {
        let found = files::find_name(text.as_bytes(), name.as_bytes());
        assert_eq!(found, Ok(many), "{text:?}, {name:?}");
        holds(&text, compare::name(text.as_bytes(), name.as_bytes()));
    }
}

#[test]
fn bids_are_not_trimmed() {
    for bid in about("p").iter().chain(&about("1NT")) {
        assert_eq!(model::auction::said(bid.as_bytes()), None, "{bid:?}");
        holds(bid, compare::bids(&[bid]));
        holds(bid, compare::bids(&["1C", bid, "p"]));
    }
}

#[test]
fn annotations_are_not_trimmed() {
    let notes = [(1, "weak"), (2, "\u{FEFF}")].into();
    for (raw, text) in [
        ("=\u{FEFF}1=", Some("=\u{FEFF}1=")),
        ("=1\u{FEFF}=", Some("=1\u{FEFF}=")),
        ("\u{FEFF}=1=\u{FEFF}", Some("weak")),
        ("=2==1=", Some("\u{FEFF} weak")),
        ("$\u{FEFF}1", None),
        ("!\u{FEFF}?", Some("! ?")),
        ("\u{FEFF}", None),
        ("=\u{FEFF}", None),
    ] {
        let text = text.map(str::to_string);
        assert_eq!(model::pbn::annotation_text(raw, &notes), text, "{raw:?}");
        assert_eq!(annotation_text(raw, &notes), Ok(text), "{raw:?}");
    }
}

/// Characters like the mark are trimmed nowhere, as upstream has it.
#[test]
fn others_like_it() {
    for c in ALIKE {
        let text = format!("{c}mb|p|mb{c}|p|pc|SA{c}|pc|{c}SA|sv|{c}n|mc|9{c}|md|{c}1|");
        let board = read(&text);
        assert!(compare::same_boards(&board, &model::parse_lin("")).is_ok());
        let text = format!("md|1{THREE},{c}|");
        assert_eq!(hands(&read(&text))[3], "");
        assert!(!departs(&text));
        assert_eq!(boards(&format!("{c}\n{c}qx|a|\n")).len(), 2);
    }
}

// Marks cut short

#[test]
fn cut_marks_are_not_trimmed() {
    let all: [(&[u8], &[u8]); 9] = [
        (b"\xEF", b"\xEF"),
        (b"\xEF\xBB", b"\xEF\xBB"),
        (b"\xBB\xBF", b"\xBB\xBF"),
        (b" \xEF\xBB ", b"\xEF\xBB"),
        (b"\xEF\xBB\xBF\xEF\xBB", b"\xEF\xBB"),
        (b"\xEF\xEF\xBB\xBF", b"\xEF"),
        (b"\xEF\xBB\xBF\xBF", b"\xBF"),
        (
            b"\xEF\xBB\xEF\xBB\xBF\xBB\xBF",
            b"\xEF\xBB\xEF\xBB\xBF\xBB\xBF",
        ),
        (b"\xBF\xEF\xBB\xBF\xEF", b"\xBF\xEF\xBB\xBF\xEF"),
    ];
    for (bytes, left) in all {
        assert_eq!(trim(bytes), left, "{bytes:?}");
        assert_eq!(model::visit(bytes, 0, 0, 1).board, 1, "{bytes:?}");
        holds(&bytes, compare::visits(bytes));
    }
}

/// Steps that read, from every place of bytes with cut marks about lines, commands
/// and values.
#[test]
fn steps_over_cut_marks() {
    for cut in CUT {
        let texts: [&[&[u8]]; 5] = [
            &[cut, b"\n\xEF\xBB\xBF", cut, b"\n ", cut],
            &[b"md|1|\n", cut, b"\n\xEF\xBB\xBF\nmb|p|", cut],
            &[cut, b"qx|a|md|1|", cut, b"md|2|"],
            &[b"md|1|\xEF\xBB\xBFqx", cut, b"|a|md|2|"],
            &[b"pc|", cut, b"SA|sv|n", cut, b"|"],
        ];
        for text in texts {
            let text = text.concat();
            holds(&text, compare::visits(&text));
            holds(&text, compare::file(&text));
        }
    }
}

/// Whether a board is found, and where it begins; or the refusal.
type Told = Result<(u32, u64), Refusal>;

/// What the step that reads tells of lines: whole marks are passed, and a cut one is
/// a board that is no text.
#[test]
fn lines_of_cut_marks() {
    let lines: [(&[u8], Told); 6] = [
        (b"\xEF\xBB\xBF\n\xEF\xBB\xBF", Ok((0, 0))),
        (b"\xEF\xBB\xBF\nx", Ok((1, 4))),
        (b"\xEF\xBB", Err(Refusal::NotUtf8(0))),
        (b"\xEF\xBB\xBF\n\xEF\xBB", Err(Refusal::NotUtf8(4))),
        (b"\xEF\xBB\xBF\xEF\xBB\nx", Err(Refusal::NotUtf8(3))),
        (b"x\n\xEF\xBB", Ok((1, 0))),
    ];
    for (text, want) in lines {
        let read = model::read_board(text, 0, 0, 1, &mut [], &mut []);
        let told = read.answer.read().map(|_| (read.found, read.start));
        assert_eq!(told, want, "{text:?}");
        holds(&text, compare::read_board(text, (0, 0, 1), [0, 0]));
        holds(&text, compare::walk(text, 1));
    }
}

// Boards written and made

/// A board with marks in all its texts, and its written form.
fn marked_board() -> (LinData, &'static str) {
    let text = |text: &str| Some(text.to_string());
    let board = LinData {
        player_names: ["\u{FEFF}Ann", ",\u{FEFF},", "", "\u{FEFF}|"].map(str::to_string),
        title: text("\u{FEFF}"),
        room_board: text("o1\u{FEFF}"),
        board_header: text("\u{FEFF}\r\n"),
        auction: vec![
            call("\u{FEFF}1C!", false, Some("\u{FEFF}")),
            call("!\u{FEFF}", true, None),
        ],
        ..model::parse_lin("")
    };
    let written = "mn|\u{FEFF}|pn|\u{FEFF}Ann,\u{FEFF},,\u{FEFF}/|qx|o1\u{FEFF}|rh||\
                   ah|\u{FEFF}  |md|3,,,|sv|0|\n\
                   sa|0|mb|\u{FEFF}1C!|an|\u{FEFF}|mb|!\u{FEFF}!|pg||\n";
    (board, written)
}

/// What is written has the marks, and reads back as the settled form.
#[test]
fn written_and_read_back() {
    let (board, written) = marked_board();
    assert_eq!(model::written(&board), written);
    let lent = Gathered::from(&upstream::board(&board));
    holds(&board, compare::written(lent.lent()));
    let settled = log::settled(&board);
    let calls = [
        call("\u{FEFF}1C", true, Some("\u{FEFF}")),
        call("!\u{FEFF}", true, None),
    ];
    assert_eq!(settled.auction, calls);
    assert_eq!(settled.title.as_deref(), Some("\u{FEFF}"));
    assert_eq!(settled.player_names[1], "\u{FEFF}");
    for read in boards(&written.repeat(3)) {
        holds(&board, compare::same_boards(&read, &settled));
    }
    let list = vec![lent; 3];
    holds(&board, compare::appends(vec![7; 500], &list));
    assert_eq!(boards(&written.repeat(3)).len(), 3);
    // what is written has no mark where trimming looks, so upstream finds the same boards
    let Ok(upstreams) = lin::parse_lin_file(&written.repeat(3));
    assert_eq!(upstreams.len(), 3);
    for read in upstreams {
        holds(&board, compare::same_boards(&read, &settled));
    }
}

/// Boards with a mark are not those without it.
#[test]
fn equality_by_bytes() {
    let (board, _) = marked_board();
    let mut other = board.clone();
    other.player_names[0] = "Ann".to_string();
    assert_eq!(expected::equal(&board, &board), Ok(true));
    assert_eq!(expected::equal(&board, &other), Ok(false));
    let [one, two] = [&board, &other].map(|b| Gathered::from(&upstream::board(b)));
    holds(&board, compare::equality(one.lent(), two.lent()));
}

#[test]
fn boards_made() {
    let text = |text: &str| Some(text.to_string());
    let record = Record {
        names: [text("\u{FEFF},a|"), None, text("\u{FEFF}"), None],
        event: text("\u{FEFF}"),
        date: text("\u{FEFF}May"),
        id: text("\u{FEFF}"),
        calls: vec![AnnotatedCall {
            call: Call::Pass,
            annotation: text("\u{FEFF}=1=$1\u{FEFF}"),
        }],
        notes: [(1, "\u{FEFF}\n".to_string())].into(),
        ..Record::default()
    };
    let made = model::made(&record);
    assert_eq!(made.player_names, ["\u{FEFF}a/", "", "\u{FEFF}", ""]);
    assert_eq!(made.title, text("\u{FEFF} - \u{FEFF}May"));
    assert_eq!(made.room_board, text("o\u{FEFF},BOARD \u{FEFF}"));
    assert_eq!(made.board_header, text("Board \u{FEFF}"));
    assert_eq!(made.auction, [call("p", false, Some("\u{FEFF}  !"))]);
    let lent = lin_host_rust::pbn::Gathered::from(&upstream::pbn_record(&record));
    holds(&lent, compare::record(lent.lent()));
}

// Samples

/// How many of some samples have a mark.
fn marks(rng: &mut Rng, sample: fn(&mut Rng) -> Vec<u8>) -> usize {
    (0..1_000).filter(|_| has_mark(&sample(rng))).count()
}

/// About one sample in three of each kind has a mark.
#[test]
fn one_in_three() {
    let rng = &mut Rng::new(91);
    let samples: [fn(&mut Rng) -> Vec<u8>; 6] = [
        |rng| samples::record(rng, 12).into_bytes(),
        |rng| samples::file(rng, 16).into_bytes(),
        |rng| Gathered::from(&upstream::board(&built::board(rng, 5, 9))).text,
        |rng| lin_host_rust::pbn::Gathered::from(&upstream::pbn_record(&pbn::record(rng))).text,
        |rng| pbn::annotation(rng).0,
        |rng| auctions::lent(rng).text,
    ];
    let counts = samples.map(|sample| marks(rng, sample));
    assert!(counts.iter().all(|n| (200..600).contains(n)), "{counts:?}");
}

/// Where upstream reads another board than the model, field by field: dealer, South's
/// hand, East's hand, vulnerability, names, texts, calls, annotations, play and claim.
fn differences(one: &LinData, other: &LinData) -> [bool; 10] {
    let [a, b] = [one, other].map(hands);
    let texts = |b: &LinData| {
        (
            b.title.clone(),
            b.room_board.clone(),
            b.board_header.clone(),
        )
    };
    let annotations = |b: &LinData| {
        let calls = b.auction.iter();
        calls.map(|c| c.annotation.clone()).collect::<Vec<_>>()
    };
    [
        one.dealer != other.dealer,
        a[0] != b[0],
        a[..3] == b[..3] && a[3] != b[3],
        one.vulnerability != other.vulnerability,
        one.player_names != other.player_names,
        texts(one) != texts(other),
        one.auction.len() != other.auction.len(),
        one.auction.len() == other.auction.len() && annotations(one) != annotations(other),
        one.play != other.play,
        one.claim != other.claim,
    ]
}

/// The marks of random records stand where they matter, in every place.
#[test]
fn marks_that_matter() {
    let rng = &mut Rng::new(92);
    let mut met = [0; 10];
    for _ in 0..20_000 {
        let text = samples::record(rng, 12);
        let (one, Ok(other)) = (model::parse_lin(&text), lin::parse_lin(&text));
        let differ = differences(&one, &other);
        met = std::array::from_fn(|n| met[n] + usize::from(differ[n]));
        assert!(text.contains(MARK) || differ == [false; 10], "{text:?}");
    }
    assert!(met.iter().all(|n| *n > 20), "{met:?}");
    let counts = |text: &str| {
        let Ok(others) = lin::parse_lin_file(text);
        (model::parse_lin_file(text).len(), others.len())
    };
    let files = (0..5_000).map(|_| samples::file(rng, 16));
    let differ = files.filter(|text| counts(text).0 != counts(text).1);
    assert!(differ.count() > 200);
}
