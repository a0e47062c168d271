//! The header `include/lin_host.h` held to the declarations beside this. A C file
//! made of the Rust types says every size, offset, type and prototype again, and
//! the C compiler accepts it.

use super::*;
use crate::{auction, boards, pbn, Refusal, RowKind, LIMIT};
use std::{
    io::Write,
    mem::{align_of, offset_of, size_of},
    process::{Command, Stdio},
};

/// A type as C has it.
trait InC {
    /// Its name, as of a parameter or a result.
    fn name() -> String;

    /// A pointer to it.
    fn pointer() -> String {
        format!("{} *", Self::name())
    }

    /// What a field of it is initialized with, with as many numbers as it has.
    fn zero() -> String {
        "0".to_string()
    }
}

macro_rules! in_c {
    ($($rust:ty: $c:literal)*) => {
        $(impl InC for $rust {
            fn name() -> String {
                $c.to_string()
            }
        })*
    };
}

in_c! {
    u32: "uint32_t"
    i32: "int32_t"
    u64: "uint64_t"
    usize: "size_t"
    *const u8: "const uint8_t *"
    *mut u8: "uint8_t *"
    *const u32: "const uint32_t *"
    *mut u32: "uint32_t *"
    *const [u32; 768]: "const uint32_t[768]"
}

impl<const N: usize> InC for [u32; N] {
    fn name() -> String {
        format!("uint32_t[{N}]")
    }

    fn pointer() -> String {
        format!("uint32_t (*)[{N}]")
    }

    fn zero() -> String {
        "{0}".to_string()
    }
}

// The structs

struct Field {
    name: &'static str,
    offset: usize,
    pointer: String,
    zero: String,
}

/// A field of the type that the path leads to.
fn field<S, T: InC>(name: &'static str, offset: usize, _path: fn(&S) -> &T) -> Field {
    Field {
        name,
        offset,
        pointer: T::pointer(),
        zero: T::zero(),
    }
}

struct Layout {
    name: &'static str,
    size: usize,
    align: usize,
    fields: Vec<Field>,
}

/// A struct of the exports.
trait Struct: InC {
    fn layout() -> Layout;
}

/// Layouts of structs by all of their fields: a field that is left out, or is
/// none, does not compile.
macro_rules! layouts {
    ($($name:ident { $($field:ident),* })*) => {
        $(impl Struct for $name {
            fn layout() -> Layout {
                let _ = |$name { $($field: _),* }: $name| ();
                Layout {
                    name: stringify!($name),
                    size: size_of::<$name>(),
                    align: align_of::<$name>(),
                    fields: vec![$(field(
                        stringify!($field),
                        offset_of!($name, $field),
                        |whole: &$name| &whole.$field,
                    )),*],
                }
            }
        }

        impl InC for $name {
            fn name() -> String {
                stringify!($name).to_string()
            }

            fn zero() -> String {
                let fields = $name::layout().fields;
                let zeros: Vec<_> = fields.into_iter().map(|field| field.zero).collect();
                format!("{{{}}}", zeros.join(", "))
            }
        })*

        fn layouts() -> Vec<Layout> {
            vec![$($name::layout()),*]
        }

        fn zeros() -> String {
            let zeros = [$(format!("const {0} any_{0} = {1};\n", $name::name(), $name::zero())),*];
            zeros.concat()
        }
    };
}

layouts! {
    LinAnswer { refusal, kind, value }
    LinStep { found, command_start, command_len, value_start, value_len, next }
    LinPart { start, len }
    LinText { present, start, len }
    LinBoard {
        names, dealer, vulnerability, title, room_board, board_header, claimed, claim, counts
    }
    LinHeading { answer, calls, cards, board }
    LinBoards { answer, at, number, lines }
    LinSection { found, number, start, stop, board, next_at, next_number }
    LinRead {
        answer, found, number, start, stop, next_at, next_number, board, calls, cards
    }
    LinAuction { answer, outcome, level, strain, doubling, declarer }
    LinAnnotation { answer, present }
    LinPbn {
        south, west, north, east, event, date, id, number_given, number, dealer_given, dealer,
        vulnerability, result_given, result, counts
    }
    LinConverted { heading, len }
}

impl Layout {
    /// The assertions.
    fn in_c(&self) -> String {
        let Layout {
            name, size, align, ..
        } = self;
        let mut c = asserted(&format!("sizeof({name}) == {size}"));
        c += &asserted(&format!("_Alignof({name}) == {align}"));
        for field in &self.fields {
            let Field {
                name: of,
                offset,
                pointer,
                ..
            } = field;
            c += &asserted(&format!("offsetof({name}, {of}) == {offset}"));
            let is = format!("_Generic(&(({name} *)0)->{of}, {pointer}: 1, default: 0)");
            c += &asserted(&is);
        }
        c
    }
}

fn asserted(what: &str) -> String {
    format!("_Static_assert({what}, {what:?});\n")
}

// The functions

/// A function by its type.
trait Declared {
    /// Its prototype.
    fn prototype(self, name: &str) -> String;
}

macro_rules! declared {
    ($($($parameter:ident)*;)*) => {
        $(impl<$($parameter: InC,)* R: InC> Declared
            for unsafe extern "C" fn($($parameter),*) -> R
        {
            fn prototype(self, name: &str) -> String {
                let parameters = [$($parameter::name()),*].join(", ");
                format!("{} {name}({parameters});\n", R::name())
            }
        })*
    };
}

declared! {
    A B;
    A B C;
    A B C D;
    A B C D E;
    A B C D E F;
    A B C D E F G;
    A B C D E F G H;
    A B C D E F G H I;
    A B C D E F G H I J;
    A B C D E F G H I J K L M N;
}

macro_rules! functions {
    ($($name:ident($($any:ty),*))*) => {
        fn functions() -> Vec<(&'static str, String)> {
            vec![$((
                stringify!($name),
                ($name as unsafe extern "C" fn($($any),*) -> _).prototype(stringify!($name)),
            )),*]
        }
    };
}

functions! {
    lin_open(_, _)
    lin_next(_, _, _)
    lin_trailing(_, _, _)
    lin_write_document(_, _, _, _, _, _, _, _)
    lin_parse_heading(_, _)
    lin_parse_lin(_, _, _, _, _, _)
    lin_count_boards(_, _)
    lin_file_heading(_, _, _)
    lin_file_board(_, _, _, _, _, _, _)
    lin_find_name(_, _, _, _, _, _)
    lin_open_boards(_, _)
    lin_next_board(_, _, _, _, _)
    lin_read_board(_, _, _, _, _, _, _, _, _)
    lin_append(_, _, _, _, _, _, _, _, _, _)
    lin_write_lin(_, _, _, _, _, _, _, _, _)
    lin_play_text(_, _, _, _)
    lin_same_board(_, _, _, _, _, _, _, _, _, _, _, _, _, _)
    lin_check_auction(_, _, _, _, _)
    lin_annotation_text(_, _, _, _, _, _, _)
    lin_from_board(_, _, _, _, _, _, _, _, _, _, _, _, _, _)
}

// The constants

/// The header's constants, each with the number that it is in Rust.
fn constants() -> Vec<(&'static str, u64)> {
    let refusals = [
        ("LIN_TEXT_TOO_LONG", Refusal::TextTooLong),
        ("LIN_NOT_UTF8", Refusal::NotUtf8(0)),
        ("LIN_TOO_FEW_ROWS", Refusal::TooFewRows(RowKind::Calls, 0)),
        ("LIN_NO_BOARD", Refusal::NoBoard(0)),
        ("LIN_SPAN_PAST_END", Refusal::SpanPastEnd),
        ("LIN_SPAN_NOT_UTF8", Refusal::SpanNotUtf8),
        ("LIN_OUTPUT_TOO_SMALL", Refusal::OutputTooSmall(0)),
        ("LIN_OUT_OF_RANGE", Refusal::OutOfRange),
        ("LIN_BID_UNKNOWN", Refusal::BidUnknown(0)),
    ];
    let kind = |kind| LinAnswer::from(Refusal::TooFewRows(kind, 0)).kind.into();
    let words = size_of::<pbn::NoteWords>() / size_of::<u32>();
    let mut all = vec![
        ("LIN_LIMIT", LIMIT as u64),
        ("LIN_ROW", boards::ROW as u64),
        ("LIN_NOTES", words as u64),
        ("LIN_GAP", pbn::GAP.into()),
        ("LIN_ACCEPTED", 0),
        ("LIN_CALLS", kind(RowKind::Calls)),
        ("LIN_CARDS", kind(RowKind::Cards)),
        ("LIN_AUCTION_REFUSED", auction::REFUSED.into()),
        ("LIN_AUCTION_PASSED_OUT", auction::PASSED_OUT.into()),
        ("LIN_AUCTION_ENDED", auction::ENDED.into()),
        ("LIN_AUCTION_OPEN", auction::OPEN.into()),
        ("LIN_AUCTION_UNLAWFUL", auction::UNLAWFUL.into()),
    ];
    all.extend(refusals.map(|(name, refusal)| (name, refusal.number().into())));
    all
}

// The compiler

/// What the C compiler says of a C file that includes the header and goes on so;
/// nothing if it accepts it.
fn compiled(rest: &str) -> Result<(), String> {
    let mut cc = Command::new("cc")
        .args("-std=c11 -Wall -Wextra -Werror -pedantic -fsyntax-only -x c".split(' '))
        .args(["-I", concat!(env!("CARGO_MANIFEST_DIR"), "/include"), "-"])
        .stdin(Stdio::piped())
        .stderr(Stdio::piped())
        .spawn()
        .expect("the C compiler cc");
    let file = format!("#include \"lin_host.h\"\n{rest}");
    let mut to = cc.stdin.take().expect("a pipe");
    to.write_all(file.as_bytes()).expect("a pipe that is read");
    drop(to);
    let done = cc.wait_with_output().expect("the C compiler cc");
    if done.status.success() {
        return Ok(());
    }
    Err(String::from_utf8_lossy(&done.stderr).into_owned())
}

#[test]
fn structs_are_those_of_rust() {
    let all: String = layouts().iter().map(Layout::in_c).collect();
    assert_eq!(compiled(&all), Ok(()));
}

/// The compiler tells of a field that has no number, wherever it stands, and of a
/// number that has no field.
#[test]
fn structs_have_no_other_fields() {
    assert_eq!(compiled(&zeros()), Ok(()));
}

#[test]
fn functions_are_those_of_rust() {
    let all: String = functions().into_iter().map(|(_, c)| c).collect();
    assert_eq!(compiled(&all), Ok(()));
}

#[test]
fn constants_are_those_of_rust() {
    let all = constants().into_iter();
    let all: String = all
        .map(|(name, number)| asserted(&format!("{name} == {number}")))
        .collect();
    assert_eq!(compiled(&all), Ok(()));
}

/// The check finds what it is for: each of these is a difference.
#[test]
fn differences_are_refused() {
    for difference in [
        asserted("sizeof(LinAnswer) == 15"),
        asserted("offsetof(LinStep, command_start) == 4"),
        asserted("_Generic(&((LinText *)0)->start, int32_t *: 1, default: 0)"),
        asserted("_Generic(&((LinBoard *)0)->names, uint32_t (*)[4]: 1, default: 0)"),
        // a field of the header that is not listed, and one that it has not
        "const LinPart one = {0};\nconst LinStep fewer = {0, 0, 0, 0, 0};\n".to_string(),
        "const LinPart more = {0, 0, 0};\n".to_string(),
        // a length of 32 bits, and two arguments exchanged
        "LinAnswer lin_open(const uint8_t *, uint32_t);\n".to_string(),
        "LinAnswer lin_play_text(uint8_t *, size_t, const uint8_t *, size_t);\n".to_string(),
        "LinPart lin_next(const uint8_t *, size_t, uint64_t);\n".to_string(),
        // the finder without its work space
        "LinAnswer lin_find_name(const uint8_t *, size_t, const uint8_t *, size_t);\n".to_string(),
        asserted("LIN_LIMIT == 1048575"),
    ] {
        assert!(compiled(&difference).is_err(), "{difference}");
    }
}

// What is listed here is all that there is

/// The header without its comments.
fn header() -> String {
    let whole = include_str!("../../include/lin_host.h");
    let mut parts = whole.split("/*");
    let first = parts.next().expect("a header").to_string();
    parts.fold(first, |code, part| {
        let (_, after) = part.split_once("*/").expect("a comment that ends");
        code + after
    })
}

/// The names in a source that begin so and are followed by this character.
fn names<'a>(source: &'a str, start: &str, follows: char) -> Vec<&'a str> {
    let apart = |c: char| !(c.is_ascii_alphanumeric() || c == '_');
    let mut all = Vec::new();
    let mut rest = source;
    while let Some(at) = rest.find(|c| !apart(c)) {
        rest = &rest[at..];
        let (name, after) = rest.split_at(rest.find(apart).unwrap_or(rest.len()));
        if name.starts_with(start) && after.trim_start().starts_with(follows) {
            all.push(name);
        }
        rest = after;
    }
    all.sort_unstable();
    all
}

#[test]
fn nothing_is_left_out() {
    let header = header();
    let rust = include_str!("../ffi.rs");

    let mut listed: Vec<_> = functions().iter().map(|(name, _)| *name).collect();
    listed.sort_unstable();
    assert_eq!(names(rust, "lin_", '('), listed);
    assert_eq!(names(&header, "lin_", '('), listed);

    let mut listed: Vec<_> = layouts().iter().map(|layout| layout.name).collect();
    listed.sort_unstable();
    assert_eq!(names(rust, "Lin", '{'), listed);
    assert_eq!(names(&header, "Lin", '{'), listed);

    let mut listed: Vec<_> = constants().iter().map(|(name, _)| *name).collect();
    listed.sort_unstable();
    let lines = header.lines().filter_map(|line| {
        let line = line.trim().trim_start_matches("#define ");
        let (name, number) = line.split_once([' ', '='])?;
        let number = number.trim_matches([' ', '=', ',']);
        (name.starts_with("LIN_") && number.parse::<u64>().is_ok()).then_some(name)
    });
    let mut told: Vec<_> = lines.collect();
    told.sort_unstable();
    assert_eq!(told, listed);
}
