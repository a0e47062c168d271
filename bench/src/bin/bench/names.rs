//! Names looked for by accents, which upstream does not do: the export beside the
//! model, which is plain Rust and not upstream's.

use crate::works::{in_turn, places_needed, Times};
use lin_bench::{
    model,
    samples::hostile_names::{self, Asked},
};
use lin_host_rust::files::{enough_places, find_name, find_name_in};
use oracle::{lin::write_lin_file, random::Rng, records};
use std::hint::black_box;

/// Whose the work space is, and how long.
#[derive(Clone, Copy)]
enum Work {
    /// The call's own, with places enough for any names.
    Own,
    /// Lent, with places enough for any names: the file is walked once.
    Enough,
    /// Lent, with just the places that are needed: the file is walked for them before.
    Needed,
}

/// A row: its name in the table, the file and the name for so many bytes, and the work
/// space.
pub struct Names {
    pub name: String,
    made: fn(usize) -> Asked,
    work: Work,
}

/// All rows: a realistic file with accents, and hostile names.
pub fn all() -> Vec<Names> {
    let row = |name: &str, made, work| {
        let name = match work {
            Work::Own => format!("find_name, {name}"),
            Work::Enough => format!(".., {name}, once"),
            Work::Needed => format!(".., {name}, twice"),
        };
        Names { name, made, work }
    };
    let all = [Work::Own, Work::Enough, Work::Needed];
    let mut rows = Vec::from(all.map(|work| row("accents in realistic", accented, work)));
    for hostile in hostile_names::ALL {
        let all = [Work::Enough, Work::Needed];
        rows.extend(all.map(|work| row(hostile.name, hostile.made, work)));
    }
    rows
}

impl Names {
    /// The least times of the model and of the export, whose answers are held to be
    /// the same before.
    pub fn time(&self, len: usize, runs: usize) -> Times {
        let asked = (self.made)(len);
        let (text, name) = (asked.text.as_bytes(), asked.name.as_bytes());
        let places = match self.work {
            Work::Own => 0,
            Work::Enough => enough_places(text, name),
            Work::Needed => places_needed(text, name),
        };
        let mut work = vec![0; places];
        let find = || match self.work {
            Work::Own => find_name(black_box(text), name),
            _ => find_name_in(black_box(text), name, &mut work),
        };
        let modelled = || model::names::find_name(black_box(text), name, usize::MAX);
        assert_eq!(modelled(), Ok(asked.boards));
        in_turn(text.len(), runs, modelled, find, |a, b| a == b)
    }
}

/// Names with accents, composed.
const COMPOSED: &[&str] = &[
    "José",
    "Åsa Öberg",
    "Nguyễn Văn",
    "Đặng Thị Ánh",
    "Zoë Müller",
    "François Lefèvre",
    "Łukasz Żak",
    "Søren Ærø",
];

/// A file of realistic boards whose names are composed, and one of them taken apart.
fn accented(len: usize) -> Asked {
    let rng = &mut Rng::new(4);
    let mut text = String::with_capacity(len);
    let mut boards = 0;
    for number in 1.. {
        let mut board = records::board(rng, number);
        board.player_names = [(); 4].map(|_| rng.pick(COMPOSED).to_string());
        let has = board.player_names.iter().any(|n| n == COMPOSED[2]);
        let more = write_lin_file(&[board]);
        if len < text.len() + more.len() {
            break;
        }
        text += &more;
        boards += u64::from(has);
    }
    Asked {
        text,
        name: "Nguye\u{302}\u{303}n Va\u{306}n".to_string(),
        boards,
    }
}
