//! Differential runs: fresh cases of every kind, compared with what is expected, by
//! upstream and the model, for a time that is given.

mod random;
mod scalars;
mod words;

use crate::{compare::Same, model::has_mark};
use oracle::random::Rng;
use scalars::Scalars;
use std::{
    fmt,
    time::{Duration, Instant},
};
use words::Words;

/// What is compared.
#[derive(Debug, Clone, Copy, PartialEq, Eq)]
pub enum Kind {
    /// Texts, by their tokens.
    Texts,
    /// Runs of bytes, opened.
    Bytes,
    /// Places that a cursor steps from.
    Places,
    /// Documents written.
    Documents,
    /// Boards read.
    Boards,
    /// Files read.
    Files,
    /// Steps that read a board, from any place.
    Reads,
    /// Files walked by them.
    Walks,
    /// Names looked for.
    Names,
    /// Boards written.
    Written,
    /// Play texts.
    Plays,
    /// Pairs of boards, compared both ways.
    Pairs,
    /// Lists of appends.
    Lists,
    /// The appends in them.
    Appends,
    /// Annotations as text.
    Annotations,
    /// PBN records.
    Records,
    /// Auctions.
    Auctions,
    /// Texts with one scalar value.
    Scalars,
    /// Short words.
    Words,
}

impl Kind {
    /// Every kind, with its line of a report.
    pub const ALL: [(Kind, &'static str); 19] = [
        (Kind::Texts, "texts, by tokens"),
        (Kind::Bytes, "runs of bytes, opened"),
        (Kind::Places, "places that a cursor steps from"),
        (Kind::Documents, "documents written"),
        (Kind::Boards, "boards read"),
        (Kind::Files, "files read"),
        (Kind::Reads, "steps that read a board, from any place"),
        (Kind::Walks, "files walked by them"),
        (Kind::Names, "names with accents, looked for"),
        (Kind::Written, "boards written"),
        (Kind::Plays, "play texts"),
        (Kind::Pairs, "pairs of boards, compared both ways"),
        (Kind::Lists, "lists of appends"),
        (Kind::Appends, "appends in them"),
        (Kind::Annotations, "annotations"),
        (Kind::Records, "PBN records"),
        (Kind::Auctions, "auctions"),
        (Kind::Scalars, "texts with one scalar value"),
        (Kind::Words, "short words"),
    ];
}

/// How many cases of each kind were compared, and what differed.
#[derive(Debug, Clone, Default)]
pub struct Report {
    counts: [u64; Kind::ALL.len()],
    marks: [u64; Kind::ALL.len()],
    /// How many scalar values had their turn, and how many there are.
    pub scalars: (u64, u64),
    /// The same of short words.
    pub words: (u64, u64),
    /// What differed, each with its case.
    pub differences: Vec<String>,
}

impl Report {
    /// How many cases of a kind were compared.
    pub fn count(&self, kind: Kind) -> u64 {
        self.counts[kind as usize]
    }

    /// How many of them had a byte order mark.
    pub fn marks(&self, kind: Kind) -> u64 {
        self.marks[kind as usize]
    }

    /// How many cases were compared.
    pub fn cases(&self) -> u64 {
        self.counts.iter().sum()
    }

    /// Counts a case of this text, and keeps what differs.
    fn add(&mut self, kind: Kind, text: &[u8], outcome: Same, subject: impl FnOnce() -> String) {
        self.add_many(kind, text, 1);
        if let Err(difference) = outcome {
            self.differences
                .push(format!("{difference}\n{}", subject()));
        }
    }

    /// Counts so many cases of this text.
    fn add_many(&mut self, kind: Kind, text: &[u8], many: usize) {
        self.counts[kind as usize] += many as u64;
        if has_mark(text) {
            self.marks[kind as usize] += many as u64;
        }
    }
}

impl fmt::Display for Report {
    fn fmt(&self, f: &mut fmt::Formatter) -> fmt::Result {
        let line = |count, name, marks| {
            format!("{count:>10} {name}, {marks} of them with a byte order mark")
        };
        for (kind, name) in Kind::ALL {
            writeln!(f, "{}", line(self.count(kind), name, self.marks(kind)))?;
        }
        let marks = self.marks.iter().sum();
        writeln!(f, "{}", line(self.cases(), "cases", marks))?;
        let swept = |(done, all): (u64, u64)| format!("{} of {all}", done.min(all));
        writeln!(f, "scalar values: {}", swept(self.scalars))?;
        writeln!(f, "short words: {}", swept(self.words))?;
        for difference in &self.differences {
            writeln!(f, "DIFFERS {difference}")?;
        }
        write!(f, "{} differences", self.differences.len())
    }
}

/// A run of so much time; a seed gives the same cases in the same order.
pub fn run(time: Duration, seed: u64) -> Report {
    let mut rng = Rng::new(seed);
    let mut report = Report::default();
    let mut scalars = Scalars::new(seed);
    let mut words = Words::new(seed);
    let start = Instant::now();
    while start.elapsed() < time {
        random::round(&mut rng, &mut report);
        scalars.some(&mut report);
        words.some(&mut report);
    }
    report.scalars = scalars.turns();
    report.words = words.turns();
    report
}
