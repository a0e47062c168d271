//! Times upstream's calls against the exports, interleaved in one run of one
//! driver: `bench [RUNS [WORD]]`, over all inputs or those whose name has the
//! word; the export of auctions against the model, for the word `auctions`, and the
//! finder by accents against the model, for the word `accents`; and the exports alone,
//! over texts of which most is trimmed, for the word `trimmed`, and over hostile
//! records, for the word `hostile`. docs/BENCHMARKS.md says what the rows are.

mod auctions;
mod inputs;
mod names;
mod white;
mod works;

use lin_bench::samples::hostile::{self, Hostile};
use lin_host_rust::LIMIT;
use std::env;
use white::White;
use works::Times;

/// What has no match in upstream, by the words that choose it.
const SECTIONS: [(&str, fn(usize)); 4] = [
    ("auctions", report_auctions),
    ("accents", report_names),
    ("trimmed", report_trimmed),
    ("hostile records", report_records),
];

fn main() {
    let runs = env::args().nth(1).and_then(|a| a.parse().ok());
    let runs = runs.unwrap_or(21usize).max(1);
    println!(
        "least of {runs} interleaved runs, processor time; growth from 256 KiB to 512 KiB to 1 MiB"
    );
    head("Rust ms", "from bytes");
    let word = env::args().nth(2).unwrap_or_default();
    for input in inputs::ALL.iter().filter(|i| i.name.contains(&word)) {
        println!("{}", input.name);
        report_input(input, runs);
    }
    for (name, section) in SECTIONS.iter().filter(|(name, _)| name.contains(&word)) {
        println!("{name}");
        section(runs);
    }
}

/// The rows of a file.
fn report_input(input: &inputs::Input, runs: usize) {
    let texts = [LIMIT / 4, LIMIT / 2, LIMIT].map(|n| input.text(n));
    for work in works::ALL {
        let times = texts.each_ref().map(|text| (work.time)(text, runs));
        report(work.name, times);
    }
}

/// The rows of auctions, beside the model.
fn report_auctions(runs: usize) {
    head("model ms", "");
    for all in auctions::ALL {
        let times = [LIMIT / 4, LIMIT / 2, LIMIT].map(|len| all.time(len, runs));
        report(all.name, times);
    }
}

/// The rows of names, beside the model.
fn report_names(runs: usize) {
    head("model ms", "");
    for all in names::all() {
        let times = [LIMIT / 4, LIMIT / 2, LIMIT].map(|len| all.time(len, runs));
        report(&all.name, times);
    }
}

/// The rows of texts of white space and byte order marks.
fn report_trimmed(runs: usize) {
    for white in white::ALL {
        report_white(white, runs);
    }
}

/// The rows of records that upstream's types can't hold.
fn report_records(runs: usize) {
    for hostile in hostile::ALL.iter().chain(hostile::BY_NATURE) {
        report_hostile(hostile, runs);
    }
}

/// The heads of the columns, with what the exports are timed against.
fn head(against: &str, from_bytes: &str) {
    let cells = [
        "bytes",
        against,
        "exports ms",
        "ratio",
        from_bytes,
        "growth",
        "",
    ];
    line("", cells.map(str::to_string));
}

/// The row of a work by its times over three texts: those over the longest, and how
/// the exports' grow with the text.
fn report(name: &str, [quarter, half, whole]: [Times; 3]) {
    let cells = [
        format!("{}", whole.bytes),
        format!("{:.3}", whole.rust),
        format!("{:.3}", whole.exports),
        format!("{:.1}", whole.ratio()),
        whole
            .ratio_from_bytes()
            .map_or(String::new(), |r| format!("{r:.1}")),
        format!("{:.2}", half.exports / quarter.exports),
        format!("{:.2}", whole.exports / half.exports),
    ];
    line(name, cells);
}

/// The rows of a text of which most is trimmed, one for each character.
fn report_white(white: &White, runs: usize) {
    for (name, character) in white::CHARACTERS {
        let time = |len| white.time(character, len, runs);
        let times = [LIMIT / 4, LIMIT / 2, LIMIT].map(time);
        report_alone(&format!("{}, {name}", white.name), times);
    }
}

/// The row of a hostile record, which upstream's types can't hold.
fn report_hostile(hostile: &Hostile, runs: usize) {
    let times = [LIMIT / 4, LIMIT / 2, LIMIT].map(|len| {
        let asked = (hostile.made)(len);
        works::alone(runs, || asked.answer())
    });
    report_alone(hostile.name, times);
}

/// The row of exports that stand alone, by their times over three texts.
fn report_alone(name: &str, [quarter, half, whole]: [f64; 3]) {
    let empty = String::new;
    let cells = [
        format!("{LIMIT}"),
        empty(),
        format!("{whole:.3}"),
        empty(),
        empty(),
        format!("{:.2}", half / quarter),
        format!("{:.2}", whole / half),
    ];
    line(name, cells);
}

fn line(what: &str, cells: [String; 7]) {
    let [bytes, rust, exports, ratio, from_bytes, first, second] = cells;
    println!(
        "  {what:46}{bytes:>9}{rust:>9}{exports:>12}{ratio:>7}{from_bytes:>12}{first:>8}{second:>6}"
    );
}
