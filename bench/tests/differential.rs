//! A differential run of a few seconds, with cases of every kind, with byte order
//! marks and without.

use lin_bench::differential::{run, Kind};
use std::time::Duration;

#[test]
fn a_short_run() {
    let report = run(Duration::from_secs(4), 7);
    println!("{report}");
    assert!(report.differences.is_empty(), "{report}");
    for (kind, name) in Kind::ALL {
        let (all, marks) = (report.count(kind), report.marks(kind));
        assert!(all > marks, "no {name}, or all with a byte order mark");
        assert!(marks > 0 || kind == Kind::Plays, "no {name} with one");
    }
    assert!(report.cases() >= 2_000);
}
