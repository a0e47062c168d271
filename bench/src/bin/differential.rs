//! Compares the exports with the oracle and the model on fresh cases, for as
//! many seconds as it is told: `differential SECONDS [SEED]`. It prints the
//! number of cases of each kind and every difference.

use lin_bench::differential::run;
use std::{env, process::ExitCode, time::Duration};

fn main() -> ExitCode {
    let args: Vec<u64> = env::args().skip(1).map_while(|a| a.parse().ok()).collect();
    let (seconds, seed) = match args.as_slice() {
        [seconds] => (*seconds, 1),
        [seconds, seed] => (*seconds, *seed),
        _ => {
            eprintln!("usage: differential SECONDS [SEED]");
            return ExitCode::from(2);
        }
    };
    let report = run(Duration::from_secs(seconds), seed);
    println!("seed {seed}\n{report}");
    if report.differences.is_empty() {
        return ExitCode::SUCCESS;
    }
    ExitCode::FAILURE
}
