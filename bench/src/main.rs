//! The benchmark: times the library and the reference in turn on the same sheets, and compares what they leave.
//!
//! `cargo run --release --offline --manifest-path bench/Cargo.toml`; the argument `quick` makes fewer rounds. A difference ends the run with exit status 1.

mod cases;
mod timing;

use cases::{cases, Case};
use std::process::exit;
use timing::Times;

fn main() {
    let quick = match read_arguments() {
        Ok(quick) => quick,
        Err(words) => fail(&words),
    };
    println!("Time of one call in milliseconds, the least of several rounds; library and reference in turn.");
    println!("Before each call the tables and the plan buffer are filled with garbage, outside the time.");
    println!("After each round all that both left is compared.\n");
    println!("{}", head());
    let cases = cases();
    for (index, case) in cases.iter().enumerate() {
        let place = format!("{} of {}", index + 1, cases.len());
        match timing::time(case, &place, quick) {
            Ok(times) => println!("{}", line(case, &times)),
            Err(words) => fail(&format!("\n{}: {words}", case.name)),
        }
    }
}

/// Whether the run is to be quick.
fn read_arguments() -> Result<bool, String> {
    let arguments: Vec<String> = std::env::args().skip(1).collect();
    match arguments.iter().map(String::as_str).collect::<Vec<_>>()[..] {
        [] => Ok(false),
        ["quick"] => Ok(true),
        _ => Err("the only argument is `quick`".to_string()),
    }
}

/// Ends the run with exit status 1.
fn fail(words: &str) -> ! {
    eprintln!("{words}");
    exit(1)
}

/// The head of the table.
fn head() -> String {
    format!(
        "{:<58} {:>7} {:>12} {:>13} {:>9}",
        "case", "answer", "library ms", "reference ms", "ratio"
    )
}

/// A line of the table.
fn line(case: &Case, times: &Times) -> String {
    let answer = match times.number {
        0 => "plan".to_string(),
        number => number.to_string(),
    };
    let (library, reference) = (milliseconds(times.library), milliseconds(times.reference));
    format!(
        "{:<58} {answer:>7} {library:>12.3} {reference:>13.3} {:>9.2}",
        case.name,
        library / reference
    )
}

/// A time in milliseconds.
fn milliseconds(time: std::time::Duration) -> f64 {
    time.as_secs_f64() * 1000.0
}
