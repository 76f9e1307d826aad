//! The timing of one case: rounds of the library and the reference in turn, and the comparison of what they leave.

use crate::cases::Case;
use std::io::{stderr, Write};
use std::time::{Duration, Instant};
use uldhvamm::Tables;
use uldhvamm_bench::compare::{call_library, call_reference, described, difference, Call, Run};
use uldhvamm_bench::sheets::Random;

/// Rounds are made until they have taken this long, but not fewer than `LEAST_ROUNDS` and not more than `MOST_ROUNDS`.
const ENOUGH: Duration = Duration::from_secs(3);
const LEAST_ROUNDS: usize = 3;
const MOST_ROUNDS: usize = 200;

/// The same for a quick run.
const QUICK_ENOUGH: Duration = Duration::from_millis(500);
const QUICK_LEAST_ROUNDS: usize = 2;

/// The least times of a case, and the number that both returned.
pub struct Times {
    pub number: u32,
    pub library: Duration,
    pub reference: Duration,
}

/// A call of one of the implementations.
type Called = fn(&Call, &[u8], &mut Tables, &mut [u64]) -> u32;

/// Times a case. `place` says which case of how many it is. A difference is given in words.
pub fn time(case: &Case, place: &str, quick: bool) -> Result<Times, String> {
    let enough = if quick { QUICK_ENOUGH } else { ENOUGH };
    let least = if quick {
        QUICK_LEAST_ROUNDS
    } else {
        LEAST_ROUNDS
    };
    let mut random = Random::new(11);
    let garbage = Tables::with(case.lengths, || random.bits());
    let (mut library, mut reference) = (empty_run(&garbage), empty_run(&garbage));
    let mut times = Times {
        number: u32::MAX,
        library: Duration::MAX,
        reference: Duration::MAX,
    };
    let start = Instant::now();
    for round in 1..=MOST_ROUNDS {
        let progress = format!("case {place}, {}: round {round}", case.name);
        show_progress(&format!("{progress}, library"));
        let time = time_call(call_library, case, &garbage, &mut library);
        times.library = times.library.min(time);
        show_progress(&format!("{progress}, reference"));
        let time = time_call(call_reference, case, &garbage, &mut reference);
        times.reference = times.reference.min(time);
        times.number = library.number;
        if let Some(words) = difference(&library, &reference) {
            return Err(describe(case, &words));
        }
        if round >= least && start.elapsed() >= enough {
            break;
        }
    }
    hide_progress();
    Ok(times)
}

/// A run that is still to be made.
fn empty_run(garbage: &Tables) -> Run {
    Run {
        number: u32::MAX,
        answer: vec![0; 4],
        tables: garbage.clone(),
    }
}

/// Fills the tables with garbage, makes one call and gives its time.
fn time_call(called: Called, case: &Case, garbage: &Tables, run: &mut Run) -> Duration {
    run.tables.copy_from(garbage);
    run.answer.fill(u64::MAX);
    let start = Instant::now();
    run.number = called(&case.call, &case.sheet, &mut run.tables, &mut run.answer);
    start.elapsed()
}

/// A difference in words, with the sheet.
fn describe(case: &Case, words: &str) -> String {
    let call = described(&case.call, &case.sheet);
    format!("library and reference differ in {words}\n{call}")
}

/// Shows on standard error what runs.
fn show_progress(words: &str) {
    eprint!("\r{words:<110}");
    let _ = stderr().flush();
}

/// Takes the progress line away.
fn hide_progress() {
    eprint!("\r{:<110}\r", "");
    let _ = stderr().flush();
}
