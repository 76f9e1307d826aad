//! Stored cases of sheets, plan files, shares, the engine and the enquirer. Each is run by the library and by the reference, and what is
//! printed is to be the stored output. The plan files are also read by the sharing, which is to print the same.
//!
//! A file `data/NAME.txt` has the cases, one directive a line, and `data/NAME.out` the stored output. Empty lines and lines that begin
//! with `#` are passed over. No two cases of a file print the same name.
//!
//! What is lent to the cases after it:
//! - `tables STARTS ENDS PRICES LANDINGS BY_END PLACES CELLS MARKS PLAN SHARES`: tables of so many entries and a plan buffer of so many
//!   bytes.
//! - `lend STARTS ENDS PRICES LANDINGS BY_END PLACES CELLS MARKS PLAN SHARES`: of these, so many of the first entries; `lend all`: all, as
//!   after `tables`.
//! - `fill VALUE`: what each cell holds before a planning, in place of 4000000005.
//!
//! Sheets and plan files:
//! - `sheet NAME: BYTES`: the sheet for the cases after it. `sheet NAME`: once more the sheet of that name.
//! - `load NAME`: the sheet is read, with an empty plan file. Refusal 14 says that it is good.
//! - `cuts NAME`: `load` with the first 0, 1, 2, .. bytes of the sheet.
//! - `read NAME: BYTES`: the plan file is read against the sheet.
//! - `share NAME: BYTES`: the price of the plan file is shared out over the stations of the sheet.
//! - `plan NAME`: the sheet is planned.
//!
//! `load`, `cuts` and `plan` with `NAME: BYTES` are `sheet NAME: BYTES` and the directive.
//!
//! Questions about cells, those of the last `cells` or `plan` line, and, for best senders, about landing entries, those of the last
//! `landings` or `plan` line:
//! - `cells VALUE ..`: `VALUE*N` is the value N times, `none` is 4294967295.
//! - `landings VALUE ..`: the landing entries, in the same way; a sender's has the bit worth 1024.
//! - `cell NAME: SITES STATIONS SITE SUBSET`: the cell of a site and a subset.
//! - `sender NAME: SITES STATIONS SUBSET`: the best sender of a subset.
//! - `every NAME: SITES STATIONS`: subset after subset, the cell of each site and the best sender.
//!
//! BYTES: a printable ASCII character other than `\`, `(`, `)`, `{` and `}` stands for itself, `\` and two hexadecimal digits for a byte,
//! `(BYTES)*N` for the bytes N times, and
//! - `{row N}` for N records `LK`, at 1000000 each, from site 0 to 1, from 1 to 2, and so on; `{row back N}` for these, the last first;
//! - `{spread SITES N}` for N records `LK` that `generated::spread` makes;
//! - `{falling N TIMES}` for records `LG` of the legs N - 1 down to 0, each so many times.
//!
//! Before a call each entry of a table has a value that no sheet and no plan has. After it all entries are printed, also those that were
//! not lent; more than 64 entries as a check value, but the plan buffer whole.

mod fields;
mod generated;
mod notation;
mod planner;
mod run;
mod sharing;
mod stored;
mod text;

use planner::Planner;
use stored::Data;

const SHEETS: Data = Data {
    name: "sheets",
    cases: include_str!("data/sheets.txt"),
    output: include_str!("data/sheets.out"),
};

const PLANS: Data = Data {
    name: "plans",
    cases: include_str!("data/plans.txt"),
    output: include_str!("data/plans.out"),
};

const SHARES: Data = Data {
    name: "shares",
    cases: include_str!("data/shares.txt"),
    output: include_str!("data/shares.out"),
};

const ENGINE: Data = Data {
    name: "engine",
    cases: include_str!("data/engine.txt"),
    output: include_str!("data/engine.out"),
};

const ENQUIRER: Data = Data {
    name: "enquirer",
    cases: include_str!("data/enquirer.txt"),
    output: include_str!("data/enquirer.out"),
};

#[test]
fn the_library_reads_sheets() {
    SHEETS.check(Planner::Library);
}

#[test]
fn the_reference_reads_sheets() {
    SHEETS.check(Planner::Reference);
}

#[test]
fn the_library_reads_plan_files() {
    PLANS.check(Planner::Library);
}

#[test]
fn the_reference_reads_plan_files() {
    PLANS.check(Planner::Reference);
}

#[test]
fn the_library_shares_plan_files_as_it_reads_them() {
    PLANS.check_by_sharing(Planner::Library);
}

#[test]
fn the_reference_shares_plan_files_as_it_reads_them() {
    PLANS.check_by_sharing(Planner::Reference);
}

#[test]
fn the_library_shares_prices() {
    SHARES.check(Planner::Library);
}

#[test]
fn the_reference_shares_prices() {
    SHARES.check(Planner::Reference);
}

#[test]
fn the_library_plans_sheets() {
    ENGINE.check(Planner::Library);
}

#[test]
fn the_reference_plans_sheets() {
    ENGINE.check(Planner::Reference);
}

#[test]
fn the_library_answers_questions() {
    ENQUIRER.check(Planner::Library);
}

#[test]
fn the_reference_answers_questions() {
    ENQUIRER.check(Planner::Reference);
}
