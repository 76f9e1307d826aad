//! Answers and tables as text. A table is a line that begins with two spaces.

use uldhvamm::{Answer, Enquiry, Sharing, Tables};
use uldhvamm_bench::compare::hexadecimal;

/// The most entries that are printed one by one.
const MOST_ENTRIES: usize = 64;

/// A plan after a word, or a refusal.
pub fn answer(word: &str, answer: Answer) -> String {
    match answer {
        Answer::Plan { root, total, legs } => {
            format!("{word} root {root} total {total} legs {legs}\n")
        }
        Answer::Refused { number, place } => format!("refused {number} at {place}\n"),
    }
}

/// The answer to a sharing.
pub fn sharing(sharing: Sharing) -> String {
    match sharing {
        Sharing::Shared {
            root,
            total,
            legs,
            unassigned,
        } => format!("shared root {root} total {total} legs {legs} unassigned {unassigned}\n"),
        Sharing::Refused { number, place } => format!("refused {number} at {place}\n"),
    }
}

/// The answer to a question.
pub fn enquiry(enquiry: Enquiry) -> String {
    match enquiry {
        Enquiry::Cell { cell } => format!("cell {cell}\n"),
        Enquiry::Sender { site } => format!("sender {site}\n"),
        Enquiry::NoSender => "no sender\n".to_string(),
        Enquiry::Refused { number, place } => format!("refused {number} at {place}\n"),
    }
}

/// The tables that a sheet is read into.
pub fn sheet_tables(tables: &Tables) -> String {
    let lines = [
        table("leg starts", &tables.starts),
        table("leg ends", &tables.ends),
        table("leg prices", &tables.prices),
        table("landing sets", &tables.landings),
    ];
    lines.concat()
}

/// The tables of the plan reader.
pub fn reader_tables(tables: &Tables) -> String {
    sheet_tables(tables) + &table("marks", &tables.marks)
}

/// The tables of the sharing.
pub fn sharing_tables(tables: &Tables) -> String {
    reader_tables(tables) + &table("shares", &tables.shares)
}

/// The plan buffer in hexadecimal, and the tables of the engine.
pub fn engine_tables(tables: &Tables) -> String {
    let buffer = match tables.plan[..] {
        [] => "  plan buffer\n".to_string(),
        _ => format!("  plan buffer {}\n", hexadecimal(&tables.plan)),
    };
    let lines = [
        buffer,
        sheet_tables(tables),
        table("legs by end", &tables.by_end),
        table("places", &tables.places),
        table("cells", &tables.cells),
        table("marks", &tables.marks),
    ];
    lines.concat()
}

/// The entries of a table after a word, or their number and check value.
fn table<T: Copy + Into<u64>>(word: &str, table: &[T]) -> String {
    let entries = table.iter().map(|&entry| entry.into());
    if table.len() > MOST_ENTRIES {
        let value = check_value(entries);
        return format!("  {word}, {} entries, check value {value}\n", table.len());
    }
    let entries: String = entries.map(|entry| format!(" {entry}")).collect();
    format!("  {word}{entries}\n")
}

/// From 0 on, entry after entry: the remainder of 31 times the value plus the entry, by 1000003.
fn check_value(entries: impl Iterator<Item = u64>) -> u64 {
    entries.fold(0, |value, entry| (value * 31 + entry) % 1_000_003)
}
