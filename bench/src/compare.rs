//! Runs the library and the reference on equal copies of the same tables, and compares all that they leave.

use crate::reference;
use uldhvamm::{CostTable, Question, Tables};

/// What a call returned and left.
#[derive(Clone, Debug, PartialEq, Eq)]
pub struct Run {
    pub number: u32,
    pub answer: Vec<u64>,
    pub tables: Tables,
}

/// What is called.
#[derive(Clone, Debug)]
pub enum Call {
    /// The planning.
    Plan,
    /// The reading of this plan file.
    Read(Vec<u8>),
    /// The sharing of this plan file.
    Share(Vec<u8>),
}

/// Calls the library. Only this is timed by the benchmark.
pub fn call_library(call: &Call, sheet: &[u8], tables: &mut Tables, answer: &mut [u64]) -> u32 {
    match call {
        Call::Plan => uldhvamm::plan(sheet, tables, answer),
        Call::Read(file) => uldhvamm::read_plan(sheet, file, tables, answer),
        Call::Share(file) => uldhvamm::shares(sheet, file, tables, answer),
    }
}

/// Calls the reference. Only this is timed by the benchmark.
pub fn call_reference(call: &Call, sheet: &[u8], tables: &mut Tables, answer: &mut [u64]) -> u32 {
    match call {
        Call::Plan => reference::plan(sheet, tables, answer),
        Call::Read(file) => reference::read_plan(sheet, file, tables, answer),
        Call::Share(file) => reference::shares(sheet, file, tables, answer),
    }
}

/// The first difference between two runs, the library's first, in words.
pub fn difference(library: &Run, reference: &Run) -> Option<String> {
    if library.number != reference.number {
        return Some(format!(
            "returned: {} and {}",
            library.number, reference.number
        ));
    }
    entry_difference("answer", &library.answer, &reference.answer)
        .or_else(|| table_difference(&library.tables, &reference.tables))
}

/// The first place at which two sets of tables differ, in words; nothing where they are equal.
pub fn table_difference(one: &Tables, other: &Tables) -> Option<String> {
    entry_difference("starts", &one.starts, &other.starts)
        .or_else(|| entry_difference("ends", &one.ends, &other.ends))
        .or_else(|| entry_difference("prices", &one.prices, &other.prices))
        .or_else(|| entry_difference("landings", &one.landings, &other.landings))
        .or_else(|| entry_difference("by_end", &one.by_end, &other.by_end))
        .or_else(|| entry_difference("places", &one.places, &other.places))
        .or_else(|| entry_difference("cells", &one.cells, &other.cells))
        .or_else(|| entry_difference("marks", &one.marks, &other.marks))
        .or_else(|| entry_difference("plan", &one.plan, &other.plan))
        .or_else(|| entry_difference("shares", &one.shares, &other.shares))
}

/// The first place at which two slices differ, in words.
pub fn entry_difference<T>(name: &str, left: &[T], right: &[T]) -> Option<String>
where
    T: PartialEq + std::fmt::Display,
{
    if left.len() != right.len() {
        return Some(format!(
            "{name}: lengths {} and {}",
            left.len(),
            right.len()
        ));
    }
    let place = left.iter().zip(right).position(|(a, b)| a != b)?;
    Some(format!(
        "{name}[{place}]: {} and {}",
        left[place], right[place]
    ))
}

/// Runs both on copies of `tables` and `answer`. Gives the run where they agree, else the difference with sheet and file.
pub fn both(call: &Call, sheet: &[u8], tables: &Tables, answer: &[u64]) -> Result<Run, String> {
    let run = |called: fn(&Call, &[u8], &mut Tables, &mut [u64]) -> u32| {
        let (mut tables, mut answer) = (tables.clone(), answer.to_vec());
        let number = called(call, sheet, &mut tables, &mut answer);
        Run {
            number,
            answer,
            tables,
        }
    };
    let (library, reference) = (run(call_library), run(call_reference));
    match difference(&library, &reference) {
        None => Ok(library),
        Some(words) => Err(format!(
            "library and reference differ in {words}\n{}",
            described(call, sheet)
        )),
    }
}

/// Asks the library about a table and the reference about its own, which is to have the same entries, each with a copy of `answer`. Where
/// the numbers or the copies differ, the error has the question and both in words.
pub fn both_enquire(
    table: CostTable,
    own: CostTable,
    question: Question,
    answer: &[u64],
) -> Result<(), String> {
    let (mut ours, mut theirs) = (answer.to_vec(), answer.to_vec());
    let number = uldhvamm::enquire(table, question, &mut ours);
    let due = reference::enquire(own, question, &mut theirs);
    if number == due && ours == theirs {
        return Ok(());
    }
    Err(format!(
        "{question:?}, {} sites, {} stations, {} cells {:?}, {} landing entries {:?}\nreturned {number} with {ours:?} for {answer:?}, \
         due is {due} with {theirs:?}",
        table.sites,
        table.stations,
        table.cells.len(),
        &table.cells[..table.cells.len().min(64)],
        table.landings.len(),
        &table.landings[..table.landings.len().min(64)],
    ))
}

/// Whether some site of a finished table, a sender or not, has a tree to every station.
pub fn some_site_reaches_all(table: CostTable) -> bool {
    let rows = table.cells.chunks_exact(1 << table.stations);
    let full = rows.take(table.sites as usize).filter_map(|row| row.last());
    full.copied().any(|cell| cell != reference::NO_COST)
}

/// A call's sheet, and its file if it has one, in hexadecimal.
pub fn described(call: &Call, sheet: &[u8]) -> String {
    match call {
        Call::Plan => format!("planning, sheet {}", hexadecimal(sheet)),
        Call::Read(file) => described_file("reading", sheet, file),
        Call::Share(file) => described_file("sharing", sheet, file),
    }
}

/// What is done with a file against a sheet, and both in hexadecimal.
fn described_file(word: &str, sheet: &[u8], file: &[u8]) -> String {
    let (sheet, file) = (hexadecimal(sheet), hexadecimal(file));
    format!("{word}, sheet {sheet}\nfile {file}")
}

/// Bytes in hexadecimal, two digits each.
pub fn hexadecimal(bytes: &[u8]) -> String {
    bytes.iter().map(|byte| format!("{byte:02X}")).collect()
}
