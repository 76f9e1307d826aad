//! What the enquirer is to answer, in the order 3, 11, 4, 5, each at place 0. The best sender is looked for among the flagged sites.

use super::sheet::FLAG;
use super::NO_COST;
use uldhvamm::{CostTable, Question, NO_SENDER};

/// Answers a question about a table. Returns 0 for a cell, a sender and `NO_SENDER`, else the number of the refusal. Its value or its
/// place is written to `answer`, if that has an entry.
pub fn enquire(table: CostTable, question: Question, answer: &mut [u64]) -> u32 {
    let found = match question {
        Question::Cell { site, subset } => cell(table, site, subset),
        Question::BestSender { subset } => best_sender(table, subset),
    };
    let (number, value) = match found {
        Ok(value) => (0, value),
        Err(number) => (number, 0),
    };
    answer.iter_mut().take(1).for_each(|to| *to = value);
    number
}

/// The cell of a site and a subset, or the number of the refusal.
fn cell(table: CostTable, site: u32, subset: u32) -> Result<u64, u32> {
    let sets = sets(table)?;
    if site >= table.sites {
        return Err(4);
    }
    if subset as usize >= sets {
        return Err(5);
    }
    Ok(table.cells[site as usize * sets + subset as usize].into())
}

/// Of the flagged sites with a finite cell the lowest of the cheapest, or `NO_SENDER`, or the number of the refusal.
fn best_sender(table: CostTable, subset: u32) -> Result<u64, u32> {
    let sets = sets(table)?;
    let entries = table.landings.get(..table.sites as usize).ok_or(11_u32)?;
    if subset as usize >= sets {
        return Err(5);
    }
    let rows = (0..).zip(table.cells.chunks_exact(sets).zip(entries));
    let flagged = rows.filter(|(_, (_, &entry))| entry & FLAG != 0);
    let costs = flagged.map(|(site, (row, _))| (row[subset as usize], site));
    let finite = costs.filter(|&(cell, _)| cell != NO_COST);
    Ok(finite.min().map_or(NO_SENDER, |(_, site)| site))
}

/// The number of subsets of the stations, after the tests for 3 and for the cells' 11.
fn sets(table: CostTable) -> Result<usize, u32> {
    if !(1..=1024).contains(&table.sites) || !(1..=10).contains(&table.stations) {
        return Err(3);
    }
    let sets = 1 << table.stations;
    match table.cells.len() / sets >= table.sites as usize {
        true => Ok(sets),
        false => Err(11),
    }
}
