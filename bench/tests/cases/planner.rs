//! The library and the reference, which are lent the first entries of tables.

use std::hint::black_box;
use uldhvamm::{enquire, plan_lent, read_plan_lent, shares_lent};
use uldhvamm::{Answer, CostTable, Enquiry, Lengths, Lent, Question, Sharing, Tables};
use uldhvamm_bench::reference;

/// What runs the cases.
#[derive(Clone, Copy, Debug)]
pub enum Planner {
    Library,
    Reference,
}

impl Planner {
    /// Plans a sheet with the first entries of tables.
    pub fn plan(self, sheet: &[u8], tables: &mut Tables, lent: Lengths) -> Answer {
        let mut answer = [77; 3];
        let number = match self {
            Planner::Library => plan_lent(sheet, first(tables, lent), &mut answer),
            Planner::Reference => with_copies(tables, lent, |copies| {
                reference::plan(sheet, copies, &mut answer)
            }),
        };
        black_box(tables);
        Answer::decode(number, &answer)
    }

    /// Reads a plan file against a sheet with the first entries of tables.
    pub fn read(self, sheet: &[u8], file: &[u8], tables: &mut Tables, lent: Lengths) -> Answer {
        let mut answer = [77; 3];
        let number = match self {
            Planner::Library => read_plan_lent(sheet, file, first(tables, lent), &mut answer),
            Planner::Reference => with_copies(tables, lent, |copies| {
                reference::read_plan(sheet, file, copies, &mut answer)
            }),
        };
        black_box(tables);
        Answer::decode(number, &answer)
    }

    /// Shares a plan file out over the stations of a sheet with the first entries of tables.
    pub fn share(self, sheet: &[u8], file: &[u8], tables: &mut Tables, lent: Lengths) -> Sharing {
        let mut answer = [77; 4];
        let number = match self {
            Planner::Library => shares_lent(sheet, file, first(tables, lent), &mut answer),
            Planner::Reference => with_copies(tables, lent, |copies| {
                reference::shares(sheet, file, copies, &mut answer)
            }),
        };
        black_box(tables);
        Sharing::decode(number, &answer)
    }

    /// Asks about cells.
    pub fn ask(self, table: CostTable, question: Question) -> Enquiry {
        let mut answer = [77];
        let number = match self {
            Planner::Library => enquire(table, question, &mut answer),
            Planner::Reference => reference::enquire(table, question, &mut answer),
        };
        Enquiry::decode(question, number, &answer)
    }
}

/// The first entries of tables.
fn first(tables: &mut Tables, lent: Lengths) -> Lent<'_> {
    Lent {
        starts: &mut tables.starts[..lent.starts],
        ends: &mut tables.ends[..lent.ends],
        prices: &mut tables.prices[..lent.prices],
        landings: &mut tables.landings[..lent.landings],
        by_end: &mut tables.by_end[..lent.by_end],
        places: &mut tables.places[..lent.places],
        cells: &mut tables.cells[..lent.cells],
        marks: &mut tables.marks[..lent.marks],
        plan: &mut tables.plan[..lent.plan],
        shares: &mut tables.shares[..lent.shares],
    }
}

/// Calls with copies of the first entries, and writes them back.
fn with_copies(tables: &mut Tables, lent: Lengths, call: impl FnOnce(&mut Tables) -> u32) -> u32 {
    let part = first(tables, lent);
    let mut copies = Tables {
        starts: part.starts.to_vec(),
        ends: part.ends.to_vec(),
        prices: part.prices.to_vec(),
        landings: part.landings.to_vec(),
        by_end: part.by_end.to_vec(),
        places: part.places.to_vec(),
        cells: part.cells.to_vec(),
        marks: part.marks.to_vec(),
        plan: part.plan.to_vec(),
        shares: part.shares.to_vec(),
    };
    let number = call(&mut copies);
    part.starts.copy_from_slice(&copies.starts);
    part.ends.copy_from_slice(&copies.ends);
    part.prices.copy_from_slice(&copies.prices);
    part.landings.copy_from_slice(&copies.landings);
    part.by_end.copy_from_slice(&copies.by_end);
    part.places.copy_from_slice(&copies.places);
    part.cells.copy_from_slice(&copies.cells);
    part.marks.copy_from_slice(&copies.marks);
    part.plan.copy_from_slice(&copies.plan);
    part.shares.copy_from_slice(&copies.shares);
    number
}
