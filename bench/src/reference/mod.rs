//! The independent implementation, written after documents 01 and 02 and docs/DECISIONS.md, without the code of the crates.
//!
//! What the tables, the plan buffer and `answer` hold after the planning:
//! - 1 to 11: all as before, but `answer` has the place;
//! - 12 and 13: the first entries of the tables hold legs, landing sets with the senders' flags, the index of the legs by their end, costs,
//!   and marks of 1; the plan buffer is as before; `answer` has the place 0;
//! - a plan: the tables as for 12, the plan buffer begins with the plan file, `answer` has root, total and number of legs.
//!
//! After the reading of a plan file, which leaves the index, the cells and the plan buffer alone:
//! - 1 to 11: all as before, but `answer` has the place;
//! - 14, 15 and 16: leg tables and landing sets filled, marks as before; `answer` has the place;
//! - 17, 20, 18 and 19: these filled too, and the first n marks 1 for sites reached from the root, else 0; `answer` has the place 0;
//! - acceptance: the tables as for 17, `answer` has root, total and number of legs.
//!
//! After the sharing of a plan file all is as after its reading, 11 also for a share table under k entries, and beside it:
//! - a refusal: the share table is as before;
//! - acceptance: the first k shares are what the stations pay, `answer` has root, total, number of legs and the unassigned sum.
//!
//! The planning and the reading leave the share table alone.
//!
//! `answer` gets as many of its values as it has entries. Entries past those named are as before.
//!
//! A question about a cost table writes `answer` alone.

mod enquirer;
mod groups;
mod index;
mod layout;
mod plan_file;
mod search;
mod shares;
mod sheet;

pub use enquirer::enquire;
pub use sheet::{read as read_sheet, Leg, Sheet};

use plan_file::PlanFile;
use uldhvamm::Tables;

/// A cell for which there is no tree.
pub const NO_COST: u32 = u32::MAX;

/// A refusal: its number in documents 01 and 02, and its place.
#[derive(Clone, Copy, Debug, PartialEq, Eq)]
pub struct Refusal {
    pub number: u32,
    pub place: usize,
}

impl Refusal {
    /// A refusal at a place.
    pub fn at(number: u32, place: usize) -> Refusal {
        Refusal { number, place }
    }
}

/// Plans a sheet. Returns 0 for a plan, else the number of the refusal.
pub fn plan(bytes: &[u8], tables: &mut Tables, answer: &mut [u64]) -> u32 {
    let outcome = planned(bytes, tables);
    send_back(outcome.map(|plan| plan.values()), answer)
}

/// Reads a plan file against a sheet. Returns 0 for an acceptance, else the number of the refusal.
pub fn read_plan(bytes: &[u8], file: &[u8], tables: &mut Tables, answer: &mut [u64]) -> u32 {
    let outcome = read(bytes, file, tables);
    send_back(outcome.map(|plan| plan.values()), answer)
}

/// Reads a plan file against a sheet and shares its price out over the stations. Returns 0 for an acceptance, else the number of the
/// refusal.
pub fn shares(bytes: &[u8], file: &[u8], tables: &mut Tables, answer: &mut [u64]) -> u32 {
    send_back(shared(bytes, file, tables), answer)
}

/// Writes the values of an outcome into `answer`, as many as fit, and gives the number to return.
fn send_back<const N: usize>(outcome: Result<[u64; N], Refusal>, answer: &mut [u64]) -> u32 {
    match outcome {
        Ok(values) => {
            answer.iter_mut().zip(values).for_each(|(to, v)| *to = v);
            0
        }
        Err(refusal) => {
            answer
                .iter_mut()
                .take(1)
                .for_each(|to| *to = refusal.place as u64);
            refusal.number
        }
    }
}

/// The planning: the sheet, 11, the tables with the index, 12, the layout, 13, the file.
fn planned(bytes: &[u8], tables: &mut Tables) -> Result<PlanFile, Refusal> {
    let sheet = sheet::read(bytes)?;
    let size = sheet.sites << sheet.stations;
    if !has_room(&sheet, tables) || !has_index_room(&sheet, tables) || tables.cells.len() < size {
        return Err(Refusal::at(11, 0));
    }
    load(&sheet, tables);
    index::fill(&sheet, tables);
    search::fill(&sheet, &mut tables.cells[..size]);
    tables.marks[..sheet.sites].fill(1);
    let root = layout::best_root(&sheet, &tables.cells).ok_or(Refusal::at(12, 0))?;
    let plan = layout::lay_out(&sheet, &tables.cells, root);
    plan.write(&mut tables.plan)?;
    Ok(plan)
}

/// The plan reader: the sheet, 11, and the file.
fn read(bytes: &[u8], file: &[u8], tables: &mut Tables) -> Result<PlanFile, Refusal> {
    let sheet = sheet::read(bytes)?;
    if !has_room(&sheet, tables) {
        return Err(Refusal::at(11, 0));
    }
    let (plan, _) = accepted(&sheet, file, tables)?;
    Ok(plan)
}

/// The shares: the sheet, 11 with the share table, the file, and what each station pays. An accepted plan holds the sites that it reaches.
fn shared(bytes: &[u8], file: &[u8], tables: &mut Tables) -> Result<[u64; 4], Refusal> {
    let sheet = sheet::read(bytes)?;
    if !has_room(&sheet, tables) || tables.shares.len() < sheet.stations {
        return Err(Refusal::at(11, 0));
    }
    let (plan, held) = accepted(&sheet, file, tables)?;
    let shares = &mut tables.shares[..sheet.stations];
    let unassigned = shares::deal(&sheet, &plan, &held, shares);
    let [root, total, legs] = plan.values();
    Ok([root, total, legs, unassigned])
}

/// A file against a good sheet for which there is room: the leg tables and landing sets, the file, the marks, 17, 20, 18, 19. Gives the
/// plan and, for each site, whether it is reached.
fn accepted(
    sheet: &Sheet,
    file: &[u8],
    tables: &mut Tables,
) -> Result<(PlanFile, Vec<bool>), Refusal> {
    load(sheet, tables);
    let plan = plan_file::read(sheet, file)?;
    let reached = plan_file::reached(sheet, &plan);
    for (mark, &is_reached) in tables.marks.iter_mut().zip(&reached) {
        *mark = u8::from(is_reached);
    }
    plan_file::judge(sheet, &plan, &reached)?;
    Ok((plan, reached))
}

/// Whether the leg tables, the landing sets and the marks are long enough.
fn has_room(sheet: &Sheet, tables: &Tables) -> bool {
    let legs = sheet.legs.len();
    tables.starts.len() >= legs
        && tables.ends.len() >= legs
        && tables.prices.len() >= legs
        && tables.landings.len() >= sheet.sites
        && tables.marks.len() >= sheet.sites
}

/// Whether both tables of the index are long enough: an entry for each leg, and one more than there are sites.
fn has_index_room(sheet: &Sheet, tables: &Tables) -> bool {
    tables.by_end.len() >= sheet.legs.len() && tables.places.len() > sheet.sites
}

/// Fills the leg tables and the landing sets.
fn load(sheet: &Sheet, tables: &mut Tables) {
    let rows = tables
        .starts
        .iter_mut()
        .zip(&mut tables.ends)
        .zip(&mut tables.prices);
    for (((start, end), price), leg) in rows.zip(&sheet.legs) {
        *start = leg.start;
        *end = leg.end;
        *price = leg.price;
    }
    for (entry, value) in tables.landings.iter_mut().zip(sheet.landing_entries()) {
        *entry = value;
    }
}
