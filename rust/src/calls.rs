//! The static library as declared in include/uldhvamm.h, and a safe wrapper.
//!
//! A Rust slice points to as many entries as it has, aligned for their type, and a mutable one overlaps no other slice. The library
//! asks for nothing else. Each call first tests that the library has the interface that is declared here; it panics where it has another.

#![allow(unsafe_code)]

use crate::tables::{Answer, CostTable, Enquiry, Lent, Question, Sharing, Tables};

/// The number of the interface that is declared here.
pub const INTERFACE: u32 = 3;

/// The most sites, stations and legs of a sheet.
pub const MAX_SITES: usize = 1024;
pub const MAX_STATIONS: usize = 10;
pub const MAX_LEGS: usize = 8192;

/// A cell for which there is no tree.
pub const NO_COST: u32 = 4_294_967_295;

/// What is added to the landing entry of a site that may send.
pub const SENDER_FLAG: u16 = 1024;

extern "C" {
    fn uldhvamm_interface() -> u32;

    fn uldhvamm_plan(
        sheet: *const u8,
        sheet_length: usize,
        starts: *mut u16,
        starts_length: usize,
        ends: *mut u16,
        ends_length: usize,
        prices: *mut u32,
        prices_length: usize,
        landings: *mut u16,
        landings_length: usize,
        by_end: *mut u16,
        by_end_length: usize,
        places: *mut u16,
        places_length: usize,
        cells: *mut u32,
        cells_length: usize,
        marks: *mut u8,
        marks_length: usize,
        plan: *mut u8,
        plan_length: usize,
        answer: *mut u64,
        answer_length: usize,
    ) -> u32;

    fn uldhvamm_read_plan(
        sheet: *const u8,
        sheet_length: usize,
        file: *const u8,
        file_length: usize,
        starts: *mut u16,
        starts_length: usize,
        ends: *mut u16,
        ends_length: usize,
        prices: *mut u32,
        prices_length: usize,
        landings: *mut u16,
        landings_length: usize,
        marks: *mut u8,
        marks_length: usize,
        answer: *mut u64,
        answer_length: usize,
    ) -> u32;

    fn uldhvamm_shares(
        sheet: *const u8,
        sheet_length: usize,
        file: *const u8,
        file_length: usize,
        starts: *mut u16,
        starts_length: usize,
        ends: *mut u16,
        ends_length: usize,
        prices: *mut u32,
        prices_length: usize,
        landings: *mut u16,
        landings_length: usize,
        marks: *mut u8,
        marks_length: usize,
        shares: *mut u32,
        shares_length: usize,
        answer: *mut u64,
        answer_length: usize,
    ) -> u32;

    fn uldhvamm_cell(
        cells: *const u32,
        cells_length: usize,
        sites: u32,
        stations: u32,
        site: u32,
        subset: u32,
        answer: *mut u64,
        answer_length: usize,
    ) -> u32;

    fn uldhvamm_best_sender(
        cells: *const u32,
        cells_length: usize,
        landings: *const u16,
        landings_length: usize,
        sites: u32,
        stations: u32,
        subset: u32,
        answer: *mut u64,
        answer_length: usize,
    ) -> u32;
}

/// The number of the library's interface.
pub fn interface() -> u32 {
    // SAFETY: the function takes nothing.
    unsafe { uldhvamm_interface() }
}

/// Panics where the library has another interface: its functions may take other parameters.
fn check_interface() {
    assert_eq!(
        interface(),
        INTERFACE,
        "the static library has another interface than this wrapper"
    );
}

/// Plans a sheet. Returns 0 for a plan, else the number of the refusal. The share table is not lent.
pub fn plan(sheet: &[u8], tables: &mut Tables, answer: &mut [u64]) -> u32 {
    plan_lent(sheet, tables.lend(), answer)
}

/// Reads a plan file against a sheet. Returns 0 for an acceptance, else the number of the refusal. The index of the legs, the cells, the
/// plan buffer and the share table are not lent.
pub fn read_plan(sheet: &[u8], file: &[u8], tables: &mut Tables, answer: &mut [u64]) -> u32 {
    read_plan_lent(sheet, file, tables.lend(), answer)
}

/// Reads a plan file against a sheet and, where it is accepted, writes what each station pays to the share table. Returns 0 for an
/// acceptance, else the number of the refusal. The index of the legs, the cells and the plan buffer are not lent.
pub fn shares(sheet: &[u8], file: &[u8], tables: &mut Tables, answer: &mut [u64]) -> u32 {
    shares_lent(sheet, file, tables.lend(), answer)
}

/// `plan` with slices. The share table of `lent` is left out.
pub fn plan_lent(sheet: &[u8], lent: Lent, answer: &mut [u64]) -> u32 {
    check_interface();
    // SAFETY: each pointer and length are those of one slice; the mutable slices overlap nothing.
    unsafe {
        uldhvamm_plan(
            sheet.as_ptr(),
            sheet.len(),
            lent.starts.as_mut_ptr(),
            lent.starts.len(),
            lent.ends.as_mut_ptr(),
            lent.ends.len(),
            lent.prices.as_mut_ptr(),
            lent.prices.len(),
            lent.landings.as_mut_ptr(),
            lent.landings.len(),
            lent.by_end.as_mut_ptr(),
            lent.by_end.len(),
            lent.places.as_mut_ptr(),
            lent.places.len(),
            lent.cells.as_mut_ptr(),
            lent.cells.len(),
            lent.marks.as_mut_ptr(),
            lent.marks.len(),
            lent.plan.as_mut_ptr(),
            lent.plan.len(),
            answer.as_mut_ptr(),
            answer.len(),
        )
    }
}

/// `read_plan` with slices. The index of the legs, the cells, the plan buffer and the share table of `lent` are left out.
pub fn read_plan_lent(sheet: &[u8], file: &[u8], lent: Lent, answer: &mut [u64]) -> u32 {
    check_interface();
    // SAFETY: each pointer and length are those of one slice; the mutable slices overlap nothing.
    unsafe {
        uldhvamm_read_plan(
            sheet.as_ptr(),
            sheet.len(),
            file.as_ptr(),
            file.len(),
            lent.starts.as_mut_ptr(),
            lent.starts.len(),
            lent.ends.as_mut_ptr(),
            lent.ends.len(),
            lent.prices.as_mut_ptr(),
            lent.prices.len(),
            lent.landings.as_mut_ptr(),
            lent.landings.len(),
            lent.marks.as_mut_ptr(),
            lent.marks.len(),
            answer.as_mut_ptr(),
            answer.len(),
        )
    }
}

/// `shares` with slices. The index of the legs, the cells and the plan buffer of `lent` are left out.
pub fn shares_lent(sheet: &[u8], file: &[u8], lent: Lent, answer: &mut [u64]) -> u32 {
    check_interface();
    // SAFETY: each pointer and length are those of one slice; the mutable slices overlap nothing.
    unsafe {
        uldhvamm_shares(
            sheet.as_ptr(),
            sheet.len(),
            file.as_ptr(),
            file.len(),
            lent.starts.as_mut_ptr(),
            lent.starts.len(),
            lent.ends.as_mut_ptr(),
            lent.ends.len(),
            lent.prices.as_mut_ptr(),
            lent.prices.len(),
            lent.landings.as_mut_ptr(),
            lent.landings.len(),
            lent.marks.as_mut_ptr(),
            lent.marks.len(),
            lent.shares.as_mut_ptr(),
            lent.shares.len(),
            answer.as_mut_ptr(),
            answer.len(),
        )
    }
}

/// Asks for the cell of a site and a subset. Returns 0 for a cell, "none" too, else the number of the refusal. The landing sets are not
/// lent.
pub fn cell(table: CostTable, site: u32, subset: u32, answer: &mut [u64]) -> u32 {
    check_interface();
    // SAFETY: each pointer and length are those of one slice; the mutable slice overlaps nothing.
    unsafe {
        uldhvamm_cell(
            table.cells.as_ptr(),
            table.cells.len(),
            table.sites,
            table.stations,
            site,
            subset,
            answer.as_mut_ptr(),
            answer.len(),
        )
    }
}

/// Asks for the best sender of a subset, of several equally cheap ones the lowest. Returns 0 for a site and for `NO_SENDER`, else the
/// number of the refusal.
pub fn best_sender(table: CostTable, subset: u32, answer: &mut [u64]) -> u32 {
    check_interface();
    // SAFETY: each pointer and length are those of one slice; the mutable slice overlaps nothing.
    unsafe {
        uldhvamm_best_sender(
            table.cells.as_ptr(),
            table.cells.len(),
            table.landings.as_ptr(),
            table.landings.len(),
            table.sites,
            table.stations,
            subset,
            answer.as_mut_ptr(),
            answer.len(),
        )
    }
}

/// `cell` or `best_sender`, as the question says.
pub fn enquire(table: CostTable, question: Question, answer: &mut [u64]) -> u32 {
    match question {
        Question::Cell { site, subset } => cell(table, site, subset, answer),
        Question::BestSender { subset } => best_sender(table, subset, answer),
    }
}

/// Plans a sheet and decodes the answer.
pub fn answer_to_sheet(sheet: &[u8], tables: &mut Tables) -> Answer {
    let mut answer = [0; 3];
    let number = plan(sheet, tables, &mut answer);
    Answer::decode(number, &answer)
}

/// Reads a plan file and decodes the answer.
pub fn answer_to_file(sheet: &[u8], file: &[u8], tables: &mut Tables) -> Answer {
    let mut answer = [0; 3];
    let number = read_plan(sheet, file, tables, &mut answer);
    Answer::decode(number, &answer)
}

/// Shares the price of a plan file out over the stations and decodes the answer.
pub fn answer_to_sharing(sheet: &[u8], file: &[u8], tables: &mut Tables) -> Sharing {
    let mut answer = [0; 4];
    let number = shares(sheet, file, tables, &mut answer);
    Sharing::decode(number, &answer)
}

/// Asks about a cost table and decodes the answer.
pub fn answer_to_question(table: CostTable, question: Question) -> Enquiry {
    let mut answer = [0];
    let number = enquire(table, question, &mut answer);
    Enquiry::decode(question, number, &answer)
}
