//! The library writes nothing outside of the slices that it is lent: these are parts of larger tables, whose rest is looked at.

use std::hint::black_box;
use uldhvamm::{enquire, plan_lent, read_plan_lent, shares_lent};
use uldhvamm::{CostTable, Lengths, Lent, Tables, SENDER_FLAG};
use uldhvamm_bench::compare::table_difference;
use uldhvamm_bench::reference;
use uldhvamm_bench::sheets::{question, random_table, small_sheet, PlanFile, Random, Sheet};

/// Entries of a table before and after the part that is lent.
const GUARD: usize = 8;

/// The lengths with a guard on both sides.
fn guarded(lengths: Lengths) -> Lengths {
    let longer = |length: usize| length + 2 * GUARD;
    Lengths {
        starts: longer(lengths.starts),
        ends: longer(lengths.ends),
        prices: longer(lengths.prices),
        landings: longer(lengths.landings),
        by_end: longer(lengths.by_end),
        places: longer(lengths.places),
        cells: longer(lengths.cells),
        marks: longer(lengths.marks),
        plan: longer(lengths.plan),
        shares: longer(lengths.shares),
    }
}

/// The part of a table between its guards.
fn inner<T>(table: &mut [T]) -> &mut [T] {
    let end = table.len() - GUARD;
    &mut table[GUARD..end]
}

/// The parts of all tables between their guards.
fn inner_parts(tables: &mut Tables) -> Lent<'_> {
    Lent {
        starts: inner(&mut tables.starts),
        ends: inner(&mut tables.ends),
        prices: inner(&mut tables.prices),
        landings: inner(&mut tables.landings),
        by_end: inner(&mut tables.by_end),
        places: inner(&mut tables.places),
        cells: inner(&mut tables.cells),
        marks: inner(&mut tables.marks),
        plan: inner(&mut tables.plan),
        shares: inner(&mut tables.shares),
    }
}

/// Copies the parts between the guards.
fn copy_inner(from: &mut Tables, to: &mut Tables) {
    let (from, to) = (inner_parts(from), inner_parts(to));
    to.starts.copy_from_slice(from.starts);
    to.ends.copy_from_slice(from.ends);
    to.prices.copy_from_slice(from.prices);
    to.landings.copy_from_slice(from.landings);
    to.by_end.copy_from_slice(from.by_end);
    to.places.copy_from_slice(from.places);
    to.cells.copy_from_slice(from.cells);
    to.marks.copy_from_slice(from.marks);
    to.plan.copy_from_slice(from.plan);
    to.shares.copy_from_slice(from.shares);
}

/// Fails where the guards of `after` are not those of `before`.
fn check_guards(before: &Tables, mut after: Tables, sheet: &Sheet) {
    let mut expected = before.clone();
    copy_inner(&mut after, &mut expected);
    assert_eq!(table_difference(&after, &expected), None, "{sheet:?}");
}

/// Reads and shares the plan file of a sheet, and the file with a cent more, which is refused, each with answers of 0 to 5 entries.
fn check_files(before: &Tables, sheet: &Sheet, file: &[u8]) {
    let mut dearer = PlanFile::from_bytes(file);
    dearer.total += 1;
    for entries in 0..6 {
        for (file, due) in [(file, 0), (&dearer.bytes(), 19)] {
            check_file(before, sheet, read_plan_lent, (file, due), entries);
            check_file(before, sheet, shares_lent, (file, due), entries);
        }
    }
}

/// Calls with a file and so many entries of an answer, and fails where another number than the one that is due is returned or a guard of a
/// table or of the answer is written.
fn check_file(
    before: &Tables,
    sheet: &Sheet,
    called: fn(&[u8], &[u8], Lent, &mut [u64]) -> u32,
    (file, due): (&[u8], u32),
    entries: usize,
) {
    let (mut tables, mut answer) = (before.clone(), [5; 9]);
    let lent = inner_parts(&mut tables);
    let number = called(&sheet.bytes(), file, lent, &mut answer[2..2 + entries]);
    assert_eq!(number, due, "{sheet:?}");
    assert_eq!(answer[..2], [5; 2], "{sheet:?}");
    assert!(answer[2 + entries..].iter().all(|&value| value == 5));
    check_guards(before, tables, sheet);
}

#[test]
fn nothing_outside_is_written() {
    let (mut plans, mut refusals) = (0, 0);
    for seed in 700_000..702_000 {
        let random = &mut Random::new(seed);
        let sheet = small_sheet(random);
        let bytes = sheet.bytes();
        let (n, k) = (usize::from(sheet.sites), usize::from(sheet.stations));
        let lengths = guarded(Lengths::needed(n, k, sheet.legs().len()));
        let before = Tables::with(lengths, || random.bits());
        let mut tables = before.clone();
        let mut answer = [5; 7];
        let number = plan_lent(&bytes, inner_parts(&mut tables), &mut answer[2..5]);
        assert_eq!([answer[0], answer[1], answer[5], answer[6]], [5; 4]);
        if number == 0 {
            plans += 1;
            let file = PlanFile::from_bytes(inner(&mut tables.plan)).bytes();
            check_files(&before, &sheet, &file);
        } else {
            refusals += 1;
        }
        check_guards(&before, tables, &sheet);
    }
    assert!(
        plans > 500 && refusals > 500,
        "{plans} plans, {refusals} refusals"
    );
}

/// The guards of the cells are 0, less than most cells, and those of the landing entries are flagged: a best sender that is found outside
/// is not the one that is due.
#[test]
fn the_enquirer_keeps_to_its_slices() {
    let (mut answers, mut refusals) = (0, 0);
    for seed in 710_000..714_000 {
        let random = &mut Random::new(seed);
        let table = random_table(random);
        let question = question(random, &table);
        let mut cells = [&[0; GUARD], &table.cells[..], &[0; GUARD]].concat();
        let flags = [SENDER_FLAG; GUARD];
        let mut landings = [&flags, &table.landings[..], &flags].concat();
        let before = black_box((cells.clone(), landings.clone()));
        let lent = CostTable {
            cells: inner(&mut cells),
            landings: inner(&mut landings),
            ..table.lend()
        };
        let entries = random.below(4);
        let (mut answer, mut due) = ([5; 7], [5; 7]);
        let number = enquire(lent, question, &mut answer[2..2 + entries]);
        let due_number = reference::enquire(table.lend(), question, &mut due[2..2 + entries]);
        assert_eq!(
            (number, answer),
            (due_number, due),
            "{question:?}, seed {seed}"
        );
        assert!(
            black_box((cells, landings)) == before,
            "tables, seed {seed}"
        );
        match number {
            0 => answers += 1,
            _ => refusals += 1,
        }
    }
    assert!(
        answers > 500 && refusals > 500,
        "{answers} answers, {refusals} refusals"
    );
}
