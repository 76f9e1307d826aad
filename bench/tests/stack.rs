//! The library in a thread with a stack of 56 KiB, which does nothing but the call.

use std::thread;
use uldhvamm::enquire;
use uldhvamm::{CostTable, Lengths, Question, Tables};
use uldhvamm_bench::compare::{call_library, call_reference, difference, Call, Run};
use uldhvamm_bench::reference;
use uldhvamm_bench::sheets::{
    chain, far_chain, licensed, random_sheet, Chain, Order, Random, Sheet,
};

const STACK: usize = 56 * 1024;

/// Tables of garbage for a sheet.
fn garbage(sheet: &Sheet) -> Tables {
    let mut random = Random::new(1);
    let (n, k) = (usize::from(sheet.sites), usize::from(sheet.stations));
    Tables::with(Lengths::needed(n, k, sheet.legs().len()), || random.bits())
}

/// Works in a thread with little stack.
fn with_little_stack(work: impl FnOnce() + Send) {
    thread::scope(|scope| {
        let thread = thread::Builder::new()
            .stack_size(STACK)
            .spawn_scoped(scope, work);
        thread
            .expect("the thread starts")
            .join()
            .expect("the thread ends");
    });
}

/// Compares a run in the small thread with a run of the reference in the test's own.
fn check(call: &Call, sheet: &Sheet) -> Run {
    let bytes = sheet.bytes();
    let before = Run {
        number: u32::MAX,
        answer: vec![7; 4],
        tables: garbage(sheet),
    };
    let (mut library, mut reference) = (before.clone(), before);
    with_little_stack(|| {
        library.number = call_library(call, &bytes, &mut library.tables, &mut library.answer);
    });
    reference.number = call_reference(call, &bytes, &mut reference.tables, &mut reference.answer);
    assert_eq!(difference(&library, &reference), None);
    library
}

/// Plans a sheet, reads the plan and shares it out.
fn plan_and_read(sheet: &Sheet) -> u64 {
    let planned = check(&Call::Plan, sheet);
    assert_eq!(planned.number, 0);
    let length = 10 + 4 * planned.answer[2] as usize;
    let file = planned.tables.plan[..length].to_vec();
    assert_eq!(check(&Call::Read(file.clone()), sheet).number, 0);
    assert_eq!(check(&Call::Share(file), sheet).number, 0);
    planned.answer[2]
}

#[test]
fn a_chain_needs_little_stack() {
    let shape = Chain {
        sites: 1024,
        stations: 10,
        legs: 1023,
        order: Order::Falling,
        whole: true,
    };
    assert_eq!(plan_and_read(&chain(3, shape)), 1023);
}

#[test]
fn a_chain_to_all_stations_needs_little_stack() {
    assert_eq!(plan_and_read(&far_chain(1024, 10)), 1023);
}

#[test]
fn a_random_sheet_needs_little_stack() {
    let sheet = random_sheet(1, 1024, 10, 8192, 1000);
    assert!(plan_and_read(&sheet) > 9);
    assert!(plan_and_read(&licensed(2, sheet, 100)) > 9);
}

#[test]
fn stations_at_one_site_need_little_stack() {
    let sheet = (0..10).fold(Sheet::new(2, 10).link(0, 1, 3), |sheet, station| {
        sheet.landing(station, 1)
    });
    assert_eq!(plan_and_read(&sheet), 0);
}

#[test]
fn the_enquirer_needs_little_stack() {
    let sheet = licensed(2, random_sheet(1, 1024, 10, 8192, 1000), 100);
    let planned = check(&Call::Plan, &sheet);
    let table = CostTable {
        cells: &planned.tables.cells,
        landings: &planned.tables.landings,
        sites: 1024,
        stations: 10,
    };
    let asked = [
        Question::BestSender { subset: 1023 },
        Question::BestSender { subset: 1024 },
        Question::Cell {
            site: 1023,
            subset: 1023,
        },
        Question::Cell {
            site: 1024,
            subset: 0,
        },
    ];
    for question in asked {
        let (mut number, mut answer) = (u32::MAX, [7; 3]);
        with_little_stack(|| number = enquire(table, question, &mut answer));
        let mut due = [7; 3];
        let due_number = reference::enquire(table, question, &mut due);
        assert_eq!((number, answer), (due_number, due), "{question:?}");
    }
}
