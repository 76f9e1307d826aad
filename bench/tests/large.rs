//! The library against the reference on sheets of 1,024 sites and 10 stations, tables compared whole.

use uldhvamm::{Lengths, Tables};
use uldhvamm_bench::compare::{both, Call, Run};
use uldhvamm_bench::sheets::{
    bad_reading, chain, far_chain, filled_sheet, gated_row, grid, heard_often,
};
use uldhvamm_bench::sheets::{licensed, random_sheet};
use uldhvamm_bench::sheets::{Chain, Leg, Order, PlanFile, Random, Sheet};

/// Runs both with tables of garbage, a few entries longer than needed, and fails where they differ.
fn check(call: &Call, sheet: &Sheet) -> Run {
    let mut random = Random::new(1);
    let (n, k) = (usize::from(sheet.sites), usize::from(sheet.stations));
    let mut lengths = Lengths::needed(n, k, sheet.legs().len() + 2);
    lengths.places += 4;
    lengths.cells += 5;
    lengths.marks += 3;
    lengths.plan += 9;
    lengths.shares += 2;
    let tables = Tables::with(lengths, || random.bits());
    let answer: Vec<u64> = (0..5).map(|_| random.bits()).collect();
    both(call, &sheet.bytes(), &tables, &answer).unwrap_or_else(|words| panic!("{words}"))
}

/// Plans a sheet, reads the plan and shares it out; gives the number of legs. The stations pay all of the plan.
fn plan_and_read(sheet: &Sheet) -> usize {
    let run = check(&Call::Plan, sheet);
    assert_eq!(run.number, 0);
    let plan = PlanFile::from_bytes(&run.tables.plan);
    assert_eq!(check(&Call::Read(plan.bytes()), sheet).number, 0);
    let shared = check(&Call::Share(plan.bytes()), sheet);
    assert_eq!((shared.number, shared.answer[3]), (0, 0));
    assert_eq!(paid(&shared, sheet), u64::from(plan.total));
    plan.legs.len()
}

/// The sum of the shares that a sharing has left.
fn paid(shared: &Run, sheet: &Sheet) -> u64 {
    let shares = &shared.tables.shares[..usize::from(sheet.stations)];
    shares.iter().map(|&share| u64::from(share)).sum()
}

/// A chain of 1,024 sites and 10 stations, one leg a step, whose plan has every step.
fn whole_chain(order: Order) -> Sheet {
    let shape = Chain {
        sites: 1024,
        stations: 10,
        legs: 1023,
        order,
        whole: true,
    };
    chain(3, shape)
}

#[test]
fn random_sheets_are_planned_alike() {
    assert!(plan_and_read(&random_sheet(1, 1024, 10, 8192, 1000)) > 9);
    assert!(plan_and_read(&random_sheet(2, 1024, 10, 8192, 3)) > 9);
    assert!(plan_and_read(&random_sheet(3, 1023, 10, 8191, 1_000_000)) > 9);
}

/// At each site every second, third or seventh station is heard, so that of most sets a station costs nothing there.
#[test]
fn sheets_with_many_landings_are_planned_alike() {
    assert_eq!(plan_and_read(&heard_often(8, 2)), 1);
    assert_eq!(plan_and_read(&heard_often(9, 3)), 2);
    assert!(plan_and_read(&heard_often(10, 7)) > 4);
}

#[test]
fn a_grid_is_planned_alike() {
    assert!(plan_and_read(&grid(4, 32, 10, Order::Mixed)) > 9);
    assert!(plan_and_read(&grid(4, 32, 10, Order::Rising)) > 9);
}

#[test]
fn a_chain_is_planned_alike() {
    assert_eq!(plan_and_read(&whole_chain(Order::Falling)), 1023);
    assert_eq!(plan_and_read(&whole_chain(Order::Mixed)), 1023);
}

/// From the last site of the row the plan leads through the whole row and the gate to the place at which every station is heard.
#[test]
fn a_gated_row_is_planned_alike() {
    for (dear_ways, legs, row) in [(false, 8147, 895), (true, 8085, 881)] {
        let sheet = gated_row(6, dear_ways);
        assert_eq!(sheet.legs().len(), legs);
        assert_eq!(plan_and_read(&sheet), 0);
        assert_eq!(
            plan_and_read(&sheet.sender(128 + row)),
            usize::from(row) + 2
        );
    }
}

/// The index of legs that all end at one site, and of legs whose ends fall.
#[test]
fn the_index_of_many_legs_is_filled_alike() {
    let many = |end: fn(u16) -> u16| {
        (0..8192).fold(Sheet::new(1024, 1).landing(0, 3), |sheet, leg| {
            sheet.link((end(leg) + 1) % 1024, end(leg), 2)
        })
    };
    for sheet in [many(|_| 0), many(|_| 1023), many(|leg| 1023 - leg / 8)] {
        let tables = check(&Call::Plan, &sheet).tables;
        assert!(tables.by_end[..8192].is_sorted_by_key(|&leg| (tables.ends[usize::from(leg)], leg)));
        assert_eq!((tables.places[0], tables.places[1024]), (0, 8192));
    }
}

#[test]
fn a_sheet_at_every_limit_is_planned_alike() {
    let sheet = filled_sheet(5);
    assert_eq!(sheet.bytes().len(), 137_223);
    assert_eq!(plan_and_read(&sheet), 0);
}

/// Few sites may send, so that the plan is dearer than it is without licences; the plan without licences is refused with 20.
#[test]
fn licensed_sheets_are_planned_alike() {
    let open = random_sheet(1, 1024, 10, 8192, 1000);
    let sheet = licensed(7, open.clone(), 3);
    let (free, bound) = (check(&Call::Plan, &open), check(&Call::Plan, &sheet));
    assert_eq!((free.number, bound.number), (0, 0));
    assert!(free.answer[1] < bound.answer[1]);
    assert!(plan_and_read(&sheet) > 9);
    let file = PlanFile::from_bytes(&free.tables.plan).bytes();
    assert_eq!(check(&Call::Read(file.clone()), &sheet).number, 20);
    assert_eq!(check(&Call::Share(file), &sheet).number, 20);
}

/// From the first site of a chain alone legs lead to every station: with its licence there is the plan, with that of the last site alone
/// there is none.
#[test]
fn the_licence_of_a_chain_is_kept_alike() {
    let sheet = whole_chain(Order::Falling);
    assert_eq!(plan_and_read(&sheet.clone().sender(1023).sender(0)), 1023);
    let run = check(&Call::Plan, &sheet.clone().sender(1023));
    assert_eq!(run.number, 12);
    let file = PlanFile::from_bytes(&check(&Call::Plan, &sheet).tables.plan).bytes();
    let read = check(&Call::Read(file), &sheet.sender(1023));
    assert_eq!(read.number, 20);
    assert!(read.tables.marks[..1024].iter().all(|&mark| mark == 1));
}

#[test]
fn a_file_of_65535_legs_is_read_alike() {
    let sheet = whole_chain(Order::Rising);
    let file = bad_reading(1024);
    assert_eq!(file.legs.len(), 65_535);
    for call in [Call::Read(file.bytes()), Call::Share(file.bytes())] {
        let run = check(&call, &sheet);
        assert_eq!(run.number, 17);
        assert!(run.tables.marks[..1024].iter().all(|&mark| mark == 1));
    }
}

/// Each leg of the chain serves all ten stations, and so each pays a tenth of every leg, the first ones its odd cents.
#[test]
fn a_chain_to_all_stations_is_shared_alike() {
    let sheet = far_chain(1024, 10);
    assert_eq!(plan_and_read(&sheet), 1023);
    let file = PlanFile::from_bytes(&check(&Call::Plan, &sheet).tables.plan);
    let run = check(&Call::Share(file.bytes()), &sheet);
    let prices = || sheet.legs().into_iter().map(|leg| leg.price);
    let due: Vec<u32> = (0..10)
        .map(|station| prices().map(|price| (price + 9 - station) / 10).sum())
        .collect();
    assert_eq!(run.tables.shares[..10], due);
    assert!(due[0] > due[9]);
}

/// The file of the tree of all sites of a square whose legs go along the first row and down each column.
fn row_and_columns(sheet: &Sheet, side: u16) -> PlanFile {
    let legs = sheet.legs();
    let along = |leg: &Leg| leg.to < side && leg.to == leg.from + 1;
    let down = |leg: &Leg| leg.to == leg.from + side;
    let listed = (0..legs.len()).filter(|&leg| along(&legs[leg]) || down(&legs[leg]));
    let listed: Vec<u16> = listed.map(|leg| leg as u16).collect();
    let prices = listed.iter().map(|&leg| legs[usize::from(leg)].price);
    PlanFile {
        root: 0,
        total: prices.sum(),
        legs: listed,
    }
}

/// A tree that holds every site of a grid and is not its plan. What leads past the last seat of a column is unassigned.
#[test]
fn a_tree_of_a_whole_grid_is_shared_alike() {
    let sheet = grid(4, 32, 10, Order::Mixed);
    let file = row_and_columns(&sheet, 32);
    let run = check(&Call::Share(file.bytes()), &sheet);
    assert_eq!((run.number, file.legs.len()), (0, 1023));
    let (paid, unassigned) = (paid(&run, &sheet), run.answer[3]);
    assert!(paid > 0 && unassigned > 0);
    assert_eq!(paid + unassigned, u64::from(file.total));
}

#[test]
fn dear_chains_are_planned_alike() {
    let links = (0..1023).fold(Sheet::new(1024, 2), |sheet, from| {
        sheet.link(from, from + 1, 1_000_000)
    });
    let sheet = links.landing(0, 0).landing(1, 1023);
    let run = check(&Call::Plan, &sheet);
    assert_eq!((run.number, run.answer[1]), (0, 1_023_000_000));
    let file = PlanFile::from_bytes(&run.tables.plan).bytes();
    let shared = check(&Call::Share(file), &sheet);
    assert_eq!(shared.tables.shares[..2], [0, 1_023_000_000]);
}
