//! The cases of the benchmark: sheets to plan, plan files to read and to share out, and sheets that are only read.

use uldhvamm::{Lengths, Tables};
use uldhvamm_bench::compare::Call;
use uldhvamm_bench::sheets::{
    among_some, bad_reading, chain, far_chain, filled_sheet, gated_row, grid, heard_often,
    random_sheet,
};
use uldhvamm_bench::sheets::{Chain, Order, Sheet};

/// A call with its sheet and the lengths of the lent tables.
pub struct Case {
    pub name: String,
    pub call: Call,
    pub sheet: Vec<u8>,
    pub lengths: Lengths,
}

/// All cases.
pub fn cases() -> Vec<Case> {
    let mut cases = random_cases();
    cases.extend(grid_cases());
    cases.extend(chain_cases());
    let whole = long_chain(8192, Order::Falling, true);
    cases.push(plan_case("chain, stations at both ends", whole));
    cases.push(plan_case("row behind a gate", gated_row(12, false)));
    cases.push(plan_case("the same, dear ways", gated_row(12, true)));
    cases.extend(reading_cases());
    cases.extend(sharing_cases());
    cases
}

/// The lengths that a sheet needs.
fn needed(sheet: &Sheet) -> Lengths {
    let (n, k) = (usize::from(sheet.sites), usize::from(sheet.stations));
    Lengths::needed(n, k, sheet.legs().len())
}

/// The planning of a sheet.
fn plan_case(name: &str, sheet: Sheet) -> Case {
    Case {
        name: format!(
            "plan: {name}, n {}, k {}, legs {}",
            sheet.sites,
            sheet.stations,
            sheet.legs().len()
        ),
        call: Call::Plan,
        lengths: needed(&sheet),
        sheet: sheet.bytes(),
    }
}

/// Random sheets, large and small, with few and with many equal prices, with legs among some of the sites, and with many landings.
fn random_cases() -> Vec<Case> {
    vec![
        plan_case("random", random_sheet(1, 1024, 10, 8192, 1_000_000)),
        plan_case("random, prices 1 to 3", random_sheet(2, 1024, 10, 8192, 3)),
        plan_case("random, one price", random_sheet(3, 1024, 10, 8192, 1)),
        plan_case("random, few legs", random_sheet(4, 1024, 10, 2048, 1000)),
        plan_case("random, among 100 sites", among_some(13, 100, 8192)),
        plan_case("random, among 30 sites", among_some(14, 30, 8192)),
        plan_case("random, all heard everywhere", heard_often(15, 1)),
        plan_case("random, heard at every second", heard_often(16, 2)),
        plan_case("random, heard at every third", heard_often(17, 3)),
        plan_case("random", random_sheet(5, 200, 8, 1600, 1000)),
        plan_case("random", random_sheet(6, 64, 7, 512, 1000)),
        plan_case("random", random_sheet(7, 16, 4, 64, 1000)),
        plan_case("random", random_sheet(18, 16, 10, 64, 1000)),
        plan_case("random", random_sheet(19, 4, 3, 8, 1000)),
    ]
}

/// Grids of 32 times 32 sites.
fn grid_cases() -> Vec<Case> {
    vec![
        plan_case("grid, mixed order", grid(8, 32, 10, Order::Mixed)),
        plan_case("grid, row order", grid(8, 32, 10, Order::Rising)),
        plan_case("grid, row order reversed", grid(8, 32, 10, Order::Falling)),
    ]
}

/// A chain of 1,024 sites and 10 stations.
fn long_chain(legs: usize, order: Order, whole: bool) -> Sheet {
    let shape = Chain {
        sites: 1024,
        stations: 10,
        legs,
        order,
        whole,
    };
    chain(9, shape)
}

/// Chains whose legs are listed in orders that are good and bad for passes over the legs.
fn chain_cases() -> Vec<Case> {
    let orders = [
        ("from the far end", Order::Falling),
        ("from the root", Order::Rising),
        ("mixed order", Order::Mixed),
        ("worst order", Order::Worst),
    ];
    let case = |legs, (name, order): (&str, Order)| {
        plan_case(&format!("chain, {name}"), long_chain(legs, order, false))
    };
    let sizes = [1023, 8192].into_iter();
    sizes
        .flat_map(|legs| orders.map(|order| case(legs, order)))
        .collect()
}

/// The reading of a plan file.
fn reading_case(name: &str, sheet: &Sheet, file: Vec<u8>) -> Case {
    Case {
        name: format!("read: {name}"),
        call: Call::Read(file),
        lengths: needed(sheet),
        sheet: sheet.bytes(),
    }
}

/// The sharing of the sheet's own plan.
fn sharing_case(name: &str, sheet: &Sheet) -> Case {
    let file = plan_of(sheet);
    let legs = (file.len() - 10) / 4;
    Case {
        name: format!("share: {name}, {legs} legs"),
        call: Call::Share(file),
        lengths: needed(sheet),
        sheet: sheet.bytes(),
    }
}

/// Sharings of plans: those of a random sheet and of a grid, which have few legs, and those of chains, whose legs serve ten stations at the
/// far end, or nine near it.
fn sharing_cases() -> Vec<Case> {
    let near = long_chain(1023, Order::Mixed, true);
    vec![
        sharing_case(
            "plan of a random sheet",
            &random_sheet(1, 1024, 10, 8192, 1_000_000),
        ),
        sharing_case("plan of a grid", &grid(8, 32, 10, Order::Mixed)),
        sharing_case("chain, ten stations at its far end", &far_chain(1024, 10)),
        sharing_case("chain, nine near its far end", &near),
    ]
}

/// The plan file of a sheet that has a plan.
fn plan_of(sheet: &Sheet) -> Vec<u8> {
    let mut tables = Tables::with(needed(sheet), || 0);
    let mut answer = [0; 3];
    let number = uldhvamm::plan(&sheet.bytes(), &mut tables, &mut answer);
    assert_eq!(number, 0, "the sheet has a plan");
    tables.plan.truncate(10 + 4 * answer[2] as usize);
    tables.plan
}

/// Readings of plan files, and of sheets alone: a refusal by short tables judges the sheet, a file of no bytes loads it too.
fn reading_cases() -> Vec<Case> {
    let rising = long_chain(1023, Order::Rising, true);
    let falling = long_chain(1023, Order::Falling, true);
    let plan = plan_of(&falling);
    let full = filled_sheet(10);
    let mut judged = plan_case("only judged, short tables", full.clone());
    judged.lengths.marks = 0;
    vec![
        reading_case(
            "65,535 listed legs, bad order",
            &rising,
            bad_reading(1024).bytes(),
        ),
        reading_case("plan of 1,023 legs in order", &falling, plan.clone()),
        reading_case(
            "plan of 1,023 legs, order reversed",
            &falling,
            reversed(&plan),
        ),
        judged,
        reading_case("largest sheet loaded, file of no bytes", &full, Vec::new()),
    ]
}

/// A plan file with its legs in reversed order.
fn reversed(file: &[u8]) -> Vec<u8> {
    let (head, records) = file.split_at(10);
    let records: Vec<&[u8]> = records.chunks(4).rev().collect();
    [head, &records.concat()].concat()
}
