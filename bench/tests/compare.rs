//! The library against the reference: thousands of small sheets and plan files, sound and damaged.
//!
//! The tables, the plan buffer and `answer` are filled with garbage, have the exact lengths, longer ones or shorter ones, and are
//! compared whole. Each test counts the answers and fails where one that it aims at did not occur.

use uldhvamm::{CostTable, Lengths, Tables};
use uldhvamm_bench::compare::{both, some_site_reaches_all, Call, Run};
use uldhvamm_bench::reference;
use uldhvamm_bench::sheets::{damaged, grown_plan, small_sheet, varied_file, wide_sheet};
use uldhvamm_bench::sheets::{leg_records, PlanFile, Random, Sheet};

/// How often each answer occurred; entry 0 is for plans and acceptances. Of the answers 12, those where some site that is no sender
/// reaches every station.
struct Counts {
    answers: [usize; 21],
    unlicensed: usize,
}

impl Counts {
    fn new() -> Counts {
        Counts {
            answers: [0; 21],
            unlicensed: 0,
        }
    }

    /// Counts what was answered to a sheet.
    fn add(&mut self, sheet: &[u8], run: &Run) {
        self.answers[run.number as usize] += 1;
        if run.number == 12 {
            let sheet = reference::read_sheet(sheet).expect("a sheet without a plan is good");
            let table = CostTable {
                cells: &run.tables.cells,
                landings: &run.tables.landings,
                sites: sheet.sites as u32,
                stations: sheet.stations as u32,
            };
            self.unlicensed += usize::from(some_site_reaches_all(table));
        }
    }

    /// Fails where one of the two kinds of 12 occurred less than `least` times: no site reaches every station, or only others than
    /// senders do.
    fn require_both_kinds(&self, name: &str, least: usize) {
        let unreached = self.answers[12] - self.unlicensed;
        println!(
            "{name}: 12 for want of legs {unreached} times, for want of a licence {} times",
            self.unlicensed
        );
        assert!(
            unreached >= least && self.unlicensed >= least,
            "{name}: kinds of 12"
        );
    }

    /// Prints the counts, and fails where an answer of `aims` occurred less than `least` times.
    fn require(&self, name: &str, aims: &[usize], least: usize) {
        println!("{name}: {:?}", self.answers);
        for &aim in aims {
            let times = self.answers[aim];
            assert!(
                times >= least,
                "{name}: answer {aim} occurred {times} times"
            );
        }
    }
}

/// Lends tables of garbage, runs both, fails where they differ, and counts the answer.
fn check(
    random: &mut Random,
    counts: &mut Counts,
    call: &Call,
    sheet: &[u8],
    lengths: Lengths,
) -> Run {
    let tables = Tables::with(lengths, || random.bits());
    let entries = random.below(6);
    let answer: Vec<u64> = (0..entries).map(|_| random.bits()).collect();
    let run = both(call, sheet, &tables, &answer).unwrap_or_else(|words| panic!("{words}"));
    counts.add(sheet, &run);
    run
}

/// The lengths for a sheet's bytes: those that it needs where it is good and not too large for a small test, else `otherwise`.
fn needed_by(bytes: &[u8], otherwise: Lengths) -> Lengths {
    match reference::read_sheet(bytes) {
        Ok(sheet) if sheet.sites << sheet.stations <= 1 << 16 => {
            Lengths::needed(sheet.sites, sheet.stations, sheet.legs.len())
        }
        _ => otherwise,
    }
}

/// The lengths that a sheet needs.
fn needed(sheet: &Sheet) -> Lengths {
    let (n, k) = (usize::from(sheet.sites), usize::from(sheet.stations));
    Lengths::needed(n, k, sheet.legs().len())
}

/// The lengths as they are, or some longer, or one shorter.
fn varied(random: &mut Random, mut lengths: Lengths) -> Lengths {
    let changed = random.below(3);
    let mut tables = [
        &mut lengths.starts,
        &mut lengths.ends,
        &mut lengths.prices,
        &mut lengths.landings,
        &mut lengths.by_end,
        &mut lengths.places,
        &mut lengths.cells,
        &mut lengths.marks,
        &mut lengths.shares,
    ];
    if changed == 1 {
        tables
            .iter_mut()
            .for_each(|length| **length += random.below(4));
    }
    if changed == 2 {
        let short = &mut *tables[random.below(9)];
        *short = short.saturating_sub(random.pick(&[1, 1, 1, 2, 1000]));
    }
    lengths
}

/// A length for the plan buffer around that of a plan file of `legs` legs.
fn buffer_length(random: &mut Random, legs: usize) -> usize {
    let file = 10 + 4 * legs;
    random.pick(&[file, file, file + 1, file + 40, file - 1, file - 4, 9, 0])
}

/// The plan file of a sheet, if it has one, and the run of the planning with exact lengths.
fn plan_of(random: &mut Random, counts: &mut Counts, sheet: &Sheet) -> Option<PlanFile> {
    let run = check(random, counts, &Call::Plan, &sheet.bytes(), needed(sheet));
    (run.number == 0).then(|| PlanFile::from_bytes(&run.tables.plan))
}

/// A small sheet, or now and then a wide one.
fn any_sheet(random: &mut Random) -> Sheet {
    match random.once_in(50) {
        true => wide_sheet(random),
        false => small_sheet(random),
    }
}

#[test]
fn sound_sheets_are_planned_alike() {
    let mut counts = Counts::new();
    for seed in 0..12_000 {
        let random = &mut Random::new(seed);
        let sheet = any_sheet(random);
        let plan = plan_of(random, &mut counts, &sheet);
        let mut lengths = varied(random, needed(&sheet));
        let legs = plan.map_or(0, |plan| plan.legs.len());
        lengths.plan = buffer_length(random, legs);
        check(random, &mut counts, &Call::Plan, &sheet.bytes(), lengths);
    }
    counts.require("sound sheets planned", &[0, 11, 12, 13], 500);
    counts.require_both_kinds("sound sheets planned", 500);
}

#[test]
fn damaged_sheets_are_planned_alike() {
    let mut counts = Counts::new();
    for seed in 100_000..140_000 {
        let random = &mut Random::new(seed);
        let sheet = small_sheet(random);
        let bytes = damaged(random, &sheet);
        let lengths = needed_by(&bytes, needed(&sheet));
        let lengths = varied(random, lengths);
        check(random, &mut counts, &Call::Plan, &bytes, lengths);
    }
    let aims = [0, 1, 2, 3, 4, 5, 6, 7, 9, 10, 11, 12];
    counts.require("damaged sheets planned", &aims, 100);
    counts.require_both_kinds("damaged sheets planned", 100);
}

#[test]
fn random_bytes_are_planned_alike() {
    let mut counts = Counts::new();
    for seed in 200_000..205_000 {
        let random = &mut Random::new(seed);
        let length = random.below(40);
        let mut bytes: Vec<u8> = (0..length).map(|_| random.bits() as u8).collect();
        if random.once_in(2) {
            bytes.splice(0..0, *b"HD\0\x02\x01");
        }
        let lengths = Lengths::needed(2, 1, 4);
        check(random, &mut counts, &Call::Plan, &bytes, lengths);
    }
    counts.require("random bytes planned", &[1, 2], 100);
}

#[test]
fn plan_files_are_read_alike() {
    let mut counts = Counts::new();
    let mut plans = Counts::new();
    for seed in 300_000..308_000 {
        let random = &mut Random::new(seed);
        let sheet = any_sheet(random);
        let plan = plan_of(random, &mut plans, &sheet);
        let bytes = sheet.bytes();
        if let Some(plan) = &plan {
            let call = Call::Read(plan.bytes());
            let run = check(random, &mut counts, &call, &bytes, needed(&sheet));
            assert_eq!(run.number, 0, "the plan of a sheet is accepted");
        }
        for _ in 0..6 {
            let file = varied_file(random, &sheet, plan.as_ref());
            let lengths = match random.once_in(8) {
                true => varied(random, needed(&sheet)),
                false => needed(&sheet),
            };
            check(random, &mut counts, &Call::Read(file), &bytes, lengths);
        }
    }
    let aims = [0, 11, 14, 15, 16, 17, 18, 19, 20];
    counts.require("plan files read", &aims, 500);
}

/// The plan of a sheet without its `SR` records, read against the sheet: only a root that is no sender is a fault.
#[test]
fn plans_from_any_site_are_read_alike() {
    let mut counts = Counts::new();
    let mut plans = Counts::new();
    for seed in 320_000..326_000 {
        let random = &mut Random::new(seed);
        let sheet = any_sheet(random);
        let Some(plan) = plan_of(random, &mut plans, &sheet.without_senders()) else {
            continue;
        };
        let (call, bytes) = (Call::Read(plan.bytes()), sheet.bytes());
        let run = check(random, &mut counts, &call, &bytes, needed(&sheet));
        let good = reference::read_sheet(&bytes).expect("the sheet is good");
        let due = match good.senders[usize::from(plan.root)] {
            true => 0,
            false => 20,
        };
        assert_eq!(run.number, due, "{sheet:?}");
    }
    counts.require("plans from any site read", &[0, 20], 500);
    assert_eq!(plans.unlicensed, 0, "every site is a sender");
}

#[test]
fn damaged_sheets_are_read_alike() {
    let mut counts = Counts::new();
    for seed in 400_000..410_000 {
        let random = &mut Random::new(seed);
        let sheet = small_sheet(random);
        let bytes = damaged(random, &sheet);
        let file = varied_file(random, &sheet, None);
        let lengths = needed_by(&bytes, needed(&sheet));
        let lengths = varied(random, lengths);
        check(random, &mut counts, &Call::Read(file), &bytes, lengths);
    }
    let aims = [
        0, 1, 2, 3, 4, 5, 6, 7, 9, 10, 11, 14, 15, 16, 17, 18, 19, 20,
    ];
    counts.require("files read against damaged sheets", &aims, 20);
}

/// What the stations of a sheet pay after an accepted sharing, and what of the file's total is left. Fails where `answer` has another
/// unassigned sum.
fn paid_and_left(sheet: &Sheet, file: &PlanFile, run: &Run) -> (u64, u64) {
    let shares = &run.tables.shares[..usize::from(sheet.stations)];
    let paid = shares.iter().map(|&share| u64::from(share)).sum();
    let left = u64::from(file.total).checked_sub(paid);
    let left = left.unwrap_or_else(|| panic!("{paid} paid for {file:?}, {sheet:?}"));
    if let Some(&unassigned) = run.answer.get(3) {
        assert_eq!(unassigned, left, "{file:?}, {sheet:?}");
    }
    (paid, left)
}

#[test]
fn plan_files_are_shared_alike() {
    let mut counts = Counts::new();
    let mut plans = Counts::new();
    for seed in 340_000..348_000 {
        let random = &mut Random::new(seed);
        let sheet = any_sheet(random);
        let plan = plan_of(random, &mut plans, &sheet);
        let bytes = sheet.bytes();
        for _ in 0..6 {
            let file = varied_file(random, &sheet, plan.as_ref());
            let lengths = match random.once_in(8) {
                true => varied(random, needed(&sheet)),
                false => needed(&sheet),
            };
            let call = Call::Share(file.clone());
            let run = check(random, &mut counts, &call, &bytes, lengths);
            if run.number == 0 {
                paid_and_left(&sheet, &PlanFile::from_bytes(&file), &run);
            }
        }
    }
    let aims = [0, 11, 14, 15, 16, 17, 18, 19, 20];
    counts.require("plan files shared", &aims, 500);
}

/// Of a sheet's own plan nothing is left. Of its plan with further legs, and of other trees from its root, some is left now and then, or
/// all.
#[test]
fn plans_and_dearer_trees_are_shared_alike() {
    let mut counts = Counts::new();
    let (mut whole, mut partly, mut unpaid) = (0, 0, 0);
    for seed in 360_000..370_000 {
        let random = &mut Random::new(seed);
        let sheet = any_sheet(random);
        let Some(plan) = plan_of(random, &mut counts, &sheet) else {
            continue;
        };
        for (file, is_plan) in [(grown_plan(random, &sheet, &plan), false), (plan, true)] {
            let (call, bytes) = (Call::Share(file.bytes()), sheet.bytes());
            let run = check(random, &mut counts, &call, &bytes, needed(&sheet));
            assert_eq!(run.number, 0, "{file:?}, {sheet:?}");
            match paid_and_left(&sheet, &file, &run) {
                (_, 0) => whole += usize::from(!is_plan),
                _ if is_plan => panic!("the plan is not paid: {file:?}, {sheet:?}"),
                (0, _) => unpaid += 1,
                _ => partly += 1,
            }
        }
    }
    println!("dearer trees paid whole {whole}, in part {partly}, not at all {unpaid} times");
    assert!(whole > 500 && partly > 500 && unpaid > 500);
}

#[test]
fn damaged_sheets_are_shared_alike() {
    let mut counts = Counts::new();
    for seed in 420_000..430_000 {
        let random = &mut Random::new(seed);
        let sheet = small_sheet(random);
        let bytes = damaged(random, &sheet);
        let file = varied_file(random, &sheet, None);
        let lengths = needed_by(&bytes, needed(&sheet));
        let lengths = varied(random, lengths);
        check(random, &mut counts, &Call::Share(file), &bytes, lengths);
    }
    let aims = [
        0, 1, 2, 3, 4, 5, 6, 7, 9, 10, 11, 14, 15, 16, 17, 18, 19, 20,
    ];
    counts.require("files shared against damaged sheets", &aims, 20);
}

/// A sheet of 3 sites and 1 station with some legs.
fn crowded(links: usize) -> Sheet {
    let legs = (0..links).map(|leg| (leg % 3) as u16);
    let sheet = Sheet::new(3, 1).landing(0, 2);
    legs.fold(sheet, |sheet, from| {
        sheet.link(from, (from + 1) % 3, 1 + u32::from(from))
    })
}

#[test]
fn the_limit_of_legs_is_kept_alike() {
    let sheets = [
        (crowded(8_191), 0),
        (crowded(8_192), 0),
        (crowded(8_193), 8),
        (crowded(8_190).both(0, 1, 5), 0),
        (crowded(8_191).both(0, 1, 5), 8),
        (crowded(8_192).both(0, 1, 5), 8),
        (crowded(8_192).landing(0, 1), 0),
        (crowded(8_192).sender(2), 0),
        (crowded(8_192).sender(3), 4),
        (crowded(8_192).link(0, 1, 0), 7),
        (crowded(8_192).link(1, 1, 0), 6),
        (crowded(8_192).link(3, 3, 0), 4),
        (crowded(8_192).both(2, 1, 1_000_001), 7),
    ];
    let random = &mut Random::new(500_000);
    let mut counts = Counts::new();
    for (sheet, number) in &sheets {
        let bytes = sheet.bytes();
        let lengths = Lengths::needed(3, 1, 8_193);
        let run = check(random, &mut counts, &Call::Plan, &bytes, lengths);
        assert_eq!(run.number, *number);
        let file = [&b"PN\0\x02\0\0\0\0\0\0"[..], &leg_records(&[])].concat();
        for call in [Call::Read(file.clone()), Call::Share(file)] {
            let run = check(random, &mut counts, &call, &bytes, lengths);
            assert_eq!(run.number, *number);
        }
    }
    counts.require("sheets at the limit of legs", &[0, 4, 6, 7, 8], 2);
}
