//! The enquirer against the reference: random cost tables with sound and damaged questions, and the finished tables of planned sheets.
//!
//! `answer` has 0 to 3 entries of garbage; it is compared whole, and so are the cells and the landing entries. Each test counts what was
//! answered and fails where an answer that it aims at did not occur.

use std::collections::BTreeMap;
use std::hint::black_box;
use uldhvamm::{answer_to_question, answer_to_sheet, best_sender, cell};
use uldhvamm::{Answer, CostTable, Enquiry, Lengths, Question, Tables, SENDER_FLAG};
use uldhvamm_bench::compare::{both_enquire, some_site_reaches_all};
use uldhvamm_bench::reference::{self, NO_COST};
use uldhvamm_bench::sheets::{licensed, random_sheet, small_sheet, wide_sheet};
use uldhvamm_bench::sheets::{question, random_table, Random, Sheet};

/// How often each kind of answer occurred.
#[derive(Default)]
struct Counts {
    times: BTreeMap<String, usize>,
}

impl Counts {
    /// Counts an answer of a kind.
    fn add(&mut self, kind: &str) {
        match self.times.get_mut(kind) {
            Some(times) => *times += 1,
            None => drop(self.times.insert(kind.to_string(), 1)),
        }
    }

    /// Counts the answer to a question about a table.
    fn add_answer(&mut self, table: CostTable, question: Question, answer: Enquiry) {
        let none = u64::from(NO_COST);
        match (question, answer) {
            (_, Enquiry::Cell { cell }) if cell == none => self.add("cell: none"),
            (_, Enquiry::Cell { cell: 0 }) => self.add("cell: 0"),
            (_, Enquiry::Cell { cell }) if cell == none - 1 => self.add("cell: 4294967294"),
            (_, Enquiry::Cell { .. }) => self.add("cell: another cost"),
            (_, Enquiry::NoSender) => self.add("sender: none"),
            (Question::BestSender { subset }, Enquiry::Sender { site }) => {
                self.add_sender(table, subset as usize, site as usize);
            }
            (Question::BestSender { .. }, Enquiry::Refused { number, .. }) => {
                self.add(&format!("sender: refused {number}"));
            }
            (_, Enquiry::Refused { number, .. }) => self.add(&format!("cell: refused {number}")),
            (Question::Cell { .. }, Enquiry::Sender { .. }) => panic!("{question:?}: {answer:?}"),
        }
    }

    /// Counts a best sender: whether a later sender costs as much, and whether a lower site that is no sender costs no more.
    fn add_sender(&mut self, table: CostTable, subset: usize, site: usize) {
        let cost = |v: usize| table.cells[(v << table.stations) + subset];
        let is_sender = |v: &usize| table.landings[*v] & SENDER_FLAG != 0;
        let later = site + 1..table.sites as usize;
        match later.filter(is_sender).any(|v| cost(v) == cost(site)) {
            true => self.add("sender: tie"),
            false => self.add("sender: one"),
        }
        if (0..site).any(|v| cost(v) <= cost(site)) {
            self.add("sender: a lower site has no licence");
        }
    }

    /// Prints the counts, and fails where a kind of `aims` occurred less than `least` times.
    fn require(&self, name: &str, aims: &[&str], least: usize) {
        println!("{name}: {:?}", self.times);
        for &aim in aims {
            let times = self.times.get(aim).copied().unwrap_or(0);
            assert!(times >= least, "{name}: {aim} occurred {times} times");
        }
    }
}

/// Asks the library about a table and the reference about its own, fails where they differ, and counts the answer. `answer` has 0 to 3
/// entries of garbage.
fn check(
    random: &mut Random,
    counts: &mut Counts,
    table: CostTable,
    own: CostTable,
    question: Question,
) {
    let answer: [u64; 3] = std::array::from_fn(|_| random.bits());
    let entries = random.below(4);
    both_enquire(table, own, question, &answer[..entries])
        .unwrap_or_else(|words| panic!("{words}"));
    counts.add_answer(table, question, answer_to_question(table, question));
}

#[test]
fn random_tables_are_enquired_alike() {
    let mut counts = Counts::default();
    for seed in 800_000..840_000 {
        let random = &mut Random::new(seed);
        let table = random_table(random);
        let before = black_box((table.cells.clone(), table.landings.clone()));
        for _ in 0..8 {
            let question = question(random, &table);
            check(random, &mut counts, table.lend(), table.lend(), question);
        }
        let after = black_box(&table);
        assert!(after.cells == before.0, "cells, seed {seed}");
        assert!(after.landings == before.1, "landing entries, seed {seed}");
    }
    let aims = [
        "cell: refused 3",
        "cell: refused 11",
        "cell: refused 4",
        "cell: refused 5",
        "cell: none",
        "cell: 0",
        "cell: 4294967294",
        "cell: another cost",
        "sender: refused 3",
        "sender: refused 11",
        "sender: refused 5",
        "sender: none",
        "sender: one",
        "sender: tie",
        "sender: a lower site has no licence",
    ];
    counts.require("random tables enquired", &aims, 1000);
}

/// The number of the first of some faults that is there, or 0.
fn first(faults: &[(bool, u32)]) -> u32 {
    let found = faults.iter().find(|(is_there, _)| *is_there);
    found.map_or(0, |&(_, number)| number)
}

/// The first entries of a table: all of them, or all but the last.
fn cut<T>(table: &[T], is_short: bool) -> &[T] {
    &table[..table.len().saturating_sub(usize::from(is_short))]
}

/// Asks about a table of cells that are 3, each site a sender, with every choice of these faults: a cell too few, a landing entry too few,
/// a site and a subset past the end. The landing entries do not matter to a cell.
fn check_faults(sites: u32, stations: u32, bad_head: bool) {
    let (needed, sets) = ((sites as usize) << stations, 1 << stations);
    let (cells, landings) = (vec![3; needed], vec![SENDER_FLAG; sites as usize]);
    for chosen in 0..16 {
        let [few_cells, few_entries, no_site, no_set] = [1, 2, 4, 8].map(|bit| chosen & bit != 0);
        let table = CostTable {
            cells: cut(&cells, few_cells),
            landings: cut(&landings, few_entries),
            sites,
            stations,
        };
        let site = if no_site { sites } else { 0 };
        let subset = if no_set { sets } else { 0 };
        let mut answer = [9; 2];
        let number = cell(table, site, subset, &mut answer);
        let expected = first(&[(bad_head, 3), (few_cells, 11), (no_site, 4), (no_set, 5)]);
        let value = if expected == 0 { 3 } else { 0 };
        let described = format!("sites {sites}, stations {stations}, faults {chosen}");
        assert_eq!((number, answer), (expected, [value, 9]), "{described}");
        let mut answer = [9; 2];
        let number = best_sender(table, subset, &mut answer);
        let short = few_cells || few_entries;
        let expected = first(&[(bad_head, 3), (short, 11), (no_set, 5)]);
        assert_eq!((number, answer), (expected, [0, 9]), "{described}");
    }
}

#[test]
fn the_first_fault_is_given() {
    for (sites, stations) in [(1, 1), (1, 10), (1024, 1), (5, 3), (1024, 10)] {
        check_faults(sites, stations, false);
    }
    for (sites, stations) in [(1025, 1), (1, 11), (0, 1), (1, 0), (0, 0), (1025, 11)] {
        check_faults(sites, stations, true);
    }
}

/// A planned sheet: the library's answer and tables, and those of the reference.
struct Planned {
    sites: u32,
    stations: u32,
    answer: Answer,
    tables: Tables,
    own: Tables,
}

impl Planned {
    /// Plans a sheet with both. The library's tables are filled with garbage, and its cells and landing sets are now and then longer than
    /// needed.
    fn of(random: &mut Random, sheet: &Sheet) -> Planned {
        let (n, k) = (usize::from(sheet.sites), usize::from(sheet.stations));
        let mut lengths = Lengths::needed(n, k, sheet.legs().len());
        let mut own = Tables::with(lengths, || 0);
        reference::plan(&sheet.bytes(), &mut own, &mut []);
        lengths.cells += random.pick(&[0, 0, 1, 17]);
        lengths.landings += random.pick(&[0, 0, 1, 17]);
        lengths.plan = random.pick(&[lengths.plan, lengths.plan, lengths.plan, 0]);
        let mut tables = Tables::with(lengths, || random.bits());
        Planned {
            sites: n as u32,
            stations: k as u32,
            answer: answer_to_sheet(&sheet.bytes(), &mut tables),
            tables,
            own,
        }
    }

    /// The table that the library has left.
    fn table(&self) -> CostTable<'_> {
        CostTable {
            cells: &self.tables.cells,
            landings: &self.tables.landings,
            sites: self.sites,
            stations: self.stations,
        }
    }

    /// The reference's table.
    fn reference_table(&self) -> CostTable<'_> {
        CostTable {
            cells: &self.own.cells,
            landings: &self.own.landings,
            ..self.table()
        }
    }

    /// The set of all stations.
    fn full(&self) -> u32 {
        (1 << self.stations) - 1
    }
}

/// Asks for every cell and for the best sender of every subset, the library about its table and the reference about its own. Of the empty
/// subset the lowest sender is the best one.
fn check_all(random: &mut Random, counts: &mut Counts, planned: &Planned) {
    let (table, own) = (planned.table(), planned.reference_table());
    for subset in 0..=planned.full() {
        for site in 0..planned.sites {
            check(random, counts, table, own, Question::Cell { site, subset });
        }
        check(random, counts, table, own, Question::BestSender { subset });
    }
    let flagged = (0..)
        .zip(own.landings)
        .find(|(_, &entry)| entry & SENDER_FLAG != 0);
    let site = flagged.map(|(site, _)| site).expect("a sender");
    let lowest = answer_to_question(table, Question::BestSender { subset: 0 });
    assert_eq!(lowest, Enquiry::Sender { site });
}

/// Holds the best sender of all stations to the answer of the planning: it is the root of the plan, its cell is the plan's total, and there
/// is none for 12.
fn check_against_plan(counts: &mut Counts, planned: &Planned) {
    let subset = planned.full();
    let sender = answer_to_question(planned.table(), Question::BestSender { subset });
    match planned.answer {
        Answer::Plan { root, total, .. } => {
            counts.add("planned");
            assert_eq!(sender, Enquiry::Sender { site: root });
            let site = root as u32;
            let cell = answer_to_question(planned.table(), Question::Cell { site, subset });
            assert_eq!(cell, Enquiry::Cell { cell: total });
        }
        Answer::Refused { number, .. } => {
            assert!(number == 12 || number == 13);
            assert_eq!(sender == Enquiry::NoSender, number == 12);
            counts.add(match (number, some_site_reaches_all(planned.table())) {
                (12, true) => "planning refused 12 for want of a licence",
                (12, false) => "planning refused 12 for want of legs",
                _ => "planning refused 13",
            });
        }
    }
}

#[test]
fn finished_tables_are_enquired_alike() {
    let mut counts = Counts::default();
    for seed in 850_000..854_000 {
        let random = &mut Random::new(seed);
        let sheet = match random.once_in(50) {
            true => wide_sheet(random),
            false => small_sheet(random),
        };
        let planned = Planned::of(random, &sheet);
        let before = black_box(planned.tables.clone());
        check_all(random, &mut counts, &planned);
        check_against_plan(&mut counts, &planned);
        assert!(black_box(&planned).tables == before, "tables, seed {seed}");
    }
    let aims = [
        "planned",
        "planning refused 12 for want of a licence",
        "planning refused 12 for want of legs",
        "planning refused 13",
        "cell: none",
        "cell: 0",
        "cell: another cost",
        "sender: none",
        "sender: one",
        "sender: tie",
        "sender: a lower site has no licence",
    ];
    counts.require("finished tables enquired", &aims, 200);
}

#[test]
fn a_large_finished_table_is_enquired_alike() {
    let random = &mut Random::new(9);
    let mut counts = Counts::default();
    for sheet in [
        random_sheet(1, 1024, 10, 8192, 1000),
        random_sheet(4, 1024, 10, 2048, 1000),
        licensed(6, random_sheet(5, 1024, 10, 8192, 1000), 3),
    ] {
        let planned = Planned::of(random, &sheet);
        check_all(random, &mut counts, &planned);
        check_against_plan(&mut counts, &planned);
    }
    let aims = ["cell: none", "cell: another cost", "sender: one"];
    counts.require("large tables enquired", &aims, 500);
}
