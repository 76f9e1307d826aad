//! The library against a trial of everything: on each of 6,000 small sheets, without `SR` and with every set of senders, the engine's
//! answer, tables and plan file against all trees and the rule, the best sender of each set of stations against the trees, and, with one
//! drawn set of senders, every list of at most four legs as a plan file, with the shares of each that is accepted against their definition.
//! All that is lent is compared after each call.

mod family;
mod files;
mod lent;
mod shares;
mod trees;

use family::{has_both, has_parallel, has_repeat, has_sender_repeat, has_several, Generator};
use files::{file_of, Reading};
use lent::{Left, BEFORE};
use shares::Shares;
use std::collections::BTreeSet;
use trees::{Small, Tree};
use uldhvamm::{answer_to_question, answer_to_sheet, Answer, Enquiry, Question, Tables};
use uldhvamm_bench::sheets::{tiny_sheet, Random, Sheet};

/// How many sheets of the family are tried.
const SHEETS: usize = 6000;

/// What was tried, and what came of it.
#[derive(Debug, Default, PartialEq, Eq)]
pub struct Counts {
    with_both: usize,
    with_parallel: usize,
    with_several: usize,
    with_repeat: usize,
    with_sender_repeat: usize,
    planned: usize,
    /// Sheets that are planned and of which several trees from senders have the least total.
    ties: usize,
    /// Sheets of which no tree reaches every station.
    no_plan: usize,
    /// Sheets of which trees reach every station, but none from a sender.
    unlicensed: usize,
    /// Sets of stations by the senders that cost least: none, one, several.
    senders: [usize; 3],
    lists: usize,
    files: usize,
    /// The plan reader's answers by their numbers; acceptances are at 0.
    answers: [usize; 21],
    /// Accepted files by what is unassigned: nothing, a part of the total, all of a total that is not 0.
    unassigned: [usize; 3],
    /// Accepted files of which two stations that pay something pay differently.
    unequal: usize,
}

impl Counts {
    fn add_sheet(&mut self, sheet: &Sheet) {
        self.with_both += usize::from(has_both(sheet));
        self.with_parallel += usize::from(has_parallel(sheet));
        self.with_several += usize::from(has_several(sheet));
        self.with_repeat += usize::from(has_repeat(sheet));
    }

    /// Counts a sheet by its trees, and by those from senders that are best.
    fn add_plan(&mut self, small: &Small, trees: &[Tree], best: &[&Tree]) {
        let reached = trees.iter().any(|tree| tree.heard == small.full());
        match (best.len(), reached) {
            (0, false) => self.no_plan += 1,
            (0, true) => self.unlicensed += 1,
            (trees, _) => {
                self.planned += 1;
                self.ties += usize::from(trees > 1);
            }
        }
    }

    /// Counts the shares of an accepted file.
    fn add_shares(&mut self, shares: &Shares) {
        let kind = match shares.unassigned {
            0 => 0,
            sum if sum < shares.sum() => 1,
            _ => 2,
        };
        self.unassigned[kind] += 1;
        let paid = || shares.of_stations.iter().filter(|&&share| share > 0);
        self.unequal += usize::from(paid().max() != paid().min());
    }
}

/// What the engine is to leave on a sheet: the plan from the lowest root of the best trees, or 12 where there are none.
fn due_plan(small: &Small, cells: &[u32], best: &[&Tree]) -> Left {
    let mut due = BEFORE.filled(small).indexed(small).marked(small, u32::MAX);
    due.cells[..cells.len()].copy_from_slice(cells);
    let Some(tree) = best.iter().min_by_key(|tree| tree.root) else {
        return due.refused(12, 0);
    };
    let mut list = Vec::new();
    small.lay_out(cells, tree.root, small.full(), &mut list);
    let file = file_of(tree.root, tree.total, &list);
    due.plan[..file.len()].copy_from_slice(&file);
    due.planned(tree.root, tree.total, list.len())
}

/// Plans a sheet, compares all that is left with what is due, and asks for the best senders. The plans from all sites are read and shared.
fn try_plan(reading: &Reading, trees: &[Tree], counts: &mut Counts) {
    let small = reading.small;
    let best = small.best(trees, small.full());
    counts.add_plan(small, trees, &best);
    let cells = small.cells(trees);
    let left = Left::of_plan(reading.bytes);
    let due = due_plan(small, &cells, &best);
    assert_eq!(left, due, "{:?}", reading.bytes);
    try_senders(small, trees, &left, counts);
    reading.try_roots(&cells, counts);
}

/// Asks for the best sender of every set of stations: the lowest root of the best trees, or none where there are none.
fn try_senders(small: &Small, trees: &[Tree], left: &Left, counts: &mut Counts) {
    for subset in 0..=small.full() {
        let best = small.best(trees, subset);
        let roots: BTreeSet<usize> = best.iter().map(|tree| tree.root).collect();
        let due = match roots.first() {
            Some(&root) => Enquiry::Sender { site: root as u64 },
            None => Enquiry::NoSender,
        };
        let question = Question::BestSender {
            subset: subset as u32,
        };
        let answer = answer_to_question(left.table(small), question);
        assert_eq!(answer, due, "{left:?}, subset {subset}");
        counts.senders[roots.len().min(2)] += 1;
    }
}

#[test]
fn every_answer_is_the_one_that_is_due() {
    let mut counts = Counts::default();
    let (mut sheets, mut licences) = (Generator::new(1), Generator::new(1_000_003));
    for _ in 0..SHEETS {
        let sheet = sheets.sheet();
        counts.add_sheet(&sheet);
        let drawn = licences.sites(sheet.sites);
        let trees = Small::new(&sheet).trees();
        for senders in 0..1 << sheet.sites {
            let licensed = licences.licensed(&sheet, senders);
            counts.with_sender_repeat += usize::from(has_sender_repeat(&licensed));
            let (small, bytes) = (Small::new(&licensed), licensed.bytes());
            let reading = Reading::new(&small, &bytes);
            try_plan(&reading, &trees, &mut counts);
            if senders == drawn {
                reading.try_lists(&mut counts);
            }
        }
    }
    assert_eq!(counts, tried());
}

/// What is tried: every count of the test above.
fn tried() -> Counts {
    let mut answers = [0; 21];
    answers[0] = 94_380;
    answers[14..].copy_from_slice(&[
        37_371, 37_371, 14_864_548, 9_698_525, 18_833, 37_371, 52_580,
    ]);
    Counts {
        with_both: 3_033,
        with_parallel: 2_561,
        with_several: 1_225,
        with_repeat: 1_468,
        with_sender_repeat: 19_990,
        planned: 36_234,
        ties: 6_494,
        no_plan: 11_636,
        unlicensed: 6_812,
        senders: [55_404, 150_956, 48_996],
        lists: 5_998_720,
        files: 24_840_979,
        answers,
        unassigned: [75_036, 12_550, 6_794],
        unequal: 16_402,
    }
}

#[test]
fn cells_of_larger_sheets_are_the_least_totals() {
    let mut counts = Counts::default();
    for seed in 600_000..603_000 {
        let random = &mut Random::new(seed);
        let sheet = tiny_sheet(random);
        let small = Small::new(&sheet);
        let mut tables = Tables::for_sheet(small.sites, small.stations, small.legs.len());
        let answer = answer_to_sheet(&sheet.bytes(), &mut tables);
        let trees = small.trees();
        assert_eq!(tables.cells, small.cells(&trees), "{sheet:?}");
        let best = small.best(&trees, small.full());
        counts.add_plan(&small, &trees, &best);
        match answer {
            Answer::Plan { total, .. } => assert_eq!(u64::from(best[0].total), total, "{sheet:?}"),
            Answer::Refused { .. } => assert!(best.is_empty(), "{sheet:?}"),
        }
    }
    let least = counts.planned.min(counts.no_plan).min(counts.unlicensed);
    assert!(least > 50, "{counts:?}");
}
