//! Cost tables of random cells and landing entries, and questions about them: numbers within, at and past the limits, in tables of any
//! length.

use super::Random;
use uldhvamm::{CostTable, Question, SENDER_FLAG};

/// "None".
const NONE: u32 = u32::MAX;

/// A cost table that has cells and landing entries of its own. It is no finished one, and may be short or have a bad head.
#[derive(Clone, Debug)]
pub struct MadeTable {
    pub cells: Vec<u32>,
    pub landings: Vec<u16>,
    pub sites: u32,
    pub stations: u32,
}

impl MadeTable {
    /// The table, to be lent.
    pub fn lend(&self) -> CostTable<'_> {
        CostTable {
            cells: &self.cells,
            landings: &self.landings,
            sites: self.sites,
            stations: self.stations,
        }
    }
}

/// A table of random cells and landing entries: mostly a small one that is long enough, else a large one, a short one, or one with a bad
/// head.
pub fn random_table(random: &mut Random) -> MadeTable {
    let (sites, stations, cell_count) = match random.below(20) {
        0..=3 => bad_head(random),
        4 => with_length(random, large_head),
        _ => with_length(random, small_head),
    };
    let entry_count = varied_length(random, (sites as usize).clamp(1, 1024));
    MadeTable {
        cells: cells(random, cell_count),
        landings: landings(random, entry_count),
        sites,
        stations,
    }
}

/// Few sites and stations.
fn small_head(random: &mut Random) -> (u32, u32) {
    (random.between(1, 9) as u32, random.between(1, 4) as u32)
}

/// Sites or stations at or near the limit, and now and then both.
fn large_head(random: &mut Random) -> (u32, u32) {
    let (few_sites, few_stations) = small_head(random);
    let (sites, stations) = (random.pick(&[257, 1023, 1024]), random.pick(&[9, 10]));
    match random.below(50) {
        0 => (sites, stations),
        1..=24 => (sites, few_stations),
        _ => (few_sites, stations),
    }
}

/// A head within the limits and a number of cells: just enough, or more, or fewer.
fn with_length(random: &mut Random, head: fn(&mut Random) -> (u32, u32)) -> (u32, u32, usize) {
    let (sites, stations) = head(random);
    let length = varied_length(random, (sites as usize) << stations);
    (sites, stations, length)
}

/// A length around the one that is needed, which is not 0: just enough, or more, or fewer.
fn varied_length(random: &mut Random, needed: usize) -> usize {
    match random.below(8) {
        0 => needed - 1,
        1 => random.below(needed),
        2 => needed + 1,
        3 => needed + random.between(2, 40),
        _ => needed,
    }
}

/// A head with one or both numbers past the limits, and a number of cells.
fn bad_head(random: &mut Random) -> (u32, u32, usize) {
    let (sites, stations) = small_head(random);
    let bad_sites = match random.once_in(3) {
        true => sites | 1 << random.pick(&[16, 24, 31]),
        false => random.pick(&[0, 1025, 1026, 65535, NONE]),
    };
    let bad_stations = match random.once_in(3) {
        true => stations | 1 << random.pick(&[5, 6, 8, 16, 31]),
        false => random.pick(&[0, 11, 12, 31, 32, NONE]),
    };
    let length = random.pick(&[0, 1, 64, 4096]);
    match random.below(5) {
        0 => (bad_sites, bad_stations, length),
        1 | 2 => (bad_sites, stations, length),
        _ => (sites, bad_stations, length),
    }
}

/// So many cells, of few kinds that are chosen for the whole table: many are equal and many are "none".
fn cells(random: &mut Random, length: usize) -> Vec<u32> {
    let kinds: [&[u32]; 10] = [
        &[0, 1, 2, 3, NONE],
        &[1, 1, 2, NONE, NONE, NONE],
        &[7, NONE, NONE, NONE, NONE, NONE, NONE, NONE, NONE],
        &[NONE],
        &[NONE - 1, NONE, NONE],
        &[0, NONE - 1, NONE],
        &[(1 << 31) - 1, 1 << 31, NONE],
        &[255, 256, 65535, 65536, 1_023_000_000, NONE],
        &[5],
        &[],
    ];
    let kind = random.pick(&kinds);
    let mut cell = || match kind {
        [] => random.bits() as u32,
        _ => random.pick(kind),
    };
    (0..length).map(|_| cell()).collect()
}

/// So many landing entries: all flagged, none, or some, for the whole table, with any other bits or with bits of stations only.
fn landings(random: &mut Random, length: usize) -> Vec<u16> {
    let flags = random.pick(&[
        &[true][..],
        &[true, false],
        &[true, false, false, false],
        &[false],
    ]);
    let others = random.pick(&[!SENDER_FLAG, SENDER_FLAG - 1, 0]);
    let mut entry = || match random.pick(flags) {
        true => random.bits() as u16 & others | SENDER_FLAG,
        false => random.bits() as u16 & others,
    };
    (0..length).map(|_| entry()).collect()
}

/// A question about a table, with numbers that are mostly within its limits.
pub fn question(random: &mut Random, table: &MadeTable) -> Question {
    let subset = number(random, 1_u32.checked_shl(table.stations).unwrap_or(0));
    match random.once_in(2) {
        true => Question::BestSender { subset },
        false => Question::Cell {
            site: number(random, table.sites),
            subset,
        },
    }
}

/// A number below a limit, or at or past it.
fn number(random: &mut Random, limit: u32) -> u32 {
    let below = random.below(limit.max(1) as usize) as u32;
    let last = limit.saturating_sub(1);
    let past = [
        limit,
        limit,
        limit.saturating_add(1),
        below | 1 << 16,
        below | 1 << 31,
        random.bits() as u32,
        NONE,
    ];
    match random.below(8) {
        0 | 1 => random.pick(&past),
        2 => last,
        3 => 0,
        _ => below,
    }
}
