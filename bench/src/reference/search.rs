//! The cost table by dynamic programming over the sets of stations (document 004).
//!
//! For each set in order of size: first the splits into two parts, then the closing over the legs by Dijkstra's method. While the
//! table is filled each set has a contiguous column of its own, one entry a site; at the end the columns become rows of the cells.

use super::groups::Groups;
use super::sheet::Sheet;
use super::NO_COST;
use std::cmp::Reverse;
use std::collections::BinaryHeap;

/// "None" in a column. It is above 1,000,000 times 1,023, the greatest least total, and twice it fits in an `i32`.
const NONE: i32 = i32::MAX / 2;

/// Sites that are written together when columns become rows.
const BLOCK: usize = 8;

/// A leg as seen from its end.
#[derive(Clone, Copy)]
struct Arrival {
    start: u32,
    price: i32,
}

/// Legs by their end.
type Arrivals = Groups<Arrival>;

/// Sites to be settled, the cheapest first: cost times 2^16 plus site.
type Queue = BinaryHeap<Reverse<u64>>;

/// Fills the cells, n times 2^k of them.
pub fn fill(sheet: &Sheet, cells: &mut [u32]) {
    let arrivals = arrivals(sheet);
    let mut columns = vec![NONE; cells.len()];
    columns[..sheet.sites].fill(0);
    let mut queue = Queue::new();
    for set in sets_by_size(sheet.stations) {
        let (before, rest) = columns.split_at_mut(set * sheet.sites);
        let column = &mut rest[..sheet.sites];
        start_column(sheet, set, before, column);
        close(&arrivals, column, &mut queue);
    }
    write_rows(sheet, &columns, cells);
}

/// The legs by their end; of parallel legs only a cheapest one.
fn arrivals(sheet: &Sheet) -> Arrivals {
    let mut legs = sheet.legs.clone();
    legs.sort_unstable_by_key(|leg| (leg.end, leg.start, leg.price));
    legs.dedup_by_key(|leg| (leg.end, leg.start));
    let filler = Arrival { start: 0, price: 0 };
    let items = legs.iter().map(|leg| {
        let arrival = Arrival {
            start: u32::from(leg.start),
            price: leg.price as i32,
        };
        (usize::from(leg.end), arrival)
    });
    Groups::new(sheet.sites, filler, items)
}

/// The sets of stations that are not empty, by size and then by number.
fn sets_by_size(stations: usize) -> Vec<usize> {
    let mut sets: Vec<usize> = (1..1 << stations).collect();
    sets.sort_by_key(|&set| (set.count_ones(), set));
    sets
}

/// The column of a set before its closing: the landings of one station, or the splits. `before` has the columns of lower sets.
fn start_column(sheet: &Sheet, set: usize, before: &[i32], column: &mut [i32]) {
    if set.is_power_of_two() {
        start_at_landings(sheet, set, column);
    } else {
        start_with_splits(set, before, column);
    }
}

/// 0 at each landing of the one station of `set`.
fn start_at_landings(sheet: &Sheet, set: usize, column: &mut [i32]) {
    for (cost, &heard) in column.iter_mut().zip(&sheet.landings) {
        if usize::from(heard) & set != 0 {
            *cost = 0;
        }
    }
}

/// The least sum over the splits of `set` into two parts. Each split is tried once, by the part with the lowest station.
fn start_with_splits(set: usize, before: &[i32], column: &mut [i32]) {
    let lowest = set & set.wrapping_neg();
    let others = set ^ lowest;
    let mut part = (others - 1) & others;
    loop {
        add_split(before, part | lowest, others ^ part, column);
        if part == 0 {
            return;
        }
        part = (part - 1) & others;
    }
}

/// Lowers each cost of a column to the sum of two lower sets' costs.
fn add_split(before: &[i32], one: usize, other: usize, column: &mut [i32]) {
    let n = column.len();
    let ones = &before[one * n..][..n];
    let others = &before[other * n..][..n];
    for ((cost, &a), &b) in column.iter_mut().zip(ones).zip(others) {
        *cost = (*cost).min(a + b);
    }
}

/// Closes a column over the legs by Dijkstra's method. An entry of the queue that is dearer than its site's cost is out of date.
fn close(arrivals: &Arrivals, column: &mut [i32], queue: &mut Queue) {
    fill_queue(column, queue);
    while let Some(Reverse(key)) = queue.pop() {
        let site = (key & 0xFFFF) as usize;
        let cost = (key >> 16) as i32;
        if cost == column[site] {
            relax(arrivals.of(site), cost, column, queue);
        }
    }
}

/// Puts every site with a finite cost into the empty queue.
fn fill_queue(column: &[i32], queue: &mut Queue) {
    let mut keys = std::mem::take(queue).into_vec();
    let finite = column.iter().enumerate().filter(|(_, &cost)| cost < NONE);
    keys.extend(finite.map(|(site, &cost)| Reverse(key(cost, site))));
    *queue = Queue::from(keys);
}

/// The queue's entry for a site.
fn key(cost: i32, site: usize) -> u64 {
    (cost as u64) << 16 | site as u64
}

/// Lowers the costs of the starts of legs that end at a settled site.
fn relax(arrivals: &[Arrival], cost: i32, column: &mut [i32], queue: &mut Queue) {
    for arrival in arrivals {
        let start = arrival.start as usize;
        let through = cost + arrival.price;
        if through < column[start] {
            column[start] = through;
            queue.push(Reverse(key(through, start)));
        }
    }
}

/// Writes the columns as rows: cell v times 2^k + W is entry v of W's column.
fn write_rows(sheet: &Sheet, columns: &[i32], cells: &mut [u32]) {
    let sets = 1 << sheet.stations;
    for (block, rows) in cells.chunks_mut(BLOCK * sets).enumerate() {
        write_block(sheet, block * BLOCK, columns, rows);
    }
}

/// Writes the rows of some sites, from `first` on.
fn write_block(sheet: &Sheet, first: usize, columns: &[i32], rows: &mut [u32]) {
    let sets = 1 << sheet.stations;
    for (set, column) in columns.chunks_exact(sheet.sites).enumerate() {
        for (row, &cost) in rows.chunks_exact_mut(sets).zip(&column[first..]) {
            row[set] = if cost < NONE { cost as u32 } else { NO_COST };
        }
    }
}
