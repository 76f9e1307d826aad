//! The shares of an accepted plan (document 02, W-204): where each station sits, which stations each leg serves, and what each pays.
//!
//! The sets of served stations are gathered from the leaves: each leg of the tree, the last reached first, hands the set of its end on to
//! its start.

use super::groups::Groups;
use super::plan_file::PlanFile;
use super::sheet::{Leg, Sheet};

/// Writes what each station pays to `shares`, which has an entry for each, and gives the sum of the legs that serve no station. The plan is
/// an accepted one: its legs are a tree, and each station has a landing among the sites that it holds.
pub fn deal(sheet: &Sheet, plan: &PlanFile, held: &[bool], shares: &mut [u32]) -> u64 {
    let legs = outward(sheet, plan);
    let mut served = seats(sheet, held);
    shares.fill(0);
    let mut unassigned = 0;
    for leg in legs.iter().rev() {
        let stations = served[usize::from(leg.end)];
        served[usize::from(leg.start)] |= stations;
        match stations {
            0 => unassigned += u64::from(leg.price),
            _ => split(leg.price, stations, shares),
        }
    }
    unassigned
}

/// For each site the set of the stations that sit there: in the order of the held sites, a station sits where it is heard first.
fn seats(sheet: &Sheet, held: &[bool]) -> Vec<u16> {
    let mut standing = sheet.full() as u16;
    let sites = sheet.landings.iter().zip(held);
    sites
        .map(|(&heard, &is_held)| {
            let seated = if is_held { heard & standing } else { 0 };
            standing ^= seated;
            seated
        })
        .collect()
}

/// The listed legs from the root on: each comes after the one that ends at its start.
fn outward(sheet: &Sheet, plan: &PlanFile) -> Vec<Leg> {
    let listed = plan.legs.iter().map(|&leg| sheet.legs[leg]);
    let filler = Leg {
        start: 0,
        end: 0,
        price: 0,
    };
    let by_start = listed.map(|leg| (usize::from(leg.start), leg));
    let branches = Groups::new(sheet.sites, filler, by_start);
    let mut legs = branches.of(plan.root).to_vec();
    let mut next = 0;
    while let Some(leg) = legs.get(next) {
        legs.extend_from_slice(branches.of(usize::from(leg.end)));
        next += 1;
    }
    legs
}

/// Adds a price to the shares of some stations, which are not none: to each the quotient, and a cent more to as many of the lowest as the
/// remainder has cents.
fn split(price: u32, mut stations: u16, shares: &mut [u32]) {
    let payers = stations.count_ones();
    let quotient = price / payers;
    let mut odd_cents = price % payers;
    while stations != 0 {
        let cent = odd_cents.min(1);
        shares[stations.trailing_zeros() as usize] += quotient + cent;
        odd_cents -= cent;
        stations &= stations - 1;
    }
}
