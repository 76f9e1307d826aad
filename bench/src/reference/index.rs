//! The index of the legs by their end (W-202 of document 02): the leg numbers sorted by end, and how many legs end below each site.

use super::sheet::Sheet;
use uldhvamm::Tables;

/// Fills the first entries of both tables: one of `by_end` for each leg, and one of `places` for each site and one more.
pub fn fill(sheet: &Sheet, tables: &mut Tables) {
    let by_end = sorted(sheet);
    let below = |site: usize| by_end.partition_point(|&leg| end_of(sheet, leg) < site);
    for (site, place) in (0..=sheet.sites).zip(&mut tables.places) {
        *place = below(site) as u16;
    }
    for (entry, &leg) in tables.by_end.iter_mut().zip(&by_end) {
        *entry = leg as u16;
    }
}

/// The leg numbers by their end; the sorting keeps legs with one end in their order.
fn sorted(sheet: &Sheet) -> Vec<usize> {
    let mut legs: Vec<usize> = (0..sheet.legs.len()).collect();
    legs.sort_by_key(|&leg| end_of(sheet, leg));
    legs
}

/// The site at which a leg ends.
fn end_of(sheet: &Sheet, leg: usize) -> usize {
    usize::from(sheet.legs[leg].end)
}
