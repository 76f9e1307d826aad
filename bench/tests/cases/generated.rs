//! Many records after a rule, which a notation names by a word and numbers.

use crate::fields::number;
use uldhvamm_bench::sheets::{leg_records, Record};

/// The price of each leg of a row, the greatest there is.
const ROW_PRICE: u32 = 1_000_000;

/// The records that a word and its numbers name.
pub fn records(words: &str) -> Result<Vec<u8>, String> {
    match words.split_whitespace().collect::<Vec<_>>()[..] {
        ["row", count] => Ok((0..number(count)?).flat_map(step).collect()),
        ["row", "back", count] => Ok((0..number(count)?).rev().flat_map(step).collect()),
        ["spread", sites, count] => Ok(spread(number(sites)?, number(count)?)),
        ["falling", count, times] => Ok(falling(number(count)?, number(times)?)),
        _ => Err(format!("no records are named {words:?}")),
    }
}

/// A leg of a row: from a site to the next.
fn step(from: u16) -> Vec<u8> {
    let record = Record::Link {
        from,
        to: from + 1,
        price: ROW_PRICE,
    };
    record.bytes()
}

/// Legs that are spread over sites: leg i starts at site i mod n and ends at a site whose distance changes from round to round, at a price
/// from 1 to 997.
fn spread(sites: u32, count: u32) -> Vec<u8> {
    let leg = |i: u32| {
        let from = i % sites;
        let distance = 1 + (i / sites * 6 + i * 13) % (sites - 1);
        let record = Record::Link {
            from: from as u16,
            to: ((from + distance) % sites) as u16,
            price: 1 + i * 7919 % 997,
        };
        record.bytes()
    };
    (0..count).flat_map(leg).collect()
}

/// The records of a plan file for the legs from the last of so many down to leg 0, each so many times.
fn falling(count: u16, times: usize) -> Vec<u8> {
    let legs = (0..count).rev();
    let listed = legs.flat_map(|leg| std::iter::repeat_n(leg, times));
    leg_records(&listed.collect::<Vec<u16>>())
}
