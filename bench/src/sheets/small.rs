//! Small random sheets, all of them good: many equal prices, `BK`, parallel legs, several landings, no `SR` or those of one site, several
//! or all, repeats of `ST` and `SR`.

use super::{Random, Record, Sheet};

/// A sheet of at most 12 sites and 10 stations.
pub fn small_sheet(random: &mut Random) -> Sheet {
    let sites = random.pick(&[1, 2, 2, 3, 4, 5, 6, 7, 8, 9, 10, 11, 12]);
    let stations = random.pick(&[1, 2, 2, 3, 3, 3, 4, 4, 4, 5, 5, 6, 7, 8, 9, 10]);
    let links = random.below(3 * sites);
    sheet_of(random, sites, stations, links)
}

/// A sheet of at most 5 sites, 3 stations and 9 legs.
pub fn tiny_sheet(random: &mut Random) -> Sheet {
    let sites = random.between(2, 5);
    let stations = random.between(1, 3);
    let links = random.between(1, 9);
    let mut sheet = sheet_of(random, sites, stations, links);
    while sheet.legs().len() > 9 {
        let last = sheet.records.iter().rposition(is_link);
        sheet.records.remove(last.expect("legs come from links"));
    }
    sheet
}

/// A sheet of 257 to 1,024 sites and at most 3 stations, so that sites need both of their bytes.
pub fn wide_sheet(random: &mut Random) -> Sheet {
    let sites = random.between(257, 1024);
    let stations = random.between(1, 3);
    let links = random.between(0, 4 * sites);
    sheet_of(random, sites, stations, links)
}

/// Whether a record is `LK` or `BK`.
fn is_link(record: &Record) -> bool {
    matches!(record, Record::Link { .. } | Record::Both { .. })
}

/// A good sheet with as many link records as asked for, if it has two sites or more. The records are in random order.
fn sheet_of(random: &mut Random, sites: usize, stations: usize, links: usize) -> Sheet {
    let mut sheet = Sheet::new(sites as u16, stations as u8);
    if sites > 1 {
        add_links(random, &mut sheet, links);
    }
    add_landings(random, &mut sheet);
    add_senders(random, &mut sheet);
    random.shuffle(&mut sheet.records);
    sheet
}

/// Adds links; some are parallel to an earlier one.
fn add_links(random: &mut Random, sheet: &mut Sheet, links: usize) {
    let highest = random.pick(&[1, 2, 3, 5, 20, 100, 1_000_000]);
    let both_once_in = random.pick(&[2, 4, 1_000]);
    for _ in 0..links {
        let (from, to) = ends(random, sheet);
        let price = price(random, highest);
        sheet.records.push(match random.once_in(both_once_in) {
            true => Record::Both { from, to, price },
            false => Record::Link { from, to, price },
        });
    }
}

/// A price of at most `highest`; a high one is at the limit now and then.
fn price(random: &mut Random, highest: usize) -> u32 {
    match highest == 1_000_000 && random.once_in(3) {
        true => 1_000_000,
        false => random.between(1, highest) as u32,
    }
}

/// Two different sites; now and then those of an earlier link.
fn ends(random: &mut Random, sheet: &Sheet) -> (u16, u16) {
    if !sheet.records.is_empty() && random.once_in(6) {
        if let Record::Link { from, to, .. } = random.pick(&sheet.records) {
            return (from, to);
        }
    }
    let sites = usize::from(sheet.sites);
    let from = random.below(sites);
    let to = (from + random.between(1, sites - 1)) % sites;
    (from as u16, to as u16)
}

/// Adds one to three landings for each station, and repeats some.
fn add_landings(random: &mut Random, sheet: &mut Sheet) {
    for station in 0..sheet.stations {
        let landings = random.pick(&[1, 1, 1, 1, 2, 2, 3]);
        for _ in 0..landings {
            let site = random.below(usize::from(sheet.sites)) as u16;
            let times = if random.once_in(8) { 2 } else { 1 };
            let record = Record::Landing { station, site };
            sheet.records.extend(std::iter::repeat_n(record, times));
        }
    }
}

/// Adds `SR` for one site, for several or for all, and repeats some. Half of the sheets get none.
fn add_senders(random: &mut Random, sheet: &mut Sheet) {
    let sites = usize::from(sheet.sites);
    let senders = match random.below(8) {
        0..=3 => 0,
        4 | 5 => 1,
        6 => random.between(1, sites),
        _ => sites,
    };
    let mut order: Vec<u16> = (0..sheet.sites).collect();
    random.shuffle(&mut order);
    for &site in &order[..senders] {
        let times = if random.once_in(8) { 2 } else { 1 };
        let record = Record::Sender { site };
        sheet.records.extend(std::iter::repeat_n(record, times));
    }
}
