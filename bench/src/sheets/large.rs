//! Large sheets of set shapes: random, legs among some of the sites, stations heard at many sites, a grid, chains, a row behind a gate, a sheet at
//! every limit, one with few senders; and a plan file that is long to read.

use super::{PlanFile, Random, Record, Sheet};

/// The order in which legs are listed.
#[derive(Clone, Copy, Debug, PartialEq, Eq)]
pub enum Order {
    /// Site by site from the first.
    Rising,
    /// Site by site from the last.
    Falling,
    /// In random order.
    Mixed,
    /// Only of a chain: so that passes over the legs, two in their order and one backward and so on, settle one site each.
    Worst,
}

/// Random legs with prices from 1 to `highest`, and one to three random landings for each station.
pub fn random_sheet(seed: u64, sites: u16, stations: u8, legs: usize, highest: usize) -> Sheet {
    let mut random = Random::new(seed);
    let mut sheet = Sheet::new(sites, stations);
    let n = usize::from(sites);
    for _ in 0..legs {
        let from = random.below(n);
        let to = (from + random.between(1, n - 1)) % n;
        let price = random.between(1, highest) as u32;
        sheet = sheet.link(from as u16, to as u16, price);
    }
    with_landings(&mut random, sheet)
}

/// Adds one to three random landings for each station.
fn with_landings(random: &mut Random, mut sheet: Sheet) -> Sheet {
    for station in 0..sheet.stations {
        for _ in 0..random.between(1, 3) {
            let site = random.below(usize::from(sheet.sites)) as u16;
            sheet = sheet.landing(station, site);
        }
    }
    sheet
}

/// 1,024 sites and 10 stations. Random legs with prices from 1 to 1,000 lead among `joined` sites that lie far apart by their numbers, and each station is
/// heard at one of these; from the other sites nothing is reached.
pub fn among_some(seed: u64, joined: usize, legs: usize) -> Sheet {
    let mut random = Random::new(seed);
    let mut sheet = Sheet::new(1024, 10);
    let site = |number: usize| (number * (1023 / joined)) as u16;
    for _ in 0..legs {
        let from = random.below(joined);
        let to = (from + random.between(1, joined - 1)) % joined;
        sheet = sheet.link(site(from), site(to), random.between(1, 1000) as u32);
    }
    (0..10).fold(sheet, |sheet, station| {
        sheet.landing(station, site(random.below(joined)))
    })
}

/// 1,024 sites, 10 stations and 8,192 random legs with prices to 1,000,000. Station k is heard at each site v for which v + k is a multiple of `step`, so
/// that the same stations are heard at every `step`-th site.
pub fn heard_often(seed: u64, step: u16) -> Sheet {
    let mut sheet = random_sheet(seed, 1024, 10, 8192, 1_000_000);
    sheet.records.truncate(8192);
    for site in 0..1024 {
        let heard = (0..10).filter(|&station| (site + station) % step == 0);
        sheet = heard.fold(sheet, |sheet, station| sheet.landing(station as u8, site));
    }
    sheet
}

/// A square of `side` times `side` sites with a leg to each neighbour in 8 directions, prices from 1 to 100.
pub fn grid(seed: u64, side: usize, stations: u8, order: Order) -> Sheet {
    let mut random = Random::new(seed);
    let mut legs: Vec<Record> = (0..side * side)
        .flat_map(|site| neighbours(side, site).map(move |to| (site, to)))
        .map(|(from, to)| Record::Link {
            from: from as u16,
            to: to as u16,
            price: random.between(1, 100) as u32,
        })
        .collect();
    arrange(&mut random, order, &mut legs);
    let mut sheet = Sheet::new((side * side) as u16, stations);
    sheet.records = legs;
    with_landings(&mut random, sheet)
}

/// The sites beside a site of a square, row by row.
fn neighbours(side: usize, site: usize) -> impl Iterator<Item = usize> {
    let (row, column) = (site / side, site % side);
    let rows = row.saturating_sub(1)..=(row + 1).min(side - 1);
    let columns = column.saturating_sub(1)..=(column + 1).min(side - 1);
    rows.flat_map(move |row| columns.clone().map(move |column| row * side + column))
        .filter(move |&other| other != site)
}

/// Puts legs that stand in rising order into another order.
fn arrange(random: &mut Random, order: Order, legs: &mut [Record]) {
    match order {
        Order::Rising => {}
        Order::Falling => legs.reverse(),
        Order::Mixed => random.shuffle(legs),
        Order::Worst => arrange_worst(legs),
    }
}

/// The site that a leg ends at.
fn end_of(leg: &Record) -> u16 {
    match *leg {
        Record::Link { to, .. } | Record::Both { to, .. } => to,
        Record::Landing { .. } | Record::Sender { .. } => unreachable!("this record is no leg"),
    }
}

/// Puts the legs of a chain into the worst order. Its steps are counted from the far end, which is step 0: first come the steps that
/// leave a remainder of 2 by 3, then those that leave 1, then the multiples of 3, each from the far end.
fn arrange_worst(legs: &mut [Record]) {
    let last = legs.iter().map(end_of).max().unwrap_or(0);
    legs.sort_by_key(|leg| {
        let step = last - end_of(leg);
        (2 - step % 3, step)
    });
}

/// What a chain is to be.
#[derive(Clone, Copy, Debug)]
pub struct Chain {
    pub sites: u16,
    pub stations: u8,
    /// How many legs there are in all. Those past one for each step are dearer and parallel.
    pub legs: usize,
    pub order: Order,
    /// Whether station 0 is heard at the first site and station i at the i-th from the end, so that the plan has every step.
    pub whole: bool,
}

/// A chain from site 0 to the last one; station i is heard i sites before the last, or as `whole` says.
///
/// A pass over the legs in order, each lowering the cost of its start, settles all sites where the legs are in falling order, and one
/// where they are in rising order; a backward pass the other way round.
pub fn chain(seed: u64, shape: Chain) -> Sheet {
    let mut random = Random::new(seed);
    let mut sheet = Sheet::new(shape.sites, shape.stations);
    sheet.records = chain_legs(&mut random, shape);
    arrange(&mut random, shape.order, &mut sheet.records);
    for station in 0..shape.stations {
        sheet = sheet.landing(station, chain_landing(shape, station));
    }
    sheet
}

/// The legs of a chain in rising order, as evenly many for each step as can be, the first of a step the cheapest.
fn chain_legs(random: &mut Random, shape: Chain) -> Vec<Record> {
    let steps = usize::from(shape.sites) - 1;
    let mut numbers: Vec<usize> = (0..shape.legs).collect();
    numbers.sort_by_key(|leg| leg % steps);
    let mut cheapest = 0;
    let mut leg_of = |number: usize| {
        let price = random.between(1, 1000) as u32;
        if number < steps {
            cheapest = price;
        }
        let from = (number % steps) as u16;
        Record::Link {
            from,
            to: from + 1,
            price: if number < steps {
                price
            } else {
                cheapest + price
            },
        }
    };
    numbers.into_iter().map(&mut leg_of).collect()
}

/// A chain from site 0, which alone may send, to the last site, at which every station is heard. So each of its legs serves every station.
/// Prices are drawn from 1 to 1,000, and the legs are listed in random order.
pub fn far_chain(sites: u16, stations: u8) -> Sheet {
    let mut random = Random::new(18);
    let shape = Chain {
        sites,
        stations,
        legs: usize::from(sites) - 1,
        order: Order::Mixed,
        whole: false,
    };
    let mut sheet = Sheet::new(sites, stations);
    sheet.records = chain_legs(&mut random, shape);
    arrange(&mut random, shape.order, &mut sheet.records);
    (0..stations).fold(sheet.sender(0), |sheet, station| {
        sheet.landing(station, sites - 1)
    })
}

/// The site at which a station of a chain is heard.
fn chain_landing(shape: Chain, station: u8) -> u16 {
    match (shape.whole, station) {
        (true, 0) => 0,
        (true, _) => shape.sites - u16::from(station),
        (false, _) => shape.sites - 1 - u16::from(station),
    }
}

/// The stations that tell the places of `gated_row` apart: 0 to 5.
const CHOSEN: u16 = 6;

/// The legs from each site of the row of `gated_row`.
const LEGS_BACK: u16 = 9;

/// The price of a dear way of `gated_row`.
const DEAR: u32 = 1_000_000;

/// A row of sites behind a gate, from which legs lead to 64 places: one for each set of stations 0 to 5, at which the set is heard and so
/// are stations 6 to 9. The way to a place has its own price, dearer with each station of the set, and two ways are dearer than one.
///
/// So sets of stations that differ in stations 0 to 5 have different cheapest places, and a search that settles sites by their costs finds
/// the gate's costs for these sets at different times, far apart. Where it settles several sets at once, the costs of the whole row fall
/// after each of these times.
///
/// With dear ways, a leg leads from each place to the last site, at which every station is heard; it is dearer than two ways to places.
/// So a place has a greater sum of costs, over several sets, than the gate and the row, and where sites have their turn by such a sum, the
/// row does not wait for the places.
pub fn gated_row(seed: u64, dear_ways: bool) -> Sheet {
    let mut random = Random::new(seed);
    let gate = 2 << CHOSEN;
    let mut sheet = Sheet::new(1024, 10);
    for set in 0..1 << CHOSEN {
        sheet = with_place(&mut random, sheet, gate, set);
    }
    let mut end = sheet.sites;
    if dear_ways {
        sheet = with_dear_ways(sheet);
        end -= 14;
    }
    for site in gate + 1..end {
        for step in 1..=LEGS_BACK.min(site - gate) {
            sheet = sheet.link(site, site - step, u32::from(step));
        }
    }
    sheet
}

/// Adds the place of a set of stations: a site before it, to which a cheap leg leads from the gate, and the dear leg from there.
fn with_place(random: &mut Random, sheet: Sheet, gate: u16, set: u16) -> Sheet {
    let (before, place) = (2 * set, 2 * set + 1);
    let level = 350_000 + 20_000 * set.count_ones();
    let price = level + random.below(20_000) as u32;
    let sheet = sheet.link(gate, before, 1).link(before, place, price);
    let heard = (0..10).filter(|&station| station >= CHOSEN || set >> station & 1 == 1);
    heard.fold(sheet, |sheet, station| sheet.landing(station as u8, place))
}

/// Adds the dear ways, and the landings at the last site.
fn with_dear_ways(sheet: Sheet) -> Sheet {
    let last = sheet.sites - 1;
    let linked = (0..1 << CHOSEN).fold(sheet, |sheet, set| sheet.link(2 * set + 1, last, DEAR));
    (0..10).fold(linked, |sheet, station| sheet.landing(station, last))
}

/// A sheet at every limit: 1,024 sites, each a sender by its own `SR`, 10 stations heard at each of them, 8,192 legs. It has 137,223 bytes.
pub fn filled_sheet(seed: u64) -> Sheet {
    let mut sheet = heard_often(seed, 1);
    sheet
        .records
        .extend((0..1024).map(|site| Record::Sender { site }));
    sheet
}

/// The sheet with `SR` for so many drawn sites, some perhaps twice, each record at a drawn place.
pub fn licensed(seed: u64, mut sheet: Sheet, senders: usize) -> Sheet {
    let mut random = Random::new(seed);
    for _ in 0..senders {
        let site = random.below(usize::from(sheet.sites)) as u16;
        let place = random.below(sheet.records.len() + 1);
        sheet.records.insert(place, Record::Sender { site });
    }
    sheet
}

/// A plan file of 65,535 listed legs for a chain whose legs are numbered from its start: each leg many times, the last legs first, so
/// that a pass over the list in order reaches one site more.
pub fn bad_reading(sites: u16) -> PlanFile {
    let steps = usize::from(sites) - 1;
    let mut legs: Vec<u16> = (0..65_535).map(|entry| (entry % steps) as u16).collect();
    legs.sort_unstable_by(|a, b| b.cmp(a));
    PlanFile {
        root: 0,
        total: 0,
        legs,
    }
}
