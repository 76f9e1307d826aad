//! A family of small sheets from a seeded generator: 1 to 4 sites, 1 to 3 stations, 0 to 6 legs, prices from 1 to 3 and 1,000,000; `LK`,
//! `BK` and `ST` in any order, with ties, parallel legs, several landings of a station, the same landing twice, and stations that no root
//! reaches together. Each sheet is taken without `SR` and with the `SR` of every set of its sites. Every sheet is a good one.

use uldhvamm_bench::sheets::{Leg, Record, Sheet};

/// The numbers of sites, of which 4 is the most frequent.
const SITES: [u16; 8] = [1, 2, 2, 3, 3, 4, 4, 4];

/// The most legs of a sheet.
const MAX_LEGS: usize = 6;

/// Each number is 48,271 times the one before, modulo the prime 2,147,483,647.
pub struct Generator {
    state: u64,
}

impl Generator {
    /// The generator from this number on.
    pub fn new(state: u64) -> Generator {
        Generator { state }
    }

    /// The next number.
    fn next(&mut self) -> u64 {
        self.state = self.state * 48_271 % 2_147_483_647;
        self.state
    }

    /// The next sheet.
    pub fn sheet(&mut self) -> Sheet {
        let number = self.next();
        let sites = SITES[(number % 8) as usize];
        let stations = 1 + (number / 8 % 3) as u8;
        let mut sheet = Sheet::new(sites, stations);
        for _ in 0..number / 64 % 9 {
            let record = record(&sheet, self.next());
            sheet.records.push(record);
        }
        for station in 0..stations {
            if landings(&sheet, station).next().is_none() {
                let site = (self.next() % u64::from(sites)) as u16;
                sheet.records.push(Record::Landing { station, site });
            }
        }
        sheet
    }

    /// A set of sites, in half of the draws the empty one.
    pub fn sites(&mut self, sites: u16) -> u32 {
        let number = self.next();
        let sets = (1 << sites) - 1;
        match number % 2 {
            0 => 0,
            _ => 1 + (number / 2 % sets) as u32,
        }
    }

    /// The sheet with `SR` for the sites of a set, in a quarter of the draws twice, each record at a drawn place.
    pub fn licensed(&mut self, sheet: &Sheet, senders: u32) -> Sheet {
        let mut licensed = sheet.clone();
        for site in (0..sheet.sites).filter(|site| senders >> site & 1 == 1) {
            let times = match self.next() % 4 {
                0 => 2,
                _ => 1,
            };
            for _ in 0..times {
                let places = licensed.records.len() as u64 + 1;
                let place = (self.next() % places) as usize;
                licensed.records.insert(place, Record::Sender { site });
            }
        }
        licensed
    }
}

/// A record: half are `LK`, a quarter `BK`, where the sheet has two sites and room for the legs. The others are `ST`.
fn record(sheet: &Sheet, number: u64) -> Record {
    let (kind, legs) = (number % 8, sheet.legs().len());
    let number = number / 8;
    if sheet.sites > 1 && kind < 4 && legs < MAX_LEGS {
        let Leg { from, to, price } = leg(sheet.sites, number);
        return Record::Link { from, to, price };
    }
    if sheet.sites > 1 && kind < 6 && legs + 1 < MAX_LEGS {
        let Leg { from, to, price } = leg(sheet.sites, number);
        return Record::Both { from, to, price };
    }
    Record::Landing {
        station: (number % u64::from(sheet.stations)) as u8,
        site: (number / 8 % u64::from(sheet.sites)) as u16,
    }
}

/// A leg between two sites. One price in eight is 1,000,000, the others are 1, 2 and 3.
fn leg(sites: u16, number: u64) -> Leg {
    let from = (number % u64::from(sites)) as u16;
    let other = (number / 8 % u64::from(sites - 1)) as u16;
    let price = match number / 64 % 8 {
        0 => 1_000_000,
        draw => 1 + draw as u32 % 3,
    };
    Leg {
        from,
        to: other + u16::from(other >= from),
        price,
    }
}

/// The landings of a station, in the sheet's order.
fn landings(sheet: &Sheet, station: u8) -> impl Iterator<Item = u16> + '_ {
    sheet
        .records
        .iter()
        .filter_map(move |record| match *record {
            Record::Landing { station: s, site } if s == station => Some(site),
            _ => None,
        })
}

/// Whether a sheet has a `BK`.
pub fn has_both(sheet: &Sheet) -> bool {
    let is_both = |record: &Record| matches!(record, Record::Both { .. });
    sheet.records.iter().any(is_both)
}

/// Whether two legs have the same start and the same end.
pub fn has_parallel(sheet: &Sheet) -> bool {
    let ends: Vec<_> = sheet.legs().iter().map(|leg| (leg.from, leg.to)).collect();
    (1..ends.len()).any(|place| ends[..place].contains(&ends[place]))
}

/// Whether a station has two different landings.
pub fn has_several(sheet: &Sheet) -> bool {
    (0..sheet.stations).any(|station| {
        let first = landings(sheet, station).next();
        landings(sheet, station).any(|site| Some(site) != first)
    })
}

/// Whether a landing stands twice.
pub fn has_repeat(sheet: &Sheet) -> bool {
    (0..sheet.stations).any(|station| {
        let sites: Vec<_> = landings(sheet, station).collect();
        (1..sites.len()).any(|place| sites[..place].contains(&sites[place]))
    })
}

/// Whether an `SR` stands twice.
pub fn has_sender_repeat(sheet: &Sheet) -> bool {
    let is_sender = |record: &&Record| matches!(record, Record::Sender { .. });
    let senders: Vec<_> = sheet.records.iter().filter(is_sender).collect();
    (1..senders.len()).any(|place| senders[..place].contains(&senders[place]))
}
