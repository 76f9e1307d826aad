//! What is lent to a call on a small sheet: each table has two entries more than any sheet of the family needs, the answer one more than
//! any call writes.

use uldhvamm::{plan_lent, read_plan_lent, shares_lent, CostTable, Lent};

use crate::trees::Small;

/// The tables, the plan buffer, and the answer with the number that is returned.
#[derive(Clone, Debug, PartialEq, Eq)]
pub struct Left {
    pub number: u32,
    pub answer: [u64; 5],
    pub starts: [u16; 8],
    pub ends: [u16; 8],
    pub prices: [u32; 8],
    pub landings: [u16; 6],
    pub by_end: [u16; 8],
    pub places: [u16; 7],
    pub cells: [u32; 34],
    pub marks: [u8; 6],
    pub plan: [u8; 24],
    pub shares: [u32; 5],
}

/// What is lent, before a call: values that no sheet and no plan has. The landing entries have every bit, a sender's too.
pub const BEFORE: Left = Left {
    number: 0,
    answer: [77; 5],
    starts: [60_001; 8],
    ends: [60_002; 8],
    prices: [4_000_000_003; 8],
    landings: [65_535; 6],
    by_end: [60_003; 8],
    places: [60_004; 7],
    cells: [4_000_000_005; 34],
    marks: [9; 6],
    plan: [238; 24],
    shares: [4_000_000_007; 5],
};

impl Left {
    /// What the engine leaves.
    pub fn of_plan(sheet: &[u8]) -> Left {
        let mut left = BEFORE;
        let mut answer = left.answer;
        left.number = plan_lent(sheet, left.lend(), &mut answer);
        left.answer = answer;
        left
    }

    /// What the plan reader leaves.
    pub fn of_reading(sheet: &[u8], file: &[u8]) -> Left {
        let mut left = BEFORE;
        let mut answer = left.answer;
        left.number = read_plan_lent(sheet, file, left.lend(), &mut answer);
        left.answer = answer;
        left
    }

    /// What the sharing leaves.
    pub fn of_sharing(sheet: &[u8], file: &[u8]) -> Left {
        let mut left = BEFORE;
        let mut answer = left.answer;
        left.number = shares_lent(sheet, file, left.lend(), &mut answer);
        left.answer = answer;
        left
    }

    fn lend(&mut self) -> Lent<'_> {
        Lent {
            starts: &mut self.starts,
            ends: &mut self.ends,
            prices: &mut self.prices,
            landings: &mut self.landings,
            by_end: &mut self.by_end,
            places: &mut self.places,
            cells: &mut self.cells,
            marks: &mut self.marks,
            plan: &mut self.plan,
            shares: &mut self.shares,
        }
    }

    /// The table that the engine has left, for questions.
    pub fn table(&self, small: &Small) -> CostTable<'_> {
        CostTable {
            cells: &self.cells,
            landings: &self.landings,
            sites: small.sites as u32,
            stations: small.stations as u32,
        }
    }

    /// A refusal, with its place.
    pub fn refused(mut self, number: u32, place: usize) -> Left {
        self.number = number;
        self.answer[0] = place as u64;
        self
    }

    /// A plan or an acceptance, with its root, total and number of legs.
    pub fn planned(mut self, root: usize, total: u32, legs: usize) -> Left {
        self.answer[..3].copy_from_slice(&[root as u64, u64::from(total), legs as u64]);
        self
    }

    /// The shares of an accepted file, and the unassigned sum behind its other values.
    pub fn shared(mut self, shares: &[u32], unassigned: u32) -> Left {
        self.shares[..shares.len()].copy_from_slice(shares);
        self.answer[3] = u64::from(unassigned);
        self
    }

    /// The leg and landing tables filled; a landing entry is the site's set of stations, and 1,024 more where the site is a sender.
    pub fn filled(mut self, small: &Small) -> Left {
        for (place, leg) in small.legs.iter().enumerate() {
            self.starts[place] = leg.from;
            self.ends[place] = leg.to;
            self.prices[place] = leg.price;
        }
        for (site, &heard) in small.landings.iter().enumerate() {
            self.landings[site] = heard + if small.may_send(site) { 1024 } else { 0 };
        }
        self
    }

    /// The index filled: site after site the legs that end there, and for each site, and one more, the number of legs that end below it.
    pub fn indexed(mut self, small: &Small) -> Left {
        let ends = || small.legs.iter().map(|leg| usize::from(leg.to)).enumerate();
        let mut next = 0;
        for site in 0..small.sites {
            for (leg, _) in ends().filter(|&(_, end)| end == site) {
                self.by_end[next] = leg as u16;
                next += 1;
            }
        }
        for site in 0..=small.sites {
            self.places[site] = ends().filter(|&(_, end)| end < site).count() as u16;
        }
        self
    }

    /// The first marks: 1 for the sites of a set, else 0.
    pub fn marked(mut self, small: &Small, sites: u32) -> Left {
        for (site, mark) in self.marks[..small.sites].iter_mut().enumerate() {
            *mark = (sites >> site & 1) as u8;
        }
        self
    }
}
