//! What each station pays for a small tree, straight from document 02 (W-204): where it sits, which legs lead to its seat, and its part of
//! each.

use crate::trees::Small;

/// What the sharing of a tree is to give: the shares of all stations, and the unassigned sum.
#[derive(Clone, Debug, PartialEq, Eq)]
pub struct Shares {
    pub of_stations: Vec<u32>,
    pub unassigned: u32,
}

impl Small {
    /// The shares of a tree that holds these sites, among them a landing of each station.
    pub fn shares(&self, sites: u32, list: &[usize]) -> Shares {
        let seats: Vec<usize> = (0..self.stations).map(|i| self.seat(sites, i)).collect();
        let mut shares = Shares {
            of_stations: vec![0; self.stations],
            unassigned: 0,
        };
        for &leg in list {
            let below = self.reached(usize::from(self.legs[leg].to), list);
            let serves = |station: &usize| below >> seats[*station] & 1 == 1;
            let served: Vec<usize> = (0..self.stations).filter(serves).collect();
            shares.add(self.legs[leg].price, &served);
        }
        shares
    }

    /// Where a station sits: the lowest of its landings among these sites.
    fn seat(&self, sites: u32, station: usize) -> usize {
        let is_landing = |site: &usize| self.landings[*site] >> station & 1 == 1;
        let mut held = (0..self.sites).filter(|site| sites >> site & 1 == 1);
        held.find(is_landing)
            .expect("a landing of each station is held")
    }
}

impl Shares {
    /// Adds the price of a leg that serves these stations, the lowest first: each pays the quotient, the first ones a cent more.
    fn add(&mut self, price: u32, served: &[usize]) {
        let payers = served.len() as u32;
        if payers == 0 {
            self.unassigned += price;
        }
        for (place, &station) in (0..).zip(served) {
            let odd_cent = u32::from(place < price % payers);
            self.of_stations[station] += price / payers + odd_cent;
        }
    }

    /// The shares and the unassigned sum together.
    pub fn sum(&self) -> u32 {
        self.of_stations.iter().sum::<u32>() + self.unassigned
    }
}
