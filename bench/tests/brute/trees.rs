//! The trees of a small sheet, after documents 01 and 02: what a list of legs is with a root, the cells by a trial of every set of legs,
//! the least total of a tree whose root is a sender, and the plan by the rule over these cells.
//!
//! A set of sites or of stations is a number: site or station i is worth 2^i.

use uldhvamm_bench::sheets::{Leg, Record, Sheet};

/// A sheet with its legs, each site's stations, and the set of its senders.
pub struct Small {
    pub sites: usize,
    pub stations: usize,
    pub legs: Vec<Leg>,
    pub landings: Vec<u16>,
    pub senders: u32,
}

/// A tree: its root, the stations that it hears, and its total.
pub struct Tree {
    pub root: usize,
    pub heard: usize,
    pub total: u32,
}

impl Small {
    pub fn new(sheet: &Sheet) -> Small {
        let mut landings = vec![0; usize::from(sheet.sites)];
        let mut senders = 0;
        for record in &sheet.records {
            match *record {
                Record::Landing { station, site } => landings[usize::from(site)] |= 1 << station,
                Record::Sender { site } => senders |= 1 << site,
                Record::Link { .. } | Record::Both { .. } => {}
            }
        }
        Small {
            sites: usize::from(sheet.sites),
            stations: usize::from(sheet.stations),
            legs: sheet.legs(),
            landings,
            senders: if senders == 0 { u32::MAX } else { senders },
        }
    }

    /// Whether a site is a sender.
    pub fn may_send(&self, site: usize) -> bool {
        self.senders >> site & 1 == 1
    }

    /// The set of all stations.
    pub fn full(&self) -> usize {
        (1 << self.stations) - 1
    }

    /// The sites that listed legs reach from a root.
    pub fn reached(&self, root: usize, list: &[usize]) -> u32 {
        let mut reached = 1 << root;
        for _ in list {
            for &leg in list {
                let leg = self.legs[leg];
                reached |= (reached >> leg.from & 1) << leg.to;
            }
        }
        reached
    }

    /// The sites that a tree holds; nothing where the root and the listed legs are no tree.
    pub fn held(&self, root: usize, list: &[usize]) -> Option<u32> {
        let mut held = 1 << root;
        for &leg in list {
            let end = 1 << self.legs[leg].to;
            if held & end != 0 {
                return None;
            }
            held |= end;
        }
        let reached = self.reached(root, list);
        let starts = list
            .iter()
            .all(|&leg| reached >> self.legs[leg].from & 1 == 1);
        starts.then_some(held)
    }

    /// The stations that are heard at some site of a set.
    pub fn heard(&self, sites: u32) -> usize {
        let landings = self.landings.iter().enumerate();
        let within = landings.filter(|(site, _)| sites >> site & 1 == 1);
        within.fold(0, |all, (_, &heard)| all | usize::from(heard))
    }

    /// The sum of listed legs' prices.
    pub fn sum(&self, list: &[usize]) -> u32 {
        list.iter().map(|&leg| self.legs[leg].price).sum()
    }

    /// Every tree, whatever its root, in any order.
    pub fn trees(&self) -> Vec<Tree> {
        let mut trees = Vec::new();
        for chosen in 0..1_u32 << self.legs.len() {
            let legs = 0..self.legs.len();
            let list: Vec<usize> = legs.filter(|leg| chosen >> leg & 1 == 1).collect();
            for root in 0..self.sites {
                if let Some(sites) = self.held(root, &list) {
                    trees.push(Tree {
                        root,
                        heard: self.heard(sites),
                        total: self.sum(&list),
                    });
                }
            }
        }
        trees
    }

    /// The trees that hear a set of stations and whose root is a sender, those of the least total.
    pub fn best<'a>(&self, trees: &'a [Tree], set: usize) -> Vec<&'a Tree> {
        let sent = |tree: &&Tree| self.may_send(tree.root) && set & !tree.heard == 0;
        let least = trees.iter().filter(sent).map(|tree| tree.total).min();
        let cheapest = |tree: &&Tree| sent(tree) && Some(tree.total) == least;
        trees.iter().filter(cheapest).collect()
    }

    /// The cells: of each root, a sender or not, and of each set the least total of a tree that hears the set.
    pub fn cells(&self, trees: &[Tree]) -> Vec<u32> {
        let sets = 1 << self.stations;
        let mut cells = vec![u32::MAX; self.sites * sets];
        for &Tree { root, heard, total } in trees {
            for (set, cell) in cells[root * sets..][..sets].iter_mut().enumerate() {
                if set & !heard == 0 {
                    *cell = (*cell).min(total);
                }
            }
        }
        cells
    }

    /// The legs that are added at a site for a set, by the rule over finished cells, appended to the list.
    pub fn lay_out(&self, cells: &[u32], site: usize, set: usize, list: &mut Vec<usize>) {
        let cell = |site: usize, set: usize| u64::from(cells[(site << self.stations) + set]);
        let is_finite = |cost: u64| cost != u64::from(u32::MAX);
        let lands = usize::from(self.landings[site]) & set == set;
        if set == 0 || (set.count_ones() == 1 && lands) {
            return;
        }
        for (number, leg) in self.legs.iter().enumerate() {
            let (start, end) = (usize::from(leg.from), usize::from(leg.to));
            let beyond = cell(end, set);
            let fits = is_finite(beyond) && u64::from(leg.price) + beyond == cell(site, set);
            if start == site && fits {
                list.push(number);
                return self.lay_out(cells, end, set, list);
            }
        }
        let splits = |part: &usize| cell(site, *part) + cell(site, set - part) == cell(site, set);
        let part = (1..set).filter(|part| part & set == *part).find(splits);
        let part = part.expect("a finite cell has a landing, a leg or a split");
        self.lay_out(cells, site, part, list);
        self.lay_out(cells, site, set - part, list);
    }
}
