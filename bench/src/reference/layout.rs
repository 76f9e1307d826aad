//! The root of the plan, after W-201 of document 02, and its legs, by document 01's rule, from a finished cost table.

use super::groups::Groups;
use super::plan_file::PlanFile;
use super::sheet::Sheet;
use super::NO_COST;

/// What the layout looks at: the sheet, its cells, and the numbers of the legs by their start.
struct Layout<'a> {
    sheet: &'a Sheet,
    cells: &'a [u32],
    departures: Groups<usize>,
}

/// The lowest sender whose full-set cell is least among the senders and finite.
pub fn best_root(sheet: &Sheet, cells: &[u32]) -> Option<usize> {
    let full = |site: &usize| cells[(*site << sheet.stations) + sheet.full()];
    let senders = (0..sheet.sites).filter(|&site| sheet.senders[site]);
    let root = senders.min_by_key(full)?;
    (full(&root) != NO_COST).then_some(root)
}

/// The plan from a root whose full-set cell is finite.
pub fn lay_out(sheet: &Sheet, cells: &[u32], root: usize) -> PlanFile {
    let items = sheet.legs.iter().enumerate();
    let layout = Layout {
        sheet,
        cells,
        departures: Groups::new(
            sheet.sites,
            0,
            items.map(|(number, leg)| (usize::from(leg.start), number)),
        ),
    };
    PlanFile {
        root,
        total: u64::from(layout.cell(root, sheet.full())),
        legs: layout.legs_from(root),
    }
}

impl Layout<'_> {
    /// The cell of a site and a set.
    fn cell(&self, site: usize, set: usize) -> u32 {
        self.cells[(site << self.sheet.stations) + set]
    }

    /// The legs as they are added. The work that waits is on a stack, the first on top.
    fn legs_from(&self, root: usize) -> Vec<usize> {
        let mut legs = Vec::new();
        let mut waiting = vec![(root, self.sheet.full())];
        while let Some((site, set)) = waiting.pop() {
            if self.is_done(site, set) {
                continue;
            }
            match self.leg_to_follow(site, set) {
                Some(leg) => {
                    legs.push(leg);
                    waiting.push((usize::from(self.sheet.legs[leg].end), set));
                }
                None => {
                    let part = self.part_to_split(site, set);
                    waiting.push((site, set ^ part));
                    waiting.push((site, part));
                }
            }
        }
        legs
    }

    /// Whether nothing is to be added: no station, or one that is heard at the site.
    fn is_done(&self, site: usize, set: usize) -> bool {
        set == 0 || (set.is_power_of_two() && usize::from(self.sheet.landings[site]) & set != 0)
    }

    /// The lowest-numbered leg from a site whose price plus the finite cell at its end equals the site's cell.
    fn leg_to_follow(&self, site: usize, set: usize) -> Option<usize> {
        let cost = self.cell(site, set);
        let fits = |&number: &usize| {
            let leg = self.sheet.legs[number];
            let beyond = self.cell(usize::from(leg.end), set);
            beyond != NO_COST && leg.price + beyond == cost
        };
        self.departures.of(site).iter().copied().find(fits)
    }

    /// The lowest part of a set, neither empty nor the set, whose cell and the rest's cell add up to the set's.
    fn part_to_split(&self, site: usize, set: usize) -> usize {
        let cost = u64::from(self.cell(site, set));
        let sum =
            |part: usize| u64::from(self.cell(site, part)) + u64::from(self.cell(site, set ^ part));
        let next = |part: &usize| Some((part.wrapping_sub(set)) & set);
        let parts = std::iter::successors(next(&0), next).take_while(|&part| part != set);
        let mut fitting = parts.filter(|&part| sum(part) == cost);
        fitting
            .next()
            .expect("a finite cell has a landing, a leg or a split")
    }
}
