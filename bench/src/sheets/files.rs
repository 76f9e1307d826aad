//! Plan files, sound and faulty, made from a plan or from a sheet's legs.

use super::{Leg, Random, Sheet};

/// What is written in a plan file. It need not be a sound one.
#[derive(Clone, Debug, PartialEq, Eq)]
pub struct PlanFile {
    pub root: u16,
    pub total: u32,
    pub legs: Vec<u16>,
}

impl PlanFile {
    /// The file's bytes, with the true number of legs.
    pub fn bytes(&self) -> Vec<u8> {
        let mut bytes = b"PN".to_vec();
        bytes.extend(self.root.to_be_bytes());
        bytes.extend(self.total.to_be_bytes());
        bytes.extend((self.legs.len() as u16).to_be_bytes());
        bytes.extend(leg_records(&self.legs));
        bytes
    }

    /// Reads the bytes of a sound file.
    pub fn from_bytes(bytes: &[u8]) -> PlanFile {
        let two = |place: usize| u16::from_be_bytes([bytes[place], bytes[place + 1]]);
        let count = usize::from(two(8));
        PlanFile {
            root: two(2),
            total: u32::from(two(4)) << 16 | u32::from(two(6)),
            legs: (0..count).map(|leg| two(12 + 4 * leg)).collect(),
        }
    }

    /// Sets the total to the sum of the prices of those legs that are on the sheet.
    fn with_true_total(mut self, legs: &[Leg]) -> PlanFile {
        let prices = self
            .legs
            .iter()
            .filter_map(|&leg| legs.get(usize::from(leg)));
        self.total = prices.map(|leg| leg.price).fold(0, u32::wrapping_add);
        self
    }
}

/// The records of some legs.
pub fn leg_records(legs: &[u16]) -> Vec<u8> {
    let record = |leg: &u16| [&b"LG"[..], &leg.to_be_bytes()].concat();
    legs.iter().flat_map(record).collect()
}

/// The bytes of a file for a sheet: the plan varied, a tree, a list of legs, or damaged bytes. `plan` is the sheet's, if it has one.
pub fn varied_file(random: &mut Random, sheet: &Sheet, plan: Option<&PlanFile>) -> Vec<u8> {
    let legs = sheet.legs();
    let mut file = match plan {
        Some(plan) if !random.once_in(4) => plan.clone(),
        _ if random.once_in(2) => grown_tree(random, sheet, &legs),
        _ => listed_legs(random, sheet, &legs),
    };
    if random.once_in(2) {
        file = vary(random, sheet, &legs, file);
    }
    let mut bytes = file.bytes();
    if random.once_in(4) {
        damage(random, &mut bytes);
    }
    bytes
}

/// A tree that the plan of a sheet is changed to: the plan with further legs, or another tree from its root, which reaches all that the
/// root reaches. So it is accepted, and mostly dearer than the plan.
pub fn grown_plan(random: &mut Random, sheet: &Sheet, plan: &PlanFile) -> PlanFile {
    let mut tree = plan.clone();
    if random.once_in(2) {
        tree.legs.clear();
    }
    let legs = sheet.legs();
    let mut sites = 0;
    while sites != tree.legs.len() + 1 {
        sites = tree.legs.len() + 1;
        tree = grown(random, &legs, tree);
    }
    tree
}

/// A tree grown leg by leg from a random root, with its true total.
fn grown_tree(random: &mut Random, sheet: &Sheet, legs: &[Leg]) -> PlanFile {
    let root = random.below(usize::from(sheet.sites)) as u16;
    let tree = PlanFile {
        root,
        total: 0,
        legs: Vec::new(),
    };
    grown(random, legs, tree)
}

/// A tree with further legs, each from a site that it holds to one that it does not hold, in random order and with its true total.
fn grown(random: &mut Random, legs: &[Leg], mut tree: PlanFile) -> PlanFile {
    let mut numbers: Vec<u16> = (0..legs.len() as u16).collect();
    let mut held = vec![tree.root];
    held.extend(tree.legs.iter().map(|&leg| legs[usize::from(leg)].to));
    for _ in 0..random.between(1, 4) {
        random.shuffle(&mut numbers);
        for &number in &numbers {
            let leg = legs[usize::from(number)];
            if held.contains(&leg.from) && !held.contains(&leg.to) {
                held.push(leg.to);
                tree.legs.push(number);
            }
        }
    }
    random.shuffle(&mut tree.legs);
    tree.with_true_total(legs)
}

/// A random list of legs with its true total.
fn listed_legs(random: &mut Random, sheet: &Sheet, legs: &[Leg]) -> PlanFile {
    let root = random.below(usize::from(sheet.sites)) as u16;
    let count = if legs.is_empty() { 0 } else { random.below(8) };
    let listed = (0..count)
        .map(|_| random.below(legs.len()) as u16)
        .collect();
    let list = PlanFile {
        root,
        total: 0,
        legs: listed,
    };
    list.with_true_total(legs)
}

/// One change to what is written in a file.
fn vary(random: &mut Random, sheet: &Sheet, legs: &[Leg], mut file: PlanFile) -> PlanFile {
    let any_leg = random.below(legs.len() + 1) as u16;
    let listed = file.legs.len();
    match random.below(10) {
        0 | 1 => random.shuffle(&mut file.legs),
        2 if listed > 0 => return without_leg(random, legs, file),
        3 if listed > 0 => file.legs.push(file.legs[random.below(listed)]),
        4 if listed > 0 => file.legs[random.below(listed)] = any_leg,
        5 => file.legs.push(any_leg),
        6 => file.root = random.pick(&[0, sheet.sites - 1, sheet.sites, 65535]),
        7 if listed > 0 => {
            file.legs[random.below(listed)] = random.pick(&[legs.len() as u16, 65535]);
        }
        _ => file.total = changed_total(random, file.total),
    }
    if random.once_in(2) {
        return file.with_true_total(legs);
    }
    file
}

/// The file without one of its legs, its last one more often, with its true total or with the total as it was written.
fn without_leg(random: &mut Random, legs: &[Leg], mut file: PlanFile) -> PlanFile {
    let last = file.legs.len() - 1;
    let place = if random.once_in(2) {
        last
    } else {
        random.below(last + 1)
    };
    file.legs.remove(place);
    if random.once_in(4) {
        return file;
    }
    file.with_true_total(legs)
}

/// Another total.
fn changed_total(random: &mut Random, total: u32) -> u32 {
    random.pick(&[
        total.wrapping_add(1),
        total.wrapping_sub(1),
        0,
        u32::MAX,
        total ^ 0x0100_0000,
    ])
}

/// A byte changed, a cut, bytes appended, a mark changed, a count changed, or random bytes.
fn damage(random: &mut Random, bytes: &mut Vec<u8>) {
    let place = random.below(bytes.len());
    match random.below(8) {
        0 => bytes[place] = random.bits() as u8,
        1 => bytes.truncate(place),
        2 => bytes.extend(leg_records(&[0])),
        3 => bytes.push(random.bits() as u8),
        4 => change_mark(random, bytes),
        5 => bytes[9] = bytes[9].wrapping_add(random.pick(&[1, 255])),
        6 => bytes.truncate(random.between(0, 11)),
        _ => bytes
            .iter_mut()
            .for_each(|byte| *byte = random.bits() as u8),
    }
}

/// Changes the mark of the head or of one leg.
fn change_mark(random: &mut Random, bytes: &mut [u8]) {
    let marks = [b"PN", b"LG", b"LK", b"NP", b"lg"];
    let records = (bytes.len() - 10) / 4;
    let place = match random.below(records + 1) {
        0 => 0,
        record => 6 + 4 * record,
    };
    let chosen = random.pick(&marks);
    bytes[place..place + 2].copy_from_slice(chosen);
}
