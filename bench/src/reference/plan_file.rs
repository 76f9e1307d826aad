//! The plan file: its writing, its reading (14, 15, 16), the sites that its legs reach, and its judging (17, 20, 18, 19).

use super::groups::Groups;
use super::sheet::Sheet;
use super::Refusal;

const HEAD: usize = 10;
const RECORD: usize = 4;

/// What stands in a plan file: root, total, and the numbers of the legs.
#[derive(Clone, Debug, PartialEq, Eq)]
pub struct PlanFile {
    pub root: usize,
    pub total: u64,
    pub legs: Vec<usize>,
}

impl PlanFile {
    /// The values that a plan and an acceptance send back.
    pub fn values(&self) -> [u64; 3] {
        [self.root as u64, self.total, self.legs.len() as u64]
    }

    /// Writes the file to the start of a buffer, or gives 13 and leaves it alone.
    pub fn write(&self, buffer: &mut [u8]) -> Result<(), Refusal> {
        let length = HEAD + RECORD * self.legs.len();
        let file = buffer.get_mut(..length).ok_or(Refusal::at(13, 0))?;
        let (head, records) = file.split_at_mut(HEAD);
        head[..2].copy_from_slice(b"PN");
        head[2..4].copy_from_slice(&(self.root as u16).to_be_bytes());
        head[4..8].copy_from_slice(&(self.total as u32).to_be_bytes());
        head[8..].copy_from_slice(&(self.legs.len() as u16).to_be_bytes());
        for (record, &leg) in records.chunks_exact_mut(RECORD).zip(&self.legs) {
            record[..2].copy_from_slice(b"LG");
            record[2..].copy_from_slice(&(leg as u16).to_be_bytes());
        }
        Ok(())
    }
}

/// The number of two bytes, highest first.
fn two(bytes: &[u8]) -> usize {
    usize::from(u16::from_be_bytes([bytes[0], bytes[1]]))
}

/// Reads a file against a sheet: under 10 bytes, `PN`, root, short, left over, then record by record.
pub fn read(sheet: &Sheet, file: &[u8]) -> Result<PlanFile, Refusal> {
    let head = file.get(..HEAD).ok_or(Refusal::at(14, 0))?;
    if &head[..2] != b"PN" {
        return Err(Refusal::at(15, 0));
    }
    let root = two(&head[2..]);
    if root >= sheet.sites {
        return Err(Refusal::at(16, 0));
    }
    let length = HEAD + RECORD * two(&head[8..]);
    let records = file.get(HEAD..length).ok_or(Refusal::at(14, 0))?;
    if file.len() > length {
        return Err(Refusal::at(15, length));
    }
    let total = u32::from_be_bytes([head[4], head[5], head[6], head[7]]);
    Ok(PlanFile {
        root,
        total: u64::from(total),
        legs: read_legs(sheet, records)?,
    })
}

/// The leg numbers of the records, or the first fault.
fn read_legs(sheet: &Sheet, records: &[u8]) -> Result<Vec<usize>, Refusal> {
    let numbered = records.chunks_exact(RECORD).enumerate();
    numbered
        .map(|(index, record)| {
            let place = HEAD + RECORD * index;
            let leg = two(&record[2..]);
            if &record[..2] != b"LG" {
                Err(Refusal::at(15, place))
            } else if leg >= sheet.legs.len() {
                Err(Refusal::at(16, place))
            } else {
                Ok(leg)
            }
        })
        .collect()
}

/// For each site, whether the listed legs lead to it from the root.
pub fn reached(sheet: &Sheet, plan: &PlanFile) -> Vec<bool> {
    let pairs = plan.legs.iter().map(|&leg| {
        let leg = sheet.legs[leg];
        (usize::from(leg.start), leg.end)
    });
    let ends = Groups::new(sheet.sites, 0, pairs);
    let mut reached = vec![false; sheet.sites];
    reached[plan.root] = true;
    let mut waiting = vec![plan.root];
    while let Some(site) = waiting.pop() {
        for &end in ends.of(site) {
            let end = usize::from(end);
            if !reached[end] {
                reached[end] = true;
                waiting.push(end);
            }
        }
    }
    reached
}

/// 17, 20, 18 and 19, in this order.
pub fn judge(sheet: &Sheet, plan: &PlanFile, reached: &[bool]) -> Result<(), Refusal> {
    let held = held_sites(sheet, plan, reached).ok_or(Refusal::at(17, 0))?;
    if !sheet.senders[plan.root] {
        return Err(Refusal::at(20, 0));
    }
    let heard = held.iter().fold(0, |all, &site| all | sheet.landings[site]);
    if usize::from(heard) != sheet.full() {
        return Err(Refusal::at(18, 0));
    }
    let prices = plan
        .legs
        .iter()
        .map(|&leg| u64::from(sheet.legs[leg].price));
    if prices.sum::<u64>() != plan.total {
        return Err(Refusal::at(19, 0));
    }
    Ok(())
}

/// The root and the ends of the legs, where these are a tree: none ends at the root, no two end at one site, each start is reached.
fn held_sites(sheet: &Sheet, plan: &PlanFile, reached: &[bool]) -> Option<Vec<usize>> {
    let mut is_held = vec![false; sheet.sites];
    is_held[plan.root] = true;
    let mut held = vec![plan.root];
    for &leg in &plan.legs {
        let leg = sheet.legs[leg];
        let end = usize::from(leg.end);
        if is_held[end] || !reached[usize::from(leg.start)] {
            return None;
        }
        is_held[end] = true;
        held.push(end);
    }
    Some(held)
}
