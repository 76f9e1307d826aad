//! The reading of a sheet: its numbers, legs, landing sets and senders, or the first refusal of 1 to 10 with its place.

use super::Refusal;

const MAX_SITES: usize = 1024;
const MAX_STATIONS: usize = 10;
const MAX_LEGS: usize = 8192;
const MAX_PRICE: u32 = 1_000_000;

/// What is added to the landing entry of a sender.
pub const FLAG: u16 = 1024;

/// A one-way link with its price.
#[derive(Clone, Copy, Debug, PartialEq, Eq)]
pub struct Leg {
    pub start: u16,
    pub end: u16,
    pub price: u32,
}

/// A good sheet: numbers of sites and stations, the legs in order, each site's set of stations, and whether it may send.
#[derive(Clone, Debug, PartialEq, Eq)]
pub struct Sheet {
    pub sites: usize,
    pub stations: usize,
    pub legs: Vec<Leg>,
    pub landings: Vec<u16>,
    pub senders: Vec<bool>,
}

impl Sheet {
    /// The set of all stations.
    pub fn full(&self) -> usize {
        (1 << self.stations) - 1
    }

    /// The entry of each site in the landing table: its set of stations, and the flag where it may send.
    pub fn landing_entries(&self) -> impl Iterator<Item = u16> + '_ {
        let sites = self.landings.iter().zip(&self.senders);
        sites.map(|(&heard, &may_send)| if may_send { heard + FLAG } else { heard })
    }
}

/// The number that stands in bytes, highest first.
fn number(bytes: &[u8]) -> u32 {
    bytes
        .iter()
        .fold(0, |sum, &byte| sum << 8 | u32::from(byte))
}

/// Reads a sheet whole.
pub fn read(bytes: &[u8]) -> Result<Sheet, Refusal> {
    let mut sheet = read_head(bytes)?;
    let mut place = 5;
    loop {
        let rest = &bytes[place..];
        let mark = rest.get(..2).ok_or(Refusal::at(1, place))?;
        place += match mark {
            b"LK" => sheet.take_link(fields(rest, 8, place)?, false, place)?,
            b"BK" => sheet.take_link(fields(rest, 8, place)?, true, place)?,
            b"ST" => sheet.take_landing(fields(rest, 3, place)?, place)?,
            b"SR" => sheet.take_sender(fields(rest, 2, place)?, place)?,
            b"ED" => return sheet.finish(&rest[2..], place),
            _ => return Err(Refusal::at(2, place)),
        };
    }
}

/// The bytes after the mark of a record at `place`, as many as its fields have, or 1.
fn fields(record: &[u8], length: usize, place: usize) -> Result<&[u8], Refusal> {
    record.get(2..2 + length).ok_or(Refusal::at(1, place))
}

/// Reads the head: mark, length, then the ranges.
fn read_head(bytes: &[u8]) -> Result<Sheet, Refusal> {
    let mark = bytes.get(..2).ok_or(Refusal::at(1, 0))?;
    if mark != b"HD" {
        return Err(Refusal::at(2, 0));
    }
    let head = fields(bytes, 3, 0)?;
    let sites = number(&head[..2]) as usize;
    let stations = usize::from(head[2]);
    if !(1..=MAX_SITES).contains(&sites) || !(1..=MAX_STATIONS).contains(&stations) {
        return Err(Refusal::at(3, 0));
    }
    Ok(Sheet {
        sites,
        stations,
        legs: Vec::new(),
        landings: vec![0; sites],
        senders: vec![false; sites],
    })
}

impl Sheet {
    /// Takes the fields of `LK`, or of `BK` where `both` is set. Gives the record's length.
    fn take_link(&mut self, fields: &[u8], both: bool, place: usize) -> Result<usize, Refusal> {
        let start = number(&fields[..2]) as u16;
        let end = number(&fields[2..4]) as u16;
        let price = number(&fields[4..]);
        let added = if both { 2 } else { 1 };
        if usize::from(start) >= self.sites || usize::from(end) >= self.sites {
            return Err(Refusal::at(4, place));
        }
        if start == end {
            return Err(Refusal::at(6, place));
        }
        if price == 0 || price > MAX_PRICE {
            return Err(Refusal::at(7, place));
        }
        if self.legs.len() + added > MAX_LEGS {
            return Err(Refusal::at(8, place));
        }
        self.legs.push(Leg { start, end, price });
        if both {
            self.legs.push(Leg {
                start: end,
                end: start,
                price,
            });
        }
        Ok(10)
    }

    /// Takes the fields of `ST`. Gives the record's length.
    fn take_landing(&mut self, fields: &[u8], place: usize) -> Result<usize, Refusal> {
        let station = usize::from(fields[0]);
        let site = number(&fields[1..]) as usize;
        if station >= self.stations {
            return Err(Refusal::at(5, place));
        }
        if site >= self.sites {
            return Err(Refusal::at(4, place));
        }
        self.landings[site] |= 1 << station;
        Ok(5)
    }

    /// Takes the field of `SR`. Gives the record's length.
    fn take_sender(&mut self, field: &[u8], place: usize) -> Result<usize, Refusal> {
        let sender = self.senders.get_mut(number(field) as usize);
        *sender.ok_or(Refusal::at(4, place))? = true;
        Ok(4)
    }

    /// Ends the reading at an `ED` that stands at `place`, with the bytes that follow it. Without an `SR` every site is a sender.
    fn finish(mut self, following: &[u8], place: usize) -> Result<Sheet, Refusal> {
        if !following.is_empty() {
            return Err(Refusal::at(9, place + 2));
        }
        let heard = self.landings.iter().fold(0, |all, &set| all | set);
        if usize::from(heard) != self.full() {
            return Err(Refusal::at(10, place));
        }
        if !self.senders.contains(&true) {
            self.senders.fill(true);
        }
        Ok(self)
    }
}
