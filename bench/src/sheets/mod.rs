//! Sheets as records and as bytes, and generators of sheets, plan files and questions for the tests and the benchmark.

mod damage;
mod files;
mod large;
mod questions;
mod random;
mod small;

pub use damage::damaged;
pub use files::{grown_plan, leg_records, varied_file, PlanFile};
pub use large::{
    among_some, bad_reading, chain, far_chain, filled_sheet, gated_row, grid, heard_often,
    licensed, random_sheet,
};
pub use large::{Chain, Order};
pub use questions::{question, random_table, MadeTable};
pub use random::Random;
pub use small::{small_sheet, tiny_sheet, wide_sheet};

/// A record between `HD` and `ED`.
#[derive(Clone, Copy, Debug, PartialEq, Eq)]
pub enum Record {
    /// `LK`: one leg.
    Link { from: u16, to: u16, price: u32 },
    /// `BK`: two legs, there and back.
    Both { from: u16, to: u16, price: u32 },
    /// `ST`: a station can be heard at a site.
    Landing { station: u8, site: u16 },
    /// `SR`: a site may send.
    Sender { site: u16 },
}

impl Record {
    /// The record's bytes.
    pub fn bytes(&self) -> Vec<u8> {
        match *self {
            Record::Link { from, to, price } => link_bytes(b"LK", from, to, price),
            Record::Both { from, to, price } => link_bytes(b"BK", from, to, price),
            Record::Landing { station, site } => {
                [&b"ST"[..], &[station], &site.to_be_bytes()].concat()
            }
            Record::Sender { site } => [&b"SR"[..], &site.to_be_bytes()].concat(),
        }
    }
}

/// The bytes of `LK` or `BK`.
fn link_bytes(mark: &[u8; 2], from: u16, to: u16, price: u32) -> Vec<u8> {
    [
        &mark[..],
        &from.to_be_bytes(),
        &to.to_be_bytes(),
        &price.to_be_bytes(),
    ]
    .concat()
}

/// A leg of a sheet.
#[derive(Clone, Copy, Debug, PartialEq, Eq)]
pub struct Leg {
    pub from: u16,
    pub to: u16,
    pub price: u32,
}

/// A sheet as records. It need not be a good one.
#[derive(Clone, Debug, PartialEq, Eq)]
pub struct Sheet {
    pub sites: u16,
    pub stations: u8,
    pub records: Vec<Record>,
}

impl Sheet {
    /// A sheet with no records.
    pub fn new(sites: u16, stations: u8) -> Sheet {
        Sheet {
            sites,
            stations,
            records: Vec::new(),
        }
    }

    /// Adds `LK`.
    pub fn link(mut self, from: u16, to: u16, price: u32) -> Sheet {
        self.records.push(Record::Link { from, to, price });
        self
    }

    /// Adds `BK`.
    pub fn both(mut self, from: u16, to: u16, price: u32) -> Sheet {
        self.records.push(Record::Both { from, to, price });
        self
    }

    /// Adds `ST`.
    pub fn landing(mut self, station: u8, site: u16) -> Sheet {
        self.records.push(Record::Landing { station, site });
        self
    }

    /// Adds `SR`.
    pub fn sender(mut self, site: u16) -> Sheet {
        self.records.push(Record::Sender { site });
        self
    }

    /// The sheet without its `SR` records, so that every site is a sender.
    pub fn without_senders(&self) -> Sheet {
        let mut sheet = self.clone();
        let is_sender = |record: &Record| matches!(record, Record::Sender { .. });
        sheet.records.retain(|record| !is_sender(record));
        sheet
    }

    /// The bytes of each record, `HD` first and `ED` last.
    pub fn pieces(&self) -> Vec<Vec<u8>> {
        let head = [&b"HD"[..], &self.sites.to_be_bytes(), &[self.stations]].concat();
        let mut pieces = vec![head];
        pieces.extend(self.records.iter().map(Record::bytes));
        pieces.push(b"ED".to_vec());
        pieces
    }

    /// The sheet's bytes.
    pub fn bytes(&self) -> Vec<u8> {
        self.pieces().concat()
    }

    /// The legs in order.
    pub fn legs(&self) -> Vec<Leg> {
        let mut legs = Vec::new();
        for record in &self.records {
            match *record {
                Record::Link { from, to, price } => legs.push(Leg { from, to, price }),
                Record::Both { from, to, price } => {
                    legs.push(Leg { from, to, price });
                    legs.push(Leg {
                        from: to,
                        to: from,
                        price,
                    });
                }
                Record::Landing { .. } | Record::Sender { .. } => {}
            }
        }
        legs
    }
}
