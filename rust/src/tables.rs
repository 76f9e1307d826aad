//! The tables that a caller lends, their lengths, the questions about a cost table, and the decoded answers. They hold data only.

use crate::calls::{MAX_LEGS, MAX_SITES, MAX_STATIONS};

/// The lengths of the lent tables, in entries, and of the plan buffer, in bytes.
#[derive(Clone, Copy, Debug, PartialEq, Eq)]
pub struct Lengths {
    pub starts: usize,
    pub ends: usize,
    pub prices: usize,
    pub landings: usize,
    pub by_end: usize,
    pub places: usize,
    pub cells: usize,
    pub marks: usize,
    pub plan: usize,
    pub shares: usize,
}

impl Lengths {
    /// The least lengths that a sheet of n sites, k stations and m legs needs, and a plan buffer that holds every tree of n sites.
    pub fn needed(n: usize, k: usize, m: usize) -> Lengths {
        Lengths {
            starts: m,
            ends: m,
            prices: m,
            landings: n,
            by_end: m,
            places: n + 1,
            cells: n << k,
            marks: n,
            plan: 10 + 4 * n.saturating_sub(1),
            shares: k,
        }
    }
}

/// The lent tables and the plan buffer. An entry of `landings` is the site's set of stations, and `SENDER_FLAG` more where it may send.
/// `by_end` has the leg numbers by end, in leg order within, and entry v of `places` the number of legs that end at a site below v. Entry i
/// of `shares` is what station i pays, in cents.
#[derive(Clone, Debug, PartialEq, Eq)]
pub struct Tables {
    pub starts: Vec<u16>,
    pub ends: Vec<u16>,
    pub prices: Vec<u32>,
    pub landings: Vec<u16>,
    pub by_end: Vec<u16>,
    pub places: Vec<u16>,
    pub cells: Vec<u32>,
    pub marks: Vec<u8>,
    pub plan: Vec<u8>,
    pub shares: Vec<u32>,
}

impl Tables {
    /// Tables of zeros, just long enough for a sheet of n sites, k stations and m legs.
    pub fn for_sheet(n: usize, k: usize, m: usize) -> Tables {
        Tables::with(Lengths::needed(n, k, m), || 0)
    }

    /// Tables of zeros, long enough for every sheet. The cells take 4 MiB.
    pub fn for_any_sheet() -> Tables {
        Tables::for_sheet(MAX_SITES, MAX_STATIONS, MAX_LEGS)
    }

    /// Tables of any lengths; each entry is what `contents` gives, cut to the entry's width.
    pub fn with(lengths: Lengths, mut contents: impl FnMut() -> u64) -> Tables {
        Tables {
            starts: (0..lengths.starts).map(|_| contents() as u16).collect(),
            ends: (0..lengths.ends).map(|_| contents() as u16).collect(),
            prices: (0..lengths.prices).map(|_| contents() as u32).collect(),
            landings: (0..lengths.landings).map(|_| contents() as u16).collect(),
            by_end: (0..lengths.by_end).map(|_| contents() as u16).collect(),
            places: (0..lengths.places).map(|_| contents() as u16).collect(),
            cells: (0..lengths.cells).map(|_| contents() as u32).collect(),
            marks: (0..lengths.marks).map(|_| contents() as u8).collect(),
            plan: (0..lengths.plan).map(|_| contents() as u8).collect(),
            shares: (0..lengths.shares).map(|_| contents() as u32).collect(),
        }
    }

    /// Makes these tables equal to others, in place where the lengths are equal.
    pub fn copy_from(&mut self, other: &Tables) {
        self.starts.clone_from(&other.starts);
        self.ends.clone_from(&other.ends);
        self.prices.clone_from(&other.prices);
        self.landings.clone_from(&other.landings);
        self.by_end.clone_from(&other.by_end);
        self.places.clone_from(&other.places);
        self.cells.clone_from(&other.cells);
        self.marks.clone_from(&other.marks);
        self.plan.clone_from(&other.plan);
        self.shares.clone_from(&other.shares);
    }

    /// The tables as slices, to be lent.
    pub fn lend(&mut self) -> Lent<'_> {
        Lent {
            starts: &mut self.starts,
            ends: &mut self.ends,
            prices: &mut self.prices,
            landings: &mut self.landings,
            by_end: &mut self.by_end,
            places: &mut self.places,
            cells: &mut self.cells,
            marks: &mut self.marks,
            plan: &mut self.plan,
            shares: &mut self.shares,
        }
    }
}

/// The tables as slices. They may be parts of larger ones.
pub struct Lent<'a> {
    pub starts: &'a mut [u16],
    pub ends: &'a mut [u16],
    pub prices: &'a mut [u32],
    pub landings: &'a mut [u16],
    pub by_end: &'a mut [u16],
    pub places: &'a mut [u16],
    pub cells: &'a mut [u32],
    pub marks: &'a mut [u8],
    pub plan: &'a mut [u8],
    pub shares: &'a mut [u32],
}

/// An answer of the engine or the plan reader, decoded.
#[derive(Clone, Copy, Debug, PartialEq, Eq)]
pub enum Answer {
    /// A plan, or an accepted plan file.
    Plan { root: u64, total: u64, legs: u64 },
    /// A refusal of documents 01 and 02.
    Refused { number: u32, place: u64 },
}

impl Answer {
    /// The answer of a call that returned `number` and left `answer`.
    pub fn decode(number: u32, answer: &[u64; 3]) -> Answer {
        match number {
            0 => Answer::Plan {
                root: answer[0],
                total: answer[1],
                legs: answer[2],
            },
            _ => Answer::Refused {
                number,
                place: answer[0],
            },
        }
    }
}

/// An answer to the sharing of a plan file, decoded.
#[derive(Clone, Copy, Debug, PartialEq, Eq)]
pub enum Sharing {
    /// The file is accepted, and the shares stand in the share table. With `unassigned`, the sum of the legs that serve no station, they
    /// make the total.
    Shared {
        root: u64,
        total: u64,
        legs: u64,
        unassigned: u64,
    },
    /// A refusal of documents 01 and 02. The share table is as before.
    Refused { number: u32, place: u64 },
}

impl Sharing {
    /// The answer of a call that returned `number` and left `answer`.
    pub fn decode(number: u32, answer: &[u64; 4]) -> Sharing {
        match number {
            0 => Sharing::Shared {
                root: answer[0],
                total: answer[1],
                legs: answer[2],
                unassigned: answer[3],
            },
            _ => Sharing::Refused {
                number,
                place: answer[0],
            },
        }
    }
}

/// A cost table with its landing sets and its numbers of sites and stations beside it. It need not be a finished one.
///
/// A landing entry is a sender's where its bit `SENDER_FLAG` is set. Only the question for the best sender looks at the landing sets.
#[derive(Clone, Copy, Debug)]
pub struct CostTable<'a> {
    pub cells: &'a [u32],
    pub landings: &'a [u16],
    pub sites: u32,
    pub stations: u32,
}

/// A question to the enquirer. A subset is a number, in which station i is worth 2^i.
#[derive(Clone, Copy, Debug, PartialEq, Eq)]
pub enum Question {
    /// The cell of a site and a subset.
    Cell { site: u32, subset: u32 },
    /// The best sender of a subset: of the sites that may send the lowest of those whose cell is least.
    BestSender { subset: u32 },
}

/// What stands in `answer` where a subset has no best sender.
pub const NO_SENDER: u64 = u64::MAX;

/// An answer of the enquirer, decoded.
#[derive(Clone, Copy, Debug, PartialEq, Eq)]
pub enum Enquiry {
    /// A cell as it stands in the table; 4,294,967,295 is "none".
    Cell { cell: u64 },
    /// Of the senders whose cell is least, and finite, the lowest.
    Sender { site: u64 },
    /// No sender has a finite cell of the subset.
    NoSender,
    /// A refusal of document 01's table.
    Refused { number: u32, place: u64 },
}

impl Enquiry {
    /// The answer to a question whose call returned `number` and left `answer`.
    pub fn decode(question: Question, number: u32, answer: &[u64; 1]) -> Enquiry {
        match (number, question, answer[0]) {
            (0, Question::Cell { .. }, cell) => Enquiry::Cell { cell },
            (0, Question::BestSender { .. }, NO_SENDER) => Enquiry::NoSender,
            (0, Question::BestSender { .. }, site) => Enquiry::Sender { site },
            (_, _, place) => Enquiry::Refused { number, place },
        }
    }
}
