//! Every list of at most four legs of a sheet, with repeats and in every order, as a plan file: each entry is a leg of the sheet or the
//! first number that is none, and each list is tried with each site as the root and with the first number that is no site. Each file is
//! read and shared.

use crate::lent::{Left, BEFORE};
use crate::trees::Small;
use crate::Counts;

/// The longest list.
const MAX_LIST: usize = 4;

/// A sheet, its bytes, and what the reader leaves on it before the legs of a file are looked at.
pub struct Reading<'a> {
    pub small: &'a Small,
    pub bytes: &'a [u8],
    filled: Left,
}

impl Reading<'_> {
    pub fn new<'a>(small: &'a Small, bytes: &'a [u8]) -> Reading<'a> {
        let filled = BEFORE.filled(small);
        Reading {
            small,
            bytes,
            filled,
        }
    }

    /// Tries the lists of none to four entries.
    pub fn try_lists(&self, counts: &mut Counts) {
        for length in 0..=MAX_LIST {
            self.try_longer(&mut [0; MAX_LIST], 0, length, counts);
        }
    }

    /// Tries the lists of so many entries that begin with the first so many.
    fn try_longer(
        &self,
        list: &mut [usize; MAX_LIST],
        first: usize,
        length: usize,
        counts: &mut Counts,
    ) {
        if first == length {
            return self.try_list(&list[..length], counts);
        }
        for leg in 0..=self.small.legs.len() {
            list[first] = leg;
            self.try_longer(list, first + 1, length, counts);
        }
    }

    /// Tries a list with every root: with its sum as the total and, where that is accepted, with one cent more, cut, and with a byte more.
    fn try_list(&self, list: &[usize], counts: &mut Counts) {
        counts.lists += 1;
        let known = list.iter().filter(|&&leg| leg < self.small.legs.len());
        let total = known.map(|&leg| self.small.legs[leg].price).sum();
        for root in 0..=self.small.sites {
            let file = file_of(root, total, list);
            let due = self.due(root, total, list);
            if self.try_file(&file, &due, counts) != 0 {
                self.try_sharing(&file, due);
                continue;
            }
            self.try_shares(&file, due, (root, list), counts);
            let more = file_of(root, total + 1, list);
            self.try_refused(&more, self.due(root, total + 1, list), counts);
            let cut = &file[..file.len() - 1];
            self.try_refused(cut, self.filled.clone().refused(14, 0), counts);
            let longer = [&file[..], &[0]].concat();
            self.try_refused(&longer, self.filled.clone().refused(15, file.len()), counts);
        }
    }

    /// Tries, from each site that reaches every station, a sender or not, the file of the plan by the rule over finished cells.
    pub fn try_roots(&self, cells: &[u32], counts: &mut Counts) {
        let (small, full) = (self.small, self.small.full());
        for root in 0..small.sites {
            let total = cells[(root << small.stations) + full];
            if total != u32::MAX {
                let mut list = Vec::new();
                small.lay_out(cells, root, full, &mut list);
                let file = file_of(root, total, &list);
                let due = self.due(root, total, &list);
                let number = self.try_file(&file, &due, counts);
                assert_eq!(number, if small.may_send(root) { 0 } else { 20 });
                match number {
                    0 => assert_eq!(self.try_shares(&file, due, (root, &list), counts), 0),
                    _ => self.try_sharing(&file, due),
                }
            }
        }
    }

    /// What is due for a file with this root, total and list, by the order of tests of documents 01 and 02.
    pub fn due(&self, root: usize, total: u32, list: &[usize]) -> Left {
        let small = self.small;
        if root >= small.sites {
            return self.filled.clone().refused(16, 0);
        }
        if let Some(place) = list.iter().position(|&leg| leg >= small.legs.len()) {
            return self.filled.clone().refused(16, 10 + 4 * place);
        }
        let marked = self.filled.clone().marked(small, small.reached(root, list));
        match small.held(root, list) {
            None => marked.refused(17, 0),
            Some(_) if !small.may_send(root) => marked.refused(20, 0),
            Some(sites) if small.heard(sites) != small.full() => marked.refused(18, 0),
            Some(_) if small.sum(list) != total => marked.refused(19, 0),
            Some(_) => marked.planned(root, total, list.len()),
        }
    }

    /// Reads a file and compares all that is left with what is due. Gives the number that was returned.
    fn try_file(&self, file: &[u8], due: &Left, counts: &mut Counts) -> u32 {
        let left = Left::of_reading(self.bytes, file);
        assert_eq!(&left, due, "sheet {:?}, file {file:?}", self.bytes);
        counts.files += 1;
        counts.answers[left.number as usize] += 1;
        left.number
    }

    /// Reads and shares a file that is refused; the sharing is to leave the same.
    fn try_refused(&self, file: &[u8], due: Left, counts: &mut Counts) {
        assert_ne!(self.try_file(file, &due, counts), 0);
        self.try_sharing(file, due);
    }

    /// Shares an accepted file of a root and a list, of which `due` is what its reading leaves. The shares and the unassigned sum, which is
    /// given, make the total.
    fn try_shares(
        &self,
        file: &[u8],
        due: Left,
        (root, list): (usize, &[usize]),
        counts: &mut Counts,
    ) -> u32 {
        let sites = self.small.held(root, list).expect("the file is accepted");
        let shares = self.small.shares(sites, list);
        assert_eq!(shares.sum(), self.small.sum(list));
        counts.add_shares(&shares);
        self.try_sharing(file, due.shared(&shares.of_stations, shares.unassigned));
        shares.unassigned
    }

    /// Shares a file and compares all that is left with what is due.
    fn try_sharing(&self, file: &[u8], due: Left) {
        let left = Left::of_sharing(self.bytes, file);
        assert_eq!(left, due, "sheet {:?}, shared file {file:?}", self.bytes);
    }
}

/// A plan file.
pub fn file_of(root: usize, total: u32, list: &[usize]) -> Vec<u8> {
    let mut file = Vec::with_capacity(32);
    file.extend(b"PN");
    file.extend((root as u16).to_be_bytes());
    file.extend(total.to_be_bytes());
    file.extend((list.len() as u16).to_be_bytes());
    for &leg in list {
        file.extend(b"LG");
        file.extend((leg as u16).to_be_bytes());
    }
    file
}
