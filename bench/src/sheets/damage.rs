//! Damage to the bytes of a sheet. The damaged sheet may still be a good one.

use super::{Random, Sheet};

/// The bytes of a sheet with one or two faults.
pub fn damaged(random: &mut Random, sheet: &Sheet) -> Vec<u8> {
    let mut pieces = sheet.pieces();
    if random.once_in(2) {
        damage_pieces(random, sheet, &mut pieces);
        if random.once_in(3) {
            damage_pieces(random, sheet, &mut pieces);
        }
        return pieces.concat();
    }
    let mut bytes = pieces.concat();
    damage_bytes(random, &mut bytes);
    if random.once_in(4) {
        damage_bytes(random, &mut bytes);
    }
    bytes
}

/// A byte changed, a cut, bytes inserted, or bytes appended.
fn damage_bytes(random: &mut Random, bytes: &mut Vec<u8>) {
    let place = random.below(bytes.len() + 1);
    match random.below(5) {
        0 => change(random, bytes),
        1 => bytes.truncate(place),
        2 => insert(random, bytes, place),
        3 => append(random, bytes),
        _ => remove(bytes, place),
    }
}

/// Changes one byte.
fn change(random: &mut Random, bytes: &mut [u8]) {
    if !bytes.is_empty() {
        let place = random.below(bytes.len());
        bytes[place] = random.bits() as u8;
    }
}

/// Inserts one to three bytes.
fn insert(random: &mut Random, bytes: &mut Vec<u8>, place: usize) {
    for _ in 0..random.between(1, 3) {
        bytes.insert(place, random.bits() as u8);
    }
}

/// Appends a byte, a mark or a whole record.
fn append(random: &mut Random, bytes: &mut Vec<u8>) {
    let tails: [&[u8]; 6] = [
        b"\0",
        b"E",
        b"ED",
        b"ST\0\0\0",
        b"SR\0\0",
        b"LK\0\0\0\x01\0\0\0\x05",
    ];
    bytes.extend_from_slice(random.pick(&tails));
}

/// Takes one byte away.
fn remove(bytes: &mut Vec<u8>, place: usize) {
    if place < bytes.len() {
        bytes.remove(place);
    }
}

/// Records exchanged, doubled, left out or cut, a mark changed, or a number set to a limit.
fn damage_pieces(random: &mut Random, sheet: &Sheet, pieces: &mut Vec<Vec<u8>>) {
    let one = random.below(pieces.len());
    let other = random.below(pieces.len());
    match random.below(9) {
        0 => pieces.swap(one, other),
        1 => pieces.insert(other, pieces[one].clone()),
        2 => change_mark(random, &mut pieces[one]),
        3 => cut(random, &mut pieces[one]),
        4 if pieces.len() > 1 => drop(pieces.remove(one)),
        _ => set_limit(random, sheet, &mut pieces[one]),
    }
}

/// Cuts a record short.
fn cut(random: &mut Random, piece: &mut Vec<u8>) {
    piece.truncate(random.below(piece.len() + 1));
}

/// Gives a record another mark, perhaps a strange one.
fn change_mark(random: &mut Random, piece: &mut [u8]) {
    let marks = [
        b"HD", b"LK", b"BK", b"ST", b"SR", b"ED", b"lk", b"KL", b"sr", b"RS", b"PN", b"LG",
    ];
    if let Some(mark) = piece.get_mut(..2) {
        let chosen = random.pick(&marks);
        mark.copy_from_slice(chosen);
    }
}

/// Sets a number of a record to a value at or past a limit.
fn set_limit(random: &mut Random, sheet: &Sheet, piece: &mut [u8]) {
    match (piece.get(..2), piece.len()) {
        (Some(b"HD"), 5) => set_head_limit(random, piece),
        (Some(b"LK" | b"BK"), 10) => set_link_limit(random, sheet, piece),
        (Some(b"ST"), 5) => set_landing_limit(random, sheet, piece),
        (Some(b"SR"), 4) => piece[2..].copy_from_slice(&site_limit(random, sheet)),
        _ => {}
    }
}

/// A limit for the number of sites or of stations.
fn set_head_limit(random: &mut Random, piece: &mut [u8]) {
    if random.once_in(2) {
        let sites: u16 = random.pick(&[0, 1, 2, 256, 1024, 1025, 65535]);
        piece[2..4].copy_from_slice(&sites.to_be_bytes());
    } else {
        piece[4] = random.pick(&[0, 1, 2, 9, 10, 11, 255]);
    }
}

/// A limit for a site.
fn site_limit(random: &mut Random, sheet: &Sheet) -> [u8; 2] {
    let sites = sheet.sites;
    random
        .pick(&[0, sites - 1, sites, sites + 1, 65535])
        .to_be_bytes()
}

/// A limit for from, to or price, a loop, or several of these.
fn set_link_limit(random: &mut Random, sheet: &Sheet, piece: &mut [u8]) {
    if random.once_in(3) {
        let limit = site_limit(random, sheet);
        piece[2..4].copy_from_slice(&limit);
    }
    if random.once_in(3) {
        let limit = site_limit(random, sheet);
        piece[4..6].copy_from_slice(&limit);
    }
    if random.once_in(3) {
        piece.copy_within(2..4, 4);
    }
    if random.once_in(2) {
        let price: u32 = random.pick(&[0, 1, 1_000_000, 1_000_001, u32::MAX]);
        piece[6..].copy_from_slice(&price.to_be_bytes());
    }
}

/// A limit for a station or its site, or for both.
fn set_landing_limit(random: &mut Random, sheet: &Sheet, piece: &mut [u8]) {
    if random.once_in(2) {
        let stations = sheet.stations;
        piece[2] = random.pick(&[0, stations - 1, stations, stations + 1, 255]);
    }
    if random.once_in(2) {
        let limit = site_limit(random, sheet);
        piece[3..].copy_from_slice(&limit);
    }
}
