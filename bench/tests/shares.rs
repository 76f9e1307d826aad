//! Shares that are worked out by hand, for the library and the reference. The share table is full of other numbers before each call.

use uldhvamm::{Lengths, Sharing, Tables};
use uldhvamm_bench::compare::{both, Call, Run};
use uldhvamm_bench::sheets::{PlanFile, Random, Sheet};

/// What each entry of the share table is before a call.
const BEFORE: u32 = 4_000_000_007;

/// Sheet A of document 01.
fn sheet_a() -> Sheet {
    Sheet::new(4, 3)
        .link(0, 1, 4)
        .link(1, 2, 3)
        .link(1, 3, 3)
        .link(0, 2, 5)
        .link(0, 3, 6)
        .landing(0, 2)
        .landing(1, 3)
        .landing(2, 0)
}

/// A plan file with its true total, where it lists legs of the sheet.
fn file(sheet: &Sheet, root: u16, listed: &[u16]) -> PlanFile {
    let legs = sheet.legs();
    let prices = listed.iter().map(|&leg| legs[usize::from(leg)].price);
    PlanFile {
        root,
        total: prices.sum(),
        legs: listed.to_vec(),
    }
}

/// Shares the bytes of a file with so many entries of the share table and of the answer, by the library and by the reference.
fn run(sheet: &Sheet, file: &[u8], shares: usize, answer: usize) -> Run {
    let mut random = Random::new(8);
    let (n, k) = (usize::from(sheet.sites), usize::from(sheet.stations));
    let lengths = Lengths::needed(n, k, sheet.legs().len());
    let mut tables = Tables::with(lengths, || random.bits());
    tables.shares = vec![BEFORE; shares];
    let call = Call::Share(file.to_vec());
    let before = vec![9; answer];
    both(&call, &sheet.bytes(), &tables, &before).unwrap_or_else(|words| panic!("{words}"))
}

/// The decoded answer of a run whose answer has four entries.
fn decoded(run: &Run) -> Sharing {
    let values = [run.answer[0], run.answer[1], run.answer[2], run.answer[3]];
    Sharing::decode(run.number, &values)
}

/// Fails where the stations do not pay these shares of a file, or another sum is unassigned. The share table has two entries more than
/// there are stations, and these are left as they were.
fn check(sheet: &Sheet, file: &PlanFile, due: &[u32], unassigned: u64) {
    let run = run(sheet, &file.bytes(), due.len() + 2, 4);
    let shared = Sharing::Shared {
        root: u64::from(file.root),
        total: u64::from(file.total),
        legs: file.legs.len() as u64,
        unassigned,
    };
    assert_eq!(decoded(&run), shared, "{file:?}, {sheet:?}");
    assert_eq!(run.tables.shares, [due, &[BEFORE; 2]].concat(), "{file:?}");
}

/// Fails where a file is not refused in this way, or the share table is written.
fn check_refused(sheet: &Sheet, file: &[u8], shares: usize, number: u32, place: u64) {
    let run = run(sheet, file, shares, 4);
    assert_eq!(decoded(&run), Sharing::Refused { number, place });
    assert_eq!(run.answer[1..], [9; 3]);
    assert_eq!(run.tables.shares, vec![BEFORE; shares]);
}

/// Leg 0 costs 4 and serves stations 0 and 1, leg 1 costs 3 and serves 0, leg 2 costs 3 and serves 1. Station 2 sits at the root.
#[test]
fn the_plan_of_a() {
    let sheet = sheet_a();
    check(&sheet, &file(&sheet, 0, &[0, 1, 2]), &[5, 5, 0], 0);
    check(&sheet, &file(&sheet, 0, &[2, 1, 0]), &[5, 5, 0], 0);
    check(&sheet, &file(&sheet, 0, &[3, 4]), &[5, 6, 0], 0);
}

/// The lowest stations pay a cent more until the remainder is used.
#[test]
fn one_price_over_three_stations() {
    let shares = [
        (1, [1, 0, 0]),
        (2, [1, 1, 0]),
        (9, [3, 3, 3]),
        (10, [4, 3, 3]),
        (11, [4, 4, 3]),
        (1_000_000, [333_334, 333_333, 333_333]),
    ];
    for (price, due) in shares {
        let sheet = (0..3).fold(Sheet::new(2, 3).link(0, 1, price), |sheet, station| {
            sheet.landing(station, 1)
        });
        check(&sheet, &file(&sheet, 0, &[0]), &due, 0);
    }
}

/// Stations 1 and 2 sit at the end of leg 0, and station 0 behind leg 1: 9 is 3 for each, 5 is for station 0 alone.
#[test]
fn two_stations_with_one_seat() {
    let sheet = Sheet::new(3, 3)
        .link(0, 1, 9)
        .link(1, 2, 5)
        .landing(0, 2)
        .landing(1, 1)
        .landing(2, 1);
    check(&sheet, &file(&sheet, 0, &[0, 1]), &[8, 3, 3], 0);
    // Station 0 sits at the root: of 9 the lower of the other two pays the odd cent.
    let sheet = Sheet::new(2, 3)
        .link(0, 1, 9)
        .landing(0, 0)
        .landing(1, 1)
        .landing(2, 1);
    check(&sheet, &file(&sheet, 0, &[0]), &[0, 5, 4], 0);
}

/// A station with landings at 1 and 2 sits at 1 where the plan holds both, near or far, and at 2 where it holds only that.
#[test]
fn a_station_with_two_landings() {
    let near = Sheet::new(3, 1)
        .link(0, 1, 6)
        .link(1, 2, 4)
        .landing(0, 2)
        .landing(0, 1);
    check(&near, &file(&near, 0, &[0, 1]), &[6], 4);
    check(&near, &file(&near, 0, &[0]), &[6], 0);
    let far = Sheet::new(3, 1)
        .link(0, 2, 6)
        .link(2, 1, 4)
        .landing(0, 2)
        .landing(0, 1);
    check(&far, &file(&far, 0, &[0, 1]), &[10], 0);
    check(&far, &file(&far, 0, &[0]), &[6], 0);
}

/// Legs behind the seat, and a branch on which no station sits, are unassigned.
#[test]
fn legs_that_serve_no_station() {
    let sheet = Sheet::new(5, 1)
        .link(0, 1, 6)
        .link(1, 2, 3)
        .link(2, 3, 2)
        .link(0, 4, 9)
        .landing(0, 1);
    check(&sheet, &file(&sheet, 0, &[0, 1]), &[6], 3);
    check(&sheet, &file(&sheet, 0, &[3, 2, 1, 0]), &[6], 14);
    let sheet = sheet_a();
    check(&sheet, &file(&sheet, 0, &[0, 3, 4]), &[5, 6, 0], 4);
}

/// No leg serves a station that sits at the root, and without legs nobody pays.
#[test]
fn a_seat_at_the_root() {
    let sheet = Sheet::new(2, 2).both(0, 1, 7).landing(0, 0).landing(1, 1);
    check(&sheet, &file(&sheet, 0, &[0]), &[0, 7], 0);
    check(&sheet, &file(&sheet, 1, &[1]), &[7, 0], 0);
    let sheet = Sheet::new(2, 1).link(0, 1, 7).landing(0, 0);
    check(&sheet, &file(&sheet, 0, &[]), &[0], 0);
    check(&sheet, &file(&sheet, 0, &[0]), &[0], 7);
}

#[test]
fn a_refused_file_leaves_the_share_table() {
    let sheet = sheet_a();
    let good = file(&sheet, 0, &[0, 1, 2]);
    let bytes = good.bytes();
    check_refused(&sheet, &[], 3, 14, 0);
    check_refused(&sheet, &[&b"GN"[..], &bytes[2..]].concat(), 3, 15, 0);
    check_refused(&sheet, &[&bytes[..], b"L"].concat(), 3, 15, 22);
    let other = |root, total, legs: &[u16]| {
        let legs = legs.to_vec();
        PlanFile { root, total, legs }.bytes()
    };
    check_refused(&sheet, &other(4, 10, &[0, 1, 2]), 3, 16, 0);
    check_refused(&sheet, &other(0, 10, &[0, 1, 5]), 3, 16, 18);
    check_refused(&sheet, &other(0, 13, &[0, 1, 2, 2]), 3, 17, 0);
    check_refused(&sheet, &other(0, 7, &[0, 1]), 3, 18, 0);
    check_refused(&sheet, &other(0, 11, &[0, 1, 2]), 3, 19, 0);
    check_refused(&sheet.clone().sender(1), &bytes, 3, 20, 0);
    check_refused(&sheet.link(1, 1, 3), &bytes, 3, 6, 70);
}

/// A table of as many entries as there are stations is long enough, one of fewer is 11, before the file is looked at.
#[test]
fn lengths_of_the_share_table() {
    let sheet = sheet_a();
    let bytes = file(&sheet, 0, &[0, 1, 2]).bytes();
    assert_eq!(run(&sheet, &bytes, 3, 4).tables.shares, [5, 5, 0]);
    assert_eq!(run(&sheet, &bytes, 4, 4).tables.shares, [5, 5, 0, BEFORE]);
    for shares in 0..3 {
        check_refused(&sheet, &bytes, shares, 11, 0);
        check_refused(&sheet, &[], shares, 11, 0);
    }
    check_refused(&sheet.landing(3, 0), &bytes, 0, 5, 70);
}

/// The answer gets as many of its four values as it has entries.
#[test]
fn lengths_of_the_answer() {
    let sheet = sheet_a();
    let bytes = file(&sheet, 0, &[0, 3, 4]).bytes();
    let values = [0, 15, 3, 4, 9, 9];
    for entries in 0..=6 {
        let run = run(&sheet, &bytes, 3, entries);
        assert_eq!(run.number, 0);
        assert_eq!(run.answer, values[..entries]);
        assert_eq!(run.tables.shares, [5, 6, 0]);
    }
}
