//! The worked sheets A to L of document 01, and A with senders, with their answers written out, for the library and the reference.

use uldhvamm::answer_to_question;
use uldhvamm::{Answer, CostTable, Enquiry, Lengths, Question, Tables};
use uldhvamm_bench::compare::{both, Call};
use uldhvamm_bench::sheets::{PlanFile, Random, Sheet};

/// The plan file of sheet A, in hexadecimal.
const FILE_OF_A: &str = "504E00000000000A00034C4700004C4700014C470002";

fn sheet_a() -> Sheet {
    Sheet::new(4, 3)
        .link(0, 1, 4)
        .link(1, 2, 3)
        .link(1, 3, 3)
        .link(0, 2, 5)
        .link(0, 3, 6)
        .landing(0, 2)
        .landing(1, 3)
        .landing(2, 0)
}

fn sheet_b() -> Sheet {
    Sheet::new(1, 1).landing(0, 0)
}

fn sheet_c() -> Sheet {
    Sheet::new(3, 2)
        .link(0, 1, 9)
        .link(0, 2, 4)
        .landing(0, 0)
        .landing(1, 1)
        .landing(1, 2)
}

fn sheet_d(price: u32) -> Sheet {
    Sheet::new(2, 2)
        .both(0, 1, price)
        .landing(0, 0)
        .landing(1, 1)
}

/// The bytes that a hexadecimal text stands for.
fn from_hexadecimal(text: &str) -> Vec<u8> {
    let digits = |place: usize| u8::from_str_radix(&text[place..place + 2], 16);
    let places = (0..text.len()).step_by(2);
    places
        .map(|place| digits(place).expect("two digits"))
        .collect()
}

/// Runs both with tables of garbage, and gives the answer and the tables afterwards.
fn answer(call: Call, sheet: &[u8], lengths: Lengths) -> (Answer, Tables) {
    let mut random = Random::new(7);
    let tables = Tables::with(lengths, || random.bits());
    let run = both(&call, sheet, &tables, &[9, 9, 9]).unwrap_or_else(|words| panic!("{words}"));
    let values = [run.answer[0], run.answer[1], run.answer[2]];
    (Answer::decode(run.number, &values), run.tables)
}

/// The answer to a sheet and, for a plan, its legs.
fn planned(sheet: &[u8]) -> (Answer, Vec<u16>) {
    let (answer, tables) = answer(Call::Plan, sheet, Lengths::needed(4, 3, 5));
    match answer {
        Answer::Plan { .. } => (answer, PlanFile::from_bytes(&tables.plan).legs),
        Answer::Refused { .. } => (answer, Vec::new()),
    }
}

/// The answer to a file against a sheet of A's size.
fn read_against(sheet: &Sheet, file: &[u8]) -> Answer {
    let call = Call::Read(file.to_vec());
    answer(call, &sheet.bytes(), Lengths::needed(4, 3, 5)).0
}

fn plan(root: u64, total: u64, legs: &[u16]) -> (Answer, Vec<u16>) {
    let count = legs.len() as u64;
    (
        Answer::Plan {
            root,
            total,
            legs: count,
        },
        legs.to_vec(),
    )
}

fn refused(number: u32, place: u64) -> Answer {
    Answer::Refused { number, place }
}

#[test]
fn a_is_planned() {
    let sheet = sheet_a().bytes();
    assert_eq!(sheet.len(), 72);
    assert_eq!(planned(&sheet), plan(0, 10, &[0, 1, 2]));
    let (_, tables) = answer(Call::Plan, &sheet, Lengths::needed(4, 3, 5));
    assert_eq!(tables.plan, from_hexadecimal(FILE_OF_A));
    assert_eq!(tables.starts, [0, 1, 1, 0, 0]);
    assert_eq!(tables.ends, [1, 2, 3, 2, 3]);
    assert_eq!(tables.prices, [4, 3, 3, 5, 6]);
    assert_eq!(tables.landings, [1028, 1024, 1025, 1026]);
    assert_eq!(tables.by_end, [0, 1, 3, 2, 4]);
    assert_eq!(tables.places, [0, 0, 1, 3, 5]);
    assert_eq!(tables.marks, [1, 1, 1, 1]);
    let none = u32::MAX;
    let expected = [
        [0, 5, 6, 10, 0, 5, 6, 10],
        [0, 3, 3, 6, none, none, none, none],
        [0, 0, none, none, none, none, none, none],
        [0, none, 0, none, none, none, none, none],
    ];
    assert_eq!(tables.cells, expected.concat());
}

#[test]
fn b_to_e_are_answered() {
    assert_eq!(planned(&sheet_b().bytes()), plan(0, 0, &[]));
    assert_eq!(planned(&sheet_c().bytes()), plan(0, 4, &[1]));
    assert_eq!(planned(&sheet_d(7).bytes()), plan(0, 7, &[0]));
    let e = Sheet::new(2, 2).landing(0, 0).landing(1, 1);
    assert_eq!(planned(&e.bytes()).0, refused(12, 0));
}

#[test]
fn f_to_j_are_answered() {
    assert_eq!(planned(&sheet_d(0).bytes()).0, refused(7, 5));
    let g = planned(&sheet_d(1_000_000).bytes());
    assert_eq!(g, plan(0, 1_000_000, &[0]));
    assert_eq!(planned(&sheet_d(1_000_001).bytes()).0, refused(7, 5));
    assert_eq!(planned(&[]).0, refused(1, 0));
    let mut j = sheet_b().bytes();
    j.push(0);
    assert_eq!(planned(&j).0, refused(9, 12));
}

#[test]
fn files_of_a_are_read() {
    let file = from_hexadecimal(FILE_OF_A);
    assert_eq!(read_against(&sheet_a(), &file), plan(0, 10, &[0, 1, 2]).0);
    let k = from_hexadecimal("504E00000000000A00044C4700004C4700014C4700024C470002");
    assert_eq!(read_against(&sheet_a(), &k), refused(17, 0));
    let l = from_hexadecimal("504E00000000000B00034C4700004C4700014C470002");
    assert_eq!(read_against(&sheet_a(), &l), refused(19, 0));
    // From a root that is no sender: no tree is 17 before 20, a false total and missed stations come after it.
    let sheet = sheet_a().sender(1);
    assert_eq!(read_against(&sheet, &file), refused(20, 0));
    assert_eq!(read_against(&sheet, &k), refused(17, 0));
    assert_eq!(read_against(&sheet, &l), refused(20, 0));
    assert_eq!(read_against(&sheet, b"PN\0\0\0\0\0\0\0\0"), refused(20, 0));
}

/// Sites 0 and 1 may send: the plan is that of A. Site 1 alone does not reach station 2, so that there is none.
#[test]
fn a_with_senders_is_answered() {
    let both = sheet_a().sender(0).sender(1).sender(1).sender(0);
    assert_eq!(planned(&both.bytes()), plan(0, 10, &[0, 1, 2]));
    let (_, tables) = answer(Call::Plan, &both.bytes(), Lengths::needed(4, 3, 5));
    assert_eq!(tables.landings, [1028, 1024, 1, 2]);
    let one = sheet_a().sender(1);
    assert_eq!(planned(&one.bytes()).0, refused(12, 0));
    let (_, tables) = answer(Call::Plan, &one.bytes(), Lengths::needed(4, 3, 5));
    assert_eq!(tables.landings, [4, 1024, 1, 2]);
}

/// The answers of the enquirer about the table that a sheet leaves: the best sender of each subset.
fn senders(sheet: &Sheet) -> Vec<Enquiry> {
    let (n, k) = (u32::from(sheet.sites), u32::from(sheet.stations));
    let (_, tables) = answer(Call::Plan, &sheet.bytes(), Lengths::needed(4, 3, 5));
    let table = CostTable {
        cells: &tables.cells,
        landings: &tables.landings,
        sites: n,
        stations: k,
    };
    let subsets = 0..1 << k;
    subsets
        .map(|subset| answer_to_question(table, Question::BestSender { subset }))
        .collect()
}

/// Fails where the best senders of the subsets are not these sites; `None` is none.
fn check_senders(sheet: &Sheet, expected: &[Option<u64>]) {
    let answer = |&site: &Option<u64>| match site {
        Some(site) => Enquiry::Sender { site },
        None => Enquiry::NoSender,
    };
    let expected: Vec<Enquiry> = expected.iter().map(answer).collect();
    assert_eq!(senders(sheet), expected, "{sheet:?}");
}

#[test]
fn cells_of_a_are_given() {
    let (_, tables) = answer(Call::Plan, &sheet_a().bytes(), Lengths::needed(4, 3, 5));
    let table = CostTable {
        cells: &tables.cells,
        landings: &tables.landings,
        sites: 4,
        stations: 3,
    };
    let ask = |site, subset| answer_to_question(table, Question::Cell { site, subset });
    let refused = |number| Enquiry::Refused { number, place: 0 };
    let none = u64::from(u32::MAX);
    assert_eq!(ask(0, 7), Enquiry::Cell { cell: 10 });
    assert_eq!(ask(1, 3), Enquiry::Cell { cell: 6 });
    assert_eq!(ask(3, 0), Enquiry::Cell { cell: 0 });
    assert_eq!(ask(1, 7), Enquiry::Cell { cell: none });
    assert_eq!(ask(4, 7), refused(4));
    assert_eq!(ask(3, 8), refused(5));
}

/// Of several equally cheap senders the lowest, and of the empty subset the lowest sender; a lower site that is no sender is passed over.
#[test]
fn best_senders_are_given() {
    check_senders(&sheet_a(), &[0, 2, 3, 1, 0, 0, 0, 0].map(Some));
    let of_one = [Some(1), Some(1), Some(1), Some(1), None, None, None, None];
    check_senders(&sheet_a().sender(1), &of_one);
    let of_two = [Some(2), Some(2), Some(3), None, None, None, None, None];
    check_senders(&sheet_a().sender(3).sender(2), &of_two);
    check_senders(&sheet_c(), &[0, 0, 1, 0].map(Some));
    check_senders(&sheet_c().sender(2), &[Some(2), None, Some(2), None]);
    check_senders(&sheet_d(7), &[0, 0, 1, 0].map(Some));
    check_senders(&sheet_d(7).sender(1), &[1, 1, 1, 1].map(Some));
    let e = Sheet::new(2, 2).landing(0, 0).landing(1, 1);
    check_senders(&e, &[Some(0), Some(0), Some(1), None]);
}
