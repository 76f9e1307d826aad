//! Uldhvamm, a planner of radio relays, in Rust: a safe wrapper of the proved static library.
//!
//! `./build library`, run in the repository's root, writes the library to `target/staticlib`. A package that depends on this one by
//! its path is linked with it; `ULDHVAMM_LIB` names another folder. include/uldhvamm.h says what each call asks for, returns and writes.
//!
//! ```
//! use uldhvamm::{answer_to_file, answer_to_sharing, answer_to_sheet, Answer, Sharing, Tables};
//!
//! // Two sites, one leg from the first to the second at 7 cents, and a station that is heard at each.
//! let sheet = b"HD\0\x02\x02LK\0\0\0\x01\0\0\0\x07ST\0\0\0ST\x01\0\x01ED";
//! let mut tables = Tables::for_sheet(2, 2, 1);
//! let planned = answer_to_sheet(sheet, &mut tables);
//! assert_eq!(planned, Answer::Plan { root: 0, total: 7, legs: 1 });
//!
//! // The plan file is at the start of the plan buffer: 10 bytes and 4 for each leg. The plan reader accepts it.
//! let file = tables.plan[..14].to_vec();
//! assert_eq!(answer_to_file(sheet, &file, &mut tables), planned);
//!
//! // Leg 0 serves station 1, which is heard at its end; station 0 is heard at the root, and no leg serves it.
//! let shared = answer_to_sharing(sheet, &file, &mut tables);
//! assert_eq!(shared, Sharing::Shared { root: 0, total: 7, legs: 1, unassigned: 0 });
//! assert_eq!(tables.shares, [0, 7]);
//!
//! // A sheet that ends before `ED` is refused with number 1, at the place where its record starts.
//! let refused = answer_to_sheet(b"HD\0\x01", &mut tables);
//! assert_eq!(refused, Answer::Refused { number: 1, place: 0 });
//! ```
//!
//! Where the numbers of sites, stations and legs are not known, `Tables::for_any_sheet` lends tables for the largest sheet.

#![deny(unsafe_code)]

mod calls;
mod tables;

pub use calls::{answer_to_file, answer_to_question, answer_to_sharing, answer_to_sheet};
pub use calls::{
    best_sender, cell, enquire, interface, plan, plan_lent, read_plan, read_plan_lent, shares,
    shares_lent,
};
pub use calls::{INTERFACE, MAX_LEGS, MAX_SITES, MAX_STATIONS, NO_COST, SENDER_FLAG};
pub use tables::{Answer, CostTable, Enquiry, Lengths, Lent, Question, Sharing, Tables, NO_SENDER};
