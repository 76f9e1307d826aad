//! The reading of a plan file by the sharing, which is to answer what the plan reader answers and to leave the same in its tables.

use crate::planner::Planner;
use uldhvamm::{Answer, Lengths, Sharing, Tables};

/// Reads a plan file by the sharing, with the first entries of tables. The error says that shares are written where none should be, or that
/// they do not make the total with the unassigned sum.
pub fn read(
    planner: Planner,
    sheet: &[u8],
    file: &[u8],
    tables: &mut Tables,
    lent: Lengths,
) -> Result<Answer, String> {
    let before = tables.shares.clone();
    let sharing = planner.share(sheet, file, tables, lent);
    let (answer, stations, unassigned) = match sharing {
        Sharing::Shared {
            root,
            total,
            legs,
            unassigned,
        } => (Answer::Plan { root, total, legs }, sheet[4], unassigned),
        Sharing::Refused { number, place } => (Answer::Refused { number, place }, 0, 0),
    };
    let (paid, others) = tables.shares.split_at(usize::from(stations));
    let sum = unassigned + paid.iter().map(|&share| u64::from(share)).sum::<u64>();
    let makes_total = match answer {
        Answer::Plan { total, .. } => sum == total,
        Answer::Refused { .. } => true,
    };
    match makes_total && others == &before[usize::from(stations)..] {
        true => Ok(answer),
        false => Err(format!("{sharing:?} with the shares {:?}", tables.shares)),
    }
}
