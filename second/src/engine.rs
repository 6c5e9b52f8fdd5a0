//! A second engine for single steps: it looks into the table of flags first. Answers
//! and records are those of the plain one.

use crate::kinds::{Answer, Flag, Refusal, Request};
use crate::record::{judge_record, Page};
use crate::steps::{judge_fields, take, Outcome};
use crate::table::entry;

/// Takes one step from the record, by the table. A refused step leaves the record as
/// it was.
pub fn step_by_table(mut page: Page, request: &Request) -> Outcome {
    let answer = look_and_take(&mut page, request);
    Outcome { page, answer }
}

/// Nothing is searched for before the table is asked. The flag that follows is the
/// table's, whatever the step left.
fn look_and_take(page: &mut Page, request: &Request) -> Answer {
    judge_record(page)?;
    judge_fields(request)?;
    let entry = entry(page.flag, request.step, request.clean);
    let Some(&next) = Flag::ALL.get(usize::from(entry)) else {
        return Err(never(page.flag, request.step));
    };
    let withdrawn = take(page, request)?;
    page.flag = next;
    Ok(withdrawn)
}

/// Why the step is never accepted under the flag: it may not start from there, or
/// else its holder is never there.
fn never(flag: Flag, step: u8) -> Refusal {
    if may_start(flag, step) {
        Refusal::NoHolder
    } else {
        Refusal::WrongFlag
    }
}

/// Whether the step's premise on the flag holds; most steps have none.
fn may_start(flag: Flag, step: u8) -> bool {
    match step {
        1 => flag == Flag::Available,
        3 | 4 => matches!(flag, Flag::Available | Flag::Writeback),
        6 => !matches!(flag, Flag::Writeback | Flag::WritebackAndPendingExcLock),
        11 | 12 => flag == Flag::Unmapped,
        23 => matches!(
            flag,
            Flag::Available
                | Flag::Writeback
                | Flag::Claimed
                | Flag::WritebackAndClaimed
                | Flag::Loading
        ),
        24 => flag != Flag::Loading,
        _ => true,
    }
}
