//! The independent second program: it answers a plan as document 01 says and owes nothing to the
//! program it is compared with.

#![forbid(unsafe_code)]
#![warn(missing_docs)]

pub mod answer;
mod chains;
mod equations;
mod form;
mod load;
pub mod make;
pub mod many;
mod natural;
mod plan;
mod read;
mod report;
mod stream;
mod sweeps;
mod walker;

use answer::{refuse, Answer, Refusal, Report};

/// The most bytes a plan may have.
pub const LONGEST_PLAN: usize = 4_096;

/// Answers a plan when there is room for any report.
pub fn answer(bytes: &[u8]) -> Answer {
    answer_within(bytes, usize::MAX)
}

/// Answers a plan when there is room for a report of that many bytes.
pub fn answer_within(bytes: &[u8], room: usize) -> Answer {
    let plan = read::read(bytes)?;
    form::check(&plan)?;
    let needed = report::length(&plan);
    if room < needed {
        return Err(Refusal::new(11, needed));
    }
    refuse(12, load::overloaded_controller(&plan))?;
    let settled = sweeps::settle(&plan.tasks)?;
    Ok(Report {
        bytes: report::write(&plan, &settled),
        sweep: settled.sweep,
    })
}
