//! The equations for one task: its windows, its jobs looked at and its bound R+.
//!
//! Nothing overflows: an input jitter is an outside jitter and at most 63 differences R+ - R-,
//! none of them above 1,000,000,000 because the sweep before stayed within limits. So a rival has
//! fewer than 2 to the power of 36 events in a window within limits, and 15 rivals ask for fewer
//! than 2 to the power of 60 ticks.

use crate::plan::Task;
use crate::stream::Stream;

/// The most ticks of a jitter or a window within limits.
const MOST_TICKS: u64 = 1_000_000_000;

/// The most jobs looked at within limits.
const MOST_JOBS: u64 = 1_024;

/// A rival: a more urgent task on the same controller, by its input stream and its C+.
pub struct Rival {
    pub stream: Stream,
    pub c_plus: u64,
}

/// What the equations give for a task: its R+ and how many jobs were looked at.
pub struct Bound {
    pub r_plus: u64,
    pub jobs: u64,
}

/// The bound of a task with that input stream and these rivals, or none if it leaves the limits.
pub fn bound(task: &Task, stream: Stream, rivals: &[Rival]) -> Option<Bound> {
    if stream.jitter > MOST_TICKS {
        return None;
    }
    let bound = look(task.c_plus, stream, rivals)?;
    let output_jitter = stream.jitter + bound.r_plus - task.c_minus;
    if output_jitter > MOST_TICKS {
        return None;
    }
    Some(bound)
}

/// Looks at job after job until the next one comes no sooner than the window ends, or gives none
/// if a window or the number of jobs leaves the limits.
fn look(c_plus: u64, stream: Stream, rivals: &[Rival]) -> Option<Bound> {
    let mut r_plus = 0;
    for q in 1..=MOST_JOBS {
        let length = window(q * c_plus, rivals)?;
        r_plus = r_plus.max(length - stream.least_distance(q));
        if stream.least_distance(q + 1) >= length {
            return Some(Bound { r_plus, jobs: q });
        }
    }
    None
}

/// The window B(q) for jobs that cost `own` ticks in all, or none if it is longer than the limit.
/// No window is shorter than its jobs' cost, so the search starts there.
fn window(own: u64, rivals: &[Rival]) -> Option<u64> {
    let mut t = own;
    while t <= MOST_TICKS {
        let asked = own + asked_by(rivals, t);
        if asked == t {
            return Some(t);
        }
        t = asked;
    }
    None
}

/// The most ticks the rivals ask for in a span of t ticks.
fn asked_by(rivals: &[Rival], t: u64) -> u64 {
    let ticks = |rival: &Rival| rival.stream.most_events(t) * rival.c_plus;
    rivals.iter().map(ticks).sum()
}
