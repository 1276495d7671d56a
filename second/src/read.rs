//! Reading a plan: refusals 1 to 6.

use crate::answer::Refusal;
use crate::plan::{tag, Path, Plan, Source, Task};
use crate::stream::Stream;
use crate::walker::{Due, Value, Walker};
use crate::LONGEST_PLAN;
use std::ops::RangeInclusive;

const COST: RangeInclusive<u64> = 1..=1_000_000;
const PERIOD: RangeInclusive<u64> = 1..=1_000_000_000;
const JITTER: RangeInclusive<u64> = 0..=1_000_000_000;
const DEADLINE: RangeInclusive<u64> = 1..=0xFFFF_FFFF;
const PRIORITY: RangeInclusive<u64> = 0..=0xFF;

/// The head of a plan: how many controllers, tasks and paths it counts.
struct Head {
    controllers: usize,
    tasks: usize,
    paths: usize,
}

/// Reads a plan, or gives the first of refusals 1 to 6 that is due.
pub fn read(bytes: &[u8]) -> Result<Plan, Refusal> {
    if bytes.len() > LONGEST_PLAN {
        return Err(Refusal::new(1, 0));
    }
    let mut walker = Walker::new(bytes);
    let head = read_head(&mut walker)?;
    for number in 0..head.controllers {
        read_controller(&mut walker, number)?;
    }
    let tasks = (0..head.tasks).map(|_| read_task(&mut walker, &head));
    let tasks = tasks.collect::<Result<_, _>>()?;
    let paths = (0..head.paths).map(|_| read_path(&mut walker, &head));
    let paths = paths.collect::<Result<_, _>>()?;
    walker.end()?;
    Ok(Plan {
        controllers: head.controllers,
        tasks,
        paths,
    })
}

/// Reads the head.
fn read_head(walker: &mut Walker) -> Result<Head, Refusal> {
    let mut value = walker.field(&[Due {
        tag: tag::HEAD,
        lengths: 4..=4,
    }])?;
    value.number(1, 1..=1)?;
    Ok(Head {
        controllers: value.number(1, 1..=16)? as usize,
        tasks: value.number(1, 1..=64)? as usize,
        paths: value.number(1, 0..=32)? as usize,
    })
}

/// Reads the controller with that number.
fn read_controller(walker: &mut Walker, number: usize) -> Result<(), Refusal> {
    let mut value = walker.field(&[Due {
        tag: tag::CONTROLLER,
        lengths: 2..=2,
    }])?;
    let due = number as u64;
    value.number(1, due..=due)?;
    value.number(1, 1..=1)?;
    Ok(())
}

/// Reads a task of either kind.
fn read_task(walker: &mut Walker, head: &Head) -> Result<Task, Refusal> {
    let outside = Due {
        tag: tag::OUTSIDE,
        lengths: 18..=18,
    };
    let fed = Due {
        tag: tag::FED,
        lengths: 11..=11,
    };
    let mut value = walker.field(&[outside, fed])?;
    let controller = value.one_of(head.controllers)?;
    let priority = value.number(1, PRIORITY)?;
    let c_minus = value.number(4, COST)?;
    let c_plus = value.number(4, c_minus..=*COST.end())?;
    let source = read_source(&mut value, head)?;
    Ok(Task {
        controller,
        priority,
        c_minus,
        c_plus,
        source,
    })
}

/// Reads what activates a task, the last part of its value.
fn read_source(value: &mut Value, head: &Head) -> Result<Source, Refusal> {
    if value.tag == tag::FED {
        return Ok(Source::Feeder(value.one_of(head.tasks)?));
    }
    let period = value.number(4, PERIOD)?;
    let jitter = value.number(4, JITTER)?;
    Ok(Source::Outside(Stream { period, jitter }))
}

/// Reads a path.
fn read_path(walker: &mut Walker, head: &Head) -> Result<Path, Refusal> {
    let mut value = walker.field(&[Due {
        tag: tag::PATH,
        lengths: 5..=20,
    }])?;
    let deadline = value.number(4, DEADLINE)?;
    let tasks = (0..value.left()).map(|_| value.one_of(head.tasks));
    let tasks = tasks.collect::<Result<_, _>>()?;
    Ok(Path { deadline, tasks })
}
