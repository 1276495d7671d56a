//! A plan as it is worked on.

use crate::stream::Stream;

/// The tags of a plan's fields.
pub mod tag {
    /// The head, which counts the controllers, the tasks and the paths.
    pub const HEAD: u8 = 0x01;
    /// A controller.
    pub const CONTROLLER: u8 = 0x10;
    /// A task fed from outside.
    pub const OUTSIDE: u8 = 0x20;
    /// A task fed by another task.
    pub const FED: u8 = 0x21;
    /// A path.
    pub const PATH: u8 = 0x30;
}

/// A plan: how many controllers it has, and its tasks and paths in number order.
#[derive(Clone, Debug)]
pub struct Plan {
    pub controllers: usize,
    pub tasks: Vec<Task>,
    pub paths: Vec<Path>,
}

/// A task: its controller and priority, the least and most ticks C- and C+ a job of it costs, and
/// what activates it.
#[derive(Clone, Copy, Debug)]
pub struct Task {
    pub controller: usize,
    pub priority: u64,
    pub c_minus: u64,
    pub c_plus: u64,
    pub source: Source,
}

/// What activates a task: an outside stream, or the task with that number as its feeder.
#[derive(Clone, Copy, Debug, PartialEq, Eq)]
pub enum Source {
    Outside(Stream),
    Feeder(usize),
}

/// A path: its deadline and the numbers of its tasks from first to last.
#[derive(Clone, Debug)]
pub struct Path {
    pub deadline: u64,
    pub tasks: Vec<usize>,
}
