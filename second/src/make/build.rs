//! Building plans by hand.

use super::dice::Dice;
use crate::plan::{Path, Plan, Source, Task};
use crate::stream::Stream;

/// A seat: a controller and a priority on it.
pub type Seat = (usize, u64);

/// A task in that seat, fed from outside, whose jobs all cost the same.
pub fn outside((controller, priority): Seat, cost: u64, period: u64, jitter: u64) -> Task {
    Task {
        controller,
        priority,
        c_minus: cost,
        c_plus: cost,
        source: Source::Outside(Stream { period, jitter }),
    }
}

/// A task in that seat, fed by another one, whose jobs all cost the same.
pub fn fed((controller, priority): Seat, cost: u64, feeder: usize) -> Task {
    Task {
        controller,
        priority,
        c_minus: cost,
        c_plus: cost,
        source: Source::Feeder(feeder),
    }
}

/// A plan of these tasks without paths.
pub fn pathless(controllers: usize, tasks: Vec<Task>) -> Plan {
    Plan {
        controllers,
        tasks,
        paths: Vec::new(),
    }
}

/// A full plan that is accepted: 16 controllers with four outside tasks each, and 32 paths of one
/// task each; task t is on controller t modulo 16.
pub fn full(dice: &mut Dice) -> Plan {
    let mut task = |number: usize| {
        let period = dice.between(1_000, 100_000);
        let cost = dice.between(1, period / 5);
        let seat = (number % 16, (number / 16) as u64);
        outside(seat, cost, period, dice.between(0, period))
    };
    let tasks = (0..64).map(&mut task).collect();
    let path = |_| Path {
        deadline: dice.of_any_size(9),
        tasks: vec![dice.below(64)],
    };
    Plan {
        controllers: 16,
        tasks,
        paths: (0..32).map(path).collect(),
    }
}
