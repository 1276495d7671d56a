//! The load of a controller, compared with one exactly.

use crate::chains;
use crate::natural::Natural;
use crate::plan::Plan;

/// The lowest controller whose load is above one.
pub fn overloaded_controller(plan: &Plan) -> Option<usize> {
    (0..plan.controllers).find(|&controller| is_overloaded(plan, controller))
}

/// Whether the fractions C+/P of a controller's tasks add up to more than one.
///
/// `product` is the product of the periods so far; `sum` adds up each C+ so far times the other
/// periods so far.
fn is_overloaded(plan: &Plan, controller: usize) -> bool {
    let mut sum = Natural::new(0);
    let mut product = Natural::new(1);
    for (number, task) in plan.tasks.iter().enumerate() {
        if task.controller == controller {
            let period = chains::period(&plan.tasks, number);
            sum = sum.times(period).plus(product.times(task.c_plus));
            product = product.times(period);
        }
    }
    sum > product
}
