//! Loads of exactly one, and loads so near to it that no double tells.

use super::build::{outside, pathless};
use super::dice::Dice;
use super::write::write;
use super::Kind;

/// The kinds of plans with a load of one or nearly one.
pub const KINDS: [Kind; 10] = [
    Kind("load: split, one", |dice| plan(&split(dice))),
    Kind("load: split, a tick more", |dice| {
        changed(split(dice), |shares| shares[0].cost += 1)
    }),
    Kind("load: split, a tick less", |dice| {
        changed(split(dice), |shares| shares[0].cost -= 1)
    }),
    Kind("load: nested, one", |dice| plan(&nested(dice))),
    Kind("load: nested, a tick more", |dice| {
        changed(nested(dice), |shares| shares[3].cost += 1)
    }),
    Kind("load: nested, a tick less", |dice| {
        changed(nested(dice), |shares| shares[0].cost -= 1)
    }),
    Kind("load: nested, a period shorter", |dice| {
        changed(nested(dice), |shares| shares[3].period -= 1)
    }),
    Kind("load: nested, a period longer", |dice| {
        changed(nested(dice), |shares| shares[3].period += 1)
    }),
    Kind("load: coprime, just above one", |dice| {
        plan(&just_above(dice, 1))
    }),
    Kind("load: coprime, just below one", |dice| {
        plan(&just_below_one(dice))
    }),
];

/// A share of a controller's time: a cost in every period.
#[derive(Clone, Copy)]
struct Share {
    cost: u64,
    period: u64,
}

/// The share of that cost in every such period.
fn share(cost: u64, period: u64) -> Share {
    Share { cost, period }
}

/// The plan of a controller whose tasks have these shares, the most urgent first.
fn plan(shares: &[Share]) -> Vec<u8> {
    let priorities = 0..;
    let shares = shares.iter().zip(priorities);
    let tasks = shares.map(|(share, priority)| outside((0, priority), share.cost, share.period, 0));
    write(&pathless(1, tasks.collect()))
}

/// The plan of a controller whose tasks have these shares after a change.
fn changed(mut shares: Vec<Share>, change: fn(&mut [Share])) -> Vec<u8> {
    change(&mut shares);
    plan(&shares)
}

/// Shares of one period that add up to one.
fn split(dice: &mut Dice) -> Vec<Share> {
    let count = dice.between(1, 16);
    let costs: Vec<u64> = (0..count).map(|_| 1 + dice.of_any_size(5)).collect();
    let period = costs.iter().sum();
    costs.iter().map(|&cost| share(cost, period)).collect()
}

/// Shares of nested periods that add up to one, the last period near 1,000,000,000: each share
/// but the last leaves one tick of its period to those after it.
fn nested(dice: &mut Dice) -> Vec<Share> {
    let first = dice.between(100_000, 1_000_000);
    let second = first * dice.between(2, 30);
    let third = 999_999_999 / second * second;
    vec![
        share(first - 1, first),
        share(second / first - 1, second),
        share(third / second - 1, third),
        share(1, third),
    ]
}

/// Shares of three coprime periods p, q and r that add up to 1/pqr, some 1e-18, above a whole
/// number, which is one or two.
///
/// Their costs a, b and c are inverse to qr, rp and pq, so aqr + brp + cpq is 1 above a multiple
/// of pqr.
fn just_above(dice: &mut Dice, whole: u64) -> Vec<Share> {
    loop {
        let [p, q, r] = [0; 3].map(|_| dice.between(900_000, 1_000_000));
        let costs = (inverse(q * r, p), inverse(r * p, q), inverse(p * q, r));
        if let (Some(a), Some(b), Some(c)) = costs {
            if (a * q * r + b * r * p + c * p * q) / (p * q * r) == whole {
                return vec![share(a, p), share(b, q), share(c, r)];
            }
        }
    }
}

/// Shares of three coprime periods that add up to some 1e-18 below one: what shares just above
/// two leave of three.
fn just_below_one(dice: &mut Dice) -> Vec<Share> {
    let shares = just_above(dice, 2);
    let rest = |taken: &Share| share(taken.period - taken.cost, taken.period);
    shares.iter().map(rest).collect()
}

/// The number below `modulus` whose product with `number` leaves 1 on division by `modulus`, if
/// the two are coprime; found by Euclid's algorithm.
fn inverse(number: u64, modulus: u64) -> Option<u64> {
    let modulus = modulus as i64;
    let (mut rest, mut next_rest) = (modulus, number as i64 % modulus);
    let (mut factor, mut next_factor) = (0, 1);
    while next_rest != 0 {
        let quotient = rest / next_rest;
        (rest, next_rest) = (next_rest, rest - quotient * next_rest);
        (factor, next_factor) = (next_factor, factor - quotient * next_factor);
    }
    if rest != 1 {
        return None;
    }
    Some(factor.rem_euclid(modulus) as u64)
}
