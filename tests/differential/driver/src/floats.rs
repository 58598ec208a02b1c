//! The float steps: `pairwise_sum`, `round_output`, rounding, and the cast of a rounded product.

use lanegravel_binding::floats as ffi;
use pagetriage::math;

use crate::random::Random;
use crate::tally::{Tally, bits, hex_floats};
use crate::values::{
    LANDMARKS, TWO_63, any, boundaries, mixed, near, sized, subnormal, tie, whole,
};

/// Lists of 0 to 40 values in turn, and now and then one of up to 10,000.
pub fn pairwise_sum(random: &mut Random, count: u64) -> Tally {
    let mut tally = Tally::default();
    for case in 0..count {
        let length = if case % 1_000 == 999 {
            random.below(10_001)
        } else {
            case % 41
        };
        let values = list(random, length);
        tally.compare(
            &[bits(math::pairwise_sum(&values))],
            &[bits(ffi::pairwise_sum(&values))],
            || start_of(&values),
        );
    }
    tally
}

pub fn round_output(random: &mut Random, count: u64) -> Tally {
    unary(random, count, output, math::round_output, ffi::round_output)
}

pub fn round(random: &mut Random, count: u64) -> Tally {
    unary(random, count, rounded, f64::round, ffi::round)
}

pub fn rounded_product(random: &mut Random, count: u64) -> Tally {
    let mut tally = Tally::default();
    let ends = boundaries();
    let pairs = ends.iter().flat_map(|&a| ends.iter().map(move |&b| (a, b)));
    for (a, b) in pairs.chain((0..count).map(|_| factors(random))) {
        tally.compare(
            &[(a * b).round() as i64 as u64],
            &[ffi::rounded_product(a, b) as u64],
            || hex_floats(&[a, b]),
        );
    }
    tally
}

/// The length of a list and its first values, by which the seed finds the rest again.
fn start_of(values: &[f64]) -> String {
    let shown = &values[..values.len().min(40)];
    format!("{} values {}", values.len(), hex_floats(shown))
}

/// A function of one float, on every boundary and on random values.
fn unary(
    random: &mut Random,
    count: u64,
    value: fn(&mut Random) -> f64,
    rust: fn(f64) -> f64,
    library: fn(f64) -> f64,
) -> Tally {
    let mut tally = Tally::default();
    let values = (0..count).map(|_| value(random));
    for x in boundaries().into_iter().chain(values) {
        tally.compare(&[bits(rust(x))], &[bits(library(x))], || hex_floats(&[x]));
    }
    tally
}

/// A list of one kind: bit patterns, moderate numbers, mixtures, subnormals, grey levels, zeros
/// of both signs, numbers of very different sizes, or the largest; one in four cancels.
pub fn list(random: &mut Random, length: u64) -> Vec<f64> {
    let kind = random.below(8);
    let values = (0..length)
        .map(|_| match kind {
            0 => any(random),
            1 => sized(random, -6, 10),
            2 => mixed(random),
            3 => subnormal(random),
            4 => whole(random, 8).abs(),
            5 => random.pick(&[0.0, -0.0, -0.0, -0.0]),
            6 => sized(random, -60, 60),
            _ => sized(random, 1020, 1023),
        })
        .collect();
    if random.below(4) == 0 {
        cancelling(random, values)
    } else {
        values
    }
}

/// Half of the values replaced by ones that cancel all but the last bits of the value before.
fn cancelling(random: &mut Random, mut values: Vec<f64>) -> Vec<f64> {
    for i in 1..values.len() {
        if random.below(2) == 0 {
            values[i] = near(random, -values[i - 1]);
        }
    }
    values
}

/// For rounding: halves and what lies beside them, up to where every float is whole.
pub fn rounded(random: &mut Random) -> f64 {
    match random.below(4) {
        0 => sized(random, -4, 56),
        1 | 2 => near_tie(random),
        _ => mixed(random),
    }
}

/// For `round_output`: the same in millionths, and where the product with a million overflows.
pub fn output(random: &mut Random) -> f64 {
    match random.below(6) {
        0 => sized(random, -30, 40),
        1 => sized(random, 1000, 1008),
        2 | 3 => {
            let x = tie(random) / 1e6;
            near(random, x)
        }
        4 => whole(random, 40) / 1e6,
        _ => mixed(random),
    }
}

/// For the rounded product: settings and x-heights, products at a half or beside it, products
/// at the ends of the whole numbers.
pub fn factors(random: &mut Random) -> (f64, f64) {
    match random.below(8) {
        0 => (whole(random, 27) / 100.0, whole(random, 13).abs() / 2.0),
        1 => (sized(random, -10, 20), sized(random, -3, 12)),
        2 => {
            let power = 2f64.powi(random.below(64) as i32 - 32);
            (near_tie(random) / power, power)
        }
        3 => (whole(random, 26) + 0.5, 2.0 * whole(random, 25) + 1.0),
        4 => {
            let b = sized(random, -3, 12);
            (near_tie(random) / b, b)
        }
        5 => {
            let b = sized(random, -70, 70);
            let a = random.pick(&[TWO_63, -TWO_63]) / b;
            (near(random, a), b)
        }
        6 => (any(random), any(random)),
        _ => (mixed(random), random.pick(&LANDMARKS)),
    }
}

fn near_tie(random: &mut Random) -> f64 {
    let x = tie(random);
    near(random, x)
}
