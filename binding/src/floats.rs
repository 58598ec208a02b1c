//! Float steps.

use crate::raw;

/// The sum of the values; a list of more than eight is cut in half and each half summed.
pub fn pairwise_sum(values: &[f64]) -> f64 {
    raw::lanegravel_pairwise_sum(values)
}

/// The number to six decimals.
pub fn round_output(x: f64) -> f64 {
    raw::lanegravel_round_output(x)
}

/// The product to the nearest whole number.
pub fn rounded_product(a: f64, b: f64) -> i64 {
    raw::lanegravel_rounded_product(a, b)
}

/// The nearest whole number, halves away from zero.
pub fn round(x: f64) -> f64 {
    raw::lanegravel_round(x)
}
