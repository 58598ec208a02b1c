//! Times the library's calls and the Rust that they replace on the same inputs, in one run; and the
//! inverse of levelling, which the Rust has not, beside levelling itself.
//!
//!     bench [NAME]    a row a measurement: both medians, and the first over the second

mod boxes;
mod detect;
mod grouping;
mod levelling;
mod ruled_tables;
mod rulings;
mod timing;

use differential::{params, random, rust_layout, tables};
use lanegravel_binding::tables as ffi_tables;
use timing::Measurement;

fn main() {
    let only = std::env::args().nth(1).unwrap_or_default();
    let replaced = grouping::MEASUREMENTS
        .into_iter()
        .chain(levelling::MEASUREMENTS)
        .chain(rulings::MEASUREMENTS)
        .chain(ruled_tables::MEASUREMENTS)
        .chain(boxes::MEASUREMENTS)
        .chain(detect::MEASUREMENTS);
    table("Lanegravel", "Rust", replaced, &only);
    println!();
    table("unlevel", "level_gray", levelling::BACK, &only);
}

/// The measurements that have `only` in their name.
fn table(
    first: &str,
    second: &str,
    measurements: impl IntoIterator<Item = Measurement>,
    only: &str,
) {
    println!("| measurement | {first} | {second} | ratio |");
    println!("|---|---|---|---|");
    for (name, measure) in measurements {
        if name.contains(only) {
            println!("| {name} | {} |", measure());
        }
    }
}
