//! Compares the unchanged Rust with the static library, call by call, to the bit.
//!
//!     differential [--seed N] [--count N] [--only NAME]
//!         compare, all calls or those whose name has NAME in it; status 1 where any answer differs
//!     differential --replay DIR
//!     differential --replay-pages DIR
//!         write a fixed sample of the Rust's answers: to the smaller calls, to whole pages

use std::io;
use std::path::Path;
use std::process::ExitCode;

use differential::random::Random;
use differential::tally::Tally;
use differential::{
    boxes, detect, findings, floats, grids, grouping, layout, params, replay, replay_detect,
    reused, segments, tables, unlevel,
};

/// One call of the library, with the number of random cases that it is tried on.
struct Comparison {
    name: &'static str,
    count: u64,
    run: fn(&mut Random, u64) -> Tally,
}

const COMPARISONS: &[Comparison] = &[
    Comparison {
        name: "pairwise_sum",
        count: 1_000_000,
        run: floats::pairwise_sum,
    },
    Comparison {
        name: "round_output",
        count: 4_000_000,
        run: floats::round_output,
    },
    Comparison {
        name: "rounded_product",
        count: 4_000_000,
        run: floats::rounded_product,
    },
    Comparison {
        name: "round",
        count: 4_000_000,
        run: floats::round,
    },
    Comparison {
        name: "gap_sets",
        count: 200_000,
        run: grouping::gap_sets,
    },
    Comparison {
        name: "pair_sets",
        count: 200_000,
        run: grouping::pair_sets,
    },
    Comparison {
        name: "members_of",
        count: 500_000,
        run: grouping::members_of,
    },
    Comparison {
        name: "sort_indexes",
        count: 200_000,
        run: grouping::sort_indexes,
    },
    Comparison {
        name: "validate",
        count: 2_000_000,
        run: params::validate,
    },
    Comparison {
        name: "validate_fusion",
        count: 1_000_000,
        run: params::validate_fusion,
    },
    Comparison {
        name: "level_gray",
        count: 250_000,
        run: layout::level_gray,
    },
    Comparison {
        name: "unlevel",
        count: 250_000,
        run: unlevel::unlevel,
    },
    Comparison {
        name: "unlevel on forms",
        count: 100,
        run: unlevel::on_forms,
    },
    Comparison {
        name: "to_page",
        count: 400_000,
        run: layout::to_page,
    },
    Comparison {
        name: "to_page of pixels",
        count: 20_000,
        run: unlevel::to_page_of_pixels,
    },
    Comparison {
        name: "rect_to_page",
        count: 400_000,
        run: layout::rect_to_page,
    },
    Comparison {
        name: "segments",
        count: 200_000,
        run: segments::segments,
    },
    Comparison {
        name: "segments on forms",
        count: 300,
        run: segments::forms,
    },
    Comparison {
        name: "tables",
        count: 400_000,
        run: tables::tables,
    },
    Comparison {
        name: "boxes",
        count: 400_000,
        run: boxes::boxes,
    },
    Comparison {
        name: "boxes on forms",
        count: 300,
        run: boxes::forms,
    },
    Comparison {
        name: "box_grids",
        count: 200_000,
        run: grids::box_grids,
    },
    Comparison {
        name: "box_grids on forms",
        count: 300,
        run: grids::forms,
    },
    Comparison {
        name: "log_odds",
        count: 1_000_000,
        run: findings::log_odds,
    },
    Comparison {
        name: "finding_at",
        count: 200_000,
        run: findings::finding_at,
    },
    Comparison {
        name: "detect",
        count: 200_000,
        run: detect::detect,
    },
    Comparison {
        name: "detect on forms",
        count: 500,
        run: detect::on_forms,
    },
    Comparison {
        name: "detect over one workspace",
        count: 100_000,
        run: reused::reused,
    },
];

fn compare(seed: u64, count: Option<u64>, only: &str) -> ExitCode {
    let mut agree = true;
    for comparison in COMPARISONS.iter().filter(|c| c.name.contains(only)) {
        let count = count.unwrap_or(comparison.count);
        let tally = (comparison.run)(&mut Random::new(seed), count);
        println!("{}: {tally}", comparison.name);
        agree &= tally.agrees();
    }
    if agree {
        ExitCode::SUCCESS
    } else {
        ExitCode::FAILURE
    }
}

fn replay(dir: &str, write: fn(&Path) -> io::Result<usize>) -> ExitCode {
    match write(Path::new(dir)) {
        Ok(lines) => {
            println!("replay: {lines} calls written to {dir}");
            ExitCode::SUCCESS
        }
        Err(e) => {
            eprintln!("replay: {dir}: {e}");
            ExitCode::FAILURE
        }
    }
}

fn main() -> ExitCode {
    let (mut seed, mut count, mut only) = (1, None, String::new());
    let mut arguments = std::env::args().skip(1);
    while let Some(name) = arguments.next() {
        let value = arguments.next().unwrap_or_default();
        match (name.as_str(), value.parse()) {
            ("--replay", _) if !value.is_empty() => return replay(&value, replay::write),
            ("--replay-pages", _) if !value.is_empty() => {
                return replay(&value, replay_detect::write);
            }
            ("--seed", Ok(n)) => seed = n,
            ("--count", Ok(n)) => count = Some(n),
            ("--only", _) => only = value,
            _ => {
                eprintln!(
                    "usage: differential [--seed N] [--count N] [--only NAME] | --replay DIR | --replay-pages DIR"
                );
                return ExitCode::from(2);
            }
        }
    }
    compare(seed, count, &only)
}
