//! Log odds, against the argument of the Rust's `sigmoid`, and findings read back from their lists.

use lanegravel_binding::findings::{self as ffi, FindingAtAnswer, FindingLists};
use pagetriage::fusion::scorer::confidence_capped;
use pagetriage::schema::Evidence;

use crate::random::Random;
use crate::tally::{Tally, bits, hex_floats};
use crate::values::{mixed, near, sized, subnormal};

/// Up to three llrs, now and then up to 40.
pub fn log_odds(random: &mut Random, count: u64) -> Tally {
    let mut tally = Tally::default();
    for case in 0..count {
        let length = if case % 64 == 63 {
            random.below(41)
        } else {
            random.below(4)
        };
        let cap = cap(random);
        let llrs: Vec<f64> = (0..length).map(|_| llr(random, cap)).collect();
        let prior = prior(random, cap);
        tally.compare(
            &[bits(argument_of_sigmoid(prior, &llrs, cap))],
            &[bits(ffi::log_odds(prior, &llrs, cap))],
            || hex_floats(&[&[prior, cap][..], &llrs].concat()),
        );
    }
    tally
}

fn argument_of_sigmoid(prior: f64, llrs: &[f64], cap: f64) -> f64 {
    let evidence: Vec<Evidence> = llrs.iter().map(|&llr| evidence(llr)).collect();
    let (given, confidence) = libm::watch_exp(|| confidence_capped(prior, &evidence, cap));
    argument_behind(confidence, &given)
}

/// The argument of the `sigmoid` that came to this, of those that exp was given while it was watched.
/// `sigmoid` hands -x to exp and comes to 1 / (1 + exp), or x and comes to exp / (1 + exp): so many
/// millionths, or so many less than a million, for zeros and the smallest x too.
pub fn argument_behind(confidence: f64, given: &[f64]) -> f64 {
    match (confidence * 1e6).round() as usize {
        k if k < 500_000 => -given[k - 1],
        k => given[1_000_000 - k - 1],
    }
}

fn evidence(llr: f64) -> Evidence {
    Evidence::new("rulings", "feature", 0.0, None, llr, String::new(), "")
        .expect("the llr is finite")
}

/// Not below 0 and no NaN: with others the Rust's `clamp` panics.
fn cap(random: &mut Random) -> f64 {
    match random.below(8) {
        0 => random.pick(&[0.0, -0.0, 5e-324, 1e6, f64::MAX, f64::INFINITY]),
        1 => subnormal(random).abs(),
        2 => sized(random, 1000, 1023).abs(),
        _ => sized(random, -4, 6).abs(),
    }
}

/// Finite, since `Evidence::new` takes no other: zeros of both signs, at and beside the cap, of
/// every size.
fn llr(random: &mut Random, cap: f64) -> f64 {
    let x = match random.below(8) {
        0 => random.pick(&[0.0, -0.0]),
        1 => near(random, cap),
        2 => -near(random, cap),
        3 => near(random, cap / 2.0),
        4 => subnormal(random),
        5 => mixed(random),
        _ => sized(random, -6, 6),
    };
    if x.is_finite() {
        x
    } else {
        f64::MAX.copysign(x)
    }
}

/// Any value; often one that cancels the cap.
fn prior(random: &mut Random, cap: f64) -> f64 {
    match random.below(6) {
        0 => random.pick(&[0.0, -0.0]),
        1 => near(random, -cap),
        2 => near(random, cap),
        3 => mixed(random),
        _ => sized(random, -4, 4),
    }
}

pub fn finding_at(random: &mut Random, count: u64) -> Tally {
    let mut tally = Tally::default();
    for _ in 0..count {
        let lists = lists(random);
        let findings = random.below(6) as usize;
        let i = match random.below(64) {
            0 => random.bits() as usize,
            1 => usize::MAX / 4,
            _ => random.below(6) as usize,
        };
        tally.compare(
            &words(&plain(&lists, findings, i).unwrap_or_default()),
            &words(&ffi::finding_at(&lists, findings, i)),
            || format!("place {i} of {findings} in {lists:?}"),
        );
    }
    tally
}

/// Lists of the same length, every fourth time one of them shorter or longer.
fn lists(random: &mut Random) -> FindingLists {
    let n = random.below(5) as usize;
    let odd = random.below(4 * 13);
    let mut place = 0;
    let mut long = |random: &mut Random, width: usize| {
        place += 1;
        if odd == place {
            random.below(5 * width as u64) as usize
        } else {
            width * n
        }
    };
    let mut numbers = |random: &mut Random, width, first: u64, past: u64| -> Vec<u32> {
        (0..long(random, width))
            .map(|_| (first + random.below(past - first)) as u32)
            .collect()
    };
    let rects = numbers(random, 4, 0, 1 << 32);
    let kinds = numbers(random, 1, 14, 22);
    let a = numbers(random, 1, 0, 4);
    let b = numbers(random, 1, 0, 1 << 32);
    let c = numbers(random, 1, 0, 1 << 32);
    let mut floats =
        |random: &mut Random| -> Vec<f64> { (0..long(random, 1)).map(|_| mixed(random)).collect() };
    FindingLists {
        rects,
        kinds,
        a,
        b,
        c,
        log_odds: floats(random),
        first_values: floats(random),
        first_thresholds: floats(random),
        first_llrs: floats(random),
        second_values: floats(random),
        second_thresholds: floats(random),
        second_llrs: floats(random),
        lengths: floats(random),
    }
}

/// The finding as document 01 has its kinds; what a kind doesn't have is 0.
fn plain(l: &FindingLists, count: usize, i: usize) -> Option<FindingAtAnswer> {
    let rect = l.rects.chunks_exact(4).nth(i)?;
    let first = evidence_at(&l.first_values, &l.first_thresholds, &l.first_llrs, i)?;
    let second = evidence_at(&l.second_values, &l.second_thresholds, &l.second_llrs, i)?;
    let facts = [*l.a.get(i)?, *l.b.get(i)?, *l.c.get(i)?];
    let length = *l.lengths.get(i)?;
    let kind = *l.kinds.get(i)?;
    let log_odds = *l.log_odds.get(i)?;
    let ([a, b, c], second, length) = match (kind, facts) {
        (16 | 17, _) => (facts, second, 0.0),
        (18, [boxes, ticked, _]) => ([boxes, ticked, 0], second, 0.0),
        (19, [direction @ (0 | 1), ..]) => ([direction, 0, 0], [0.0; 3], length),
        _ => return None,
    };
    (i < count).then_some(FindingAtAnswer {
        found: 1,
        kind,
        x0: rect[0],
        y0: rect[1],
        x1: rect[2],
        y1: rect[3],
        a,
        b,
        c,
        log_odds,
        first_value: first[0],
        first_threshold: first[1],
        first_llr: first[2],
        second_value: second[0],
        second_threshold: second[1],
        second_llr: second[2],
        length,
    })
}

fn evidence_at(values: &[f64], thresholds: &[f64], llrs: &[f64], i: usize) -> Option<[f64; 3]> {
    Some([*values.get(i)?, *thresholds.get(i)?, *llrs.get(i)?])
}

fn words(r: &FindingAtAnswer) -> Vec<u64> {
    let whole = [r.found, r.kind, r.x0, r.y0, r.x1, r.y1, r.a, r.b, r.c];
    let first = [r.log_odds, r.first_value, r.first_threshold, r.first_llr];
    let second = [r.second_value, r.second_threshold, r.second_llr, r.length];
    let floats = first.into_iter().chain(second).map(bits);
    whole.into_iter().map(u64::from).chain(floats).collect()
}
