//! The stored calls of `validate`: every limit of its questions and what lies past it, one setting at a
//! time, then settings with several moved. The Rust accepts or refuses; the number is `params`'.

use lanegravel_binding::settings::RulingsParams;

use crate::params;
use crate::random::Random;
use crate::replay::Sample;
use crate::replay_pages::Line;

/// How many settings with several moved there are.
const MOVED: usize = 32;

pub fn add_validate(sample: &mut Sample, random: &mut Random) {
    let moved: Vec<_> = (0..MOVED).map(|_| params::changed(random)).collect();
    for p in at_limits().iter().chain(&several()).chain(&moved) {
        let call = Line::call(9, [0, 0, 0], 0.0, p).lists(&[], &[], &[]);
        let mut answer = Line::default();
        answer.word(params::rust(p).validate().is_ok().into());
        answer.word(params::first_missed(p).into());
        sample.add_line(&call, &answer.0);
    }
}

/// Settings that miss no question, each of them the least that it may be.
fn least() -> RulingsParams {
    RulingsParams {
        table_min_horizontal: 1,
        table_min_vertical: 1,
        min_free_rules: 1,
        grid_min_boxes: 2,
        ..RulingsParams::default()
    }
}

fn at_limits() -> Vec<RulingsParams> {
    let mut cases = vec![least()];
    let mut add = |change: &dyn Fn(&mut RulingsParams)| {
        let mut p = least();
        change(&mut p);
        cases.push(p);
    };
    let below = -f64::MIN_POSITIVE;
    let past = 1e6f64.next_up();
    let bad = [past, -past, f64::INFINITY, -f64::INFINITY, f64::NAN];
    for field in 0..25 {
        for v in [1e6, -1e6, bad[field % bad.len()]] {
            add(&|p| *params::floats(p)[field] = v);
        }
    }
    for field in 0..8 {
        add(&|p| *lengths(p)[field] = -0.0);
        add(&|p| *lengths(p)[field] = below);
    }
    for largest in [2.5, 2.5f64.next_down(), 2.5f64.next_up()] {
        add(&|p| (p.box_min_xh, p.box_max_xh) = (2.5, largest));
    }
    for field in 0..5 {
        for v in [1.0, 1.0f64.next_up(), -0.0, below] {
            add(&|p| *shares(p)[field] = v);
        }
    }
    for tolerance in [3, 4, u32::MAX] {
        add(&|p| p.box_tolerance_px = tolerance);
    }
    for field in 0..4 {
        add(&|p| *minima(p)[field] -= 1);
        add(&|p| *minima(p)[field] = u32::MAX);
    }
    cases
}

/// Settings that miss question 13, 11 and 13, and so on, until they miss all of 7 to 11 and 13.
fn several() -> Vec<RulingsParams> {
    let mut p = least();
    let misses: [fn(&mut RulingsParams); 6] = [
        |p| p.min_free_rules = 0,
        |p| p.grid_min_boxes = 1,
        |p| p.box_tolerance_px = 4,
        |p| p.box_max_xh = -0.5,
        |p| p.merge_gap_xh = -1.0,
        |p| p.table_prior = f64::NAN,
    ];
    let miss = |miss: fn(&mut RulingsParams)| {
        miss(&mut p);
        p
    };
    misses.map(miss).to_vec()
}

/// The settings of question 8.
fn lengths(p: &mut RulingsParams) -> [&mut f64; 8] {
    [
        &mut p.merge_across_xh,
        &mut p.merge_gap_xh,
        &mut p.join_tol_xh,
        &mut p.line_cluster_xh,
        &mut p.box_min_xh,
        &mut p.box_min_in,
        &mut p.grid_align_xh,
        &mut p.fold_min_length_in,
    ]
}

/// The floats of question 10.
fn shares(p: &mut RulingsParams) -> [&mut f64; 5] {
    [
        &mut p.box_edge_coverage,
        &mut p.box_max_inner_ink,
        &mut p.box_checked_ink,
        &mut p.box_aspect_tol,
        &mut p.box_overshoot_fraction,
    ]
}

/// The counts of questions 11 and 13.
fn minima(p: &mut RulingsParams) -> [&mut u32; 4] {
    [
        &mut p.table_min_horizontal,
        &mut p.table_min_vertical,
        &mut p.grid_min_boxes,
        &mut p.min_free_rules,
    ]
}
