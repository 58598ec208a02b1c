//! Questions 7 to 13: the settings. `RulingsParams::validate` only accepts or refuses, so the number
//! of the first missed question is held against a computation in document 01's words.

use lanegravel_binding::settings::{self as ffi, FusionParams, RulingsParams};
use pagetriage::pixel::rulings;

use crate::questions;
use crate::random::Random;
use crate::tally::{Tally, hex_floats};
use crate::values::any;

/// Settings that miss no question.
pub const VALID: RulingsParams = RulingsParams {
    merge_across_xh: 0.2,
    merge_gap_xh: 1.0,
    rule_min_contrast: 40.0,
    fold_min_length_in: 2.0,
    join_tol_xh: 0.5,
    table_min_horizontal: 2,
    table_min_vertical: 2,
    line_cluster_xh: 0.3,
    table_prior: -1.0,
    table_cells_coef: 0.5,
    table_cells_cap: 3.0,
    table_junction_coef: 2.0,
    min_free_rules: 1,
    free_rules_prior: -0.5,
    free_rules_coef: 0.4,
    free_rules_cap: 2.0,
    box_min_xh: 0.6,
    box_min_in: 0.05,
    box_max_xh: 4.0,
    box_overshoot_fraction: 0.2,
    box_aspect_tol: 0.15,
    box_tolerance_px: 1,
    box_edge_coverage: 0.8,
    box_max_inner_ink: 0.5,
    box_checked_ink: 0.05,
    grid_align_xh: 0.25,
    grid_min_boxes: 2,
    grid_prior: -1.5,
    grid_coef: 0.5,
    grid_cap: 3.0,
};

/// Every limit of the questions, zero, the smallest and the largest values.
const LIMITS: [f64; 8] = [
    0.0,
    f64::MIN_POSITIVE,
    1.0,
    4_096.0,
    1e6,
    f64::MAX,
    f64::INFINITY,
    f64::NAN,
];

const COUNTS: [u32; 8] = [0, 1, 2, 3, 4, 5, u32::MAX - 1, u32::MAX];

pub fn validate(random: &mut Random, count: u64) -> Tally {
    let mut tally = Tally::default();
    for p in single_changes().into_iter().chain(box_sizes()) {
        compare(&mut tally, &p);
    }
    for _ in 0..count {
        compare(&mut tally, &changed(random));
    }
    tally
}

pub fn validate_fusion(random: &mut Random, count: u64) -> Tally {
    let mut tally = Tally::default();
    let ends = around_limits();
    let pairs = ends.iter().flat_map(|&a| ends.iter().map(move |&b| (a, b)));
    for (llr_clip, group_cap) in pairs.chain((0..count).map(|_| (value(random), value(random)))) {
        let f = FusionParams {
            llr_clip,
            group_cap,
        };
        let expected = if fusion_met(&f) { 0 } else { 12 };
        let number = ffi::validate_fusion(f);
        tally.compare(&[expected], &[number.into()], || {
            hex_floats(&[llr_clip, group_cap])
        });
    }
    tally
}

/// Whether question 12 is met.
pub fn fusion_met(f: &FusionParams) -> bool {
    [f.llr_clip, f.group_cap]
        .iter()
        .all(|v| v.is_finite() && (0.0..=1e6).contains(v))
}

/// Accepted or refused as by the Rust, with the number of the first missed question.
fn compare(tally: &mut Tally, p: &RulingsParams) {
    let accepted = rust(p).validate().is_ok();
    let number = ffi::validate(p);
    tally.compare(
        &[accepted.into(), first_missed(p).into()],
        &[matches!(number, 0 | 13).into(), number.into()],
        || format!("{p:?}"),
    );
}

/// The number of the first missed question of 7 to 11 and 13, from document 01.
pub fn first_missed(p: &RulingsParams) -> u32 {
    let mut p = *p;
    let lengths = [
        p.merge_across_xh,
        p.merge_gap_xh,
        p.join_tol_xh,
        p.line_cluster_xh,
        p.box_min_xh,
        p.box_min_in,
        p.grid_align_xh,
        p.fold_min_length_in,
    ];
    let shares = [
        p.box_edge_coverage,
        p.box_max_inner_ink,
        p.box_checked_ink,
        p.box_aspect_tol,
        p.box_overshoot_fraction,
    ];
    questions::first_missed(&[
        (
            7,
            floats(&mut p)
                .iter()
                .all(|v| v.is_finite() && v.abs() <= 1e6),
        ),
        (8, lengths.iter().all(|&v| v >= 0.0)),
        (9, p.box_max_xh >= p.box_min_xh),
        (
            10,
            shares.iter().all(|v| (0.0..=1.0).contains(v)) && p.box_tolerance_px <= 3,
        ),
        (
            11,
            p.table_min_horizontal >= 1 && p.table_min_vertical >= 1 && p.grid_min_boxes >= 2,
        ),
        (13, p.min_free_rules >= 1),
    ])
}

/// Each float setting in turn at every limit and beside it, each count at and around its limit.
fn single_changes() -> Vec<RulingsParams> {
    let mut cases = vec![VALID];
    for field in 0..25 {
        for v in around_limits() {
            let mut p = VALID;
            *floats(&mut p)[field] = v;
            cases.push(p);
        }
    }
    for field in 0..5 {
        for n in COUNTS {
            let mut p = VALID;
            *counts(&mut p)[field] = n;
            cases.push(p);
        }
    }
    cases
}

/// Every pair of limits as the smallest and the largest box.
fn box_sizes() -> Vec<RulingsParams> {
    let ends = around_limits();
    let pairs = ends.iter().flat_map(|&a| ends.iter().map(move |&b| (a, b)));
    pairs
        .map(|(box_min_xh, box_max_xh)| RulingsParams {
            box_min_xh,
            box_max_xh,
            ..VALID
        })
        .collect()
}

/// Valid settings with up to four fields moved, and sometimes the largest box beside the smallest.
pub fn changed(random: &mut Random) -> RulingsParams {
    let mut p = VALID;
    for _ in 0..random.below(4) {
        let field = random.below(25) as usize;
        *floats(&mut p)[field] = value(random);
    }
    if random.below(2) == 0 {
        let field = random.below(5) as usize;
        *counts(&mut p)[field] = random.pick(&COUNTS);
    }
    if random.below(4) == 0 {
        p.box_max_xh = beside(random, p.box_min_xh);
    }
    p
}

/// A limit or what lies beside it, of either sign; a setting in range; or any bit pattern.
fn value(random: &mut Random) -> f64 {
    match random.below(4) {
        0 => random.below(1_001) as f64 / 1_000.0,
        1 => any(random),
        _ => {
            let x = random.pick(&LIMITS);
            let x = beside(random, x);
            random.pick(&[x, -x])
        }
    }
}

fn beside(random: &mut Random, x: f64) -> f64 {
    random.pick(&[x.next_down(), x, x, x.next_up()])
}

/// Every limit with its neighbours, of both signs.
fn around_limits() -> Vec<f64> {
    LIMITS
        .iter()
        .flat_map(|&x| [x.next_down(), x, x.next_up()])
        .flat_map(|x| [x, -x])
        .collect()
}

/// The 25 float settings.
pub fn floats(p: &mut RulingsParams) -> [&mut f64; 25] {
    [
        &mut p.merge_across_xh,
        &mut p.merge_gap_xh,
        &mut p.rule_min_contrast,
        &mut p.fold_min_length_in,
        &mut p.join_tol_xh,
        &mut p.line_cluster_xh,
        &mut p.table_prior,
        &mut p.table_cells_coef,
        &mut p.table_cells_cap,
        &mut p.table_junction_coef,
        &mut p.free_rules_prior,
        &mut p.free_rules_coef,
        &mut p.free_rules_cap,
        &mut p.box_min_xh,
        &mut p.box_min_in,
        &mut p.box_max_xh,
        &mut p.box_overshoot_fraction,
        &mut p.box_aspect_tol,
        &mut p.box_edge_coverage,
        &mut p.box_max_inner_ink,
        &mut p.box_checked_ink,
        &mut p.grid_align_xh,
        &mut p.grid_prior,
        &mut p.grid_coef,
        &mut p.grid_cap,
    ]
}

/// The five count settings.
pub fn counts(p: &mut RulingsParams) -> [&mut u32; 5] {
    [
        &mut p.table_min_horizontal,
        &mut p.table_min_vertical,
        &mut p.min_free_rules,
        &mut p.box_tolerance_px,
        &mut p.grid_min_boxes,
    ]
}

/// The same settings for the Rust.
pub fn rust(p: &RulingsParams) -> rulings::RulingsParams {
    rulings::RulingsParams {
        merge_across_xh: p.merge_across_xh,
        merge_gap_xh: p.merge_gap_xh,
        rule_min_contrast: p.rule_min_contrast,
        fold_min_length_in: p.fold_min_length_in,
        join_tol_xh: p.join_tol_xh,
        table_min_horizontal: p.table_min_horizontal as usize,
        table_min_vertical: p.table_min_vertical as usize,
        line_cluster_xh: p.line_cluster_xh,
        table_prior: p.table_prior,
        table_cells_coef: p.table_cells_coef,
        table_cells_cap: p.table_cells_cap,
        table_junction_coef: p.table_junction_coef,
        min_free_rules: p.min_free_rules as usize,
        free_rules_prior: p.free_rules_prior,
        free_rules_coef: p.free_rules_coef,
        free_rules_cap: p.free_rules_cap,
        box_min_xh: p.box_min_xh,
        box_min_in: p.box_min_in,
        box_max_xh: p.box_max_xh,
        box_overshoot_fraction: p.box_overshoot_fraction,
        box_aspect_tol: p.box_aspect_tol,
        box_tolerance_px: p.box_tolerance_px as usize,
        box_edge_coverage: p.box_edge_coverage,
        box_max_inner_ink: p.box_max_inner_ink,
        box_checked_ink: p.box_checked_ink,
        grid_align_xh: p.grid_align_xh,
        grid_min_boxes: p.grid_min_boxes as usize,
        grid_prior: p.grid_prior,
        grid_coef: p.grid_coef,
        grid_cap: p.grid_cap,
    }
}

/// The same bounds of the log odds for the Rust.
pub fn rust_fusion(f: &FusionParams) -> pagetriage::params::FusionParams {
    pagetriage::params::FusionParams {
        emit_min_confidence: 0.0,
        llr_clip: f.llr_clip,
        group_cap: f.group_cap,
    }
}
