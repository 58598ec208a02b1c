//! Findings, and the calls about them.

use crate::found::Direction;
use crate::lists::lists;
use crate::raw;

/// A number that speaks for a finding or against it.
#[derive(Clone, Copy, Debug, PartialEq)]
pub struct Evidence {
    pub value: f64,
    /// What the value is held against.
    pub threshold: f64,
    /// The log likelihood ratio that comes of it.
    pub llr: f64,
}

/// What was found at a place of the page: a rectangle on the page itself, not levelled, with x0, y0, x1, y1,
/// both ends inside; the log odds; the facts of its kind; and its evidence.
#[derive(Clone, Copy, Debug, PartialEq)]
pub enum Finding {
    Table {
        rect: [u32; 4],
        log_odds: f64,
        rows: u32,
        columns: u32,
        rulings: u32,
        /// Of its cells, and of the share of joined ends.
        evidence: [Evidence; 2],
    },
    /// All printed rulings that are in no table.
    FreeRules {
        rect: [u32; 4],
        log_odds: f64,
        horizontal: u32,
        vertical: u32,
        /// The length of the longest, in pixels.
        longest: u32,
        /// Of their number, and of their mean contrast.
        evidence: [Evidence; 2],
    },
    Grid {
        rect: [u32; 4],
        log_odds: f64,
        boxes: u32,
        ticked: u32,
        /// Of the number of boxes, and of their mean edge coverage.
        evidence: [Evidence; 2],
    },
    /// A faint ruling.
    Fold {
        rect: [u32; 4],
        log_odds: f64,
        direction: Direction,
        /// In inches.
        length: f64,
        /// Of its contrast.
        evidence: [Evidence; 1],
    },
}

impl Finding {
    /// 16, 17, 18 or 19, as the lists have it.
    pub fn kind(&self) -> u32 {
        match self {
            Finding::Table { .. } => 16,
            Finding::FreeRules { .. } => 17,
            Finding::Grid { .. } => 18,
            Finding::Fold { .. } => 19,
        }
    }

    pub fn rect(&self) -> [u32; 4] {
        match *self {
            Finding::Table { rect, .. }
            | Finding::FreeRules { rect, .. }
            | Finding::Grid { rect, .. }
            | Finding::Fold { rect, .. } => rect,
        }
    }

    pub fn log_odds(&self) -> f64 {
        match *self {
            Finding::Table { log_odds, .. }
            | Finding::FreeRules { log_odds, .. }
            | Finding::Grid { log_odds, .. }
            | Finding::Fold { log_odds, .. } => log_odds,
        }
    }

    pub fn evidence(&self) -> &[Evidence] {
        match self {
            Finding::Table { evidence, .. }
            | Finding::FreeRules { evidence, .. }
            | Finding::Grid { evidence, .. } => evidence,
            Finding::Fold { evidence, .. } => evidence,
        }
    }
}

lists! {
    /// The lists of findings, four numbers each in `rects` and one entry in every other.
    FindingLists(findings: usize) {
        rects: [u32; 4 * findings],
        kinds: [u32; findings],
        a: [u32; findings],
        b: [u32; findings],
        c: [u32; findings],
        log_odds: [f64; findings],
        first_values: [f64; findings],
        first_thresholds: [f64; findings],
        first_llrs: [f64; findings],
        second_values: [f64; findings],
        second_thresholds: [f64; findings],
        second_llrs: [f64; findings],
        lengths: [f64; findings],
    }
}

/// A finding as C has it: `found` is 1 and the rest is the finding, or all is 0.
#[repr(C)]
#[derive(Clone, Copy, Debug, Default, PartialEq)]
pub struct FindingAtAnswer {
    pub found: u32,
    pub kind: u32,
    pub x0: u32,
    pub y0: u32,
    pub x1: u32,
    pub y1: u32,
    pub a: u32,
    pub b: u32,
    pub c: u32,
    pub log_odds: f64,
    pub first_value: f64,
    pub first_threshold: f64,
    pub first_llr: f64,
    pub second_value: f64,
    pub second_threshold: f64,
    pub second_llr: f64,
    pub length: f64,
}

/// The log odds of a finding with these llrs.
pub fn log_odds(prior: f64, llrs: &[f64], group_cap: f64) -> f64 {
    raw::lanegravel_log_odds(prior, llrs, group_cap)
}

/// Finding `i` of `count`, if there is one.
pub fn finding(lists: &FindingLists, count: usize, i: usize) -> Option<Finding> {
    let f = finding_at(lists, count, i);
    let (rect, log_odds) = ([f.x0, f.y0, f.x1, f.y1], f.log_odds);
    let first = Evidence {
        value: f.first_value,
        threshold: f.first_threshold,
        llr: f.first_llr,
    };
    let second = Evidence {
        value: f.second_value,
        threshold: f.second_threshold,
        llr: f.second_llr,
    };
    match f.kind {
        16 => Some(Finding::Table {
            rect,
            log_odds,
            rows: f.a,
            columns: f.b,
            rulings: f.c,
            evidence: [first, second],
        }),
        17 => Some(Finding::FreeRules {
            rect,
            log_odds,
            horizontal: f.a,
            vertical: f.b,
            longest: f.c,
            evidence: [first, second],
        }),
        18 => Some(Finding::Grid {
            rect,
            log_odds,
            boxes: f.a,
            ticked: f.b,
            evidence: [first, second],
        }),
        19 => Some(Finding::Fold {
            rect,
            log_odds,
            direction: Direction::numbered(f.a),
            length: f.length,
            evidence: [first],
        }),
        _ => None,
    }
}

/// The same as C has it.
pub fn finding_at(l: &FindingLists, count: usize, i: usize) -> FindingAtAnswer {
    raw::lanegravel_finding_at(
        &l.rects,
        &l.kinds,
        &l.a,
        &l.b,
        &l.c,
        &l.log_odds,
        &l.first_values,
        &l.first_thresholds,
        &l.first_llrs,
        &l.second_values,
        &l.second_thresholds,
        &l.second_llrs,
        &l.lengths,
        count,
        i,
    )
}
