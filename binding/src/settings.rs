//! The settings, and the questions about them.

use crate::question::{Question, accepted};
use crate::raw;

/// The settings, with the Rust's names in the Rust's order. The default has zeros alone: it is there to be
/// filled in, and question 11 refuses it.
#[repr(C)]
#[derive(Clone, Copy, Debug, Default)]
pub struct RulingsParams {
    pub merge_across_xh: f64,
    pub merge_gap_xh: f64,
    pub rule_min_contrast: f64,
    pub fold_min_length_in: f64,
    pub join_tol_xh: f64,
    pub table_min_horizontal: u32,
    pub table_min_vertical: u32,
    pub line_cluster_xh: f64,
    pub table_prior: f64,
    pub table_cells_coef: f64,
    pub table_cells_cap: f64,
    pub table_junction_coef: f64,
    pub min_free_rules: u32,
    pub free_rules_prior: f64,
    pub free_rules_coef: f64,
    pub free_rules_cap: f64,
    pub box_min_xh: f64,
    pub box_min_in: f64,
    pub box_max_xh: f64,
    pub box_overshoot_fraction: f64,
    pub box_aspect_tol: f64,
    pub box_tolerance_px: u32,
    pub box_edge_coverage: f64,
    pub box_max_inner_ink: f64,
    pub box_checked_ink: f64,
    pub grid_align_xh: f64,
    pub grid_min_boxes: u32,
    pub grid_prior: f64,
    pub grid_coef: f64,
    pub grid_cap: f64,
}

/// The bounds of the log odds.
#[repr(C)]
#[derive(Clone, Copy, Debug, Default)]
pub struct FusionParams {
    pub llr_clip: f64,
    pub group_cap: f64,
}

impl RulingsParams {
    /// The settings, unless they miss one of questions 7 to 11 and 13.
    pub fn validate(self) -> Result<Self, Question> {
        accepted(validate(&self))?;
        Ok(self)
    }
}

impl FusionParams {
    /// The bounds, unless they miss question 12.
    pub fn validate(self) -> Result<Self, Question> {
        accepted(validate_fusion(self))?;
        Ok(self)
    }
}

/// The number of the first question that the settings miss, 0 where they miss none.
pub fn validate(p: &RulingsParams) -> u32 {
    raw::lanegravel_validate(*p)
}

/// 12 where the bounds miss that question, else 0.
pub fn validate_fusion(f: FusionParams) -> u32 {
    raw::lanegravel_validate_fusion(f)
}
