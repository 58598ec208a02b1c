//! The call about grids.

use crate::lists::{answer, lists};
use crate::raw;
use crate::settings::RulingsParams;

answer! {
    BoxGridsAnswer {
        /// How many closed sets of boxes there are.
        sets: usize,
        grids: usize,
    }
}

lists! {
    /// What the call is lent: the lists that it answers in, then its work lists.
    GridsLists(index: usize) {
        members: [u32; index],
        ends: [u32; index],
        reading: [u32; index],
        numbers: [u32; index],
        parents: [u32; index],
        work: [u32; index],
        keys: [u64; index],
    }
}

/// Finds the grids among boxes, four numbers each in `rects`.
pub fn box_grids(
    xheight: f64,
    p: &RulingsParams,
    rects: &[u32],
    l: &mut GridsLists,
) -> BoxGridsAnswer {
    raw::lanegravel_box_grids(
        xheight,
        *p,
        rects,
        &mut l.members,
        &mut l.ends,
        &mut l.reading,
        &mut l.numbers,
        &mut l.parents,
        &mut l.work,
        &mut l.keys,
    )
}
