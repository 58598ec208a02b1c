//! The call about rulings.

use crate::lists::{answer, lists};
use crate::raw;
use crate::settings::RulingsParams;

/// What the call is given: a levelled picture and its rule pieces, four numbers each.
#[derive(Clone, Copy, Debug)]
pub struct Page<'a> {
    pub width: usize,
    pub height: usize,
    pub xheight: f64,
    pub raster: &'a [u8],
    pub pieces: &'a [u32],
    pub params: RulingsParams,
}

lists! {
    /// What the call is lent: the lists that it answers in, then its work lists.
    SegmentsLists(rulings: usize, index: usize) {
        rects: [u32; 4 * rulings],
        directions: [u32; rulings],
        contrasts: [f64; rulings],
        members: [u32; index],
        ends: [u32; index],
        parents: [u32; index],
        listed: [u32; index],
        listed_ends: [u32; index],
        work: [u32; index],
        keys: [u64; index],
    }
}

answer! {
    SegmentsAnswer {
        /// How many rulings there are.
        count: usize,
    }
}

/// Joins the pieces to rulings.
pub fn segments(page: &Page, l: &mut SegmentsLists) -> SegmentsAnswer {
    raw::lanegravel_segments(
        page.raster,
        page.width,
        page.height,
        page.xheight,
        page.pieces,
        page.params,
        &mut l.rects,
        &mut l.directions,
        &mut l.contrasts,
        &mut l.members,
        &mut l.ends,
        &mut l.parents,
        &mut l.listed,
        &mut l.listed_ends,
        &mut l.work,
        &mut l.keys,
    )
}
