//! The call about boxes.

use crate::lists::{answer, lists};
use crate::raw;
use crate::settings::RulingsParams;

/// What the call is given: a levelled ink mask and its glyph boxes, four numbers each.
#[derive(Clone, Copy, Debug)]
pub struct Page<'a> {
    pub width: usize,
    pub height: usize,
    pub dpi: u16,
    pub xheight: f64,
    pub ink: &'a [u8],
    pub glyphs: &'a [u32],
    pub params: RulingsParams,
}

lists! {
    /// What the call is lent: a rectangle, a mark and an edge coverage for each box.
    BoxesLists(boxes: usize) {
        rects: [u32; 4 * boxes],
        marks: [u32; boxes],
        coverages: [f64; boxes],
    }
}

answer! {
    BoxesAnswer {
        /// How many boxes there are.
        count: usize,
    }
}

/// Finds the boxes among the glyph boxes.
pub fn boxes(page: &Page, l: &mut BoxesLists) -> BoxesAnswer {
    raw::lanegravel_boxes(
        page.width,
        page.height,
        page.dpi,
        page.xheight,
        page.ink,
        page.glyphs,
        page.params,
        &mut l.rects,
        &mut l.marks,
        &mut l.coverages,
    )
}
