//! The call that reads a whole page.

use crate::layout;
use crate::lists::answer;
use crate::raw::{self, Lent};
use crate::settings::{FusionParams, RulingsParams};
use crate::workspace::Workspace;

/// A page: its grey raster, its levelled ink mask, how it is levelled, its rule pieces and its glyph boxes,
/// and the settings. Nothing of it is copied.
#[derive(Clone, Copy, Debug, Default)]
pub struct Page<'a> {
    pub page_width: usize,
    pub page_height: usize,
    /// The sides of the levelled picture.
    pub width: usize,
    pub height: usize,
    pub dpi: u16,
    pub xheight: f64,
    pub params: RulingsParams,
    pub fusion: FusionParams,
    /// `page_width` times `page_height` bytes, row by row.
    pub gray: &'a [u8],
    /// `width` times `height` bytes, row by row; what is not 0 is ink.
    pub ink: &'a [u8],
    /// How far each page column goes down.
    pub shear: &'a [i32],
    /// How far each levelled row goes to the right.
    pub shear_x: &'a [i32],
    /// Four numbers a rectangle (x0, y0, x1, y1, both ends inside), levelled. Where the rectangles are
    /// arrays, `as_flattened` gives this.
    pub pieces: &'a [u32],
    /// The same for glyph boxes.
    pub glyphs: &'a [u32],
}

impl<'a> Page<'a> {
    /// What levels the page, and leads from levelled places back to it.
    pub fn layout(&self) -> layout::Page<'a> {
        layout::Page {
            page_width: self.page_width,
            page_height: self.page_height,
            width: self.width,
            height: self.height,
            gray: self.gray,
            shear: self.shear,
            shear_x: self.shear_x,
        }
    }
}

answer! {
    /// How many there are of everything; of sets of pieces as many as of rulings.
    DetectAnswer {
        rulings: usize,
        printed: usize,
        faint: usize,
        tables: usize,
        boxes: usize,
        grids: usize,
        findings: usize,
        printed_sets: usize,
        free: usize,
        box_sets: usize,
    }
}

/// Reads a page into the lists as they are: one that is too short misses question 14, and so does a
/// levelled raster that is too long. `Workspace::detect` sees to the room itself.
pub fn detect(page: &Page, l: &mut Workspace) -> DetectAnswer {
    let places = l.levelled.len();
    detect_with(page, l, places)
}

/// The same with so many bytes of the levelled raster.
pub(crate) fn detect_with(page: &Page, l: &mut Workspace, places: usize) -> DetectAnswer {
    let (f, w) = (&mut l.findings, &mut l.work);
    raw::lanegravel_detect(
        page.page_width,
        page.page_height,
        page.width,
        page.height,
        page.dpi,
        page.xheight,
        page.params,
        page.fusion,
        page.gray,
        page.ink,
        page.shear,
        page.shear_x,
        page.pieces,
        page.glyphs,
        &mut lend([&mut l.levelled[..places]]),
        &mut lend([&mut l.rects, &mut l.boxes]),
        &mut lend([&mut l.directions, &mut l.marks]),
        &mut lend([&mut l.contrasts, &mut l.shares, &mut l.coverages]),
        &mut lend([&mut l.printed, &mut l.reading]),
        &mut lend([&mut l.free, &mut l.faint]),
        &mut lend([
            &mut l.piece_members,
            &mut l.printed_members,
            &mut l.box_members,
        ]),
        &mut lend([&mut l.piece_ends, &mut l.printed_ends, &mut l.box_ends]),
        &mut lend([&mut l.table_numbers, &mut l.grid_numbers]),
        &mut lend([&mut l.bounds]),
        &mut lend([&mut l.rows]),
        &mut lend([&mut l.columns]),
        &mut lend([&mut l.rulings]),
        &mut lend([&mut f.rects]),
        &mut lend([&mut f.kinds, &mut f.a, &mut f.b, &mut f.c]),
        &mut lend([
            &mut f.log_odds,
            &mut f.first_values,
            &mut f.first_thresholds,
            &mut f.first_llrs,
            &mut f.second_values,
            &mut f.second_thresholds,
            &mut f.second_llrs,
            &mut f.lengths,
        ]),
        &mut lend([&mut w.parents, &mut w.box_parents]),
        &mut lend([&mut w.order, &mut w.box_order]),
        &mut lend([&mut w.listed]),
        &mut lend([&mut w.listed_ends]),
        &mut lend([&mut w.keys]),
        &mut lend([&mut w.box_keys]),
    )
}

fn lend<T, const N: usize>(lists: [&mut [T]; N]) -> [Lent<'_, T>; N] {
    lists.map(Lent::new)
}
