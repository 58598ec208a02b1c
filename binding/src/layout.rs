//! Levelling, and the way back to the page.

use crate::lists::answer;
use crate::question::{Question, accepted};
use crate::raw;

/// A page and where its pixels go in the levelled picture.
#[derive(Clone, Copy, Debug, Default)]
pub struct Page<'a> {
    pub page_width: usize,
    pub page_height: usize,
    pub width: usize,
    pub height: usize,
    /// The grey page, row by row. Only `level_gray` reads it, so that the way back needs none.
    pub gray: &'a [u8],
    /// How far each page column goes down.
    pub shear: &'a [i32],
    /// How far each levelled row goes to the right.
    pub shear_x: &'a [i32],
}

impl Page<'_> {
    /// Writes the levelled picture, width times height bytes.
    pub fn level_gray(&self, out: &mut [u8]) -> Result<(), Question> {
        accepted(level_gray(self, out))
    }

    /// The inverse: writes the page of a levelled picture, page width times page height bytes.
    pub fn unlevel(&self, levelled: &[u8], out: &mut [u8]) -> Result<(), Question> {
        accepted(unlevel(self, levelled, out))
    }

    /// Where a levelled place lies on the page, or outside it.
    pub fn to_page(&self, x: u32, y: u32) -> Result<(i64, i64), Question> {
        let place = to_page(self, x, y).accepted()?;
        Ok((place.x, place.y))
    }

    /// The rectangle on the page of a levelled rectangle.
    pub fn rect_to_page(&self, rect: [u32; 4]) -> Result<[u32; 4], Question> {
        let r = rect_to_page(self, rect).accepted()?;
        Ok([r.x0, r.y0, r.x1, r.y1])
    }
}

answer! {
    ToPageAnswer {
        x: i64,
        y: i64,
    }
}

answer! {
    RectToPageAnswer {
        x0: u32,
        y0: u32,
        x1: u32,
        y1: u32,
    }
}

/// As the method, with the number of the missed question.
pub fn level_gray(page: &Page, out: &mut [u8]) -> u32 {
    raw::lanegravel_level_gray(
        page.page_width,
        page.page_height,
        page.width,
        page.height,
        page.gray,
        page.shear,
        page.shear_x,
        out,
    )
}

/// As the method, with the number of the missed question.
pub fn unlevel(page: &Page, levelled: &[u8], out: &mut [u8]) -> u32 {
    raw::lanegravel_unlevel(
        page.page_width,
        page.page_height,
        page.width,
        page.height,
        levelled,
        page.shear,
        page.shear_x,
        out,
    )
}

/// As the method, with the number of the missed question.
pub fn to_page(page: &Page, x: u32, y: u32) -> ToPageAnswer {
    raw::lanegravel_to_page(
        page.page_width,
        page.page_height,
        page.width,
        page.height,
        page.shear,
        page.shear_x,
        x,
        y,
    )
}

/// As the method, with the number of the missed question.
pub fn rect_to_page(page: &Page, [x0, y0, x1, y1]: [u32; 4]) -> RectToPageAnswer {
    raw::lanegravel_rect_to_page(
        page.page_width,
        page.page_height,
        page.width,
        page.height,
        page.shear,
        page.shear_x,
        x0,
        y0,
        x1,
        y1,
    )
}
