//! The calls about levelling and the way back to the page.

use lanegravel_binding::layout::{self, Page};

use crate::answer::{Refused, Text, accepted};
use crate::fields::{Fields, Sides};
use crate::limits::PLACES;
use crate::rect::Rect;

/// The most bytes that are lent as a raster: one more than any accepted page has. Lending more would
/// change no answer.
pub const MOST_BYTES: usize = PLACES + 1;

fn page(fields: &Fields) -> Page<'_> {
    Page {
        page_width: fields.page.width,
        page_height: fields.page.height,
        width: fields.levelled.width,
        height: fields.levelled.height,
        gray: &fields.gray,
        shear: &fields.shear,
        shear_x: &fields.shear_x,
    }
}

pub fn level(fields: Fields, text: &mut Text) -> Result<(), Refused> {
    let room = fields.room("levelled", fields.levelled.places());
    let mut levelled = vec![0; room.min(MOST_BYTES)];
    accepted(layout::level_gray(&page(&fields), &mut levelled))?;
    text.raster("levelled", &levelled);
    Ok(())
}

/// A page as it was scanned.
pub struct Scan {
    pub sides: Sides,
    pub bytes: Vec<u8>,
}

/// The page of a levelled raster.
pub fn unlevel(fields: Fields) -> Result<Scan, Refused> {
    let room = fields.room("page", fields.page.places());
    let mut bytes = vec![0; room.min(MOST_BYTES)];
    accepted(layout::unlevel(&page(&fields), &fields.raster, &mut bytes))?;
    Ok(Scan {
        sides: fields.page,
        bytes,
    })
}

/// Each rectangle in turn; the first one that is refused refuses the text.
pub fn map(fields: Fields, text: &mut Text) -> Result<(), Refused> {
    let page = page(&fields);
    let (rects, _) = fields.rects.as_chunks();
    for rect in rects {
        let area = page.rect_to_page(*rect)?;
        let (x, y) = page.to_page(rect[0], rect[1])?;
        text.place(x, y);
        text.numbers("rect", &area);
    }
    Ok(())
}

/// The way from the levelled picture of an accepted page back to the page.
#[derive(Debug)]
pub struct Map {
    page: Sides,
    levelled: Sides,
    shear: Vec<i32>,
    shear_x: Vec<i32>,
}

impl Map {
    pub fn new(page: Sides, levelled: Sides, shear: Vec<i32>, shear_x: Vec<i32>) -> Self {
        Map {
            page,
            levelled,
            shear,
            shear_x,
        }
    }

    /// The rectangle on the page of a levelled rectangle.
    pub fn on_page(&self, rect: Rect) -> Rect {
        let page = Page {
            page_width: self.page.width,
            page_height: self.page.height,
            width: self.levelled.width,
            height: self.levelled.height,
            gray: &[],
            shear: &self.shear,
            shear_x: &self.shear_x,
        };
        page.rect_to_page(rect).unwrap_or_default()
    }
}
