//! Questionnaires: tables with broken rules, loose rules, faint folds, rows of letters and answer
//! boxes, on grey paper that was scanned a little askew.

use lanegravel_binding::settings::RulingsParams;

use crate::masks;
use crate::owned::{GlyphsPage, PiecesPage, WholePage};
use crate::pages::composed;
use crate::params::VALID;
use crate::random::Random;

/// A form at so many dots an inch, up to half a degree askew.
pub fn form(random: &mut Random, page_width: usize, page_height: usize, dpi: u16) -> WholePage {
    let slope = (random.below(41) as f64 - 20.0) / 2_000.0;
    askew(random, page_width, page_height, dpi, slope)
}

/// A form that is levelled by this slope. Its upper third has the letters and the boxes.
pub fn askew(
    random: &mut Random,
    page_width: usize,
    page_height: usize,
    dpi: u16,
    slope: f64,
) -> WholePage {
    let (shear, shear_x) = tables(page_width, page_height, slope);
    let widest = |table: &[i32]| table.iter().copied().max().unwrap_or(0) as usize;
    let (width, height) = (page_width + widest(&shear_x), page_height + widest(&shear));
    let rows = page_height as u64 / 3 / 44;
    let glyphs = (page_width as u64 / 44 - 1) * rows;
    let mut marks = masks::form(random, width, height, glyphs as usize);
    marks.dpi = dpi;
    marks.params = RulingsParams {
        rule_min_contrast: 30.0,
        grid_align_xh: 0.1,
        merge_across_xh: 0.2,
        merge_gap_xh: 1.0,
        ..marks.params
    };
    let mut rules = PiecesPage {
        width,
        height,
        xheight: marks.xheight,
        raster: vec![0; width * height],
        pieces: Vec::new(),
        params: marks.params,
    };
    rules.raster.fill_with(|| 215 + (random.bits() >> 59) as u8);
    for (grey, ink) in rules.raster.iter_mut().zip(&marks.ink) {
        *grey = if *ink != 0 { 40 } else { *grey };
    }
    draw_rules(random, &mut rules, page_width as u32, page_height as u32);
    composed(rules, marks, page_height, shear, shear_x)
}

/// Both tables of a page that is levelled by this slope, as the Rust makes them.
pub fn tables(width: usize, height: usize, slope: f64) -> (Vec<i32>, Vec<i32>) {
    let from_zero = |drift: Vec<i32>| -> Vec<i32> {
        let least = drift.iter().copied().min().unwrap_or(0).min(0);
        drift.iter().map(|d| d - least).collect()
    };
    let drift = |count: usize, slope: f64| -> Vec<i32> {
        from_zero(
            (0..count)
                .map(|k| (k as f64 * slope).round() as i32)
                .collect(),
        )
    };
    let shear = drift(width, slope);
    let added = shear.iter().copied().max().unwrap_or(0) as usize;
    (shear, drift(height + added, -slope))
}

/// Two or three tables below each other, then loose rules and folds.
fn draw_rules(random: &mut Random, page: &mut PiecesPage, width: u32, height: u32) {
    let (left, right) = (width / 12, width - width / 12);
    let tables = 2 + random.below(2) as u32;
    let each = height / 2 / tables;
    for table in 0..tables {
        let top = height / 3 + 30 + table * each;
        let bottom = top + each * 4 / 5;
        let (rows, columns) = (1 + random.below(7) as u32, 1 + random.below(6) as u32);
        for k in 0..=rows {
            let at = top + (bottom - top) * k / rows;
            rule(random, page, left, right, at, true, 60);
        }
        for k in 0..=columns {
            let at = left + (right - left) * k / columns;
            rule(random, page, top, bottom, at, false, 60);
        }
    }
    for k in 0..random.below(4) as u32 {
        let at = height - height / 10 + 12 * k;
        rule(random, page, left, left + width / 3, at, true, 90);
    }
    for k in 0..random.below(3) as u32 {
        let at = height / 3 + k * height / 3 + 9;
        rule(random, page, 0, width - 1, at, true, 215);
    }
}

/// One rule, in pieces of up to an eighth of its length with gaps of up to 16, a pixel lower now and
/// then, of about this grey.
fn rule(
    random: &mut Random,
    page: &mut PiecesPage,
    from: u32,
    to: u32,
    at: u32,
    horizontal: bool,
    grey: u64,
) {
    let mut start = from;
    while start < to {
        let long = random.below(u64::from(to - from) / 8 + 1) as u32;
        let end = (start + 20 + long).min(to);
        let low = at + random.below(2) as u32;
        let high = low + 1 + random.below(2) as u32;
        let [x0, y0, x1, y1] = if horizontal {
            [start, low, end, high]
        } else {
            [low, start, high, end]
        };
        page.pieces.extend([x0, y0, x1, y1]);
        for y in y0..=y1 {
            for x in x0..=x1 {
                let place = y as usize * page.width + x as usize;
                page.raster[place] = (grey + random.below(20)) as u8;
            }
        }
        start = end + 1 + random.below(16) as u32;
    }
}

/// A small page with all four kinds of findings, in a picture that is wider and higher than the page.
pub fn sample() -> WholePage {
    let (width, height) = (44, 42);
    let mut rules = PiecesPage {
        width,
        height,
        xheight: 4.0,
        raster: vec![250; width * height],
        pieces: Vec::new(),
        params: VALID,
    };
    let mut stroke = |[x0, y0, x1, y1]: [u32; 4], grey: u8| {
        rules.pieces.extend([x0, y0, x1, y1]);
        for y in y0..=y1 {
            let row = y as usize * width;
            rules.raster[row + x0 as usize..=row + x1 as usize].fill(grey);
        }
    };
    for y in [2, 10, 18] {
        stroke([14, y, 33, y], 60);
        stroke([5, y, 11, y], 50);
    }
    for x in [5, 19, 33] {
        stroke([x, 2, x, 18], 40);
    }
    stroke([2, 24, 18, 24], 30);
    stroke([1, 36, 40, 36], 235);
    let shear = (0..41).map(|x| i32::from(x >= 20)).collect();
    let shear_x = (0..42).map(|y| if y < 20 { 3 } else { 1 }).collect();
    composed(rules, squares(width, height), 40, shear, shear_x)
}

/// Three boxes in a row from right to left, the middle one ticked.
fn squares(width: usize, height: usize) -> GlyphsPage {
    let mut page = masks::blank(width, height);
    page.dpi = 10;
    page.params.box_min_in = 0.0;
    page.params.box_min_xh = 1.0;
    for left in [24, 14, 4] {
        for (x, y) in (0..7).flat_map(|y| (0..7).map(move |x| (x, y))) {
            let rim = x % 6 == 0 || y % 6 == 0;
            let tick = left == 14 && y == 3 && x > 1 && x < 5;
            page.ink[(27 + y) * width + left + x] = u8::from(rim || tick);
        }
        let x = left as u32;
        page.glyphs.extend([x, 27, x + 6, 33]);
    }
    page
}
