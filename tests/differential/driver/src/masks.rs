//! Ink masks with glyph boxes for the comparison of `boxes`.

use lanegravel_binding::settings::RulingsParams;

use crate::owned::GlyphsPage;
use crate::params::VALID;
use crate::random::Random;
use crate::values::near;

/// A small mask with up to six glyphs, and settings at the sizes and shares of the first of them.
pub fn small(random: &mut Random) -> GlyphsPage {
    let (width, height) = (side(random), side(random));
    let mut page = blank(width, height);
    page.xheight = random.pick(&[0.1, 1.0, 1.0, 3.0, 7.0, 10.0, 12.5, 4_096.0]);
    scatter(random, &mut page);
    page
}

/// A resolution, up to six glyphs, and settings at the sizes and shares of the first of them.
pub fn scatter(random: &mut Random, page: &mut GlyphsPage) {
    let (width, height) = (page.width, page.height);
    page.dpi = random.pick(&[1, 72, 96, 300, 600, u16::MAX]);
    let first = frame(random, width, height);
    page.params = settings(random, first, page.xheight, page.dpi);
    for k in 0..random.below(7) {
        let square = if k == 0 || random.below(4) == 0 {
            first
        } else {
            frame(random, width, height)
        };
        let glyph = match random.below(10) {
            0 => fill(random, page, square),
            1 => square,
            2 => pixel(random, page),
            _ => hollow(random, page, square),
        };
        page.glyphs.extend(glyph);
    }
}

/// As many glyph boxes as asked for, up to 12 pixels wide, on a picture of 128 by 128.
pub fn crowded(random: &mut Random, count: usize) -> GlyphsPage {
    let mut page = blank(128, 128);
    page.xheight = 5.0;
    page.params.box_min_xh = 0.4;
    page.params.box_max_xh = 2.4;
    for _ in 0..40 {
        let square = frame(random, 128, 128);
        hollow(random, &mut page, square);
    }
    for _ in 0..count {
        let (x, y) = (random.below(116) as u32, random.below(116) as u32);
        let (w, h) = (random.below(12) as u32, random.below(12) as u32);
        page.glyphs.extend([x, y, x + w, y + h]);
    }
    page
}

/// A picture with one of the largest sides, and frames and single pixels all over it.
pub fn large(random: &mut Random) -> GlyphsPage {
    let (width, height) = random.pick(&[(8_192, 300), (300, 8_192)]);
    let mut page = blank(width, height);
    page.params.box_max_xh = 2.4;
    for _ in 0..200 {
        let square = frame(random, width, height);
        let glyph = hollow(random, &mut page, square);
        page.glyphs.extend(glyph);
    }
    for _ in 0..20 {
        let glyph = pixel(random, &mut page);
        page.glyphs.extend(glyph);
    }
    page
}

/// Large frames, whose columns are tried in bands: at each end up to nine columns have as much ink as
/// the overshoot limit, or one more or less.
pub fn tall(random: &mut Random) -> GlyphsPage {
    let height = 250 + random.below(14) as usize;
    let width = height - 8 + random.below(16) as usize;
    let mut page = blank(width, height);
    page.params.box_min_xh = 1.0;
    page.params.box_max_xh = 30.0;
    page.params.box_overshoot_fraction = random.below(4) as f64 / 10.0;
    let limit = (page.params.box_overshoot_fraction * height as f64) as u32;
    let (right, bottom) = (width as u32 - 1, height as u32 - 1);
    let (left, last) = (random.below(10) as u32, right - random.below(10) as u32);
    for y in 0..=bottom {
        for x in [left, left + 1, last - 1, last] {
            set(&mut page, x, y, 1);
        }
    }
    for x in left..=last {
        set(&mut page, x, 0, 1);
        set(&mut page, x, bottom, 1);
    }
    for x in (0..left).chain(last + 1..=right) {
        for y in 0..(limit + random.below(3) as u32).saturating_sub(1) {
            set(&mut page, x, y, 255);
        }
    }
    page.glyphs.extend([0, 0, right, bottom]);
    page
}

/// A form: rows of glyphs of letter size, every eighth of them an answer box of one size, some of
/// them ticked with a stroke that leaves the box.
pub fn form(random: &mut Random, width: usize, height: usize, count: usize) -> GlyphsPage {
    let mut page = blank(width, height);
    page.xheight = 18.0;
    page.dpi = 150;
    page.params = RulingsParams {
        box_min_xh: 0.6,
        box_max_xh: 2.5,
        ..VALID
    };
    let columns = width as u64 / 44 - 1;
    for k in 0..count as u64 {
        let (x, y) = (20 + 44 * (k % columns), 20 + 44 * (k / columns));
        if y + 50 > height as u64 {
            break;
        }
        let (x, y) = (x as u32, y as u32);
        let glyph = if k % 8 == 0 {
            let size = 24 + random.below(3) as u32;
            let square = [x + 4, y + 4, x + 4 + size, y + 4 + size];
            hollow(random, &mut page, square)
        } else {
            let (w, h) = (8 + random.below(14) as u32, 12 + random.below(12) as u32);
            fill(random, &mut page, [x, y, x + w, y + h])
        };
        page.glyphs.extend(glyph);
    }
    page
}

pub fn blank(width: usize, height: usize) -> GlyphsPage {
    GlyphsPage {
        width,
        height,
        dpi: 300,
        xheight: 10.0,
        ink: vec![0; width * height],
        glyphs: Vec::new(),
        params: VALID,
    }
}

fn side(random: &mut Random) -> usize {
    1 + random.below(32) as usize
}

/// A rectangle, square or nearly so, at the rim as often as not.
fn frame(random: &mut Random, width: usize, height: usize) -> [u32; 4] {
    let most = width.min(height) as u64;
    let size = 1 + random.below(most.min(20));
    let (w, h) = (
        (size + random.below(3)).min(width as u64),
        (size + random.below(2)).min(height as u64),
    );
    let place = |random: &mut Random, room: u64| match random.below(4) {
        0 => 0,
        1 => room,
        _ => random.below(room + 1),
    };
    let x = place(random, width as u64 - w) as u32;
    let y = place(random, height as u64 - h) as u32;
    [x, y, x + w as u32 - 1, y + h as u32 - 1]
}

/// The settings that decide about a frame of this size: each lets it pass, or is a share that it can
/// have, or a limit of the setting.
fn settings(random: &mut Random, frame: [u32; 4], xheight: f64, dpi: u16) -> RulingsParams {
    let size = f64::from(frame[2] - frame[0] + 1);
    let inner = (size / 2.0).ceil().powi(2);
    let smallest = match random.below(4) {
        0 => about(random, size) / xheight,
        1 => 0.0,
        _ => size / 2.0 / xheight,
    };
    let largest = match random.below(4) {
        0 => about(random, size) / xheight,
        1 => 1e6,
        _ => 2.0 * size / xheight,
    };
    let inches = match random.below(4) {
        0 => about(random, size) / f64::from(dpi),
        _ => 0.0,
    };
    RulingsParams {
        box_min_xh: smallest.min(1e6),
        box_max_xh: largest.min(1e6).max(smallest.min(1e6)),
        box_min_in: inches,
        box_overshoot_fraction: share(random, 0.2, size),
        box_aspect_tol: share(random, 0.5, size),
        box_tolerance_px: random.below(4) as u32,
        box_edge_coverage: share(random, 0.3, size),
        box_max_inner_ink: share(random, 1.0, inner),
        box_checked_ink: share(random, 0.05, inner),
        ..VALID
    }
}

/// The number or one beside it, or a float beside one of these.
fn about(random: &mut Random, x: f64) -> f64 {
    let x = x + random.pick(&[-1.0, 0.0, 0.0, 1.0]);
    near(random, x).max(0.0)
}

/// The usual share, or a limit, or so many of `all`.
fn share(random: &mut Random, usual: f64, all: f64) -> f64 {
    match random.below(6) {
        0 => random.pick(&[0.0, -0.0, 1.0]),
        1 | 2 => (random.below(all as u64 + 1) as f64 / all).min(1.0),
        _ => usual,
    }
}

/// A byte that is ink.
fn black(random: &mut Random) -> u8 {
    random.pick(&[1, 1, 2, 128, 255])
}

fn set(page: &mut GlyphsPage, x: u32, y: u32, byte: u8) {
    if (x as usize) < page.width && (y as usize) < page.height {
        page.ink[y as usize * page.width + x as usize] = byte;
    }
}

/// A hollow frame, its edges broken now and then and up to two pixels wide, sometimes ticked or
/// filled; the glyph box is the frame, or wider by what a tick can overshoot.
fn hollow(random: &mut Random, page: &mut GlyphsPage, frame: [u32; 4]) -> [u32; 4] {
    let [x0, y0, x1, y1] = frame;
    let thick = random.below(2) as u32;
    let gaps = random.pick(&[0, 0, 6, 20]);
    for y in y0..=y1 {
        for x in x0..=x1 {
            let edge = (x - x0).min(x1 - x).min((y - y0).min(y1 - y)) <= thick;
            if edge && (gaps == 0 || random.below(gaps) != 0) {
                let byte = black(random);
                set(page, x, y, byte);
            }
        }
    }
    match random.below(6) {
        0 => tick(random, page, frame),
        1 => fill(random, page, frame),
        2 => {
            let by = random.below(4) as u32;
            let (right, bottom) = (page.width as u32 - 1, page.height as u32 - 1);
            let wide = [
                x0.saturating_sub(by),
                y0.saturating_sub(by),
                (x1 + by).min(right),
                (y1 + by).min(bottom),
            ];
            tick(random, page, wide);
            wide
        }
        _ => frame,
    }
}

/// A stroke from corner to corner.
fn tick(random: &mut Random, page: &mut GlyphsPage, [x0, y0, x1, y1]: [u32; 4]) -> [u32; 4] {
    for i in 0..=x1 - x0 {
        let y = y1 - i * (y1 - y0) / (x1 - x0).max(1);
        let byte = black(random);
        set(page, x0 + i, y, byte);
    }
    [x0, y0, x1, y1]
}

/// Ink of any density, over what is there.
fn fill(random: &mut Random, page: &mut GlyphsPage, [x0, y0, x1, y1]: [u32; 4]) -> [u32; 4] {
    let density = random.below(9);
    for y in y0..=y1 {
        for x in x0..=x1 {
            if random.below(8) < density {
                let byte = black(random);
                set(page, x, y, byte);
            }
        }
    }
    [x0, y0, x1, y1]
}

fn pixel(random: &mut Random, page: &mut GlyphsPage) -> [u32; 4] {
    let x = random.below(page.width as u64) as u32;
    let y = random.below(page.height as u64) as u32;
    let byte = random.pick(&[0, 1, 255]);
    set(page, x, y, byte);
    [x, y, x, y]
}
