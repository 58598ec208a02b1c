//! Lists of boxes for the comparison of `box_grids`, their closed sets and their first missed question.

use lanegravel_binding::settings::RulingsParams;

use crate::flood::flood;
use crate::params::VALID;
use crate::questions::{self, LARGEST_SIDE};
use crate::random::Random;

pub const MOST_BOXES: usize = 16_384;

/// What a call is given.
#[derive(Debug)]
pub struct Page {
    pub xheight: f64,
    pub p: RulingsParams,
    pub rects: Vec<u32>,
}

/// Up to 24 boxes, on a small place or a wide one; some again, some beside another at the limit of
/// alignment or of width, or one past it.
pub fn small(random: &mut Random) -> Page {
    let xheight = random.pick(&[0.001, 1.0, 1.0, 2.5, 10.0, 4_096.0]);
    let mut page = Page {
        xheight,
        p: RulingsParams {
            grid_align_xh: random.pick(&[0.0, -0.0, 0.25, 0.5, 1.0, 3.0, 1e6]) / xheight.max(1.0),
            grid_min_boxes: random.pick(&[2, 2, 3, 4, 25, u32::MAX]),
            ..VALID
        },
        rects: Vec::new(),
    };
    let place = random.pick(&[12, 60, 400, 8_000]);
    for _ in 0..random.below(25) {
        let n = page.rects.len() as u64 / 4;
        let r = match random.below(6) {
            0 if n > 0 => other(random, &page),
            1 | 2 if n > 0 => beside(random, &page),
            3 if n > 0 => resized(random, &page),
            _ => any(random, place),
        };
        page.rects.extend(r);
    }
    page
}

/// Many boxes of about one size on a wide place, so that there are sets of many sizes.
pub fn crowded(random: &mut Random, count: usize) -> Page {
    let mut page = Page {
        xheight: 10.0,
        p: RulingsParams {
            grid_align_xh: random.pick(&[0.0, 0.05]),
            ..VALID
        },
        rects: Vec::new(),
    };
    let widths = [2, 5, 12, 30, 80, 200];
    for _ in 0..count {
        let size = random.pick(&widths);
        let (x, y) = (random.below(7_900) as u32, random.below(7_900) as u32);
        page.rects.extend([x, y, x + size, y + size]);
    }
    page
}

fn any(random: &mut Random, place: u64) -> [u32; 4] {
    let (x, y) = (random.below(place) as u32, random.below(place) as u32);
    let (w, h) = (random.below(12) as u32, random.below(12) as u32);
    [x, y, x + w, y + h]
}

/// A box that is there already.
fn other(random: &mut Random, page: &Page) -> [u32; 4] {
    let k = 4 * random.below(page.rects.len() as u64 / 4) as usize;
    [0, 1, 2, 3].map(|c| page.rects[k + c])
}

/// The limit of what doubled centres may differ by.
fn limit(page: &Page) -> i64 {
    (2.0 * page.p.grid_align_xh * page.xheight).round() as i64
}

/// A box of another's size, moved far one way and the other way by half the limit, or one pixel past
/// it, with its doubled centre one further now and then.
fn beside(random: &mut Random, page: &Page) -> [u32; 4] {
    let [x0, y0, x1, y1] = other(random, page);
    let near = (limit(page).min(100) / 2) as u32 + random.below(2) as u32;
    let far = random.below(300) as u32;
    let longer = random.below(2) as u32;
    let moved = if random.below(2) == 0 {
        [x0 + near, y0 + far, x1 + near + longer, y1 + far]
    } else {
        [x0 + far, y0 + near, x1 + far, y1 + near + longer]
    };
    if moved.iter().all(|&c| (c as usize) < LARGEST_SIDE) {
        moved
    } else {
        [x0, y0, x1, y1]
    }
}

/// A box in another's row whose width is 7/10 or 6/10 of it, or of which it is so much.
fn resized(random: &mut Random, page: &Page) -> [u32; 4] {
    let [x0, y0, _, y1] = other(random, page);
    let width = random.pick(&[6, 7, 10, 13, 14, 20, 69, 70, 71, 100]);
    let x0 = x0.min(LARGEST_SIDE as u32 - width);
    [x0, y0, x0 + width - 1, y1]
}

/// One change that misses a question, or may.
pub fn spoil(random: &mut Random, page: &mut Page) {
    match random.below(10) {
        0 => page.xheight = questions::bad_xheight(random),
        1 => page.rects.push(0),
        2 if random.below(50) == 0 => page.rects.resize(4 * (MOST_BOXES + 1), 0),
        2..=4 => questions::move_outside(random, &mut page.rects, LARGEST_SIDE, LARGEST_SIDE),
        _ => questions::spoil_settings(random, &mut page.p),
    }
}

/// The number of the first missed question of document 01, said here in plain Rust; `room` says
/// whether 14 is met.
pub fn question(page: &Page, room: bool) -> u32 {
    questions::first_missed(&[
        questions::xheight(page.xheight),
        questions::rectangles(&page.rects, MOST_BOXES),
        questions::inside(&page.rects, LARGEST_SIDE, LARGEST_SIDE),
        questions::settings(&page.p),
        (14, room),
    ])
}

/// The closed sets of boxes, by smallest index.
pub fn closed_sets(page: &Page) -> Vec<Vec<u32>> {
    let limit = limit(page);
    let side = |k: usize, c: usize| i64::from(page.rects[4 * k + c]);
    flood(page.rects.len() / 4, |i, j| {
        let width = |k: usize| (side(k, 2) - side(k, 0) + 1) as f64;
        let apart = |c: usize| (side(i, c) + side(i, c + 2) - side(j, c) - side(j, c + 2)).abs();
        (width(i) - width(j)).abs() <= 0.3 * width(i).max(width(j))
            && (apart(0) <= limit || apart(1) <= limit)
    })
}
