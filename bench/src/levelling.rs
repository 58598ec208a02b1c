//! Levelling of a whole page, A4 at 300 dots an inch, and the way back.

use std::hint::black_box;

use differential::owned::LayoutPage;
use lanegravel_binding::layout as ffi;

use crate::random::Random;
use crate::rust_layout::layout;
use crate::timing::{Measurement, Times, compare};

pub const MEASUREMENTS: [Measurement; 3] = [
    (
        "level 2,480 by 3,508, skew of one degree",
        || level(askew()),
    ),
    ("level 2,480 by 3,508, no skew", || level(skewed(0.0))),
    (
        "level 2,480 by 3,508, columns by turns one row lower",
        || level(by_turns()),
    ),
];

/// The inverse beside levelling.
pub const BACK: [Measurement; 5] = [
    ("unlevel 2,480 by 3,508, skew of one degree", || {
        unlevel(askew())
    }),
    ("unlevel 2,480 by 3,508, no skew", || unlevel(skewed(0.0))),
    (
        "unlevel 2,480 by 3,508, columns by turns one row lower",
        || unlevel(by_turns()),
    ),
    (
        "unlevel 2,480 by 3,508, one row lower every third column",
        || unlevel(page((0..2_480).map(|x| x / 3).collect(), |_| 0)),
    ),
    (
        "unlevel 2,480 by 3,508, columns and rows anyhow by up to 40",
        || {
            let mut random = Random::new(2);
            let mut anyhow = || random.below(41) as i32;
            let mut page = page((0..2_480).map(|_| anyhow()).collect(), |_| 0);
            page.width = 2_480 + 40;
            page.height = 3_508 + 40;
            page.shear_x = (0..page.height).map(|_| anyhow()).collect();
            unlevel(page)
        },
    ),
];

fn unlevel(page: LayoutPage) -> Times {
    let mut level = vec![0; page.width * page.height];
    let mut out = vec![0; page.gray.len()];
    assert_eq!(ffi::level_gray(&page.given(), &mut level), 0);
    let raster = level.clone();
    assert_eq!(ffi::unlevel(&page.given(), &raster, &mut out), 0);
    assert_eq!(out, page.gray);
    compare(
        21,
        || {
            black_box(ffi::unlevel(black_box(&page.given()), &raster, &mut out));
        },
        || {
            black_box(ffi::level_gray(black_box(&page.given()), &mut level));
        },
    )
}

fn level(page: LayoutPage) -> Times {
    let layout = layout(&page);
    let mut out = vec![0; page.width * page.height];
    assert_eq!(ffi::level_gray(&page.given(), &mut out), 0);
    assert_eq!(out, layout.level_gray(&page.gray));
    compare(
        21,
        || {
            black_box(ffi::level_gray(black_box(&page.given()), &mut out));
        },
        || {
            black_box(black_box(&layout).level_gray(&page.gray));
        },
    )
}

fn askew() -> LayoutPage {
    skewed(1f64.to_radians().tan())
}

fn by_turns() -> LayoutPage {
    page((0..2_480).map(|x| x % 2).collect(), |_| 0)
}

/// Each column goes down, and each row to the right, as far as the slope says.
fn skewed(slope: f64) -> LayoutPage {
    let step = |i: usize| (i as f64 * slope) as i32;
    page((0..2_480).map(step).collect(), step)
}

fn page(shear: Vec<i32>, across: impl Fn(usize) -> i32) -> LayoutPage {
    let (page_width, page_height) = (2_480, 3_508);
    let height = page_height + shear[page_width - 1] as usize;
    let shear_x: Vec<i32> = (0..height).map(across).collect();
    let mut random = Random::new(1);
    LayoutPage {
        page_width,
        page_height,
        width: page_width + shear_x[height - 1] as usize,
        height,
        gray: (0..page_width * page_height)
            .map(|_| random.bits() as u8)
            .collect(),
        shear,
        shear_x,
    }
}
