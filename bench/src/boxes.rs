//! Glyph boxes to boxes, and boxes to grids: a form, and pages with as many as there may be.

use std::hint::black_box;

use differential::owned::GlyphsPage;
use differential::{grids, masks};
use lanegravel_binding::boxes::{self as ffi, BoxesLists};
use lanegravel_binding::grids::{self as ffi_grids, GridsLists};
use pagetriage::pixel::rulings;

use crate::params::{self, VALID};
use crate::random::Random;
use crate::rust_layout::with_glyphs;
use crate::timing::{Measurement, Times, compare};

pub const MEASUREMENTS: [Measurement; 7] = [
    ("boxes, a form of 3,000 glyphs", || {
        find(masks::form(&mut Random::new(1), 2_480, 3_508, 3_000))
    }),
    ("boxes, 16,384 small glyph boxes", || {
        find(masks::crowded(&mut Random::new(1), 16_384))
    }),
    (
        "boxes, 16,384 glyph boxes, all too narrow at the first test",
        || find(narrow()),
    ),
    (
        "boxes, a glyph box as large as a picture of 8,192 square",
        || find(whole()),
    ),
    ("grids, 16,384 boxes in one grid", || group(table(), 1)),
    ("grids, 16,384 boxes in one row", || group(row(), 1)),
    ("grids, 16,384 boxes, none touching", || {
        group(apart(), 16_384)
    }),
];

fn find(page: GlyphsPage) -> Times {
    let layout = with_glyphs(&page);
    let p = params::rust(&page.params);
    let mut lent = BoxesLists::with_room(page.glyphs.len() / 4);
    let found = ffi::boxes(&page.given(), &mut lent);
    let theirs = rulings::boxes(&layout, page.dpi, &p);
    assert_eq!((found.number, found.count), (0, theirs.len()));
    compare(
        21,
        || {
            black_box(ffi::boxes(black_box(&page.given()), &mut lent));
        },
        || {
            black_box(rulings::boxes(black_box(&layout), page.dpi, &p));
        },
    )
}

/// Glyph boxes of which none is wide enough for a box.
fn narrow() -> GlyphsPage {
    let mut page = masks::crowded(&mut Random::new(1), 16_384);
    page.params.box_min_xh = 10.0;
    page.params.box_max_xh = 12.0;
    page
}

/// A glyph box as large as the picture, with ink in its first row and no column over the limit, so that
/// every column is tried.
fn whole() -> GlyphsPage {
    let mut page = masks::blank(8_192, 8_192);
    page.xheight = 4_096.0;
    page.ink[..8_192].fill(1);
    page.glyphs.extend([0, 0, 8_191, 8_191]);
    page
}

/// Boxes of one row, half of them above each other.
fn row() -> Vec<u32> {
    (0..16_384u32)
        .flat_map(|i| [i % 8_172, 10, i % 8_172 + 20, 30])
        .collect()
}

/// 128 rows of 128 boxes.
fn table() -> Vec<u32> {
    let place = |k: u32| 60 * k + 10;
    (0..128)
        .flat_map(|i| {
            (0..128).flat_map(move |j| [place(j), place(i), place(j) + 20, place(i) + 20])
        })
        .collect()
}

/// Boxes of which no two have a centre in common, nor one beside it, either way, save those of widths
/// that are not similar: 8,192 columns have no room for so many of one width.
fn apart() -> Vec<u32> {
    let widths = [1u32, 3, 6, 12, 24, 48, 96, 192];
    let mut rects = Vec::new();
    for (k, width) in widths.into_iter().enumerate() {
        for i in 0..2_048u32 {
            let (x, y) = (3 * i + k as u32, 3 * (2_047 - i) + k as u32);
            rects.extend([x, y, x + width - 1, y + width - 1]);
        }
    }
    rects
}

fn group(rects: Vec<u32>, sets: usize) -> Times {
    let n = rects.len() / 4;
    let given = grids::check_boxes(&rects);
    let params = params::rust(&VALID);
    let mut lists = GridsLists::with_room(n);
    let found = ffi_grids::box_grids(1.0, &VALID, &rects, &mut lists);
    let theirs = rulings::box_grids(&given, 1.0, &params);
    assert_eq!((found.number, found.sets), (0, sets));
    assert_eq!(found.grids, theirs.len());
    compare(
        5,
        || {
            black_box(ffi_grids::box_grids(
                1.0,
                &VALID,
                black_box(&rects),
                &mut lists,
            ));
        },
        || {
            black_box(rulings::box_grids(black_box(&given), 1.0, &params));
        },
    )
}
