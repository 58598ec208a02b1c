//! Pieces to rulings: pages as a scanner gives them, and pages with as many pieces as there may be.

use std::hint::black_box;

use differential::owned::PiecesPage;
use lanegravel_binding::segments::{self as ffi, SegmentsLists};
use pagetriage::pixel::rulings;

use crate::params::{self, VALID};
use crate::random::Random;
use crate::ruled_tables::{form, strokes};
use crate::rust_layout::with_rules;
use crate::timing::{Measurement, Times, compare};

pub const MEASUREMENTS: [Measurement; 6] = [
    ("rulings, a page of 300 pieces, its rules drawn", || {
        join(drawn_page())
    }),
    ("rulings, 4,096 pieces, all touching", || {
        join(page(4_096, 64, 24.0, [10, 30, 40, 31].repeat(4_096)))
    }),
    ("rulings, a form of 240 pieces", || {
        let pieces = form(4, 12, 6, 525).iter().flat_map(|r| r.rect).collect();
        join(page(2_480, 3_508, 10.0, pieces))
    }),
    ("rulings, 4,096 pieces, none touching", || {
        join(page(4_096, 4_096, 10.0, strokes()))
    }),
    ("rulings, 4,096 pieces in one chain", || {
        let pieces = (0..4_096).flat_map(|i| [2 * i, 5, 2 * i, 5]).collect();
        join(page(8_192, 16, 10.0, pieces))
    }),
    (
        "rulings, 4 pieces as large as a picture of 8,192 square",
        || {
            let pieces = (0..4).flat_map(|i| [0, 4 * i, 8_191, 8_191]).collect();
            join(page(8_192, 8_192, 1.0, pieces))
        },
    ),
];

/// Five tables of 9 rows and 4 columns on A4 at 300 dots an inch, each rule in four pieces that lie
/// up to a pixel apart and are darker than the paper.
fn drawn_page() -> PiecesPage {
    let random = &mut Random::new(1);
    let mut page = page(2_480, 3_508, 24.0, Vec::new());
    page.raster.fill_with(|| 215 + random.below(41) as u8);
    for top in (0..5).map(|table| 150 + 660 * table) {
        for y in (0..10).map(|row| top + 60 * row) {
            for x in (0..4).map(|part| 200 + 520 * part) {
                draw(random, &mut page, [x, y, x + 512, y + 2]);
            }
        }
        for x in (0..5).map(|column| 200 + 519 * column) {
            for y in (0..4).map(|part| top + 135 * part) {
                draw(random, &mut page, [x, y, x + 2, y + 128]);
            }
        }
    }
    page
}

/// One piece, moved by up to a pixel across its rule.
fn draw(random: &mut Random, page: &mut PiecesPage, [x0, y0, x1, y1]: [u32; 4]) {
    let across = random.below(2) as u32;
    let (right, down) = if x1 - x0 > y1 - y0 {
        (0, across)
    } else {
        (across, 0)
    };
    let (x0, y0, x1, y1) = (x0 + right, y0 + down, x1 + right, y1 + down);
    for y in y0..=y1 {
        for x in x0..=x1 {
            page.raster[y as usize * page.width + x as usize] = random.below(90) as u8;
        }
    }
    page.pieces.extend([x0, y0, x1, y1]);
}

fn page(width: usize, height: usize, xheight: f64, pieces: Vec<u32>) -> PiecesPage {
    let mut random = Random::new(1);
    PiecesPage {
        width,
        height,
        xheight,
        raster: (0..width * height).map(|_| random.bits() as u8).collect(),
        pieces,
        params: VALID,
    }
}

fn join(page: PiecesPage) -> Times {
    let n = page.pieces.len() / 4;
    let layout = with_rules(page.width, page.height, page.xheight, &page.pieces);
    let p = params::rust(&page.params);
    let mut lent = SegmentsLists::with_room(n, n);
    let found = ffi::segments(&page.given(), &mut lent);
    let theirs = rulings::segments(&layout, &page.raster, &p);
    assert_eq!((found.number, found.count), (0, theirs.len()));
    compare(
        if page.raster.len() < 1 << 26 { 21 } else { 3 },
        || {
            black_box(ffi::segments(black_box(&page.given()), &mut lent));
        },
        || {
            black_box(rulings::segments(black_box(&layout), &page.raster, &p));
        },
    )
}
