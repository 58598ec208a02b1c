//! Whole pages, against `detect_with`.

use std::hint::black_box;

use differential::owned::{GlyphsPage, PiecesPage, WholePage};
use differential::pages::composed;
use differential::refusals::workspace;
use differential::{forms, masks, pieces};
use lanegravel_binding::detect as ffi;
use pagetriage::pixel::rulings;

use crate::params;
use crate::random::Random;
use crate::rust_layout::whole;
use crate::timing::{Measurement, Times, compare};

pub const MEASUREMENTS: [Measurement; 4] = [
    ("detect, a form, A4 at 300 dots an inch", || {
        let form = forms::askew(&mut Random::new(1), 2_480, 3_508, 300, 0.01);
        read(&[form], 21)
    }),
    ("detect, 100 pages of 64 by 64 with ten pieces", || {
        let mut random = Random::new(1);
        let pages: Vec<WholePage> = (0..100).map(|_| tiny(&mut random)).collect();
        read(&pages, 201)
    }),
    ("detect, 4,096 pieces and 16,384 glyph boxes", || {
        read(&[crowded()], 5)
    }),
    ("detect, a form, levelled 8,192 square", || {
        let form = forms::askew(&mut Random::new(1), 8_110, 8_111, 600, 0.01);
        assert_eq!((form.width, form.height), (8_192, 8_192));
        read(&[form], 5)
    }),
];

/// Ten strokes, and up to six glyph boxes.
fn tiny(random: &mut Random) -> WholePage {
    let mut rules = PiecesPage {
        xheight: 4.0,
        ..pieces::picture(random, 64, 64)
    };
    for k in 0..10 {
        let at = random.below(60) as u32;
        let (from, to) = (2 + random.below(8) as u32, 50 + random.below(10) as u32);
        let [x0, y0, x1, y1] = match k % 2 {
            0 => [from, at, to, at + 1],
            _ => [at, from, at + 1, to],
        };
        rules.pieces.extend([x0, y0, x1, y1]);
        for y in y0..=y1 {
            let row = 64 * y as usize;
            rules.raster[row + x0 as usize..=row + x1 as usize].fill(20);
        }
    }
    let mut marks = GlyphsPage {
        xheight: 4.0,
        ..masks::blank(64, 64)
    };
    masks::scatter(random, &mut marks);
    let shear = (0..62).map(|x| x / 31).collect();
    let shear_x = (0..64).map(|y| 2 - y / 32).collect();
    composed(rules, marks, 62, shear, shear_x)
}

/// A page of A4 at 300 dots an inch full of strokes, none near another, and of squares in rows.
fn crowded() -> WholePage {
    let (width, height) = (2_480, 3_508);
    let mut rules = PiecesPage {
        xheight: 10.0,
        ..pieces::picture(&mut Random::new(1), width, height)
    };
    let mut marks = masks::blank(width, height);
    for (row, column) in (0..64).flat_map(|i| (0..64).map(move |j| (i, j))) {
        let (x, y) = (38 * column, 54 * row);
        rules.pieces.extend([x, y, x + 19, y + 1]);
    }
    for (row, column) in (0..128).flat_map(|i| (0..128).map(move |j| (i, j))) {
        let (left, top) = (19 * column, 27 * row + 8);
        for (x, y) in (0..9).flat_map(|y| (0..9).map(move |x| (x, y))) {
            let rim = x % 8 == 0 || y % 8 == 0;
            marks.ink[(top + y) * width + left + x] = u8::from(rim);
        }
        let (x, y) = (left as u32, top as u32);
        marks.glyphs.extend([x, y, x + 8, y + 8]);
    }
    marks.dpi = 100;
    composed(rules, marks, height, vec![0; width], vec![0; height])
}

fn read(pages: &[WholePage], runs: usize) -> Times {
    let given: Vec<_> = pages
        .iter()
        .map(|page| {
            let fusion = params::rust_fusion(&page.fusion);
            (whole(page), params::rust(&page.params), fusion)
        })
        .collect();
    let mut lent: Vec<_> = pages.iter().map(workspace).collect();
    let theirs = |k: usize| {
        let (layout, p, fusion) = black_box(&given[k]);
        rulings::detect_with(layout, &pages[k].gray, pages[k].dpi, p, fusion)
    };
    for (k, page) in pages.iter().enumerate() {
        let found = ffi::detect(&page.given(), &mut lent[k]);
        let findings = theirs(k).map_or(usize::MAX, |their| their.findings.len());
        assert_eq!((found.number, found.findings), (0, findings));
    }
    compare(
        runs,
        || {
            for (page, lent) in pages.iter().zip(&mut lent) {
                black_box(ffi::detect(black_box(&page.given()), lent));
            }
        },
        || {
            for k in 0..pages.len() {
                black_box(theirs(k).is_ok());
            }
        },
    )
}
