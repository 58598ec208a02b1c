//! Glyph boxes to boxes: `boxes`, against the unchanged Rust to the bit. Masks are small and of many
//! kinds; every fourth one misses a question or several.

use lanegravel_binding::boxes::{self as ffi, BoxesLists};
use pagetriage::pixel::rulings;

use crate::masks;
use crate::owned::GlyphsPage;
use crate::params;
use crate::questions;
use crate::random::Random;
use crate::rust_layout::with_glyphs;
use crate::tally::{Tally, bits};

pub const MOST_GLYPHS: usize = 16_384;

/// Small masks, now and then one with a tall glyph box, and one with as many glyph boxes or as long a
/// side as there may be.
pub fn boxes(random: &mut Random, count: u64) -> Tally {
    let mut tally = Tally::default();
    for case in 0..count {
        let mut page = match case % 50_000 {
            49_998 => masks::crowded(random, MOST_GLYPHS),
            24_998 => masks::large(random),
            _ if case % 200 == 50 => masks::tall(random),
            _ => masks::small(random),
        };
        if case % 4 == 3 {
            for _ in 0..=random.below(3) {
                spoil(random, &mut page);
            }
        }
        compare(random, &mut tally, &page);
    }
    tally
}

/// Pages of 1,240 by 1,754 with questions, answer boxes of one size and ticks in them.
pub fn forms(random: &mut Random, count: u64) -> Tally {
    let mut tally = Tally::default();
    for _ in 0..count {
        let page = masks::form(random, 1_240, 1_754, 700);
        compare(random, &mut tally, &page);
    }
    tally
}

fn compare(random: &mut Random, tally: &mut Tally, page: &GlyphsPage) {
    let lent = lend(random, page);
    let mut found = lent.clone();
    let answer = ffi::boxes(&page.given(), &mut found);
    let number = question(page, &lent);
    let (count, written) = if number == 0 {
        accepted(page, &lent)
    } else {
        (0, lent)
    };
    tally.compare(
        &words(number, count, &written),
        &words(answer.number, answer.count, &found),
        || format!("{page:?}"),
    );
}

/// The number, the count and every lent place.
fn words(number: u32, count: usize, lent: &BoxesLists) -> Vec<u64> {
    let mut words = vec![u64::from(number), count as u64];
    words.extend(lent.rects.iter().chain(&lent.marks).map(|&x| u64::from(x)));
    words.extend(lent.coverages.iter().map(|&x| bits(x)));
    words
}

/// What an accepted page answers: the Rust's boxes.
pub fn accepted(page: &GlyphsPage, lent: &BoxesLists) -> (usize, BoxesLists) {
    let layout = with_glyphs(page);
    let boxes = rulings::boxes(&layout, page.dpi, &params::rust(&page.params));
    let mut written = lent.clone();
    for (k, found) in boxes.iter().enumerate() {
        let r = &found.bbox;
        written.rects[4 * k..4 * k + 4].copy_from_slice(&[r.x0, r.y0, r.x1, r.y1]);
        written.marks[k] = u32::from(found.checked);
        written.coverages[k] = found.edge_coverage;
    }
    (boxes.len(), written)
}

/// Lists with room and sometimes more, filled with a pattern; now and then one entry short.
fn lend(random: &mut Random, page: &GlyphsPage) -> BoxesLists {
    let n = page.glyphs.len() / 4;
    let short = random.below(60);
    let mut room = |list: u64, n: usize| {
        if short == list {
            n.saturating_sub(1)
        } else {
            n + random.below(3) as usize
        }
    };
    let sizes = [room(0, 4 * n), room(1, n), room(2, n)];
    let mut words = |n: usize| (0..n).map(|_| random.bits() as u32).collect::<Vec<u32>>();
    BoxesLists {
        rects: words(sizes[0]),
        marks: words(sizes[1]),
        coverages: words(sizes[2]).into_iter().map(f64::from).collect(),
    }
}

/// The number of the first missed question of document 01, said here in plain Rust.
pub fn question(page: &GlyphsPage, lent: &BoxesLists) -> u32 {
    let n = page.glyphs.len() / 4;
    let places = page.width as u128 * page.height as u128;
    let room = lent.rects.len() >= 4 * n && lent.marks.len() >= n && lent.coverages.len() >= n;
    questions::first_missed(&[
        questions::sides(page.width, page.height),
        (2, page.dpi != 0),
        questions::xheight(page.xheight),
        (3, page.ink.len() as u128 == places),
        questions::rectangles(&page.glyphs, MOST_GLYPHS),
        questions::inside(&page.glyphs, page.width, page.height),
        questions::settings(&page.params),
        (14, room),
    ])
}

/// One change that may miss a question.
pub fn spoil(random: &mut Random, page: &mut GlyphsPage) {
    match random.below(14) {
        0 => page.width = questions::bad_side(random),
        1 => page.height = questions::bad_side(random),
        2 => page.xheight = questions::bad_xheight(random),
        3 => page.dpi = 0,
        4 => page.ink.push(0),
        5 => {
            page.ink.pop();
        }
        6 if random.below(50) == 0 => page.glyphs = vec![0; 4 * (MOST_GLYPHS + 1)],
        6 => page.glyphs.push(0),
        7 | 8 => questions::move_outside(random, &mut page.glyphs, page.width, page.height),
        _ => questions::spoil_settings(random, &mut page.params),
    }
}
