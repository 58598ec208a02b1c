//! Levelling and the way back to the page: `level_gray`, `to_page`, `rect_to_page`. Pages are small,
//! their shear tables at and around the limits, and every other page misses a question or several.

use lanegravel_binding::layout as ffi;
use pagetriage::pixel::layout::Rect;

use crate::owned::LayoutPage;
use crate::questions::{self, LARGEST_SIDE};
use crate::random::Random;
use crate::rust_layout::layout;
use crate::tally::Tally;

/// The whole levelled raster, or every lent byte as it was. What is levelled comes back from
/// `unlevel` as the page that it was.
pub fn level_gray(random: &mut Random, count: u64) -> Tally {
    let mut tally = Tally::default();
    for case in 0..count {
        let page = page(random, case);
        let places = lendable(page.width, page.height);
        let room = if random.below(12) == 0 {
            beside(random, places)
        } else {
            places
        };
        let lent: Vec<u8> = (0..room).map(|_| random.bits() as u8).collect();
        let number = level_question(&page, room);
        let expected = if number == 0 {
            layout(&page).level_gray(&page.gray)
        } else {
            lent.clone()
        };
        let mut out = lent;
        let answer = ffi::level_gray(&page.given(), &mut out);
        tally.compare(&words(number, &expected), &words(answer, &out), || {
            format!("{page:?} room {room}")
        });
        if number == 0 {
            let mut back: Vec<u8> = page.gray.iter().map(|byte| !byte).collect();
            let answer = ffi::unlevel(&page.given(), &out, &mut back);
            tally.compare(&words(0, &page.gray), &words(answer, &back), || {
                format!("{page:?} back")
            });
        }
    }
    tally
}

/// One place a page, half of them in the padding or at an edge.
pub fn to_page(random: &mut Random, count: u64) -> Tally {
    let mut tally = Tally::default();
    for case in 0..count {
        let page = page(random, case);
        let (x, y) = (along(random, page.width), along(random, page.height));
        let expected = match map_question(&page, [x, y, x, y]) {
            0 => {
                let (px, py) = layout(&page).to_page(x, y);
                [0, px as u64, py as u64]
            }
            number => [number.into(), 0, 0],
        };
        let mapped = ffi::to_page(&page.given(), x, y);
        let found = [mapped.number.into(), mapped.x as u64, mapped.y as u64];
        tally.compare(&expected, &found, || format!("{page:?} place {x} {y}"));
    }
    tally
}

/// One rectangle a page: a pixel, the whole picture, any other, and now and then one out of order.
pub fn rect_to_page(random: &mut Random, count: u64) -> Tally {
    let mut tally = Tally::default();
    for case in 0..count {
        let page = page(random, case);
        let [x0, y0, x1, y1] = rectangle(random, &page);
        let expected = match map_question(&page, [x0, y0, x1, y1]) {
            0 => {
                let rect = Rect { x0, y0, x1, y1 };
                let [a, b, c, d] = layout(&page).rect_to_page(&rect).map(u64::from);
                [0, a, b, c, d]
            }
            number => [number.into(), 0, 0, 0, 0],
        };
        let m = ffi::rect_to_page(&page.given(), [x0, y0, x1, y1]);
        let found = [m.number, m.x0, m.y0, m.x1, m.y1].map(u64::from);
        tally.compare(&expected, &found, || {
            format!("{page:?} rectangle {x0} {y0} {x1} {y1}")
        });
    }
    tally
}

/// The number of the first missed question of document 01, said here in plain Rust.
pub fn level_question(page: &LayoutPage, room: usize) -> u32 {
    let grey = page.gray.len() as u128 == page.page_width as u128 * page.page_height as u128;
    match tables_question(page, grey) {
        0 if room as u128 != page.width as u128 * page.height as u128 => 14,
        number => number,
    }
}

pub fn map_question(page: &LayoutPage, [x0, y0, x1, y1]: [u32; 4]) -> u32 {
    let inside = (x1 as usize) < page.width && (y1 as usize) < page.height;
    match tables_question(page, true) {
        0 if !(x0 <= x1 && y0 <= y1 && inside) => 6,
        number => number,
    }
}

/// Questions 1, 3 and 4; `grey` says whether what else question 3 asks holds.
pub fn tables_question(page: &LayoutPage, grey: bool) -> u32 {
    let sides = [page.page_width, page.page_height, page.width, page.height];
    if !sides.iter().all(|n| (1..=LARGEST_SIDE).contains(n))
        || page.page_width > page.width
        || page.page_height > page.height
    {
        return 1;
    }
    if !grey || page.shear.len() != page.page_width || page.shear_x.len() != page.height {
        return 3;
    }
    let down = (page.height - page.page_height) as i64;
    let across = (page.width - page.page_width) as i64;
    let fits = |table: &[i32], limit: i64| table.iter().all(|&s| (0..=limit).contains(&s.into()));
    if fits(&page.shear, down) && fits(&page.shear_x, across) {
        0
    } else {
        4
    }
}

/// Every other page is one that all questions accept; each of the others is spoilt up to three times.
pub fn page(random: &mut Random, case: u64) -> LayoutPage {
    let mut page = accepted(random, case % 5_000 == 4_999);
    if case % 2 == 1 {
        for _ in 0..=random.below(3) {
            spoil(random, &mut page);
        }
    }
    page
}

/// A page that every question accepts; a long one has a side of 8,192.
fn accepted(random: &mut Random, long: bool) -> LayoutPage {
    let (mut page_width, mut page_height) = (side(random), side(random));
    let (mut down, mut across) = (random.below(6) as usize, random.below(6) as usize);
    if long && random.below(2) == 0 {
        page_width = LARGEST_SIDE - across;
    } else if long {
        page_height = LARGEST_SIDE - down;
    }
    if random.below(8) == 0 {
        (down, across) = (0, 0);
    }
    let (width, height) = (page_width + across, page_height + down);
    LayoutPage {
        page_width,
        page_height,
        width,
        height,
        gray: (0..page_width * page_height)
            .map(|_| random.bits() as u8)
            .collect(),
        shear: table(random, page_width, down),
        shear_x: table(random, height, across),
    }
}

fn side(random: &mut Random) -> usize {
    1 + random.below(14) as usize
}

/// Entries from 0 to the limit: all alike, in steps, or mixed, most often at the limits.
pub fn table(random: &mut Random, length: usize, limit: usize) -> Vec<i32> {
    let kind = random.below(4);
    let step = 1 + random.below(4) as usize;
    let one = random.below(limit as u64 + 1) as usize;
    (0..length)
        .map(|i| match kind {
            0 => one,
            1 => (i / step).min(limit),
            2 => random.pick(&[0, limit]),
            _ => random.below(limit as u64 + 1) as usize,
        })
        .map(|entry| entry as i32)
        .collect()
}

/// One change that may miss a question: a side, a length, an entry.
fn spoil(random: &mut Random, page: &mut LayoutPage) {
    let (down, across) = (
        page.height.saturating_sub(page.page_height) as i32,
        page.width.saturating_sub(page.page_width) as i32,
    );
    match random.below(7) {
        0 => *pick_side(random, page) = questions::bad_side(random),
        1 => *pick_side(random, page) += 1,
        2 => resize(random, &mut page.gray),
        3 => resize(random, &mut page.shear),
        4 => resize(random, &mut page.shear_x),
        5 => set_entry(random, &mut page.shear, down),
        _ => set_entry(random, &mut page.shear_x, across),
    }
}

fn pick_side<'a>(random: &mut Random, page: &'a mut LayoutPage) -> &'a mut usize {
    let side = match random.below(4) {
        0 => &mut page.page_width,
        1 => &mut page.page_height,
        2 => &mut page.width,
        _ => &mut page.height,
    };
    *side = (*side).min(usize::MAX - 1);
    side
}

fn resize<T: Copy + Default>(random: &mut Random, list: &mut Vec<T>) {
    let length = beside(random, list.len());
    list.resize(length, T::default());
}

/// A length that is not n: one less, one more, none.
pub fn beside(random: &mut Random, n: usize) -> usize {
    match random.below(3) {
        0 => n + 1,
        1 if n > 0 => n - 1,
        _ if n > 0 => 0,
        _ => 1,
    }
}

fn set_entry(random: &mut Random, table: &mut [i32], limit: i32) {
    if !table.is_empty() {
        let at = random.below(table.len() as u64) as usize;
        table[at] = random.pick(&[-1, limit, limit.saturating_add(1), i32::MIN, i32::MAX]);
    }
}

/// A coordinate: the ends more often, and now and then past the last.
pub fn along(random: &mut Random, side: usize) -> u32 {
    let side = side.min(1 << 20) as u32;
    match random.below(16) {
        0 => side,
        1 => random.pick(&[u32::MAX, side.saturating_add(1)]),
        2..6 => 0,
        6..9 => side.saturating_sub(1),
        _ => random.below(u64::from(side.max(1))) as u32,
    }
}

pub fn rectangle(random: &mut Random, page: &LayoutPage) -> [u32; 4] {
    let (a, b) = (along(random, page.width), along(random, page.width));
    let (c, d) = (along(random, page.height), along(random, page.height));
    match random.below(12) {
        0 => [a, c, b, d],
        1 => [a, c, a, c],
        _ => [a.min(b), c.min(d), a.max(b), c.max(d)],
    }
}

/// The places of a picture, or a few where there would be too many to lend.
pub fn lendable(width: usize, height: usize) -> usize {
    match width.checked_mul(height) {
        Some(places) if places <= 1 << 18 => places,
        _ => 64,
    }
}

pub fn words(number: u32, bytes: &[u8]) -> Vec<u64> {
    let bytes = bytes.iter().map(|&b| u64::from(b));
    [u64::from(number)].into_iter().chain(bytes).collect()
}
