//! The inverse of levelling, `unlevel`. The Rust has none: its `level_gray` makes the rasters that are
//! given, so that the page that it levelled is the answer, whatever stands in the padding, and levels
//! again what came back. The pages are those of the other calls about levelling.

use lanegravel_binding::layout as ffi;

use crate::forms;
use crate::layout::{beside, lendable, page, tables_question, words};
use crate::owned::LayoutPage;
use crate::random::Random;
use crate::rust_layout::layout;
use crate::tally::Tally;

/// A levelled raster, and the page that comes back from it where no question is missed.
pub struct Archived {
    pub raster: Vec<u8>,
    pub gray: Vec<u8>,
}

/// The whole page, or every lent byte as it was.
pub fn unlevel(random: &mut Random, count: u64) -> Tally {
    let mut tally = Tally::default();
    for case in 0..count {
        let page = page(random, case);
        let archived = archived(random, &page);
        let room = lent_or_beside(random, lendable(page.page_width, page.page_height));
        compare(random, &mut tally, &page, &archived, room);
    }
    tally
}

/// Forms of A4 at 100 dots an inch, askew.
pub fn on_forms(random: &mut Random, count: u64) -> Tally {
    let mut tally = Tally::default();
    for _ in 0..count {
        let form = forms::form(random, 827, 1_169, 100);
        let page = LayoutPage {
            page_width: form.page_width,
            page_height: form.page_height,
            width: form.width,
            height: form.height,
            gray: form.gray,
            shear: form.shear,
            shear_x: form.shear_x,
        };
        let archived = archived(random, &page);
        compare(random, &mut tally, &page, &archived, page.gray.len());
    }
    tally
}

fn compare(
    random: &mut Random,
    tally: &mut Tally,
    page: &LayoutPage,
    Archived { raster, gray }: &Archived,
    room: usize,
) {
    let lent = bytes(random, room);
    let number = unlevel_question(page, raster.len(), room);
    let expected = if number == 0 { gray } else { &lent };
    let mut out = lent.clone();
    let answer = ffi::unlevel(&page.given(), raster, &mut out);
    let input = || format!("{page:?} raster {raster:?} room {room}");
    tally.compare(&words(number, expected), &words(answer, &out), input);
    if number == 0 {
        let returns = [u64::from(is_white(page, raster)); 2];
        tally.compare(&returns, &levelled_again(page, raster, &out), input);
    }
}

/// `to_page` of the levelled place of every pixel, or of a few where there are many.
pub fn to_page_of_pixels(random: &mut Random, count: u64) -> Tally {
    let mut tally = Tally::default();
    for case in 0..count {
        let page = page(random, case);
        if tables_question(&page, true) != 0 {
            continue;
        }
        let few = page.page_width * page.page_height <= 256;
        let pixels = pixels(&page).filter(|_| few || random.below(256) == 0);
        for (x, y) in pixels.collect::<Vec<_>>() {
            let (column, row) = levelled_place(&page, x, y);
            let rust = layout(&page).to_page(column as u32, row as u32);
            let a = ffi::to_page(&page.given(), column as u32, row as u32);
            let found = [a.number.into(), a.x as u64, a.y as u64];
            let input = || format!("{page:?} pixel {x} {y}");
            tally.compare(&[0, x as u64, y as u64], &found, input);
            tally.compare(&[0, rust.0 as u64, rust.1 as u64], &found, input);
        }
    }
    tally
}

/// The number of the first missed question, said here in plain Rust.
pub fn unlevel_question(page: &LayoutPage, raster: usize, room: usize) -> u32 {
    let lent = room as u128 == page.page_width as u128 * page.page_height as u128;
    match tables_question(page, lent) {
        0 if raster as u128 != page.width as u128 * page.height as u128 => 14,
        number => number,
    }
}

/// What the Rust levels, in half of the cases with grey in the padding, now and then of another length;
/// any bytes where sides and tables would not do.
pub fn archived(random: &mut Random, page: &LayoutPage) -> Archived {
    let mut archived = Archived {
        raster: Vec::new(),
        gray: Vec::new(),
    };
    if tables_question(page, true) == 0 {
        archived.gray = bytes(random, page.page_width * page.page_height);
        archived.raster = layout(page).level_gray(&archived.gray);
        if random.below(2) == 0 {
            blot(random, page, &mut archived.raster);
        }
    } else {
        archived.raster = bytes(random, lendable(page.width, page.height));
    }
    let length = lent_or_beside(random, archived.raster.len());
    archived.raster.resize(length, 255);
    archived
}

/// Writes some byte to places that no pixel reaches: to each of them, or to a single one.
fn blot(random: &mut Random, page: &LayoutPage, raster: &mut [u8]) {
    let padding = padding(page);
    let single = random.below(2) == 0;
    let chosen = random.below(padding.len().max(1) as u64) as usize;
    for (k, place) in padding.into_iter().enumerate() {
        if !single || k == chosen {
            raster[place] = random.pick(&[0, 7, 254, 255]);
        }
    }
}

/// The places that no page pixel reaches.
fn padding(page: &LayoutPage) -> Vec<usize> {
    let mut reached = vec![false; page.width * page.height];
    for (x, y) in pixels(page) {
        let (column, row) = levelled_place(page, x, y);
        reached[row * page.width + column] = true;
    }
    let places = reached.into_iter().enumerate();
    places.filter(|(_, r)| !r).map(|(place, _)| place).collect()
}

fn is_white(page: &LayoutPage, raster: &[u8]) -> bool {
    padding(page).into_iter().all(|place| raster[place] == 255)
}

/// Whether the page levels to the raster again: by the Rust, and by the library.
fn levelled_again(page: &LayoutPage, raster: &[u8], gray: &[u8]) -> [u64; 2] {
    let mut out: Vec<u8> = raster.iter().map(|byte| !byte).collect();
    let page = LayoutPage {
        gray: gray.into(),
        ..page.clone()
    };
    let number = ffi::level_gray(&page.given(), &mut out);
    let rust = layout(&page).level_gray(gray) == raster;
    [rust, number == 0 && out == raster].map(u64::from)
}

fn pixels(page: &LayoutPage) -> impl Iterator<Item = (usize, usize)> {
    let (width, height) = (page.page_width, page.page_height);
    (0..height).flat_map(move |y| (0..width).map(move |x| (x, y)))
}

/// Document 01: row R = Y + shear[X], column X + shear_x[R].
fn levelled_place(page: &LayoutPage, x: usize, y: usize) -> (usize, usize) {
    let row = y + page.shear[x] as usize;
    (x + page.shear_x[row] as usize, row)
}

fn lent_or_beside(random: &mut Random, n: usize) -> usize {
    if random.below(12) == 0 {
        beside(random, n)
    } else {
        n
    }
}

fn bytes(random: &mut Random, count: usize) -> Vec<u8> {
    (0..count).map(|_| random.bits() as u8).collect()
}
