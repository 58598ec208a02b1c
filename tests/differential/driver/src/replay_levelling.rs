//! The stored calls of `level_gray`, `to_page`, `rect_to_page` and `unlevel`: one small page with every
//! limit of the questions and what lies past it, one change at a time, then pages as the comparisons draw
//! them.

use pagetriage::pixel::layout::Rect;

use crate::layout::{along, level_question, map_question, page, rectangle};
use crate::owned::LayoutPage;
use crate::questions::LARGEST_SIDE as LARGEST;
use crate::random::Random;
use crate::replay::Sample;
use crate::replay_pages::Line;
use crate::rust_layout::layout;
use crate::unlevel::{Archived, archived, unlevel_question};

/// How many drawn pages each call has; every other one is spoilt.
const DRAWN: u64 = 32;

/// The most that the program has room for: entries of a table, and here bytes of a raster.
const ENTRIES: usize = 64;
const PIXELS: usize = 128;

/// The places of the base page's picture.
const ROOM: usize = 20;

/// The pixels of the base page.
const PAGE: usize = 6;

/// What every byte of a raster is before the call.
const LENT: u8 = 7;

/// The number, then the raster: the Rust's, or as it was lent.
pub fn add_level_gray(sample: &mut Sample, random: &mut Random) {
    let pages = at_limits().into_iter().chain(drawn(random));
    let mut cases: Vec<(LayoutPage, usize)> = pages.map(with_room).collect();
    for pixels in [5, 7] {
        let mut page = base();
        page.gray.resize(pixels, 0);
        cases.push((page, ROOM));
    }
    cases.extend([ROOM - 1, ROOM + 1].map(|room| (base(), room)));
    cases.extend(several().map(|page| (page, ROOM - 1)));
    for (page, room) in cases {
        let number = level_question(&page, room);
        let raster = match number {
            0 => layout(&page).level_gray(&page.gray),
            _ => vec![LENT; room],
        };
        let mut answer = Line::default();
        answer.word(number.into());
        answer.wholes(&wholes(&raster));
        sample.add_line(&call(10, &page, &page.gray, &[room as u32]), &answer.0);
    }
}

/// The number, then the place, 0 and 0 where the page is refused.
pub fn add_to_page(sample: &mut Sample, random: &mut Random) {
    let mut cases: Vec<(LayoutPage, [u32; 2])> = Vec::new();
    cases.extend(at_limits().into_iter().map(|page| (page, [0, 0])));
    for (x, y) in (0..=4).flat_map(|y| (0..=5).map(move |x| (x, y))) {
        cases.push((base(), [x, y]));
    }
    cases.extend([[u32::MAX, 0], [0, u32::MAX]].map(|place| (base(), place)));
    cases.extend(several().map(|page| (page, [5, 4])));
    for x in [LARGEST as u32 - 1, LARGEST as u32] {
        cases.push((wide(), [x, 0]));
    }
    for page in drawn(random) {
        let place = [along(random, page.width), along(random, page.height)];
        cases.push((page, place));
    }
    for (page, [x, y]) in cases {
        let number = map_question(&page, [x, y, x, y]);
        let (px, py) = match number {
            0 => layout(&page).to_page(x, y),
            _ => (0, 0),
        };
        let mut answer = Line::default();
        answer.word(number.into());
        answer.word(px as u64);
        answer.word(py as u64);
        sample.add_line(&call(11, &page, &[], &[x, y]), &answer.0);
    }
}

/// The number, then the rectangle, four times 0 where the page is refused.
pub fn add_rect_to_page(sample: &mut Sample, random: &mut Random) {
    let mut cases: Vec<(LayoutPage, [u32; 4])> = Vec::new();
    cases.extend(at_limits().into_iter().map(|page| (page, [0; 4])));
    cases.extend(RECTANGLES.map(|r| (base(), r)));
    cases.extend(several().map(|page| (page, [3, 3, 2, 2])));
    for x1 in [LARGEST as u32 - 1, LARGEST as u32] {
        cases.push((wide(), [1, 0, x1, 0]));
    }
    for page in drawn(random) {
        let r = rectangle(random, &page);
        cases.push((page, r));
    }
    for (page, [x0, y0, x1, y1]) in cases {
        let number = map_question(&page, [x0, y0, x1, y1]);
        let area = match number {
            0 => layout(&page).rect_to_page(&Rect { x0, y0, x1, y1 }),
            _ => [0; 4],
        };
        let mut answer = Line::default();
        answer.word(number.into());
        answer.wholes(&area);
        sample.add_line(&call(12, &page, &[], &[x0, y0, x1, y1]), &answer.0);
    }
}

/// The number, then the page: the one that the Rust levelled to the raster that is given, or as it was
/// lent.
pub fn add_unlevel(sample: &mut Sample, random: &mut Random) {
    let mut cases: Vec<(LayoutPage, Archived, usize)> = Vec::new();
    for page in at_limits().into_iter().chain(drawn(random)) {
        let mut given = archived(random, &page);
        given.raster.truncate(PIXELS); // so that a larger one misses question 14
        let room = match page.page_width.saturating_mul(page.page_height) {
            room if room <= PIXELS => room,
            _ => PAGE,
        };
        cases.push((page, given, room));
    }
    for page in several() {
        for (length, room) in [(ROOM, PAGE), (ROOM - 1, PAGE), (ROOM - 1, PAGE + 1)] {
            cases.push((page.clone(), levelled_base(length), room));
        }
    }
    for length in [ROOM - 1, ROOM, ROOM + 1] {
        for room in [PAGE - 1, PAGE, PAGE + 1] {
            cases.push((base(), levelled_base(length), room));
        }
    }
    for (page, Archived { raster, gray }, room) in cases {
        let number = unlevel_question(&page, raster.len(), room);
        let mut answer = Line::default();
        answer.word(number.into());
        answer.wholes(&wholes(&match number {
            0 => gray,
            _ => vec![LENT; room],
        }));
        sample.add_line(&call(14, &page, &raster, &[room as u32]), &answer.0);
    }
}

/// The base page, levelled, in so many bytes.
fn levelled_base(length: usize) -> Archived {
    let gray = base().gray;
    let mut raster = layout(&base()).level_gray(&gray);
    raster.resize(length, 255);
    Archived { raster, gray }
}

/// Rectangles of the base page: the whole, its corners, rows and columns, then one past each edge and
/// out of order each way.
const RECTANGLES: [[u32; 4]; 15] = [
    [0, 0, 4, 3],
    [0, 0, 0, 0],
    [4, 0, 4, 0],
    [0, 3, 0, 3],
    [4, 3, 4, 3],
    [1, 1, 3, 2],
    [0, 2, 4, 2],
    [2, 0, 2, 3],
    [0, 0, 5, 3],
    [0, 0, 4, 4],
    [3, 0, 2, 3],
    [0, 3, 4, 2],
    [5, 0, 4, 3],
    [0, 0, u32::MAX, 3],
    [0, 0, 4, u32::MAX],
];

/// A page of 3 by 2 in a picture of 5 by 4, with an entry at either limit of both tables.
fn base() -> LayoutPage {
    LayoutPage {
        page_width: 3,
        page_height: 2,
        width: 5,
        height: 4,
        gray: vec![10, 20, 30, 40, 50, 60],
        shear: vec![0, 2, 1],
        shear_x: vec![2, 0, 1, 2],
    }
}

/// One pixel in a picture as wide as there may be.
fn wide() -> LayoutPage {
    let right = LARGEST as i32 - 1;
    still([1, 1, LARGEST, 1], vec![right])
}

/// A page without shear, in a picture of which every row begins where `shear_x` says.
fn still([page_width, page_height, width, height]: [usize; 4], shear_x: Vec<i32>) -> LayoutPage {
    LayoutPage {
        page_width,
        page_height,
        width,
        height,
        gray: vec![77; page_width * page_height],
        shear: vec![0; page_width],
        shear_x,
    }
}

/// The base page and what differs from it in one thing, pages without padding, and the widest picture.
fn at_limits() -> Vec<LayoutPage> {
    let mut pages = vec![base(), still([1, 1, 1, 1], vec![0]), wide()];
    pages.push(still([3, 2, 3, 2], vec![0, 0]));
    pages.push(still([3, 2, 3, 2], vec![0, 1]));
    for [page_width, page_height, width, height] in SIDES {
        pages.push(LayoutPage {
            page_width,
            page_height,
            width,
            height,
            ..base()
        });
    }
    for (columns, rows) in [(2, 4), (4, 4), (3, 3), (3, 5)] {
        let mut page = base();
        page.shear.resize(columns, 0);
        page.shear_x.resize(rows, 0);
        pages.push(page);
    }
    for entry in [-1, 3, i32::MIN, i32::MAX] {
        let mut page = base();
        page.shear[2] = entry;
        pages.push(page);
        let mut page = base();
        page.shear_x[0] = entry;
        pages.push(page);
    }
    pages
}

/// Pages that miss question 4, 3 and 4, and 1, 3 and 4; each is tried with what misses a later one too.
fn several() -> [LayoutPage; 3] {
    let mut entry = base();
    entry.shear[2] = -1;
    let mut length = entry.clone();
    length.shear_x.pop();
    let side = LayoutPage {
        height: 0,
        ..length.clone()
    };
    [entry, length, side]
}

/// Sides in place of the base page's: none, a page larger than its picture, the largest and one past it.
/// The lists stay small, so that the largest misses a later question where one past it misses question 1.
const SIDES: [[usize; 4]; 15] = [
    [0, 2, 5, 4],
    [3, 0, 5, 4],
    [3, 2, 0, 4],
    [3, 2, 5, 0],
    [6, 2, 5, 4],
    [3, 5, 5, 4],
    [3, 2, LARGEST, 4],
    [3, 2, LARGEST + 1, 4],
    [3, 2, 5, LARGEST],
    [3, 2, 5, LARGEST + 1],
    [LARGEST, 2, LARGEST, 4],
    [LARGEST + 1, 2, LARGEST + 1, 4],
    [3, LARGEST, 5, LARGEST],
    [3, LARGEST + 1, 5, LARGEST + 1],
    [usize::MAX, usize::MAX, usize::MAX, usize::MAX],
];

/// Pages as the comparisons draw them, as far as the program has room for them.
fn drawn(random: &mut Random) -> Vec<LayoutPage> {
    let mut pages = Vec::new();
    while (pages.len() as u64) < DRAWN {
        let page = page(random, pages.len() as u64);
        let tables = page.shear.len().max(page.shear_x.len());
        let raster = page.gray.len().max(page.width.saturating_mul(page.height));
        if tables <= ENTRIES && raster <= PIXELS {
            pages.push(page);
        }
    }
    pages
}

/// A page with as many bytes as its picture has, or as the base page's where there would be too many.
fn with_room(page: LayoutPage) -> (LayoutPage, usize) {
    match page.width.saturating_mul(page.height) {
        room if room <= PIXELS => (page, room),
        _ => (page, ROOM),
    }
}

/// The number of a call, the sides, the tables in two's complement, the raster and its numbers.
fn call(number: u64, page: &LayoutPage, raster: &[u8], numbers: &[u32]) -> String {
    let sides = [page.page_width, page.page_height, page.width, page.height];
    let mut line = Line(format!("{number:x}"));
    sides.iter().for_each(|&n| line.word(n as u64));
    for table in [&page.shear, &page.shear_x] {
        line.list(&table.iter().map(|&x| x as u32).collect::<Vec<_>>());
    }
    line.list(&wholes(raster));
    line.list(numbers);
    line.0
}

fn wholes(bytes: &[u8]) -> Vec<u32> {
    bytes.iter().map(|&x| x.into()).collect()
}
