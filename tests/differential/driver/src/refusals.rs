//! The questions put to a whole page, computed from document 01's words, and changes that miss them.

use lanegravel_binding::testing::Lists;
use lanegravel_binding::workspace::{Room, Workspace};

use crate::owned::WholePage;
use crate::params;
use crate::questions::{self, LARGEST_SIDE};
use crate::random::Random;

const MOST_PIECES: usize = 4096;
const MOST_GLYPHS: usize = 16_384;

/// The number of the first missed question of 1 to 14; `room` says whether 14 is met.
pub fn question(page: &WholePage, room: bool) -> u32 {
    let missed = params::first_missed(&page.params);
    questions::first_missed(&[
        (1, sides_met(page)),
        (2, page.dpi != 0),
        questions::xheight(page.xheight),
        (3, lengths_met(page)),
        (4, tables_met(page)),
        questions::rectangles(&page.pieces, MOST_PIECES),
        questions::rectangles(&page.glyphs, MOST_GLYPHS),
        questions::inside(&page.pieces, page.width, page.height),
        questions::inside(&page.glyphs, page.width, page.height),
        (missed, matches!(missed, 0 | 13)),
        (12, params::fusion_met(&page.fusion)),
        (13, missed == 0),
        (14, room),
    ])
}

fn sides_met(page: &WholePage) -> bool {
    let sides = [page.page_width, page.page_height, page.width, page.height];
    sides.iter().all(|n| (1..=LARGEST_SIDE).contains(n))
        && page.page_width <= page.width
        && page.page_height <= page.height
}

fn lengths_met(page: &WholePage) -> bool {
    let places = |width: usize, height: usize| width as u128 * height as u128;
    page.gray.len() as u128 == places(page.page_width, page.page_height)
        && page.ink.len() as u128 == places(page.width, page.height)
        && page.shear.len() == page.page_width
        && page.shear_x.len() == page.height
}

fn tables_met(page: &WholePage) -> bool {
    let fits = |table: &[i32], side: usize, inner: usize| {
        let limit = side as i128 - inner as i128;
        table.iter().all(|&s| (0..=limit).contains(&s.into()))
    };
    fits(&page.shear, page.height, page.page_height)
        && fits(&page.shear_x, page.width, page.page_width)
}

/// The room that question 14 asks, and no more. A picture that is too large to lend misses question 1,
/// so it gets little.
pub fn workspace(page: &WholePage) -> Workspace {
    let places = match page.width.checked_mul(page.height) {
        Some(places) if places <= LARGEST_SIDE * LARGEST_SIDE => places,
        _ => 64,
    };
    let (pieces, glyphs) = (page.pieces.len() / 4, page.glyphs.len() / 4);
    Workspace::with_room(&Room::exact(pieces, glyphs, places))
}

/// Whether question 14 is met: the levelled raster has exactly its room, every other list at least.
pub fn room_met(page: &WholePage, lent: &mut Workspace) -> bool {
    let mut asked = workspace(page);
    let [counts, asked] = [lent, &mut asked].map(counts);
    counts[0] == asked[0] && counts.iter().zip(&asked).all(|(lent, asked)| lent >= asked)
}

fn counts(lent: &mut Workspace) -> Vec<usize> {
    lent.lists().iter().map(|list| list.count()).collect()
}

/// A change that misses one question, its number in front, of a page with pieces and glyph boxes.
pub type Miss = (u32, fn(&mut WholePage));

/// Every question up to 13, in each of the things that it asks.
pub const MISSES: [Miss; 37] = [
    (1, |p| p.page_width = 0),
    (1, |p| p.page_height = 0),
    (1, |p| p.width = LARGEST_SIDE + 1),
    (1, |p| p.height = usize::MAX),
    (1, |p| p.page_width = p.width.saturating_add(1)),
    (1, |p| p.page_height = p.height.wrapping_add(1)),
    (2, |p| p.dpi = 0),
    (2, |p| p.xheight = 0.0),
    (2, |p| p.xheight = 4_096f64.next_up()),
    (2, |p| p.xheight = f64::NAN),
    (3, |p| p.gray.push(0)),
    (3, |p| p.ink.push(0)),
    (3, |p| p.shear.push(0)),
    (3, |p| p.shear_x.push(0)),
    (3, |p| p.gray.truncate(p.gray.len() - 1)),
    (3, |p| p.ink.truncate(p.ink.len() - 1)),
    (3, |p| p.shear.truncate(p.shear.len() - 1)),
    (3, |p| p.shear_x.truncate(p.shear_x.len() - 1)),
    (4, |p| p.shear[1] = -1),
    (4, |p| p.shear_x[1] = i32::MIN),
    (4, |p| p.shear[0] = past(p.height, p.page_height)),
    (4, |p| p.shear_x[0] = past(p.width, p.page_width)),
    (5, |p| p.pieces.push(0)),
    (5, |p| p.glyphs.push(0)),
    (5, |p| p.pieces.resize(4 * (MOST_PIECES + 1), 0)),
    (5, |p| p.glyphs.resize(4 * (MOST_GLYPHS + 1), 0)),
    (6, |p| p.pieces[2] = p.width as u32),
    (6, |p| p.pieces[1] = p.pieces[3] + 1),
    (6, |p| p.glyphs[3] = p.height as u32),
    (6, |p| p.glyphs[0] = p.glyphs[2] + 1),
    (7, |p| p.params.grid_cap = f64::INFINITY),
    (8, |p| p.params.fold_min_length_in = -1.0),
    (9, |p| p.params.box_max_xh = p.params.box_min_xh.next_down()),
    (10, |p| p.params.box_tolerance_px = 4),
    (11, |p| p.params.table_min_horizontal = 0),
    (12, |p| p.fusion.group_cap = -f64::MIN_POSITIVE),
    (13, |p| p.params.min_free_rules = 0),
];

/// One past what a table may hold.
fn past(side: usize, inner: usize) -> i32 {
    side.saturating_sub(inner).min(LARGEST_SIDE) as i32 + 1
}

/// One change that may miss a question.
pub fn spoil(random: &mut Random, page: &mut WholePage) {
    let (width, height) = (page.width, page.height);
    match random.below(16) {
        0 => page.width = questions::bad_side(random),
        1 => page.page_height = page.page_height.saturating_add(1),
        2 => page.page_width = page.page_width.saturating_sub(1),
        3 => page.xheight = questions::bad_xheight(random),
        4 => page.dpi = 0,
        5 => {
            page.gray.pop();
        }
        6 => page.ink.push(0),
        7 => move_entry(
            random,
            &mut page.shear,
            height.saturating_sub(page.page_height),
        ),
        8 => move_entry(
            random,
            &mut page.shear_x,
            width.saturating_sub(page.page_width),
        ),
        9 => page.pieces.push(0),
        10 => questions::move_outside(random, &mut page.pieces, width, height),
        11 => questions::move_outside(random, &mut page.glyphs, width, height),
        12 => page.fusion.llr_clip = random.pick(&[-1.0, 1.1e6, f64::NAN, f64::INFINITY]),
        13 => page.fusion.group_cap = random.pick(&[-5e-324, 1e6f64.next_up(), f64::NAN]),
        _ => questions::spoil_settings(random, &mut page.params),
    }
}

/// An entry at the limit or past it, at either end.
fn move_entry(random: &mut Random, table: &mut [i32], limit: usize) {
    if !table.is_empty() {
        let at = random.below(table.len() as u64) as usize;
        let limit = limit.min(LARGEST_SIDE) as i32;
        table[at] = random.pick(&[-1, limit, limit + 1, i32::MIN, i32::MAX]);
    }
}
