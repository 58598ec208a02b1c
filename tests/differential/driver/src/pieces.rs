//! Pages of rule pieces for the comparison of `segments`, and their closed sets by a flood fill.

use crate::flood::flood;
use crate::owned::PiecesPage;
use crate::params::VALID;
use crate::random::Random;

/// The pieces of a page.
pub fn rects(page: &PiecesPage) -> impl Iterator<Item = [u32; 4]> {
    page.pieces
        .chunks_exact(4)
        .map(|r| [r[0], r[1], r[2], r[3]])
}

/// The closed sets of pieces, members ascending, in the order of their rulings.
pub fn closed_sets(page: &PiecesPage) -> Vec<Vec<u32>> {
    let pieces: Vec<[u32; 4]> = rects(page).collect();
    let across = limit(page.params.merge_across_xh, page.xheight);
    let gap = limit(page.params.merge_gap_xh, page.xheight);
    let mut sets = flood(pieces.len(), |i, j| {
        touching(pieces[i], pieces[j], across, gap)
    });
    sets.sort_by_key(|set| {
        let least = |c: usize| set.iter().map(|&i| pieces[i as usize][c]).min();
        let greatest = |c: usize| set.iter().map(|&i| pieces[i as usize][c]).max();
        (least(1), least(0), greatest(3), greatest(2))
    });
    sets
}

/// Document 01's touching, in wide numbers.
fn touching(a: [u32; 4], b: [u32; 4], across: i128, gap: i128) -> bool {
    let [a, b] = [a, b].map(|r| r.map(i128::from));
    let horizontal = |r: [i128; 4]| r[2] - r[0] >= r[3] - r[1];
    if horizontal(a) != horizontal(b) {
        return false;
    }
    let (along, cross) = if horizontal(a) { (0, 1) } else { (1, 0) };
    let centre = |r: [i128; 4]| r[cross] + r[cross + 2];
    (centre(a) - centre(b)).abs() <= 2 * across
        && a[along].max(b[along]) - a[along + 2].min(b[along + 2]) - 1 <= gap
}

fn limit(setting: f64, xheight: f64) -> i128 {
    (setting * xheight).round() as i128
}

/// A small picture with up to twelve pieces of one kind, or of all.
pub fn small(random: &mut Random) -> PiecesPage {
    let (width, height) = (side(random), side(random));
    let mut page = picture(random, width, height);
    page.xheight = random.pick(&[0.25, 1.0, 1.0, 2.5, 4.0, 4_096.0]);
    scatter(random, &mut page);
    page
}

/// Merging settings, and up to twelve pieces of one kind, or of all.
pub fn scatter(random: &mut Random, page: &mut PiecesPage) {
    let (width, height) = (page.width, page.height);
    page.params.merge_across_xh = setting(random);
    page.params.merge_gap_xh = setting(random);
    let kind = random.below(7);
    for _ in 0..random.below(13) {
        let piece = match if kind == 6 { random.below(6) } else { kind } {
            0 => any(random, width, height),
            1 => pixel(random, width, height),
            2 => band(random, width, height),
            3 => beside(random, page),
            4 => again(random, page),
            _ => stroke(random, width, height),
        };
        page.pieces.extend(piece);
    }
}

/// As many pieces as asked for, short strokes or pixels, on a picture of 64 by 64.
pub fn crowded(random: &mut Random, count: usize) -> PiecesPage {
    let mut page = picture(random, 64, 64);
    page.params.merge_across_xh = random.pick(&[0.0, 1.0]);
    page.params.merge_gap_xh = random.pick(&[0.0, 1.0]);
    for _ in 0..count {
        let piece = if random.below(2) == 0 {
            pixel(random, 64, 64)
        } else {
            stroke(random, 64, 64)
        };
        page.pieces.extend(piece);
    }
    page
}

/// A picture with one of the largest sides, and strokes and bands all over it.
pub fn large(random: &mut Random) -> PiecesPage {
    let (width, height) = random.pick(&[(8_192, 100), (100, 8_192)]);
    let mut page = picture(random, width, height);
    for _ in 0..60 {
        let piece = match random.below(3) {
            0 => band(random, width, height),
            1 => pixel(random, width, height),
            _ => stroke(random, width, height),
        };
        page.pieces.extend(piece);
    }
    page
}

/// A ruled form: tables of up to 12 by 8 lines, every rule broken into pieces that are shifted by a
/// pixel now and then, on grey paper.
pub fn form(random: &mut Random) -> PiecesPage {
    let mut page = picture(random, 600, 800);
    page.raster.fill_with(|| 200 + random.below(56) as u8);
    page.xheight = 8.0 + random.below(8) as f64 / 2.0;
    page.params.merge_across_xh = 0.2;
    page.params.merge_gap_xh = random.pick(&[0.5, 1.0, 2.0]);
    for table in 0..3 {
        let top = 20 + 260 * table;
        let (rows, columns) = (2 + random.below(11) as u32, 2 + random.below(7) as u32);
        let (down, right) = (240 / rows, 540 / columns);
        for k in 0..=rows {
            broken(
                random,
                &mut page,
                20,
                20 + columns * right,
                top + k * down,
                true,
            );
        }
        for k in 0..=columns {
            broken(
                random,
                &mut page,
                top,
                top + rows * down,
                20 + k * right,
                false,
            );
        }
    }
    page
}

/// One rule from `from` to `to`, in pieces of up to 200 pixels with gaps of up to 30, in the raster too.
fn broken(
    random: &mut Random,
    page: &mut PiecesPage,
    from: u32,
    to: u32,
    at: u32,
    horizontal: bool,
) {
    let mut start = from;
    while start < to {
        let end = (start + random.below(200) as u32).min(to);
        let low = at + random.below(3) as u32;
        let high = low + random.below(3) as u32;
        let [x0, y0, x1, y1] = if horizontal {
            [start, low, end, high]
        } else {
            [low, start, high, end]
        };
        page.pieces.extend([x0, y0, x1, y1]);
        let grey = random.below(230) as u8;
        for y in y0..=y1 {
            for x in x0..=x1 {
                page.raster[y as usize * page.width + x as usize] = grey;
            }
        }
        start = end + 1 + random.below(30) as u32;
    }
}

/// A picture of random grey, with settings that every question accepts and no pieces.
pub fn picture(random: &mut Random, width: usize, height: usize) -> PiecesPage {
    PiecesPage {
        width,
        height,
        xheight: 1.0,
        raster: (0..width * height).map(|_| random.bits() as u8).collect(),
        pieces: Vec::new(),
        params: VALID,
    }
}

fn side(random: &mut Random) -> usize {
    1 + random.below(24) as usize
}

/// A merging setting: small, at a half, or at its limit.
fn setting(random: &mut Random) -> f64 {
    random.pick(&[0.0, -0.0, 0.5, 1.0, 1.0, 1.5, 2.0, 3.0, 1e6])
}

fn place(random: &mut Random, size: usize) -> u32 {
    random.below(size as u64) as u32
}

fn span(random: &mut Random, size: usize) -> (u32, u32) {
    let (a, b) = (place(random, size), place(random, size));
    (a.min(b), a.max(b))
}

fn any(random: &mut Random, width: usize, height: usize) -> [u32; 4] {
    let ((x0, x1), (y0, y1)) = (span(random, width), span(random, height));
    [x0, y0, x1, y1]
}

fn pixel(random: &mut Random, width: usize, height: usize) -> [u32; 4] {
    let (x, y) = (place(random, width), place(random, height));
    [x, y, x, y]
}

/// From edge to edge, or the whole picture.
fn band(random: &mut Random, width: usize, height: usize) -> [u32; 4] {
    let [x0, y0, x1, y1] = any(random, width, height);
    let (right, bottom) = (width as u32 - 1, height as u32 - 1);
    match random.below(3) {
        0 => [0, y0, right, y1],
        1 => [x0, 0, x1, bottom],
        _ => [0, 0, right, bottom],
    }
}

/// A thin piece of either direction.
fn stroke(random: &mut Random, width: usize, height: usize) -> [u32; 4] {
    let [x0, y0, x1, y1] = any(random, width, height);
    let thick = random.below(2) as u32;
    if random.below(2) == 0 {
        [x0, y0, x1, (y0 + thick).min(height as u32 - 1)]
    } else {
        [x0, y0, (x0 + thick).min(width as u32 - 1), y1]
    }
}

/// A piece that was there before, or a stroke where there is none.
fn again(random: &mut Random, page: &PiecesPage) -> [u32; 4] {
    if page.pieces.is_empty() || random.below(3) == 0 {
        return stroke(random, page.width, page.height);
    }
    let k = 4 * random.below(page.pieces.len() as u64 / 4) as usize;
    [0, 1, 2, 3].map(|c| page.pieces[k + c])
}

/// A piece behind another, at the gap limit or one past it, and across at the limit or one past it.
fn beside(random: &mut Random, page: &PiecesPage) -> [u32; 4] {
    let [x0, y0, x1, y1] = again(random, page);
    let move_by = |random: &mut Random, limit: i128, extra: u64| {
        (limit.min(30) + random.below(extra) as i128) as u32
    };
    let gap = limit(page.params.merge_gap_xh, page.xheight);
    let across = limit(page.params.merge_across_xh, page.xheight);
    let along = 1 + move_by(random, gap, 2);
    let cross = move_by(random, across, 2);
    let length = random.below(4) as u32;
    let moved = if x1 - x0 >= y1 - y0 {
        [x1 + along, y0 + cross, x1 + along + length, y1 + cross]
    } else {
        [x0 + cross, y1 + along, x1 + cross, y1 + along + length]
    };
    if (moved[2] as usize) < page.width && (moved[3] as usize) < page.height {
        moved
    } else {
        stroke(random, page.width, page.height)
    }
}
