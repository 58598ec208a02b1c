//! Pieces to rulings: `segments`, against the unchanged Rust to the bit, its sets against a plain
//! flood fill. Pages are small and of many kinds; every fourth one misses a question or several.

use lanegravel_binding::segments::{self as ffi, SegmentsLists};
use pagetriage::pixel::rulings;

use crate::flood;
use crate::owned::PiecesPage;
use crate::params;
use crate::pieces;
use crate::questions;
use crate::random::Random;
use crate::rust_layout::with_rules;
use crate::tally::{Tally, bits};

const MOST_PIECES: usize = 4096;

/// Small pages, and now and then one with as many pieces or as long a side as there may be.
pub fn segments(random: &mut Random, count: u64) -> Tally {
    let mut tally = Tally::default();
    for case in 0..count {
        let mut page = match case % 20_000 {
            19_998 => pieces::crowded(random, MOST_PIECES),
            9_998 => pieces::large(random),
            _ => pieces::small(random),
        };
        if case % 4 == 3 {
            for _ in 0..=random.below(3) {
                spoil(random, &mut page);
            }
        }
        compare(random, &mut tally, &page);
    }
    tally
}

/// Pages of 600 by 800 with ruled tables whose rules are broken, shifted and doubled.
pub fn forms(random: &mut Random, count: u64) -> Tally {
    let mut tally = Tally::default();
    for _ in 0..count {
        let page = pieces::form(random);
        compare(random, &mut tally, &page);
    }
    tally
}

fn compare(random: &mut Random, tally: &mut Tally, page: &PiecesPage) {
    let lent = lend(random, page);
    let mut found = lent.clone();
    let answer = ffi::segments(&page.given(), &mut found);
    let number = question(page, &lent);
    let (expected, library) = if number == 0 {
        let (count, written) = accepted(page, &lent);
        let expected = answers(0, count, &written);
        (expected, answers(answer.number, answer.count, &found))
    } else {
        let kept = [answers(number, 0, &lent), work(&lent)].concat();
        let library = [answers(answer.number, answer.count, &found), work(&found)].concat();
        (kept, library)
    };
    tally.compare(&expected, &library, || format!("{page:?}"));
}

/// The number, the count and every place of the lists that are answered in.
fn answers(number: u32, count: usize, lent: &SegmentsLists) -> Vec<u64> {
    let mut words = vec![u64::from(number), count as u64];
    for list in [&lent.rects, &lent.directions, &lent.members, &lent.ends] {
        words.extend(list.iter().map(|&x| u64::from(x)));
    }
    words.extend(lent.contrasts.iter().map(|&x| bits(x)));
    words
}

/// Every place of the work lists.
fn work(lent: &SegmentsLists) -> Vec<u64> {
    let lists = [&lent.parents, &lent.listed, &lent.listed_ends, &lent.work];
    let words = lists.into_iter().flatten().map(|&x| u64::from(x));
    words.chain(lent.keys.iter().copied()).collect()
}

/// What an accepted page answers, the count and the lists: the Rust's segments, and the sets of a
/// flood fill in their order.
pub fn accepted(page: &PiecesPage, lent: &SegmentsLists) -> (usize, SegmentsLists) {
    let layout = with_rules(page.width, page.height, page.xheight, &page.pieces);
    let segments = rulings::segments(&layout, &page.raster, &params::rust(&page.params));
    let sets = pieces::closed_sets(page);
    let mut written = lent.clone();
    flood::list(&sets, &mut written.members, &mut written.ends);
    for (k, s) in segments.iter().enumerate() {
        let r = &s.rect;
        written.rects[4 * k..4 * k + 4].copy_from_slice(&[r.x0, r.y0, r.x1, r.y1]);
        written.directions[k] = u32::from(!s.horizontal);
        written.contrasts[k] = s.contrast;
    }
    let count = if sets.len() == segments.len() {
        sets.len()
    } else {
        usize::MAX
    };
    (count, written)
}

/// Lists with room and sometimes more, filled with a pattern; now and then one entry short.
fn lend(random: &mut Random, page: &PiecesPage) -> SegmentsLists {
    let n = page.pieces.len() / 4;
    let short = random.below(100);
    let mut room = |list: u64, n: usize| {
        let n = n + random.below(3) as usize;
        if short == list {
            n.saturating_sub(3)
        } else {
            n
        }
    };
    let sizes = [
        room(0, 4 * n),
        room(1, n),
        room(2, n),
        room(3, n),
        room(4, n),
        room(5, n),
        room(6, n),
        room(7, n),
        room(8, n),
        room(9, n),
    ];
    let mut words = |n: usize| (0..n).map(|_| random.bits() as u32).collect::<Vec<u32>>();
    SegmentsLists {
        rects: words(sizes[0]),
        directions: words(sizes[1]),
        contrasts: words(sizes[2]).into_iter().map(f64::from).collect(),
        members: words(sizes[3]),
        ends: words(sizes[4]),
        parents: words(sizes[5]),
        listed: words(sizes[6]),
        listed_ends: words(sizes[7]),
        work: words(sizes[8]),
        keys: words(sizes[9]).into_iter().map(u64::from).collect(),
    }
}

/// The number of the first missed question of document 01, said here in plain Rust.
pub fn question(page: &PiecesPage, lent: &SegmentsLists) -> u32 {
    let n = page.pieces.len() / 4;
    let room = page.raster.len() as u128 == page.width as u128 * page.height as u128
        && lent.rects.len() >= 4 * n
        && [&lent.directions, &lent.members, &lent.ends, &lent.parents]
            .iter()
            .chain(&[&lent.listed, &lent.listed_ends, &lent.work])
            .all(|list| list.len() >= n)
        && lent.contrasts.len() >= n
        && lent.keys.len() >= n;
    questions::first_missed(&[
        questions::sides(page.width, page.height),
        questions::xheight(page.xheight),
        questions::rectangles(&page.pieces, MOST_PIECES),
        questions::inside(&page.pieces, page.width, page.height),
        questions::settings(&page.params),
        (14, room),
    ])
}

/// One change that may miss a question.
pub fn spoil(random: &mut Random, page: &mut PiecesPage) {
    match random.below(12) {
        0 => page.width = questions::bad_side(random),
        1 => page.height = questions::bad_side(random),
        2 => page.xheight = questions::bad_xheight(random),
        3 => page.pieces.push(0),
        4 if random.below(50) == 0 => page.pieces = vec![0; 4 * (MOST_PIECES + 1)],
        4 | 5 => questions::move_outside(random, &mut page.pieces, page.width, page.height),
        6 => {
            page.raster.pop();
        }
        _ => questions::spoil_settings(random, &mut page.params),
    }
}
