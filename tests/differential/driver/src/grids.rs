//! `box_grids`: random lists of boxes. The Rust lists only the sets that reach the minimum, so all
//! closed sets are held against a flood fill, and the reading order against a plain sort. Refused
//! calls must leave every list as it was.

use lanegravel_binding::boxes::BoxesLists;
use lanegravel_binding::grids::{self as ffi, GridsLists};
use pagetriage::pixel::rulings::{self, CheckBox};

use crate::aligned::{self, Page};
use crate::boxes;
use crate::flood;
use crate::masks;
use crate::params;
use crate::random::Random;
use crate::rust_layout::rect;
use crate::tally::Tally;

/// Every eighth list is spoilt up to three times, and every fourth lends one list an entry short; now
/// and then there are thousands of boxes, and once as many as there may be.
pub fn box_grids(random: &mut Random, count: u64) -> Tally {
    let mut tally = Tally::default();
    for case in 0..count {
        let mut page = match case % 200_000 {
            99_998 => aligned::crowded(random, aligned::MOST_BOXES),
            k if k % 20_000 == 9_998 => {
                let n = 2_000 + random.below(2_000) as usize;
                aligned::crowded(random, n)
            }
            _ => aligned::small(random),
        };
        if case % 8 == 7 {
            for _ in 0..=random.below(3) {
                aligned::spoil(random, &mut page);
            }
        }
        let n = page.rects.len() / 4;
        let mut lists = lent(random.below(3) as usize, n);
        if case % 8 >= 6 {
            shorten(random.below(7), &mut lists, n);
        }
        compare(&mut tally, &page, lists);
    }
    tally
}

/// The boxes of forms, as the Rust finds them.
pub fn forms(random: &mut Random, count: u64) -> Tally {
    let mut tally = Tally::default();
    for _ in 0..count {
        let form = masks::form(random, 1_240, 1_754, 700);
        let room = form.glyphs.len() / 4;
        let (n, found) = boxes::accepted(&form, &BoxesLists::with_room(room));
        let page = Page {
            xheight: form.xheight,
            p: form.params,
            rects: found.rects[..4 * n].to_vec(),
        };
        compare(&mut tally, &page, lent(0, n));
    }
    tally
}

/// Lists for n boxes and some more, with a pattern that no answer has.
pub fn lent(spare: usize, n: usize) -> GridsLists {
    let words = |mark: u32| {
        (0..(n + spare) as u32)
            .map(|k| mark + k)
            .collect::<Vec<u32>>()
    };
    GridsLists {
        members: words(0xa000_0000),
        ends: words(0xa100_0000),
        reading: words(0xa200_0000),
        numbers: words(0xa300_0000),
        parents: words(0xa400_0000),
        work: words(0xa500_0000),
        keys: words(0xa600_0000).into_iter().map(u64::from).collect(),
    }
}

/// One list an entry short of n.
fn shorten(list: u64, l: &mut GridsLists, n: usize) {
    let less = n.saturating_sub(1);
    match list {
        0 => l.members.truncate(less),
        1 => l.ends.truncate(less),
        2 => l.reading.truncate(less),
        3 => l.numbers.truncate(less),
        4 => l.parents.truncate(less),
        5 => l.work.truncate(less),
        _ => l.keys.truncate(less),
    }
}

/// Whether question 14 is met.
fn room(l: &GridsLists, n: usize) -> bool {
    let lists = [
        &l.members, &l.ends, &l.reading, &l.numbers, &l.parents, &l.work,
    ];
    lists.iter().all(|list| list.len() >= n) && l.keys.len() >= n
}

fn compare(tally: &mut Tally, page: &Page, before: GridsLists) {
    let number = aligned::question(page, room(&before, page.rects.len() / 4));
    let mut after = before.clone();
    let answer = ffi::box_grids(page.xheight, &page.p, &page.rects, &mut after);
    let ([sets, grids], wanted) = if number == 0 {
        wanted(page, &before)
    } else {
        ([0, 0], before)
    };
    let work = number != 0;
    let expected = [u64::from(number), sets as u64, grids as u64];
    let found = [
        u64::from(answer.number),
        answer.sets as u64,
        answer.grids as u64,
    ];
    tally.compare(
        &[&expected[..], &words(&wanted, work)].concat(),
        &[&found[..], &words(&after, work)].concat(),
        || format!("{page:?}"),
    );
}

/// The boxes for the Rust.
pub fn check_boxes(rects: &[u32]) -> Vec<CheckBox> {
    let found = |r| CheckBox {
        bbox: rect(r),
        checked: false,
        edge_coverage: 1.0,
    };
    rects.chunks_exact(4).map(found).collect()
}

/// How many sets and grids there are, and the lists as they must be. The grids are the Rust's; where
/// they are not the sets that reach the minimum, a number that no answer has.
pub fn wanted(page: &Page, before: &GridsLists) -> ([usize; 2], GridsLists) {
    let boxes = check_boxes(&page.rects);
    let theirs = rulings::box_grids(&boxes, page.xheight, &params::rust(&page.p));
    let mut sets = aligned::closed_sets(page);
    let mut l = before.clone();
    flood::list(&sets, &mut l.members, &mut l.ends);
    let mut grids = 0;
    for (k, set) in sets.iter().enumerate() {
        if set.len() >= page.p.grid_min_boxes as usize {
            l.numbers[grids] = k as u32;
            grids += 1;
        }
    }
    let ours = l.numbers[..grids].iter().map(|&k| &sets[k as usize]);
    let same =
        |(a, b): (&Vec<u32>, &Vec<usize>)| a.iter().map(|&i| i as usize).eq(b.iter().copied());
    if grids != theirs.len() || !ours.zip(&theirs).all(same) {
        grids = usize::MAX;
    }
    let count = sets.len();
    for set in &mut sets {
        set.sort_by_key(|&i| (boxes[i as usize].bbox.y0, boxes[i as usize].bbox.x0, i));
    }
    let mut ends = vec![0; count];
    flood::list(&sets, &mut l.reading, &mut ends);
    ([count, grids], l)
}

/// Every place of the lists; the work lists only where they must be as they were.
fn words(l: &GridsLists, work: bool) -> Vec<u64> {
    let answers = [&l.members, &l.ends, &l.reading, &l.numbers];
    let mut out: Vec<u64> = answers.into_iter().flatten().map(|&x| x.into()).collect();
    if work {
        out.extend(l.parents.iter().chain(&l.work).map(|&x| u64::from(x)));
        out.extend(&l.keys);
    }
    out
}
