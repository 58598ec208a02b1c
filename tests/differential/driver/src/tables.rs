//! `tables`: random sets of rulings. The Rust gives tables and leftover; it lists no sets, so the
//! closed sets are held against a plain search. Refused calls must leave every list as it was.

use lanegravel_binding::tables::{self as ffi, TablesLists};
use pagetriage::pixel::rulings;

use crate::flood;
use crate::params;
use crate::random::Random;
use crate::ruled::{self, Page};
use crate::rust_layout::rect;
use crate::tally::Tally;

/// Every eighth page is spoilt up to three times, and every eighth lends one list an entry short.
pub fn tables(random: &mut Random, count: u64) -> Tally {
    let mut tally = Tally::default();
    for case in 0..count {
        let mut page = ruled::page(random);
        if case % 8 == 7 {
            for _ in 0..=random.below(3) {
                ruled::spoil(random, &mut page);
            }
        }
        let n = page.rects.len() / 4;
        let mut lists = lent(random.below(3) as usize, n);
        if case % 8 >= 6 {
            shorten(random.below(13), &mut lists, n);
        }
        compare(&mut tally, &page, lists);
    }
    tally
}

/// Lists for n rulings and some more, with a pattern that no answer has.
pub fn lent(spare: usize, n: usize) -> TablesLists {
    let room = n + spare;
    let words = |mark: u32| (0..room as u32).map(|k| mark + k).collect::<Vec<u32>>();
    TablesLists {
        members: words(0xa000_0000),
        ends: words(0xa100_0000),
        numbers: words(0xa200_0000),
        bounds: (0..4 * room as u32).map(|k| 0xa300_0000 + k).collect(),
        rows: words(0xa400_0000),
        columns: words(0xa500_0000),
        rulings: words(0xa600_0000),
        shares: (0..room).map(|k| -1.0 - k as f64).collect(),
        free: words(0xa700_0000),
        chosen: words(0xa800_0000),
        parents: words(0xa900_0000),
        work: words(0xaa00_0000),
        keys: (0..room as u64).map(|k| 0xab00_0000 + k).collect(),
    }
}

/// One list an entry short of n.
fn shorten(list: u64, l: &mut TablesLists, n: usize) {
    let less = n.saturating_sub(1);
    match list {
        0 => l.members.truncate(less),
        1 => l.ends.truncate(less),
        2 => l.numbers.truncate(less),
        3 => l.bounds.truncate((4 * n).saturating_sub(1)),
        4 => l.rows.truncate(less),
        5 => l.columns.truncate(less),
        6 => l.rulings.truncate(less),
        7 => l.shares.truncate(less),
        8 => l.free.truncate(less),
        9 => l.chosen.truncate(less),
        10 => l.parents.truncate(less),
        11 => l.work.truncate(less),
        _ => l.keys.truncate(less),
    }
}

/// Whether question 14 is met.
fn room(l: &TablesLists, n: usize) -> bool {
    let lists = [
        &l.members, &l.ends, &l.numbers, &l.rows, &l.columns, &l.rulings, &l.free, &l.chosen,
        &l.parents, &l.work,
    ];
    lists.iter().all(|list| list.len() >= n)
        && l.bounds.len() >= 4 * n
        && l.shares.len() >= n
        && l.keys.len() >= n
}

fn compare(tally: &mut Tally, page: &Page, before: TablesLists) {
    let number = ruled::question(page, room(&before, page.rects.len() / 4));
    let mut after = before.clone();
    let answer = ffi::tables(
        page.xheight,
        &page.p,
        &page.rects,
        &page.directions,
        &mut after,
    );
    let mut found = vec![
        u64::from(answer.number),
        answer.sets as u64,
        answer.tables as u64,
        answer.free as u64,
    ];
    let mut expected = vec![u64::from(number), 0, 0, 0];
    if number == 0 {
        let (counts, wanted) = wanted(page, &before);
        expected[1..].copy_from_slice(&counts.map(|n| n as u64));
        expected.extend(words(&wanted, false));
        found.extend(words(&after, false));
    } else {
        expected.extend(words(&before, true));
        found.extend(words(&after, true));
    }
    tally.compare(&expected, &found, || format!("{page:?}"));
}

/// The rulings for the Rust.
pub fn segments(rects: &[u32], directions: &[u32]) -> Vec<rulings::Segment> {
    let ruling = |(r, &direction)| rulings::Segment {
        rect: rect(r),
        horizontal: direction == 0,
        contrast: 0.0,
    };
    rects.chunks(4).zip(directions).map(ruling).collect()
}

/// How many sets, tables and free rulings there are, and the lists as the Rust's answers leave them.
pub fn wanted(page: &Page, before: &TablesLists) -> ([usize; 3], TablesLists) {
    let segments = segments(&page.rects, &page.directions);
    let (tables, leftover) = rulings::tables(&segments, page.xheight, &params::rust(&page.p));
    let sets = ruled::closed_sets(page);
    let mut l = before.clone();
    flood::list(&sets, &mut l.members, &mut l.ends);
    // the sets that are not in the leftover are the tables, in order
    let table_sets = sets
        .iter()
        .enumerate()
        .filter(|(_, s)| !leftover.contains(&(s[0] as usize)));
    for (t, (table, (k, _))) in tables.iter().zip(table_sets).enumerate() {
        l.numbers[t] = k as u32;
        let b = table.bbox;
        l.bounds[4 * t..4 * t + 4].copy_from_slice(&[b.x0, b.y0, b.x1, b.y1]);
        l.rows[t] = table.rows as u32;
        l.columns[t] = table.cols as u32;
        l.rulings[t] = table.segments as u32;
        l.shares[t] = table.junction_share;
    }
    for (k, &i) in leftover.iter().enumerate() {
        l.free[k] = i as u32;
    }
    ([sets.len(), tables.len(), leftover.len()], l)
}

/// Every place of the lists; the work lists only where they must be as they were.
fn words(l: &TablesLists, work: bool) -> Vec<u64> {
    let mut out = Vec::new();
    for list in [
        &l.members, &l.ends, &l.numbers, &l.bounds, &l.rows, &l.columns, &l.rulings, &l.free,
    ] {
        out.extend(list.iter().map(|&x| u64::from(x)));
    }
    out.extend(l.shares.iter().map(|x| x.to_bits()));
    if work {
        for list in [&l.chosen, &l.parents, &l.work] {
            out.extend(list.iter().map(|&x| u64::from(x)));
        }
        out.extend(&l.keys);
    }
    out
}
