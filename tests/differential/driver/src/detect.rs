//! Whole pages: `detect`, against the unchanged `detect_with` to the bit, with the log odds that its
//! `sigmoid` is given. What `detect_with` keeps to itself (rulings, tables, boxes, grids) comes from the
//! Rust's functions under it, and the closed sets from a flood fill. Every lent place is compared.

use lanegravel_binding::Workspace;
use lanegravel_binding::detect::{self as ffi, DetectAnswer};
use lanegravel_binding::testing::{ANSWER_LISTS, LISTS, List, Lists};

use crate::forms;
use crate::owned::WholePage;
use crate::pages;
use crate::random::Random;
use crate::refusals::{self, MISSES, question, room_met, workspace};
use crate::tally::Tally;
use crate::whole::wanted;

/// Each question missed alone, with each other one and with a list that is too short; then tiny pages,
/// of which every fourth is spoilt up to three times and every sixteenth lends a list an entry short,
/// and now and then one with as many pieces and glyph boxes or as long a side as there may be.
pub fn detect(random: &mut Random, count: u64) -> Tally {
    let mut tally = Tally::default();
    misses(random, &mut tally);
    rooms(random, &mut tally);
    for case in 0..count {
        let mut page = match case % 40_000 {
            39_996 => pages::crowded(random),
            k if k % 10_000 == 5_000 => pages::long(random),
            _ => pages::tiny(random),
        };
        if case % 4 == 3 {
            for _ in 0..=random.below(3) {
                refusals::spoil(random, &mut page);
            }
        }
        let mut lent = lend(random, &page);
        if case % 16 == 14 {
            let list = random.below(LISTS as u64) as usize;
            shorten(&page, &mut lent, list);
        }
        compare(random, &mut tally, &page, lent);
    }
    tally
}

/// Forms of A4 at 100 dots an inch, and every fiftieth at 300.
pub fn on_forms(random: &mut Random, count: u64) -> Tally {
    let mut tally = Tally::default();
    for case in 0..count {
        let page = if case % 50 == 49 {
            forms::form(random, 2_480, 3_508, 300)
        } else {
            forms::form(random, 827, 1_169, 100)
        };
        let lent = lend(random, &page);
        compare(random, &mut tally, &page, lent);
    }
    tally
}

/// Each change alone, with each other one, and with a list that is too short; then all changes, from
/// the last question to the first.
fn misses(random: &mut Random, tally: &mut Tally) {
    for (number, miss) in MISSES {
        let mut alone = forms::sample();
        miss(&mut alone);
        assert_eq!(question(&alone, true), number, "the change misses another");
        let lent = lend(random, &alone);
        compare(random, tally, &alone, lent);
        for (_, other) in MISSES {
            let mut page = alone.clone();
            other(&mut page);
            let lent = lend(random, &page);
            compare(random, tally, &page, lent);
        }
        let mut lent = lend(random, &alone);
        let list = random.below(LISTS as u64) as usize;
        shorten(&alone, &mut lent, list);
        compare(random, tally, &alone, lent);
    }
    let mut page = forms::sample();
    for (_, miss) in MISSES.iter().rev() {
        miss(&mut page);
        let lent = lend(random, &page);
        compare(random, tally, &page, lent);
    }
}

/// Each list in turn an entry short, and the levelled raster an entry long.
fn rooms(random: &mut Random, tally: &mut Tally) {
    let page = forms::sample();
    for list in 0..LISTS {
        let mut lent = lend(random, &page);
        shorten(&page, &mut lent, list);
        compare(random, tally, &page, lent);
    }
    let mut lent = lend(random, &page);
    lent.levelled.push(0);
    compare(random, tally, &page, lent);
}

/// Lists with room and sometimes more, full of noise. The levelled raster has exactly its room.
fn lend(random: &mut Random, page: &WholePage) -> Workspace {
    let mut lent = workspace(page);
    for list in lent.lists().iter_mut().skip(1) {
        list.resize(list.count() + random.below(3) as usize);
    }
    lent.fill(random.bits());
    lent
}

/// One list an entry short of what question 14 asks.
fn shorten(page: &WholePage, lent: &mut Workspace, list: usize) {
    let asked = workspace(page).lists()[list].count();
    lent.lists()[list].resize(asked.saturating_sub(1));
}

fn compare(random: &mut Random, tally: &mut Tally, page: &WholePage, mut before: Workspace) {
    let number = question(page, room_met(page, &mut before));
    let mut after = before.clone();
    let answer = ffi::detect(&page.given(), &mut after);
    let (expected, mut written) = match number {
        0 => wanted(page, &before),
        _ => (refused(number), before.clone()),
    };
    let compared = match expected.number {
        0 => ANSWER_LISTS,
        15 => 1,
        _ => LISTS,
    };
    let (mut rust, mut library) = (words(&expected), words(&answer));
    difference(&mut written, &mut after, compared, &mut rust, &mut library);
    if expected.number == 0 {
        // other noise in the work lists changes nothing
        before.work.fill(random.bits());
        let again = ffi::detect(&page.given(), &mut before);
        rust.extend(words(&answer));
        library.extend(words(&again));
        difference(&mut after, &mut before, compared, &mut rust, &mut library);
    }
    tally.compare(&rust, &library, || format!("{page:?}"));
}

fn refused(number: u32) -> DetectAnswer {
    DetectAnswer {
        number,
        ..DetectAnswer::default()
    }
}

fn words(a: &DetectAnswer) -> Vec<u64> {
    let page = [a.rulings, a.printed, a.faint, a.tables, a.boxes, a.grids];
    let lists = [a.findings, a.printed_sets, a.free, a.box_sets];
    let counts = page.into_iter().chain(lists).map(|n| n as u64);
    [u64::from(a.number)].into_iter().chain(counts).collect()
}

/// Adds the first list that differs among the first `count`: its number and its entries.
fn difference(
    a: &mut Workspace,
    b: &mut Workspace,
    count: usize,
    rust: &mut Vec<u64>,
    library: &mut Vec<u64>,
) {
    let (a, b) = (a.lists(), b.lists());
    let mut pairs = a.iter().zip(&b).take(count).enumerate();
    let differ = |(_, (a, b)): &(usize, (&List, &List))| !a.same(b);
    if let Some((k, (a, b))) = pairs.find(differ) {
        rust.push(k as u64);
        rust.extend(a.bits());
        library.push(k as u64);
        library.extend(b.bits());
    }
}
