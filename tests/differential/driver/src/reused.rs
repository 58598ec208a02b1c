//! One workspace for page after page, against lists that are made for each page: what a page before left
//! there, and lists that are longer than the page needs, change nothing.

use lanegravel_binding::{Finding, Found, Question, Workspace};

use crate::pages;
use crate::random::Random;
use crate::refusals::{self, workspace};
use crate::tally::{Tally, bits};

/// Tiny pages, every fourth spoilt up to three times, and now and then a large one.
pub fn reused(random: &mut Random, count: u64) -> Tally {
    let mut tally = Tally::default();
    let mut one = Workspace::new();
    for case in 0..count {
        let mut page = match case % 20_000 {
            10_000 => pages::crowded(random),
            5_000 => pages::long(random),
            _ => pages::tiny(random),
        };
        if case % 4 == 3 {
            for _ in 0..=random.below(3) {
                refusals::spoil(random, &mut page);
            }
        }
        let mut own = workspace(&page);
        tally.compare(
            &words(own.detect_as_lent(&page.given())),
            &words(one.detect(&page.given())),
            || format!("{page:?}"),
        );
    }
    tally
}

/// The number of the missed question, or all that was found.
fn words(result: Result<Found, Question>) -> Vec<u64> {
    let found = match result {
        Ok(found) => found,
        Err(question) => return vec![question.number().into()],
    };
    let mut words: Vec<u64> = found.levelled().iter().map(|&x| x.into()).collect();
    let mut wholes = |list: &[u32]| {
        words.push(list.len() as u64);
        words.extend(list.iter().map(|&x| u64::from(x)));
    };
    for (k, ruling) in found.rulings().enumerate() {
        wholes(&ruling.rect);
        wholes(&[ruling.direction.number()]);
        wholes(found.piece_set(k));
    }
    wholes(found.printed());
    wholes(found.faint());
    wholes(found.free());
    for table in found.tables() {
        wholes(&table.rect);
        wholes(&[table.rows, table.columns, table.rulings]);
        wholes(table.members);
    }
    for boxed in found.boxes() {
        wholes(&boxed.rect);
        wholes(&[boxed.ticked.into()]);
    }
    for grid in found.grids() {
        wholes(grid.members);
        wholes(grid.reading);
    }
    let sets = found.counts().printed_sets;
    (0..sets).for_each(|set| wholes(found.printed_set(set)));
    words.extend(found.rulings().map(|ruling| bits(ruling.contrast)));
    words.extend(found.tables().map(|table| bits(table.share)));
    words.extend(found.boxes().map(|boxed| bits(boxed.coverage)));
    words.extend(found.findings().flat_map(finding_words));
    words
}

fn finding_words(finding: Finding) -> Vec<u64> {
    let mut words = vec![finding.kind().into(), bits(finding.log_odds())];
    words.extend(finding.rect().map(u64::from));
    words.extend(match finding {
        Finding::Table {
            rows: a,
            columns: b,
            rulings: c,
            ..
        }
        | Finding::FreeRules {
            horizontal: a,
            vertical: b,
            longest: c,
            ..
        } => [a.into(), b.into(), c.into()],
        Finding::Grid { boxes, ticked, .. } => [boxes.into(), ticked.into(), 0],
        Finding::Fold {
            direction, length, ..
        } => [direction.number().into(), bits(length), 0],
    });
    for e in finding.evidence() {
        words.extend([e.value, e.threshold, e.llr].map(bits));
    }
    words
}
