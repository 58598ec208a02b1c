//! Rulings to tables: ruled forms, and pages with as many rulings as there may be.

use std::hint::black_box;

use pagetriage::pixel::rulings;

use crate::ffi_tables;
use crate::params::{self, VALID};
use crate::random::Random;
use crate::tables::{lent, segments};
use crate::timing::{Measurement, Times, compare};

pub const MEASUREMENTS: [Measurement; 8] = [
    ("tables, a form of 72 rulings", || {
        table(&form(4, 12, 6, 2_104))
    }),
    ("tables, a form of 300 rulings", || {
        table(&form(6, 36, 14, 2_104))
    }),
    ("tables, 4,096 rulings, all crossing", || {
        let mut all = grid(0);
        all.sort_by_key(|r| (r.rect[1], r.rect[0]));
        table(&all)
    }),
    ("tables, 4,096 rulings by turns, all crossing", || {
        table(&grid(0))
    }),
    (
        "tables, 4,096 rulings by turns, all crossing, no end joined",
        || table(&grid(16)),
    ),
    ("tables, 4,096 rulings at random", || table(&random())),
    ("tables, 4,096 horizontals", || {
        table(&by_turns(
            (0..4_096).map(|i| [0, 2 * i, 30, 2 * i]).collect(),
            1,
        ))
    }),
    ("tables, 4,096 rulings by turns, none touching", || {
        table(&by_turns(strokes().as_chunks().0.to_vec(), 2))
    }),
];

/// A ruling as it is given: its rectangle, and 0 for across, 1 for down.
pub struct Given {
    pub rect: [u32; 4],
    direction: u32,
}

/// Strokes of 20 in 64 rows of 64, none near another.
pub fn strokes() -> Vec<u32> {
    (0..64)
        .flat_map(|i| (0..64).flat_map(move |j| [60 * j, 60 * i, 60 * j + 20, 60 * i + 1]))
        .collect()
}

/// The directions from 0 on by turns.
fn by_turns(rects: Vec<[u32; 4]>, directions: usize) -> Vec<Given> {
    rects
        .into_iter()
        .enumerate()
        .map(|(i, rect)| Given {
            rect,
            direction: (i % directions) as u32,
        })
        .collect()
}

/// Rulings of up to 1,024 anywhere, across and down by turns.
fn random() -> Vec<Given> {
    let mut random = Random::new(2);
    let mut below = |n| random.below(n) as u32;
    by_turns(
        (0..4_096)
            .map(|i| {
                let (x, y, length) = (below(7_000), below(7_000), below(1_024));
                match i % 2 {
                    0 => [x, y, x + length, y + 1],
                    _ => [x, y, x + 1, y + length],
                }
            })
            .collect(),
        2,
    )
}

/// 2,048 across and 2,048 down, by turns; each meets all of the other direction, and reaches past the outer ones by `past`.
fn grid(past: u32) -> Vec<Given> {
    let (from, to) = (16 - past, 16 + 4 * 2_039 + past);
    by_turns(
        (0..2_048)
            .map(|i| 16 + 4 * (i % 2_040))
            .flat_map(|c| [[from, c, to, c], [c, from, c, to]])
            .collect(),
        2,
    )
}

/// Tables below each other on a page of 3,508 rows, each rule of them broken into pieces of `step`.
pub fn form(tables: u32, across: u32, down: u32, step: u32) -> Vec<Given> {
    let mut all = Vec::new();
    let height = 3_200 / tables * 3 / 4;
    for top in (0..tables).map(|k| 150 + 3_200 / tables * k) {
        for y in (0..across).map(|k| top + height * k / (across - 1)) {
            for x in (150..2_250).step_by(step as usize) {
                all.push(Given {
                    rect: [x, y, (x + step - 4).min(2_250), y + 2],
                    direction: 0,
                });
            }
        }
        for x in (0..down).map(|k| 150 + 2_100 * k / (down - 1)) {
            for y in (top..top + height).step_by(step as usize) {
                all.push(Given {
                    rect: [x, y, x + 2, (y + step - 4).min(top + height)],
                    direction: 1,
                });
            }
        }
    }
    all
}

fn table(all: &[Given]) -> Times {
    let n = all.len();
    let rects: Vec<u32> = all.iter().flat_map(|r| r.rect).collect();
    let directions: Vec<u32> = all.iter().map(|r| r.direction).collect();
    let given = segments(&rects, &directions);
    let p = params::rust(&VALID);
    let mut lists = lent(0, n);
    let found = ffi_tables::tables(10.0, &VALID, &rects, &directions, &mut lists);
    assert_eq!(found.number, 0);
    let (tables, leftover) = rulings::tables(&given, 10.0, &p);
    assert_eq!((found.tables, found.free), (tables.len(), leftover.len()));
    for (table, share) in tables.iter().zip(&lists.shares) {
        assert_eq!(table.junction_share, *share);
    }
    compare(
        if n < 1_000 { 1_001 } else { 11 },
        || {
            let (rects, directions) = (black_box(&rects), black_box(&directions));
            black_box(ffi_tables::tables(
                10.0, &VALID, rects, directions, &mut lists,
            ));
        },
        || {
            black_box(rulings::tables(black_box(&given), 10.0, &p));
        },
    )
}
