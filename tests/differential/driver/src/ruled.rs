//! Pages of rulings for the comparison of `tables`, their closed sets and their first missed question.

use lanegravel_binding::settings::RulingsParams;

use crate::flood::flood;
use crate::params::VALID;
use crate::questions::{self, LARGEST_SIDE};
use crate::random::Random;

const MOST_RULINGS: usize = 4096;

/// What a call is given.
#[derive(Debug)]
pub struct Page {
    pub xheight: f64,
    pub p: RulingsParams,
    pub rects: Vec<u32>,
    pub directions: Vec<u32>,
}

/// Rulings on a few lines: they cross, miss each other by one, and repeat.
pub fn page(random: &mut Random) -> Page {
    let n = match random.below(16) {
        0 => random.below(3),
        1 => 60 + random.below(60),
        _ => 2 + random.below(20),
    };
    let side = random.pick(&[8, 24, 60, 8192]);
    let step = random.pick(&[1, 2, 3, side / 4 + 1]);
    let (mut rects, mut directions): (Vec<u32>, Vec<u32>) = (Vec::new(), Vec::new());
    for k in 0..n as usize {
        if k > 0 && random.below(12) == 0 {
            let from = random.below(k as u64) as usize;
            rects.extend_from_within(4 * from..4 * from + 4);
            directions.push(directions[from]);
            continue;
        }
        let line = (random.below(side / step + 1) * step + random.below(2)).min(side - 1);
        let thick = random.below(3).min(side - 1 - line);
        let (a, b) = if random.below(3) == 0 {
            (random.below(side), random.below(side))
        } else {
            (
                random.below(3).min(side - 1),
                side - 1 - random.below(3).min(side - 1),
            )
        };
        let (a, b, line, thick) = (a.min(b) as u32, a.max(b) as u32, line as u32, thick as u32);
        let direction = random.below(2) as u32;
        rects.extend(if direction == 0 {
            [a, line, b, line + thick]
        } else {
            [line, a, line + thick, b]
        });
        directions.push(direction);
    }
    let p = RulingsParams {
        join_tol_xh: random.pick(&[0.0, 0.05, 0.1, 0.25, 0.5, 1.0, 1e6]),
        line_cluster_xh: random.pick(&[0.0, 0.05, 0.1, 0.25, 0.5, 1e6]),
        table_min_horizontal: random.pick(&[1, 1, 2, 3, 7]),
        table_min_vertical: random.pick(&[1, 1, 2, 3, 7]),
        ..VALID
    };
    Page {
        xheight: random.pick(&[1.0, 9.5, 10.0, 20.0, 4096.0, 0.001]),
        p,
        rects,
        directions,
    }
}

/// One change that misses a question, or may.
pub fn spoil(random: &mut Random, page: &mut Page) {
    let n = page.rects.len() / 4;
    match random.below(12) {
        0 => page.xheight = questions::bad_xheight(random),
        1 => page.rects.push(0),
        2 => page.directions.push(0),
        3 if n > 0 => page.directions[random.below(n as u64) as usize] = 2,
        4 if random.below(50) == 0 => {
            page.rects.resize(4 * (MOST_RULINGS + 1), 0);
            page.directions.resize(MOST_RULINGS + 1, 0);
        }
        3..=6 => questions::move_outside(random, &mut page.rects, LARGEST_SIDE, LARGEST_SIDE),
        _ => questions::spoil_settings(random, &mut page.p),
    }
}

/// The number of the first missed question of document 01, said here in plain Rust; `room` says
/// whether 14 is met.
pub fn question(page: &Page, room: bool) -> u32 {
    let fields = page.directions.len() == page.rects.len() / 4;
    questions::first_missed(&[
        questions::xheight(page.xheight),
        questions::rectangles(&page.rects, MOST_RULINGS),
        (5, fields && page.directions.iter().all(|&d| d <= 1)),
        questions::inside(&page.rects, LARGEST_SIDE, LARGEST_SIDE),
        questions::settings(&page.p),
        (14, room),
    ])
}

/// The closed sets of rulings, by smallest index.
pub fn closed_sets(page: &Page) -> Vec<Vec<u32>> {
    let join = (page.p.join_tol_xh * page.xheight).round() as i64;
    let side = |k: usize, d: usize| i64::from(page.rects[4 * k + d]);
    flood(page.directions.len(), |h, v| {
        let (x, y) = (side(v, 0) + side(v, 2), side(h, 1) + side(h, 3));
        (page.directions[h], page.directions[v]) == (0, 1)
            && (2 * (side(h, 0) - join)..=2 * (side(h, 2) + join)).contains(&x)
            && (2 * (side(v, 1) - join)..=2 * (side(v, 3) + join)).contains(&y)
    })
}
