//! What several calls ask, in document 01's words, and changes that miss it.

use lanegravel_binding::settings::RulingsParams;

use crate::params;
use crate::random::Random;

pub const LARGEST_SIDE: usize = 8192;

/// The number of the first missed question, 0 where none is: of each question, in order, its number
/// and whether it is met.
pub fn first_missed(questions: &[(u32, bool)]) -> u32 {
    let missed = questions.iter().find(|(_, met)| !met);
    missed.map_or(0, |&(number, _)| number)
}

/// Question 1, of the levelled picture alone.
pub fn sides(width: usize, height: usize) -> (u32, bool) {
    let side = |n: usize| (1..=LARGEST_SIDE).contains(&n);
    (1, side(width) && side(height))
}

/// Question 2, of the x-height alone.
pub fn xheight(x: f64) -> (u32, bool) {
    (2, x > 0.0 && x <= 4_096.0)
}

/// Question 5: whole rectangles, at most so many.
pub fn rectangles(numbers: &[u32], most: usize) -> (u32, bool) {
    (
        5,
        numbers.len().is_multiple_of(4) && numbers.len() / 4 <= most,
    )
}

/// Question 6: each rectangle ordered and inside a picture of these sides.
pub fn inside(numbers: &[u32], width: usize, height: usize) -> (u32, bool) {
    let ordered = |r: &[u32]| r[0] <= r[2] && r[1] <= r[3];
    let within = |r: &[u32]| (r[2] as usize) < width && (r[3] as usize) < height;
    let rects = numbers.chunks_exact(4);
    (6, rects.into_iter().all(|r| ordered(r) && within(r)))
}

/// Questions 7 to 11 and 13, as one: the first of them that is missed.
pub fn settings(p: &RulingsParams) -> (u32, bool) {
    let number = params::first_missed(p);
    (number, number == 0)
}

/// A side that misses question 1.
pub fn bad_side(random: &mut Random) -> usize {
    random.pick(&[0, LARGEST_SIDE + 1, 1 << 40, usize::MAX])
}

/// An x-height that misses question 2.
pub fn bad_xheight(random: &mut Random) -> f64 {
    random.pick(&[0.0, -0.0, -1.0, 4_096.5, f64::INFINITY, f64::NAN])
}

/// Moves one coordinate to or past the picture's edge, or to the other end.
pub fn move_outside(random: &mut Random, numbers: &mut [u32], width: usize, height: usize) {
    if numbers.is_empty() {
        return;
    }
    let at = random.below(numbers.len() as u64) as usize;
    let edge = if at.is_multiple_of(2) { width } else { height } as u32;
    numbers[at] = random.pick(&[edge, edge.wrapping_sub(1), 0, u32::MAX]);
}

/// One change of the settings for each of questions 7 to 11 and 13.
pub fn spoil_settings(random: &mut Random, p: &mut RulingsParams) {
    match random.below(6) {
        0 => p.table_prior = random.pick(&[1.1e6, -1.1e6, f64::INFINITY, f64::NAN]),
        1 => {
            let below = random.pick(&[-1.0, -f64::MIN_POSITIVE]);
            let lengths = [
                &mut p.merge_gap_xh,
                &mut p.join_tol_xh,
                &mut p.box_min_in,
                &mut p.grid_align_xh,
            ];
            *lengths
                .into_iter()
                .nth(random.below(4) as usize)
                .expect("four") = below;
        }
        2 => p.box_max_xh = p.box_min_xh.next_down(),
        3 if random.below(2) == 0 => p.box_edge_coverage = 1.0f64.next_up(),
        3 => p.box_tolerance_px = 4,
        4 if random.below(2) == 0 => p.table_min_vertical = 0,
        4 => p.grid_min_boxes = random.pick(&[0, 1]),
        _ => p.min_free_rules = 0,
    }
}
