//! Closed sets the plain way, for every call that lists them.

/// The sets of indexes below n that chains of touching ones join: members ascending, the sets by
/// smallest index. `touch` may know a pair in one order only.
pub fn flood(n: usize, touch: impl Fn(usize, usize) -> bool) -> Vec<Vec<u32>> {
    let mut seen = vec![false; n];
    let mut sets = Vec::new();
    for first in 0..n {
        if seen[first] {
            continue;
        }
        seen[first] = true;
        let (mut set, mut open) = (vec![first as u32], vec![first]);
        while let Some(i) = open.pop() {
            for (j, seen) in seen.iter_mut().enumerate() {
                if !*seen && (touch(i, j) || touch(j, i)) {
                    *seen = true;
                    set.push(j as u32);
                    open.push(j);
                }
            }
        }
        set.sort_unstable();
        sets.push(set);
    }
    sets
}

/// Writes the sets as a listing: their members, and where each set ends.
pub fn list(sets: &[Vec<u32>], members: &mut [u32], ends: &mut [u32]) {
    let mut at = 0;
    for (set, end) in sets.iter().zip(ends) {
        members[at..at + set.len()].copy_from_slice(set);
        at += set.len();
        *end = at as u32;
    }
}
