//! Closed sets and order: against a flood fill and `sort_by_key`, with every lent place checked.

use lanegravel_binding::sets;

use crate::flood::{self, flood};
use crate::random::Random;
use crate::tally::Tally;
use crate::testing::{self, SetLists, SetsAnswer};

/// What a lent place holds before a call.
const LENT: u32 = 0xabad_cafe;

pub fn gap_sets(random: &mut Random, count: u64) -> Tally {
    let mut tally = Tally::default();
    for _ in 0..count {
        let n = random.below(24) as usize;
        let width = random.pick(&[4, 40, 400, u64::from(u32::MAX) + 1]);
        let values: Vec<u32> = (0..n).map(|_| random.below(width) as u32).collect();
        let gap = random.below(width / 4 + 1) as u32;
        let sets = flood(n, |i, j| values[i].abs_diff(values[j]) <= gap);
        let mut lists = lent(random, n);
        let expected = listed(n, &sets, &lists, true);
        let answer = testing::gap_sets(&values, gap, &mut lists);
        check(&mut tally, expected, answer, lists, || {
            format!("{values:?} gap {gap}")
        });
    }
    tally
}

pub fn pair_sets(random: &mut Random, count: u64) -> Tally {
    let mut tally = Tally::default();
    for _ in 0..count {
        let n = random.below(24) as usize;
        // now and then an index past the last, and a number without its partner
        let top = n as u64 + u64::from(random.below(16) == 0);
        let numbers = if top == 0 {
            0
        } else {
            random.below(2 * n as u64 + 2)
        };
        let pairs: Vec<u32> = (0..numbers).map(|_| random.below(top) as u32).collect();
        let whole = pairs.iter().all(|&i| (i as usize) < n);
        let sets = flood(n, |i, j| {
            pairs
                .chunks_exact(2)
                .any(|p| (p[0] as usize, p[1] as usize) == (i, j))
        });
        let mut lists = lent(random, n);
        let expected = listed(n, &sets, &lists, whole);
        let answer = testing::pair_sets(n, &pairs, &mut lists);
        check(&mut tally, expected, answer, lists, || {
            format!("{n} indexes, pairs {pairs:?}")
        });
    }
    tally
}

pub fn members_of(random: &mut Random, count: u64) -> Tally {
    let mut tally = Tally::default();
    for _ in 0..count {
        let members: Vec<u32> = (0..random.below(8)).map(|i| i as u32).collect();
        let ends: Vec<u32> = (0..random.below(6))
            .map(|_| random.below(10) as u32)
            .collect();
        let (count, set) = (random.below(8) as usize, random.below(8) as usize);
        let start = if set == 0 {
            0
        } else {
            *ends.get(set - 1).unwrap_or(&0)
        } as usize;
        let part = match ends.get(set) {
            Some(&end) if set < count => members.get(start..end as usize).unwrap_or(&[]),
            _ => &[],
        };
        let ours = sets::members_of(&members, &ends, count, set);
        tally.compare(&words(part), &words(ours), || {
            format!("members {members:?} ends {ends:?} count {count} set {set}")
        });
    }
    tally
}

pub fn sort_indexes(random: &mut Random, count: u64) -> Tally {
    let mut tally = Tally::default();
    for case in 0..count {
        let n = if case % 1_000 == 999 {
            random.below(20_000)
        } else {
            random.below(40)
        } as usize;
        let width = random.pick(&[1, 3, 256, 1 << 20, 1 << 52, u64::MAX]);
        let keys: Vec<u64> = (0..n).map(|_| random.bits() % width).collect();
        let (mut out, mut work) = (vec![LENT; room(random, n)], vec![LENT; room(random, n)]);
        let accepted = out.len() >= n && work.len() >= n;
        let mut expected = out.clone();
        if accepted {
            let mut order: Vec<u32> = (0..n as u32).collect();
            order.sort_by_key(|&i| keys[i as usize]);
            expected[..n].copy_from_slice(&order);
        }
        let ours = testing::sort_indexes(&keys, &mut out, &mut work);
        let kept = accepted || work.iter().all(|&x| x == LENT);
        tally.compare(
            &[u64::from(accepted), 1, u64::from(true)],
            &[u64::from(ours), u64::from(kept), u64::from(out == expected)],
            || format!("{n} keys below {width:x}: {:x?}", &keys[..n.min(40)]),
        );
    }
    tally
}

/// Room for n entries, now and then one too few or some more.
fn room(random: &mut Random, n: usize) -> usize {
    match random.below(16) {
        0 => n.saturating_sub(1),
        1..4 => n + random.below(5) as usize,
        _ => n,
    }
}

fn lent(random: &mut Random, n: usize) -> SetLists {
    SetLists {
        parents: vec![LENT; room(random, n)],
        members: vec![LENT; room(random, n)],
        ends: vec![LENT; room(random, n)],
        work: vec![LENT; room(random, n)],
    }
}

/// The answer, and what the lists must hold after it; parents and work are free when accepted.
fn listed(n: usize, sets: &[Vec<u32>], lists: &SetLists, whole: bool) -> (SetsAnswer, SetLists) {
    let mut after = lists.clone();
    let lengths = [&lists.parents, &lists.members, &lists.ends, &lists.work];
    if !whole || lengths.iter().any(|list| list.len() < n) {
        return (
            SetsAnswer {
                number: 1,
                count: 0,
            },
            after,
        );
    }
    flood::list(sets, &mut after.members, &mut after.ends);
    let count = sets.len();
    (SetsAnswer { number: 0, count }, after)
}

fn check(
    tally: &mut Tally,
    (expected, after): (SetsAnswer, SetLists),
    answer: SetsAnswer,
    mut lists: SetLists,
    input: impl FnOnce() -> String,
) {
    if expected.number == 0 {
        lists.parents = after.parents.clone();
        lists.work = after.work.clone();
    }
    tally.compare(
        &[u64::from(expected.number), expected.count as u64, 1],
        &[
            u64::from(answer.number),
            answer.count as u64,
            u64::from(lists == after),
        ],
        input,
    );
}

fn words(list: &[u32]) -> Vec<u64> {
    list.iter().map(|&x| u64::from(x)).collect()
}
