//! Joining, listing and sorting. The Rust's own `find` and `union` are private, so what it does is
//! written anew here: `usize` parents, path halving, the smaller root wins, a Vec for each group.

use std::hint::black_box;

use differential::testing::{self, SetLists};

use crate::random::Random;
use crate::timing::{Measurement, Times, compare};

pub const MEASUREMENTS: [Measurement; 6] = [
    ("join and list, 2^24 in a random forest", forest),
    ("join and list, 2^24 in one chain", chain),
    ("join and list, 2^22 in one chain, pairs shuffled", shuffled),
    ("sort 2^20 random keys", || sort(1 << 20, 11)),
    ("sort 4,096 random keys", || sort(4_096, 1_001)),
    ("sort 300 random keys", || sort(300, 5_001)),
];

fn forest() -> Times {
    let mut random = Random::new(1);
    let pairs = (1..1u32 << 24)
        .filter(|i| i % 8 != 0)
        .flat_map(|i| [i, random.below(u64::from(i)) as u32])
        .collect();
    group(1 << 24, pairs)
}

fn chain() -> Times {
    group(1 << 24, (1..1u32 << 24).flat_map(|i| [i - 1, i]).collect())
}

fn shuffled() -> Times {
    let mut random = Random::new(1);
    let mut firsts: Vec<u32> = (1..1 << 22).collect();
    for i in (1..firsts.len()).rev() {
        firsts.swap(i, random.below(i as u64 + 1) as usize);
    }
    group(1 << 22, firsts.iter().flat_map(|&i| [i - 1, i]).collect())
}

fn group(n: usize, pairs: Vec<u32>) -> Times {
    let mut lists = SetLists {
        parents: vec![0; n],
        members: vec![0; n],
        ends: vec![0; n],
        work: vec![0; n],
    };
    compare(
        5,
        || {
            black_box(testing::pair_sets(n, black_box(&pairs), &mut lists));
        },
        || {
            black_box(groups(n, black_box(&pairs)));
        },
    )
}

fn root(parents: &mut [usize], start: usize) -> usize {
    let mut at = start;
    loop {
        let up = parents[at];
        if up == at {
            return at;
        }
        parents[at] = parents[up];
        at = parents[at];
    }
}

fn groups(n: usize, pairs: &[u32]) -> Vec<Vec<usize>> {
    let mut parents: Vec<usize> = (0..n).collect();
    for pair in pairs.chunks_exact(2) {
        let a = root(&mut parents, pair[0] as usize);
        let b = root(&mut parents, pair[1] as usize);
        if a != b {
            parents[a.max(b)] = a.min(b);
        }
    }
    let mut number = vec![usize::MAX; n];
    let mut groups: Vec<Vec<usize>> = Vec::new();
    for i in 0..n {
        let r = root(&mut parents, i);
        if number[r] == usize::MAX {
            number[r] = groups.len();
            groups.push(Vec::new());
        }
        groups[number[r]].push(i);
    }
    groups
}

fn sort(n: usize, runs: usize) -> Times {
    let mut random = Random::new(1);
    let keys: Vec<u64> = (0..n).map(|_| random.bits()).collect();
    let (mut out, mut work) = (vec![0; n], vec![0; n]);
    compare(
        runs,
        || {
            black_box(testing::sort_indexes(black_box(&keys), &mut out, &mut work));
        },
        || {
            let mut order: Vec<u32> = (0..n as u32).collect();
            order.sort_by_key(|&i| keys[i as usize]);
            black_box(order);
        },
    )
}
