//! Blocks to compare on: every small one, and random ones of many shapes.

use crate::call::Block;
use crate::exhaustive::reduce;
use crate::random::Random;

/// Every graph of n flip-flops, self edges included.
pub fn every_graph(n: usize) -> impl Iterator<Item = Vec<u64>> {
    (0..1u64 << (n * n)).map(move |edges| (0..n).map(|v| edges >> (n * v) & ((1 << n) - 1)).collect())
}

/// All costs from 0 to `most` for n flip-flops.
pub fn every_cost(n: usize, most: u32) -> impl Iterator<Item = Vec<u32>> {
    let choices = most + 1;
    (0..choices.pow(n as u32)).map(move |code| (0..n as u32).map(|v| code / choices.pow(v) % choices).collect())
}

/// A block of n flip-flops whose components have at most `part` members each.
pub fn random_block(random: &mut Random, n: usize, part: usize) -> Block {
    let mut rows = vec![0; n];
    let mut start = 0;
    while start < n {
        let size = if start == 0 && n <= part && random.chance(70) { n } else { random.within(1, part.min(n - start)) };
        let shape = random_graph(random, size);
        shape.iter().enumerate().for_each(|(v, row)| rows[start + v] = row << start);
        if random.chance(50) {
            // edges from earlier parts to this one, never back
            for v in 0..start {
                for w in start..start + size {
                    rows[v] |= u64::from(random.chance(15)) << w;
                }
            }
        }
        start += size;
    }
    if random.chance(30) {
        (0..n).for_each(|v| rows[v] |= u64::from(random.chance(20)) << v);
    }
    if random.chance(70) {
        rows = renumbered(&rows, &random.shuffled(n));
    }
    let costs = match random.below(4) {
        0 if n <= 20 => stubborn_costs(random, &rows),
        _ => random_costs(random, n),
    };
    Block { rows, costs }
}

fn random_graph(random: &mut Random, n: usize) -> Vec<u64> {
    let percent = match random.below(9) {
        0 => 100 * random.within(10, 16) / (10 * n), // about one edge out of each
        1 => 100 * random.within(16, 26) / (10 * n),
        2 => random.within(20, 45),
        3 => random.within(50, 80),
        4 => return all_edges(n),
        5 => return (0..n).map(|v| 1 << ((v + 1) % n)).collect(), // a ring
        6 => return two_way_ring(n),
        7 => return chain(n, random.within(1, 3)),
        _ => 8 + 40 / n,
    };
    let mut rows: Vec<u64> = (0..n).map(|_| (0..n).map(|w| u64::from(random.chance(percent)) << w).sum()).collect();
    (0..n).for_each(|v| rows[v] &= !(1 << v));
    if random.chance(60) {
        (0..n).for_each(|v| rows[v] |= u64::from(n > 1) << ((v + 1) % n)); // in one component
    }
    rows
}

pub fn all_edges(n: usize) -> Vec<u64> {
    let all = u64::MAX >> (64 - n);
    (0..n).map(|v| all & !(1 << v)).collect()
}

pub fn two_way_ring(n: usize) -> Vec<u64> {
    (0..n).map(|v| (1 << ((v + 1) % n) | 1 << ((v + n - 1) % n)) & !(1 << v)).collect()
}

/// A chain of members of B in groups, each group after a flip-flop outside B that all of the group go back to (the
/// first of a group goes back to the one before, and the last on to the next). The functions of B settle in the last
/// pass only.
pub fn chain(n: usize, group: usize) -> Vec<u64> {
    let mut rows = vec![0; n];
    for v in 0..n {
        let (first, place) = (v / (group + 1) * (group + 1), v % (group + 1));
        if place > 0 {
            let home = if place == 1 && first > 0 { first - group - 1 } else { first };
            rows[v] |= 1 << home;
        }
        for w in [v + 1, v + 2] {
            if w < n && (w == v + 1 || (first + group == v)) {
                rows[v] |= 1 << w;
            }
        }
    }
    if n > 2 {
        rows[0] |= 1 << 2;
    }
    rows
}

/// The same graph with flip-flop v renamed to order[v].
fn renumbered(rows: &[u64], order: &[usize]) -> Vec<u64> {
    let mut renamed = vec![0; rows.len()];
    for v in 0..rows.len() {
        for w in (0..rows.len()).filter(|w| rows[v] >> w & 1 == 1) {
            renamed[order[v]] |= 1 << order[w];
        }
    }
    renamed
}

fn random_costs(random: &mut Random, n: usize) -> Vec<u32> {
    let kind = random.below(8);
    let cost = |v: usize| match kind {
        0 => 0,
        1 => 1,
        2 => u32::MAX,
        3 => random.below(3) as u32,
        4 => random.below(10) as u32,
        5 => random.one_of(&[0, 1, u32::MAX - 1, u32::MAX]),
        6 => (2 * n - v) as u32, // falling, so that little is folded
        _ => random.word() as u32,
    };
    (0..n).map(cost).collect()
}

/// Of some random costs, those with which reduction leaves the most.
fn stubborn_costs(random: &mut Random, rows: &[u64]) -> Vec<u32> {
    let tries = (0..8).map(|_| random_costs(random, rows.len()));
    tries.max_by_key(|costs| reduce(rows, costs, u64::MAX).live.len()).expect("eight tries")
}
