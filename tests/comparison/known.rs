//! Calls with known answers: document 01's blocks to try, and large blocks that no exhaustive program reaches.

use crate::blocks::{all_edges, chain, two_way_ring};
use crate::call::{Block, Call, Operation, Rooms};

/// Document 01's blocks and those of docs/DECISIONS.md, with what `out` must hold.
const TEXTS: &[(&str, &[u64])] = &[
    ("pick rows costs nodes 0 memo 0", &[0, 0, 0, 0, 0]),
    ("pick rows 1 costs 7 nodes 0 memo 0", &[0, 0, 0, 0, 0]),
    ("pick rows 2 1 costs 5 5 nodes 0 memo 0", &[0, 0, 1, 5, 0]),
    ("pick rows 2 1 costs 5 5 nodes 4096 memo 4096", &[0, 0, 1, 5, 0]),
    ("pick rows 2 1 costs 5 4 nodes 0 memo 0", &[0, 0, 2, 4, 0]),
    ("pick rows 2 1 costs 0 0 nodes 0 memo 0", &[0, 0, 1, 0, 0]),
    ("pick rows 2 4 9 2 costs 1 5 5 1 nodes 8 memo 0", &[0, 0, 9, 2, 8]),
    ("pick rows 2 4 9 2 costs 1 5 5 1 nodes 7 memo 0", &[4, 0, 0, 0, 0]),
    ("pick rows 2 4 9 2 costs 1 1 1 1 nodes 0 memo 0", &[0, 0, 2, 1, 0]),
    ("pick rows 2 4 9 2 32 64 144 32 costs 1 5 5 1 1 5 5 1 nodes 8 memo 64", &[0, 0, 153, 4, 8]),
    ("pick rows 14 12 2 7 costs 1 4 1 3 nodes 4096 memo 64", &[0, 0, 12, 4, 19]),
    ("pick rows 2 5 3 costs 1 1 0 nodes 4096 memo 64", &[0, 0, 2, 1, 8]),
    ("pick rows 10 4 1 4 costs 6 1 5 1 nodes 7 memo 64", &[4, 1, 0, 0, 0]),
    ("ask rows 10 4 1 4 kept 0 nodes 7 memo 64", &[4, 0, 0, 0]),
    ("ask rows 2 4 9 2 kept 6 nodes 4096 memo 4096", &[0, 0, 0, 15]),
    ("ask rows 2 4 9 2 kept 7 nodes 4096 memo 4096", &[0, 0, 1, 15]),
    ("ask rows 2 4 9 2 kept 7 nodes 15 memo 0", &[0, 0, 1, 15]),
    ("ask rows 2 4 9 2 kept 7 nodes 14 memo 0", &[4, 0, 0, 0]),
    ("reduce rows 2 4 9 2 costs 1 5 5 1 limit 4", &[0, 0, 1, 0, 11]),
];

pub fn calls() -> Vec<(Call, Vec<u64>)> {
    let mut calls: Vec<(Call, Vec<u64>)> =
        TEXTS.iter().map(|(text, out)| (Call::parse(text).expect("a call"), out.to_vec())).collect();

    let ring: Vec<u64> = (0..64).map(|v| 1 << ((v + 1) % 64)).collect();
    let mut one_cheap = vec![u32::MAX; 64];
    one_cheap[37] = 0;
    calls.push((pick(&ring, vec![1; 64], 0, 64), vec![0, 0, 1, 1, 0]));
    calls.push((pick(&ring, vec![0; 64], 0, 64), vec![0, 0, 1, 0, 0]));
    calls.push((pick(&ring, vec![u32::MAX; 64], 0, 64), vec![0, 0, 1, u32::MAX.into(), 0]));
    calls.push((pick(&ring, one_cheap, 0, 64), vec![0, 0, 1 << 37, 0, 0]));
    calls.push((pick(&[0; 65], vec![0; 65], 4096, 64), vec![1, 0, 0, 0, 0]));
    // 32 loops of two flip-flops, each met at the largest cost: the total takes more than 32 bits
    let pairs: Vec<u64> = (0..64).map(|v: u32| 1 << (v ^ 1)).collect();
    let every_other = 0x5555_5555_5555_5555;
    calls.push((pick(&pairs, vec![u32::MAX; 64], 0, 0), vec![0, 0, every_other, 32 * u64::from(u32::MAX), 0]));

    // chains in groups of four with k = 16 and k = 32: their functions settle in pass k. With a pass fewer the pick
    // would cost one more, and all members of B kept (1014750, 1064043510750) would be said to hold a loop
    let (chain16, chain32) = (chain(20, 4), chain(40, 4));
    for memo in [0, 64, 4096, 65536] {
        calls.push((pick(&all_edges(17), vec![1; 17], 65536, memo), vec![0, 0, 65535, 16, 1768]));
        calls.push((pick(&all_edges(17), vec![1; 17], 1767, memo), vec![4, 0, 0, 0, 0]));
        calls.push((pick(&two_way_ring(63), vec![1; 63], 4042, memo), vec![0, 0, 3074457345618258603, 32, 4042]));
        calls.push((pick(&two_way_ring(63), vec![1; 63], 4041, memo), vec![4, 0, 0, 0, 0]));
        calls.push((pick(&chain16, chain_costs(20), 1046, memo), vec![0, 0, 33825, 8, 1046]));
        calls.push((pick(&chain16, chain_costs(20), 1045, memo), vec![4, 0, 0, 0, 0]));
        calls.push((pick(&chain32, chain_costs(40), 65540, memo), vec![0, 0, 35468117025, 16, 5401]));
        calls.push((pick(&chain32, chain_costs(40), 5400, memo), vec![4, 0, 0, 0, 0]));
    }
    calls.push((ask(&chain16, 1014750, 1046), vec![0, 0, 0, 1046]));
    calls.push((ask(&chain16, 1014751, 1046), vec![0, 0, 1, 1046]));
    calls.push((ask(&chain32, 1064043510750, 5401), vec![0, 0, 0, 5401]));
    calls.push((ask(&chain32, 1064043510751, 5401), vec![0, 0, 1, 5401]));
    calls
}

/// Costs with which reduction leaves a chain in groups of four whole: the flip-flops outside B are cheap, and the cost
/// falls along B, but for its two ends, which have a single neighbour outside it.
fn chain_costs(n: usize) -> Vec<u32> {
    let cost = |v: usize| match v {
        _ if v % 5 == 0 => 2,
        _ if v == 1 || v == n - 1 => 1,
        _ => (200 - v) as u32,
    };
    (0..n).map(cost).collect()
}

fn pick(rows: &[u64], costs: Vec<u32>, nodes: usize, memo: usize) -> Call {
    let block = Block { rows: rows.to_vec(), costs };
    Call { operation: Operation::Pick { block, rooms: Rooms { nodes, memo } }, rubbish: 0 }
}

fn ask(rows: &[u64], kept: u64, nodes: usize) -> Call {
    let rooms = Rooms { nodes, memo: 64 };
    Call { operation: Operation::Ask { rows: rows.to_vec(), kept, rooms }, rubbish: 0 }
}
