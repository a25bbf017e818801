//! What a call must leave behind, by document 01's refusal table and the exhaustive program.

use crate::call::{Block, Call, Operation, Rooms};
use crate::exhaustive::{bit, edges_as_lent, holds_loop, lightest, mask, needs, reduce, Done, MOST_NODES};

/// The cells that each written buffer must begin with, `out` first; the cells after those must stay as they were.
pub type Expected = Vec<Vec<u64>>;

/// The components' needs, each with the component's lowest flip-flop.
pub type Needs = Vec<(usize, u64)>;

/// The orders in which refusals are looked for. Pick and ask look for 4 after these.
const PICK: &[u64] = &[1, 2, 3];
const ASK: &[u64] = &[1, 3, 9];
const REDUCE: &[u64] = &[1, 2, 3];
const READ: &[u64] = &[5, 6, 1, 7, 3, 8];
const WRITE: &[u64] = &[1, 2, 3, 8];

/// The exhaustive program's answers, with the last block's kept, since one block is lent many times over.
#[derive(Default)]
pub struct Reference {
    picked: Option<(Block, Option<Picked>)>,
    asked: Option<(Vec<u64>, Option<Needs>)>,
}

#[derive(Clone)]
pub struct Picked {
    pub cost: u64,
    pub mask: u64,
    pub needs: Needs,
}

impl Reference {
    /// What the call must leave behind; None if the block is too large for the exhaustive program.
    pub fn expected(&mut self, call: &Call) -> Option<Expected> {
        Some(match &call.operation {
            Operation::Pick { block, rooms } => {
                if let Some(refusal) = refusal(PICK, |number| fault(number, &block.rows, block.costs.len())) {
                    return Some(vec![refused(refusal, 5)]);
                }
                let Picked { cost, mask, needs } = self.picked(block)?;
                match refusal(&[4], |_| unfit(&needs, rooms)) {
                    Some(refusal) => cleared(refused(refusal, 5), rooms),
                    None => cleared(vec![0, 0, mask, cost, largest(&needs)], rooms),
                }
            }
            Operation::Ask { rows, kept, rooms } => {
                let fault = |number| match number {
                    9 => (rows.len() < 64 && kept >> rows.len() != 0).then_some(0),
                    _ => fault(number, rows, rows.len()),
                };
                if let Some(refusal) = refusal(ASK, fault) {
                    return Some(vec![refused(refusal, 4)]);
                }
                let needs = self.asked(rows)?;
                match refusal(&[4], |_| unfit(&needs, rooms)) {
                    Some(refusal) => cleared(refused(refusal, 4), rooms),
                    None => {
                        let yes = holds_loop(*kept, &edges_as_lent(rows));
                        cleared(vec![0, 0, yes.into(), largest(&needs)], rooms)
                    }
                }
            }
            Operation::Reduce { block, limit } => reduced(block, *limit),
            Operation::Read { file, costs, rows } => read(file, *costs, *rows),
            Operation::Write { block, file } => write(block, *file),
        })
    }

    /// The lightest set of a block that passes the checks, and the needs of what reduction leaves.
    pub fn picked(&mut self, block: &Block) -> Option<Picked> {
        if self.picked.as_ref().is_none_or(|known| known.0 != *block) {
            let left = reduce(&block.rows, &block.costs, u64::MAX);
            let found = needs(&left.live, &left.edges).zip(lightest(&block.rows, &block.costs));
            let picked = found.map(|(needs, (cost, mask))| Picked { cost, mask, needs });
            self.picked = Some((block.clone(), picked));
        }
        self.picked.clone()?.1
    }

    /// The needs of the block as lent.
    pub fn asked(&mut self, rows: &[u64]) -> Option<Needs> {
        if self.asked.as_ref().is_none_or(|known| known.0 != rows) {
            self.asked = Some((rows.to_vec(), needs(&(0..rows.len()).collect(), &edges_as_lent(rows))));
        }
        self.asked.clone()?.1
    }
}

/// The first refusal in the operation's order that is given, with its place.
fn refusal(order: &[u64], place: impl Fn(u64) -> Option<u64>) -> Option<(u64, u64)> {
    order.iter().find_map(|&number| place(number).map(|place| (number, place)))
}

/// The place of refusal 1, 2 or 3 where it is given for rows and a number of costs.
fn fault(number: u64, rows: &[u64], costs: usize) -> Option<u64> {
    let n = rows.len();
    match number {
        1 => (n > 64).then_some(0),
        2 => (costs != n).then_some(0),
        _ => (0..n).find(|&v| (n..64).any(|w| bit(rows[v], w))).map(|v| v as u64),
    }
}

/// The place of refusal 4 where it is given.
fn unfit(needs: &Needs, rooms: &Rooms) -> Option<u64> {
    let capacity = MOST_NODES.min(rooms.nodes as u64);
    needs.iter().find(|part| part.1 > capacity).map(|part| part.0 as u64)
}

/// "Answers of ask and pick report the largest need, 0 without components."
fn largest(needs: &Needs) -> u64 {
    needs.iter().map(|part| part.1).max().unwrap_or(0)
}

/// "A refusal gives its number and place and zero in every other result."
fn refused((number, place): (u64, u64), results: usize) -> Vec<u64> {
    let mut out = vec![0; results];
    (out[0], out[1]) = (number, place);
    out
}

/// An answer of pick or ask, or refusal 4, with both rooms zero.
pub fn cleared(out: Vec<u64>, rooms: &Rooms) -> Expected {
    vec![out, vec![0; rooms.nodes.min(MOST_NODES as usize)], vec![0; rooms.memo]]
}

fn reduced(block: &Block, limit: u64) -> Expected {
    let n = block.rows.len();
    let (mut steps, mut rows) = (vec![0; 64], vec![0; 64]);
    if let Some(refusal) = refusal(REDUCE, |number| fault(number, &block.rows, block.costs.len())) {
        return vec![refused(refusal, 5), steps, rows];
    }
    let left = reduce(&block.rows, &block.costs, limit);
    for (place, &(v, done)) in left.steps.iter().enumerate() {
        let (kind, neighbour) = match done {
            Done::Dropped => (0, 0),
            Done::Forced => (1, 0),
            Done::Folded(u) => (2, u),
        };
        steps[place] = v as u64 + 256 * kind + 65536 * neighbour as u64;
    }
    (0..n).for_each(|v| rows[v] = left.row(v));
    vec![vec![0, 0, left.steps.len() as u64, mask(left.forced), mask(left.live)], steps, rows]
}

/// A number of a file, "low byte first".
fn number(bytes: &[u8]) -> u64 {
    bytes.iter().rev().fold(0, |number, &byte| 256 * number + u64::from(byte))
}

fn read(file: &[u8], costs: usize, rows: usize) -> Expected {
    let n = || usize::from(file[5]);
    let file_rows = || -> Vec<u64> { file[6 + 4 * n()..].chunks(8).map(number).collect() };
    let fault = |no| match no {
        5 => (file.len() < 6 || !file.starts_with(b"FVG")).then_some(0),
        6 => (number(&file[3..5]) != 1).then_some(0),
        1 => (n() > 64).then_some(0),
        7 => (file.len() != 6 + 12 * n()).then_some(0),
        3 => fault(3, &file_rows(), n()),
        _ => (costs < n() || rows < n()).then_some(0),
    };
    match refusal(READ, fault) {
        Some(refusal) => vec![refused(refusal, 3)],
        None => vec![vec![0, 0, n() as u64], file[6..6 + 4 * n()].chunks(4).map(number).collect(), file_rows()],
    }
}

fn write(block: &Block, file: usize) -> Expected {
    let bytes = layout(block);
    let fault = |number| match number {
        8 => (file < bytes.len()).then_some(0),
        _ => fault(number, &block.rows, block.costs.len()),
    };
    match refusal(WRITE, fault) {
        Some(refusal) => vec![refused(refusal, 3)],
        None => vec![vec![0, 0, bytes.len() as u64], bytes.into_iter().map(u64::from).collect()],
    }
}

/// "`FVG`, version 1 as two bytes, n as one byte, n costs of four bytes, n rows of eight, every number low byte first."
pub fn layout(block: &Block) -> Vec<u8> {
    let mut bytes = vec![b'F', b'V', b'G', 1, 0, block.rows.len() as u8];
    bytes.extend(block.costs.iter().flat_map(|cost| cost.to_le_bytes()));
    bytes.extend(block.rows.iter().flat_map(|row| row.to_le_bytes()));
    bytes
}
