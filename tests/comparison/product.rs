//! The picker as built for C: a call made with guarded buffers, and what it left in them.

use crate::call::{Block, Call, Operation};
use crate::fence::FencedRoom;
use crate::random::Random;

#[link(name = "scanpick_c", kind = "static")]
extern "C" {
    fn scanpick_pick(
        rows: *const u64,
        rows_len: usize,
        costs: *const u32,
        costs_len: usize,
        nodes: *mut u64,
        nodes_len: usize,
        memo: *mut u64,
        memo_len: usize,
        out: *mut u64,
    );
    fn scanpick_ask(
        rows: *const u64,
        rows_len: usize,
        kept: u64,
        nodes: *mut u64,
        nodes_len: usize,
        memo: *mut u64,
        memo_len: usize,
        out: *mut u64,
    );
    fn scanpick_reduce(
        rows: *const u64,
        rows_len: usize,
        costs: *const u32,
        costs_len: usize,
        limit: u64,
        out: *mut u64,
        steps: *mut u64,
        left: *mut u64,
    );
    fn scanpick_read(
        file: *const u8,
        file_len: usize,
        costs: *mut u32,
        costs_len: usize,
        rows: *mut u64,
        rows_len: usize,
        out: *mut u64,
    );
    fn scanpick_write(
        rows: *const u64,
        rows_len: usize,
        costs: *const u32,
        costs_len: usize,
        file: *mut u8,
        file_len: usize,
        out: *mut u64,
    );
}

/// A buffer as it was lent and as it came back.
pub struct Lent {
    pub name: &'static str,
    pub before: Vec<u64>,
    pub after: Vec<u64>,
    /// Whether the cells around it kept their values.
    pub guarded: bool,
}

/// Makes the call. The buffers come back in the order of the interface, those written first: `out` and what follows the
/// operation's inputs.
pub fn make(call: &Call) -> Vec<Lent> {
    let mut fill = Rubbish::new(call.rubbish);
    match &call.operation {
        Operation::Pick { block, rooms } => {
            let (rows, costs) = (fill.input(&block.rows), fill.input(&block.costs));
            let mut out = fill.cells(5);
            let (mut nodes, mut memo) = (fill.cells(rooms.nodes), fill.cells(rooms.memo));
            // SAFETY: each pointer is to as many cells as the length beside it says (out: 5), which nothing else uses
            // meanwhile.
            unsafe {
                scanpick_pick(
                    rows.lend(),
                    rows.len(),
                    costs.lend(),
                    costs.len(),
                    nodes.lend_mut(),
                    nodes.len(),
                    memo.lend_mut(),
                    memo.len(),
                    out.lend_mut(),
                );
            }
            vec![out.back("out"), nodes.back("nodes"), memo.back("memo"), rows.back("rows"), costs.back("costs")]
        }
        Operation::Ask { rows, kept, rooms } => {
            let rows = fill.input(rows);
            let mut out = fill.cells(4);
            let (mut nodes, mut memo) = (fill.cells(rooms.nodes), fill.cells(rooms.memo));
            // SAFETY: as above (out: 4).
            unsafe {
                scanpick_ask(
                    rows.lend(),
                    rows.len(),
                    *kept,
                    nodes.lend_mut(),
                    nodes.len(),
                    memo.lend_mut(),
                    memo.len(),
                    out.lend_mut(),
                );
            }
            vec![out.back("out"), nodes.back("nodes"), memo.back("memo"), rows.back("rows")]
        }
        Operation::Reduce { block, limit } => {
            let (rows, costs) = (fill.input(&block.rows), fill.input(&block.costs));
            let (mut out, mut steps, mut left) = (fill.cells(5), fill.cells(64), fill.cells(64));
            // SAFETY: as above (out: 5, steps and left: 64).
            unsafe {
                scanpick_reduce(
                    rows.lend(),
                    rows.len(),
                    costs.lend(),
                    costs.len(),
                    *limit,
                    out.lend_mut(),
                    steps.lend_mut(),
                    left.lend_mut(),
                );
            }
            vec![out.back("out"), steps.back("steps"), left.back("left"), rows.back("rows"), costs.back("costs")]
        }
        Operation::Read { file, costs, rows } => {
            let file = fill.input(file);
            let mut out = fill.cells(3);
            let (mut costs, mut rows) = (fill.cells::<u32>(*costs), fill.cells(*rows));
            // SAFETY: as above (out: 3).
            unsafe {
                scanpick_read(
                    file.lend(),
                    file.len(),
                    costs.lend_mut(),
                    costs.len(),
                    rows.lend_mut(),
                    rows.len(),
                    out.lend_mut(),
                );
            }
            vec![out.back("out"), costs.back("costs"), rows.back("rows"), file.back("file")]
        }
        Operation::Write { block, file } => {
            let (rows, costs) = (fill.input(&block.rows), fill.input(&block.costs));
            let mut out = fill.cells(3);
            let mut file = fill.cells::<u8>(*file);
            // SAFETY: as above (out: 3).
            unsafe {
                scanpick_write(
                    rows.lend(),
                    rows.len(),
                    costs.lend(),
                    costs.len(),
                    file.lend_mut(),
                    file.len(),
                    out.lend_mut(),
                );
            }
            vec![out.back("out"), file.back("file"), rows.back("rows"), costs.back("costs")]
        }
    }
}

/// Picks in a node room that is said to be longer than it is: its first 65,536 words are there, and what follows may
/// not be touched. Returns the results.
pub fn pick_before_fence(block: &Block, room: &mut FencedRoom, beyond: usize) -> Vec<u64> {
    let nodes = room.words();
    let (mut memo, mut out) = ([u64::MAX; 64], vec![u64::MAX; 5]);
    // SAFETY: each pointer is to as many cells as the length beside it says, but for the node room, which is the trial.
    unsafe {
        scanpick_pick(
            block.rows.as_ptr(),
            block.rows.len(),
            block.costs.as_ptr(),
            block.costs.len(),
            nodes.as_mut_ptr(),
            nodes.len() + beyond,
            memo.as_mut_ptr(),
            memo.len(),
            out.as_mut_ptr(),
        );
    }
    out
}

/// What stands in one cell of a buffer.
trait Cell: Copy + PartialEq {
    fn of(word: u64) -> Self;
    fn word(self) -> u64;
}

macro_rules! cell {
    ($($t:ty),*) => { $(impl Cell for $t {
        fn of(word: u64) -> Self { word as Self }
        fn word(self) -> u64 { self.into() }
    })* };
}
cell!(u8, u32, u64);

/// Cells to lend, with guards on both sides.
struct Cells<T> {
    cells: Vec<T>,
    before: Vec<T>,
}

const GUARD: usize = 32;

impl<T: Cell> Cells<T> {
    fn len(&self) -> usize {
        self.cells.len() - 2 * GUARD
    }

    fn lend(&self) -> *const T {
        self.cells[GUARD..].as_ptr()
    }

    fn lend_mut(&mut self) -> *mut T {
        self.cells[GUARD..].as_mut_ptr()
    }

    fn back(self, name: &'static str) -> Lent {
        let end = GUARD + self.len();
        let guarded = self.cells[..GUARD] == self.before[..GUARD] && self.cells[end..] == self.before[end..];
        let middle = |cells: &[T]| cells[GUARD..end].iter().map(|cell| cell.word()).collect();
        Lent { name, before: middle(&self.before), after: middle(&self.cells), guarded }
    }
}

/// Fills buffers with rubbish of one of several kinds.
struct Rubbish {
    kind: u64,
    random: Random,
}

impl Rubbish {
    fn new(seed: u64) -> Rubbish {
        Rubbish { kind: seed % 5, random: Random::new(seed) }
    }

    fn word(&mut self, len: usize) -> u64 {
        match self.kind {
            0 => self.random.word(),
            1 => u64::MAX,
            2 => self.random.word() % 4,
            // what may look like a node or like an entry of the memo: a variable and two numbers of nodes, packed
            3 => self.random.word() % 64 | self.node(len) << 8 | self.node(len) << 25,
            _ => self.random.word() % 64 << 34 | self.node(len) << 17 | self.node(len),
        }
    }

    fn node(&mut self, len: usize) -> u64 {
        self.random.word() % (len as u64 + 2)
    }

    fn cells<T: Cell>(&mut self, len: usize) -> Cells<T> {
        let cells: Vec<T> = (0..len + 2 * GUARD).map(|_| T::of(self.word(len))).collect();
        Cells { before: cells.clone(), cells }
    }

    fn input<T: Cell>(&mut self, values: &[T]) -> Cells<T> {
        let mut lent = self.cells(values.len());
        lent.cells[GUARD..GUARD + values.len()].copy_from_slice(values);
        lent.before.copy_from_slice(&lent.cells);
        lent
    }
}
