//! What is compared: the blocks, room lengths, faults and files that a run goes through.

use crate::blocks::{every_cost, every_graph, random_block};
use crate::call::{Block, Call, Operation, Rooms};
use crate::comparison::{mismatch, Comparison, Outcome};
use crate::exhaustive::{components, edges_as_lent, holds_loop, lightest, reduce, MOST_MEMBERS, MOST_TRIED};
use crate::expected::{cleared, layout, Needs};
use crate::fence::FencedRoom;
use crate::known;
use crate::product::{self, Lent};

/// The lengths of memo rooms that are tried.
const MEMOS: [usize; 6] = [0, 1, 3, 64, 4096, 8192];

impl Comparison {
    fn operation(&mut self, operation: Operation) -> Outcome<Vec<Lent>> {
        let rubbish = self.random.word();
        self.compare(Call { operation, rubbish })
    }

    fn pick(&mut self, block: &Block, nodes: usize, memo: usize) -> Outcome {
        self.operation(Operation::Pick { block: block.clone(), rooms: Rooms { nodes, memo } }).map(drop)
    }

    fn ask(&mut self, rows: &[u64], kept: u64, nodes: usize, memo: usize) -> Outcome {
        self.operation(Operation::Ask { rows: rows.to_vec(), kept, rooms: Rooms { nodes, memo } }).map(drop)
    }

    fn reduce(&mut self, block: &Block, limit: u64) -> Outcome {
        self.operation(Operation::Reduce { block: block.clone(), limit }).map(drop)
    }

    /// The length of a memo room: a short one more often than not, since the long ones take time to fill.
    fn memo(&mut self) -> usize {
        if self.random.chance(90) {
            self.random.one_of(&MEMOS[..4])
        } else {
            self.random.one_of(&MEMOS)
        }
    }

    /// A random set of the flip-flops, more often than not with most of them.
    fn kept(&mut self, all: u64) -> u64 {
        all & (self.random.word() | if self.random.chance(60) { self.random.word() } else { 0 })
    }

    // Every small block

    /// Every block of up to three flip-flops with costs from 0 to 2, and every one of four without self edges with
    /// costs 0 and 1.
    pub fn every_small_block(&mut self) -> Outcome {
        for n in 0..=4 {
            let counts = |rows: &Vec<u64>| n < 4 || (0..n).all(|v| rows[v] >> v & 1 == 0);
            for rows in every_graph(n).filter(counts) {
                self.every_kept_set(&rows)?;
                for costs in every_cost(n, if n < 4 { 2 } else { 1 }) {
                    self.small_block(&Block { rows: rows.clone(), costs })?;
                }
            }
        }
        Ok(())
    }

    fn every_kept_set(&mut self, rows: &[u64]) -> Outcome {
        let need = largest(&self.reference.asked(rows));
        for kept in 0..1 << rows.len() {
            for nodes in [need.saturating_sub(1), need, 64] {
                let memo = self.memo();
                self.ask(rows, kept, nodes, memo)?;
            }
        }
        Ok(())
    }

    fn small_block(&mut self, block: &Block) -> Outcome {
        self.tally.count_block("every one of up to three flip-flops, costs 0 to 2, and of four, costs 0 and 1");
        let need = largest(&self.reference.picked(block).map(|picked| picked.needs));
        for nodes in [need.saturating_sub(1), need, 64] {
            let memo = self.memo();
            self.pick(block, nodes, memo)?;
        }
        if block.rows.len() < 4 {
            self.every_limit(block)?;
        }
        Ok(())
    }

    fn every_limit(&mut self, block: &Block) -> Outcome {
        let n = block.rows.len() as u64;
        (0..=n + 1).chain([u64::MAX]).try_for_each(|limit| self.reduce(block, limit))
    }

    // Random blocks

    /// One random block through all operations.
    pub fn random_block(&mut self) -> Outcome {
        let (n, part) = match self.random.below(10) {
            0 => (self.random.within(11, 64), self.random.within(2, 6)),
            _ => (self.random.within(2, MOST_MEMBERS), MOST_MEMBERS),
        };
        let block = random_block(&mut self.random, n, part);
        self.tally.count_block(if n > MOST_MEMBERS {
            "random ones of 11 to 64 flip-flops in small components"
        } else {
            "random ones of up to ten flip-flops"
        });
        self.picks(&block)?;
        self.asks(&block.rows)?;
        self.every_limit(&block)?;
        self.there_and_back(&block)
    }

    /// Node rooms of all lengths around the needs and far from them, memo rooms of all lengths.
    fn picks(&mut self, block: &Block) -> Outcome {
        let needs = self.reference.picked(block).map(|picked| picked.needs);
        for nodes in self.lengths(&needs) {
            let memo = self.memo();
            self.pick(block, nodes, memo)?;
        }
        MEMOS.into_iter().try_for_each(|memo| self.pick(block, largest(&needs), memo))
    }

    fn asks(&mut self, rows: &[u64]) -> Outcome {
        let n = rows.len();
        let all = u64::MAX >> (64 - n);
        let needs = self.reference.asked(rows);
        for nodes in self.lengths(&needs) {
            let (kept, memo) = (self.kept(all), self.memo());
            self.ask(rows, kept, nodes, memo)?;
        }
        for memo in MEMOS {
            let kept = self.kept(all);
            self.ask(rows, kept, largest(&needs), memo)?;
        }
        if n <= 6 {
            self.every_kept_set(rows)?;
        }
        Ok(())
    }

    /// Node room lengths: around the need of each component, and some that have nothing to do with it.
    fn lengths(&mut self, needs: &Option<Needs>) -> Vec<usize> {
        let mut lengths = vec![0, 1, 64, 4096];
        for need in needs.iter().flatten().map(|part| part.1 as usize).chain([largest(needs)]) {
            lengths.extend(need.saturating_sub(2)..=need + 2);
        }
        lengths.sort();
        lengths.dedup();
        if self.random.chance(25) {
            lengths.extend([65536, 65540]);
        }
        lengths
    }

    /// Writes a block, reads what was written, and writes what was read.
    fn there_and_back(&mut self, block: &Block) -> Outcome {
        let (n, length) = (block.rows.len(), layout(block).len());
        let (some, more) = (self.random.below(5), self.random.below(20));
        let written = self.operation(Operation::Write { block: block.clone(), file: length + more })?;
        let file = written[1].after[..length].iter().map(|&byte| byte as u8).collect();
        let read = self.operation(Operation::Read { file, costs: n + some, rows: n + more })?;
        let costs = read[1].after[..n].iter().map(|&cost| cost as u32).collect();
        let again = Block { rows: read[2].after[..n].to_vec(), costs };
        let rewritten = self.operation(Operation::Write { block: again, file: length })?;
        assert_eq!(rewritten[1].after, written[1].after[..length], "compared three times, and yet not the same");
        Ok(())
    }

    /// One block with a component too large for truth tables. All sets are tried; the need is taken on trust, but the
    /// block must fit in a room that long and, where there is one component, in no shorter one.
    pub fn larger_block(&mut self) -> Outcome {
        let n = self.random.within(MOST_MEMBERS + 1, MOST_TRIED);
        let block = random_block(&mut self.random, n, n);
        self.tally.count_block("random ones of 11 to 16 flip-flops in any components, their need taken on trust");
        let (cost, mask) = lightest(&block.rows, &block.costs).expect("few flip-flops");
        let left = reduce(&block.rows, &block.costs, u64::MAX);
        let parts = components(&left.live, &left.edges);
        let pick = |rooms| Operation::Pick { block: block.clone(), rooms };
        self.larger(pick, parts, |need| vec![0, 0, mask, cost, need])?;

        let edges = edges_as_lent(&block.rows);
        let parts = components(&(0..n).collect(), &edges);
        let kept = self.kept(u64::MAX >> (64 - n));
        let ask = |rooms| Operation::Ask { rows: block.rows.clone(), kept, rooms };
        self.larger(ask, parts, |need| vec![0, 0, holds_loop(kept, &edges).into(), need])
    }

    fn larger(
        &mut self,
        operation: impl Fn(Rooms) -> Operation,
        parts: Vec<Vec<usize>>,
        answer: impl Fn(u64) -> Vec<u64>,
    ) -> Outcome {
        let (rubbish, memo) = (self.random.word(), self.memo());
        let call = |nodes| Call { operation: operation(Rooms { nodes, memo }), rubbish };
        let out = product::make(&call(65536)).remove(0).after;
        if out[0] == 4 {
            return Ok(()); // nothing here knows whether it is that large
        }
        let need = *out.last().expect("the need");
        for nodes in [65536, need as usize] {
            self.compare_with(call(nodes), cleared(answer(need), &Rooms { nodes, memo }))?;
        }
        if need > 0 && parts.len() == 1 {
            let nodes = need as usize - 1;
            let mut refused = vec![0; out.len()];
            (refused[0], refused[1]) = (4, parts[0][0] as u64);
            self.compare_with(call(nodes), cleared(refused, &Rooms { nodes, memo }))?;
        }
        Ok(())
    }

    /// Node rooms of more than 65,536 words, of which only those may be touched.
    pub fn long_rooms(&mut self) -> Outcome {
        let mut room = FencedRoom::new(65536);
        for beyond in (0..200).map(|round| 1 + round % 5) {
            let n = self.random.within(2, MOST_MEMBERS);
            let block = random_block(&mut self.random, n, MOST_MEMBERS);
            let rooms = Rooms { nodes: 65536 + beyond, memo: 64 };
            let call = Call { operation: Operation::Pick { block: block.clone(), rooms }, rubbish: 0 };
            room.words().fill(self.random.word());
            let out = product::pick_before_fence(&block, &mut room, beyond);
            let expected = self.reference.expected(&call).map(|expected| expected[0].clone());
            if expected.as_ref() != Some(&out) || room.words().iter().any(|&word| word != 0) {
                return mismatch(call, format!("before a fence: out is {out:?}, or the room is not zero"));
            }
            self.tally.count_block("random ones with a node room that ends at a fence");
        }
        Ok(())
    }

    // Faults

    /// Calls with every set of faults, so that the first in the operation's order has to come.
    pub fn faults(&mut self) -> Outcome {
        for faults in 0..32 {
            let [many, unequal, wide, narrow, outside] = [0, 1, 2, 3, 4].map(|fault| faults >> fault & 1 == 1);
            let random = &mut self.random;
            let n = if many { random.within(65, 80) } else { random.within(0, 63) };
            let mut block = match many {
                true => Block { rows: (0..n).map(|_| random.word()).collect(), costs: vec![3; n] },
                false => random_block(random, n, 5),
            };
            if unequal {
                block.costs.resize(random.one_of(&[0, 1, n.saturating_sub(1), n + 1, 64, 65, 2 * n]), 7);
            }
            if wide && !many {
                for _ in 0..random.within(1, 3).min(n) {
                    block.rows[random.below(n)] |= 1 << random.within(n, 63);
                }
            }
            let (nodes, memo) = (if narrow { random.below(9) } else { 4096 }, random.one_of(&MEMOS));
            let limit = random.one_of(&[0, 1, n as u64, u64::MAX]);
            let beyond = if outside { 1 << random.within(n.min(63), 63) } else { 0 };
            let file = 6 + 12 * n - if outside { random.within(1, 6) } else { 0 };
            let kept = self.kept((1u128 << n.min(64)) as u64 - u64::from(n < 64)) | beyond;
            self.pick(&block, nodes, memo)?;
            self.ask(&block.rows, kept, nodes, memo)?;
            self.reduce(&block, limit)?;
            self.operation(Operation::Write { block, file })?;
        }
        Ok(())
    }

    /// Files with every set of faults.
    pub fn file_faults(&mut self) -> Outcome {
        for faults in 0..128 {
            let [wide, mark, version, count, length, short, narrow] =
                [0, 1, 2, 3, 4, 5, 6].map(|fault| faults >> fault & 1 == 1);
            let random = &mut self.random;
            let n = random.within(0, 64);
            let mut file = layout(&random_block(random, n, 5));
            if wide && n > 0 && n < 64 {
                let top_byte = file.len() - 1 - 8 * random.below(n);
                file[top_byte] |= 128;
            }
            if mark {
                file[random.below(3)] ^= 1 << random.below(8);
            }
            if version {
                file[random.within(3, 4)] ^= 1 << random.below(8);
            }
            if count {
                file[5] = random.within(65, 255) as u8;
            }
            if length {
                let other = random.one_of(&[file.len() - 1, file.len() + 1, 6, file.len() / 2, file.len() + 12]);
                file.resize(other, 0);
            }
            if short {
                file.truncate(random.below(6));
            }
            let mut output = || if narrow { random.below(n.max(1)) } else { n + random.below(3) };
            let (costs, rows) = (output(), output());
            self.operation(Operation::Read { file: file.clone(), costs, rows })?;
            self.operation(Operation::Read { file: file.clone(), costs: n, rows })?;
            self.operation(Operation::Read { file, costs, rows: n })?;
        }
        Ok(())
    }

    /// A file of any bytes, with a heading that is right more often than not.
    pub fn random_file(&mut self) -> Outcome {
        let random = &mut self.random;
        let n = random.within(0, 66);
        let length = if random.chance(80) { 6 + 12 * n } else { random.below(800) };
        let mut file: Vec<u8> = (0..length).map(|_| random.word() as u8).collect();
        for (place, byte) in [b'F', b'V', b'G', 1, 0, n as u8].into_iter().enumerate().take(length) {
            file[place] = if random.chance(95) { byte } else { file[place] };
        }
        let (costs, rows) = (random.within(60, 66), random.within(60, 66));
        self.operation(Operation::Read { file, costs, rows }).map(drop)
    }

    /// A file with each bit turned over, each length short of its own and some past it; and each length of its outputs.
    pub fn damaged_file(&mut self, n: usize) -> Outcome {
        let block = random_block(&mut self.random, n, 5);
        let file = layout(&block);
        let read = |file: Vec<u8>| Operation::Read { file, costs: 64, rows: 64 };
        for place in 0..file.len() {
            for bit in 0..8 {
                let mut damaged = file.clone();
                damaged[place] ^= 1 << bit;
                self.operation(read(damaged))?;
            }
        }
        for length in 0..=file.len() + 20 {
            let mut damaged = file.clone();
            damaged.resize(length, self.random.word() as u8);
            self.operation(read(damaged))?;
            self.operation(Operation::Write { block: block.clone(), file: length })?;
        }
        for length in 0..=n + 2 {
            for (costs, rows) in [(length, n), (n, length), (length, length), (n + 2, length)] {
                self.operation(Operation::Read { file: file.clone(), costs, rows })?;
            }
        }
        Ok(())
    }

    // Known answers

    /// Calls with known answers. Where the exhaustive program reaches, it must know them too.
    pub fn known(&mut self) -> Outcome {
        for (mut call, out) in known::calls() {
            call.rubbish = self.random.word();
            let expected = match (self.reference.expected(&call), &call.operation) {
                (Some(expected), _) if expected[0] == out => expected,
                (Some(expected), _) => {
                    return mismatch(call, format!("known: {out:?}; the exhaustive program says {:?}", expected[0]))
                }
                (None, Operation::Pick { rooms, .. } | Operation::Ask { rooms, .. }) => cleared(out, rooms),
                (None, _) => unreachable!("no other operation is beyond the exhaustive program"),
            };
            self.compare_with(call, expected)?;
            self.tally.count_block("with a known answer");
        }
        Ok(())
    }
}

/// The largest of the needs.
fn largest(needs: &Option<Needs>) -> usize {
    needs.iter().flatten().map(|part| part.1 as usize).max().unwrap_or(0)
}
