//! The comparison itself: a call of the picker beside what it must leave behind, and how many calls of each kind there
//! were.

use crate::call::Call;
use crate::expected::{Expected, Reference};
use crate::product::{self, Lent};
use crate::random::Random;
use std::collections::BTreeMap;
use std::fmt;

/// A call that went another way than it must.
pub struct Mismatch {
    pub call: Call,
    pub what: String,
}

/// Nothing to say, if all went as it must.
pub type Outcome<T = ()> = Result<T, Box<Mismatch>>;

pub fn mismatch<T>(call: Call, what: String) -> Outcome<T> {
    Err(Box::new(Mismatch { call, what }))
}

pub struct Comparison {
    pub tally: Tally,
    pub(crate) reference: Reference,
    pub(crate) random: Random,
}

impl Comparison {
    pub fn new(seed: u64) -> Comparison {
        Comparison { tally: Tally::default(), reference: Reference::default(), random: Random::new(seed) }
    }

    /// Makes a call and compares all that it leaves behind with what the exhaustive program says. Returns the buffers.
    pub fn compare(&mut self, call: Call) -> Outcome<Vec<Lent>> {
        match self.reference.expected(&call) {
            Some(expected) => self.compare_with(call, expected),
            None => mismatch(call, "the block is too large for the exhaustive program".into()),
        }
    }

    pub fn compare_with(&mut self, call: Call, expected: Expected) -> Outcome<Vec<Lent>> {
        let lent = product::make(&call);
        self.tally.count_call(call.name(), lent[0].after[0]);
        let difference = lent.iter().enumerate().find_map(|(place, buffer)| {
            let first = expected.get(place).map_or(&[][..], |first| first);
            differs(buffer, first)
        });
        match difference {
            Some(what) => mismatch(call, what),
            None => Ok(lent),
        }
    }
}

/// What is wrong with a buffer that must begin with the given cells and be as it was in the others.
fn differs(buffer: &Lent, first: &[u64]) -> Option<String> {
    let name = buffer.name;
    if !buffer.guarded {
        return Some(format!("{name}: a cell outside the buffer was written"));
    }
    let must = |place: usize| *first.get(place).unwrap_or(&buffer.before[place]);
    let place = (0..buffer.after.len()).find(|&place| buffer.after[place] != must(place))?;
    Some(match name {
        "out" => format!("out is {:?} and must be {first:?}", buffer.after),
        _ => format!("{name}: cell {place} is {} and must be {}", buffer.after[place], must(place)),
    })
}

/// How many blocks there were of each kind, and how many calls of each operation, by how they ended.
#[derive(Default)]
pub struct Tally {
    blocks: BTreeMap<&'static str, u64>,
    calls: BTreeMap<&'static str, BTreeMap<u64, u64>>,
}

impl Tally {
    pub fn count_block(&mut self, kind: &'static str) {
        *self.blocks.entry(kind).or_default() += 1;
    }

    fn count_call(&mut self, operation: &'static str, number: u64) {
        *self.calls.entry(operation).or_default().entry(number).or_default() += 1;
    }
}

impl fmt::Display for Tally {
    fn fmt(&self, f: &mut fmt::Formatter) -> fmt::Result {
        for (kind, count) in &self.blocks {
            writeln!(f, "{count:9} blocks: {kind}")?;
        }
        for (operation, ends) in &self.calls {
            let each = ends.iter().map(|(number, count)| match number {
                0 => format!("{count} answered"),
                _ => format!("{count} refused {number}"),
            });
            let (all, each) = (ends.values().sum::<u64>(), each.collect::<Vec<_>>().join(", "));
            writeln!(f, "{all:9} calls of {operation}: {each}")?;
        }
        Ok(())
    }
}
