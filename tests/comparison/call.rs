//! A call of one of the five operations with all that it is lent, and its text, by which a call can be made again.

use std::collections::BTreeMap;
use std::fmt;

#[derive(Clone, Debug, Default, PartialEq)]
pub struct Block {
    pub rows: Vec<u64>,
    pub costs: Vec<u32>,
}

/// The lengths of the two rooms.
#[derive(Clone, Copy, Debug, PartialEq)]
pub struct Rooms {
    pub nodes: usize,
    pub memo: usize,
}

#[derive(Clone, Debug, PartialEq)]
pub enum Operation {
    Pick { block: Block, rooms: Rooms },
    Ask { rows: Vec<u64>, kept: u64, rooms: Rooms },
    Reduce { block: Block, limit: u64 },
    Read { file: Vec<u8>, costs: usize, rows: usize },
    Write { block: Block, file: usize },
}

#[derive(Clone, Debug, PartialEq)]
pub struct Call {
    pub operation: Operation,
    /// Decides what the lent buffers hold on entry.
    pub rubbish: u64,
}

impl Call {
    pub fn name(&self) -> &'static str {
        match self.operation {
            Operation::Pick { .. } => "pick",
            Operation::Ask { .. } => "ask",
            Operation::Reduce { .. } => "reduce",
            Operation::Read { .. } => "read",
            Operation::Write { .. } => "write",
        }
    }

    /// Reads a text such as `pick rows 2 4 9 2 costs 1 5 5 1 nodes 8 memo 64`: the operation, then each thing lent with
    /// its numbers.
    pub fn parse(text: &str) -> Result<Call, String> {
        let mut words = text.split_whitespace();
        let name = words.next().ok_or("a call begins with its operation")?;
        let mut lent = Numbers::default();
        let mut key = "";
        for word in words {
            if word.starts_with(|c: char| c.is_ascii_digit()) {
                let number = word.parse().map_err(|_| format!("{word} is no 64-bit number"))?;
                lent.0.entry(key).or_default().push(number);
            } else {
                key = word;
                lent.0.entry(key).or_default();
            }
        }
        let operation = match name {
            "pick" => Operation::Pick { block: lent.block()?, rooms: lent.rooms()? },
            "ask" => Operation::Ask { rows: lent.take("rows"), kept: lent.number("kept")?, rooms: lent.rooms()? },
            "reduce" => Operation::Reduce { block: lent.block()?, limit: lent.number("limit")? },
            "read" => {
                Operation::Read { file: lent.narrow("file")?, costs: lent.length("costs")?, rows: lent.length("rows")? }
            }
            "write" => Operation::Write { block: lent.block()?, file: lent.length("file")? },
            _ => return Err(format!("{name} is no operation")),
        };
        let rubbish = lent.number("rubbish").unwrap_or(0);
        match lent.0.keys().find(|&&key| key != "rubbish") {
            Some(key) => Err(format!("{name} is lent no {key}")),
            None => Ok(Call { operation, rubbish }),
        }
    }
}

/// What a text says, by the word before the numbers.
#[derive(Default)]
struct Numbers<'a>(BTreeMap<&'a str, Vec<u64>>);

impl Numbers<'_> {
    fn take(&mut self, key: &str) -> Vec<u64> {
        self.0.remove(key).unwrap_or_default()
    }

    fn narrow<T: TryFrom<u64>>(&mut self, key: &str) -> Result<Vec<T>, String> {
        let narrow = |number| T::try_from(number).map_err(|_| format!("{key}: {number} is too large"));
        self.take(key).into_iter().map(narrow).collect()
    }

    fn number(&mut self, key: &str) -> Result<u64, String> {
        match self.take(key)[..] {
            [number] => Ok(number),
            _ => Err(format!("{key} takes one number")),
        }
    }

    fn length(&mut self, key: &str) -> Result<usize, String> {
        self.number(key).map(|length| length as usize)
    }

    fn block(&mut self) -> Result<Block, String> {
        Ok(Block { rows: self.take("rows"), costs: self.narrow("costs")? })
    }

    fn rooms(&mut self) -> Result<Rooms, String> {
        Ok(Rooms { nodes: self.length("nodes")?, memo: self.length("memo")? })
    }
}

impl fmt::Display for Block {
    fn fmt(&self, f: &mut fmt::Formatter) -> fmt::Result {
        list(f, "rows", &self.rows)?;
        list(f, "costs", &self.costs)
    }
}

impl fmt::Display for Call {
    fn fmt(&self, f: &mut fmt::Formatter) -> fmt::Result {
        f.write_str(self.name())?;
        match &self.operation {
            Operation::Pick { block, rooms } => write!(f, "{block} nodes {} memo {}", rooms.nodes, rooms.memo)?,
            Operation::Ask { rows, kept, rooms } => {
                list(f, "rows", rows)?;
                write!(f, " kept {kept} nodes {} memo {}", rooms.nodes, rooms.memo)?
            }
            Operation::Reduce { block, limit } => write!(f, "{block} limit {limit}")?,
            Operation::Read { file, costs, rows } => {
                list(f, "file", file)?;
                write!(f, " costs {costs} rows {rows}")?
            }
            Operation::Write { block, file } => write!(f, "{block} file {file}")?,
        }
        write!(f, " rubbish {}", self.rubbish)
    }
}

fn list<T: fmt::Display>(f: &mut fmt::Formatter, key: &str, numbers: &[T]) -> fmt::Result {
    write!(f, " {key}")?;
    numbers.iter().try_for_each(|number| write!(f, " {number}"))
}
