//! Why a call did nothing.
use std::error::Error;
use std::fmt::{Display, Formatter, Result};

use crate::sys;

/// A block number and an offset in it.
#[derive(Clone, Copy, Debug, PartialEq, Eq)]
pub struct Cursor {
    /// The number of the block, which is never used twice.
    pub block: u64,
    /// The offset in it.
    pub offset: u64,
}

impl From<sys::Cursor> for Cursor {
    fn from(cursor: sys::Cursor) -> Cursor {
        Cursor {
            block: cursor.block,
            offset: cursor.offset,
        }
    }
}

/// Two values that a call read, in this order, which differ: another call was in the way.
#[derive(Clone, Copy, Debug, PartialEq, Eq)]
pub enum Busy {
    /// A call on this block isn't finished.
    Unfinished {
        /// The block.
        block: u64,
        /// What was read first.
        before: Cursor,
        /// What was read then.
        after: Cursor,
    },
    /// A word moved.
    Moved {
        /// What was read first.
        earlier: Cursor,
        /// What was read then.
        later: Cursor,
    },
}

impl Busy {
    pub(crate) fn of(code: u32, answer: &sys::Answer) -> Busy {
        match code {
            sys::UNFINISHED => Busy::Unfinished {
                block: answer.block,
                before: answer.first.into(),
                after: answer.second.into(),
            },
            sys::MOVED => Busy::Moved {
                earlier: answer.first.into(),
                later: answer.second.into(),
            },
            _ => unreachable!("the library has no answer {code} here"),
        }
    }
}

/// Why a put did nothing.
#[derive(Clone, Copy, Debug, PartialEq, Eq)]
pub enum PutError {
    /// The queue is full.
    Full {
        /// The newest block.
        head: u64,
        /// How far the block is taken that the next one would reuse.
        consumed: Cursor,
    },
    /// Another call was in the way.
    Busy(Busy),
    /// The seat has put as many entries as a seat may.
    Spent,
}

/// Why a take answered no entry.
#[derive(Clone, Copy, Debug, PartialEq, Eq)]
pub enum TakeError {
    /// The queue is empty.
    Empty {
        /// The first place that isn't made.
        place: u64,
    },
    /// Another call was in the way.
    Busy(Busy),
    /// The entry was overwritten while it was read. Only a ring answers so.
    Overrun {
        /// The place of the entry.
        place: u64,
        /// Where its block stands now.
        now: Cursor,
    },
}

/// Why no queue was made.
#[derive(Clone, Copy, Debug, PartialEq, Eq)]
pub enum MakeError {
    /// A queue has 2 to 256 blocks.
    Blocks,
    /// A block has 1 to 65536 entries.
    Size,
    /// An entry has 1 to 8 words.
    Width,
    /// A queue has 1 to 1024 seats.
    Seats,
    /// There is no memory.
    Memory,
}

/// There was no memory for a view.
#[derive(Clone, Copy, Debug, PartialEq, Eq)]
pub struct ViewError;

impl Display for ViewError {
    fn fmt(&self, f: &mut Formatter<'_>) -> Result {
        f.write_str("there is no memory")
    }
}

impl Display for Busy {
    fn fmt(&self, f: &mut Formatter<'_>) -> Result {
        f.write_str(match self {
            Busy::Unfinished { .. } => "another call isn't finished",
            Busy::Moved { .. } => "another call was in the way",
        })
    }
}

impl Display for PutError {
    fn fmt(&self, f: &mut Formatter<'_>) -> Result {
        match self {
            PutError::Full { .. } => f.write_str("the queue is full"),
            PutError::Busy(busy) => busy.fmt(f),
            PutError::Spent => f.write_str("the seat has put as many entries as it may"),
        }
    }
}

impl Display for TakeError {
    fn fmt(&self, f: &mut Formatter<'_>) -> Result {
        match self {
            TakeError::Empty { .. } => f.write_str("the queue is empty"),
            TakeError::Busy(busy) => busy.fmt(f),
            TakeError::Overrun { place, .. } => {
                write!(f, "the entry of place {place} was overwritten")
            }
        }
    }
}

impl Display for MakeError {
    fn fmt(&self, f: &mut Formatter<'_>) -> Result {
        f.write_str(match self {
            MakeError::Blocks => "a queue has 2 to 256 blocks",
            MakeError::Size => "a block has 1 to 65536 entries",
            MakeError::Width => "an entry has 1 to 8 words",
            MakeError::Seats => "a queue has 1 to 1024 seats",
            MakeError::Memory => "there is no memory",
        })
    }
}

impl Error for Busy {}

impl Error for PutError {}

impl Error for TakeError {}

impl Error for MakeError {}

impl Error for ViewError {}
