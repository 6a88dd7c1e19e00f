//! Single looks at a running ring.
use std::error::Error;
use std::fmt::{self, Display, Formatter};

use crate::errors::Cursor;
use crate::sys;

/// What a look at a block of a ring found.
#[derive(Clone, Copy, Debug, PartialEq, Eq)]
pub enum BlockLook {
    /// No put has come to it.
    Unopened {
        /// How far the entries of an earlier block stand that has its memory.
        committed: Cursor,
    },
    /// Its entries are all there.
    Whole {
        /// How many they are.
        count: u64,
        /// How far they stand.
        committed: Cursor,
        /// How far they are given out to puts.
        allocated: Cursor,
    },
    /// Calls are under way in it, or another block has its memory by now.
    Gap {
        /// How far its entries stand, or those of the other block.
        committed: Cursor,
        /// How far they are given out to puts.
        allocated: Cursor,
    },
}

/// Why a look read nothing.
#[derive(Clone, Copy, Debug, PartialEq, Eq)]
pub enum LookError {
    /// The first block has the number of how many blocks the queue has.
    Block,
    /// There is no whole block with an entry there.
    Missing(BlockLook),
    /// The block was overwritten while its entry was read.
    Overrun {
        /// Where its memory stands now.
        now: Cursor,
    },
}

impl Display for LookError {
    fn fmt(&self, f: &mut Formatter<'_>) -> fmt::Result {
        f.write_str(match self {
            LookError::Block => "there is no block of this number",
            LookError::Missing(_) => "the block has no entry there",
            LookError::Overrun { .. } => "the entry was overwritten",
        })
    }
}

impl Error for LookError {}

pub(crate) fn head(seat: &mut sys::Seat) -> Cursor {
    let mut newest = sys::Cursor::default();
    // SAFETY: the handle is this call's alone, and has a seat, so the call isn't refused.
    unsafe { sys::zem_ring_look_head(seat, &mut newest) };
    newest.into()
}

pub(crate) fn block(
    seat: &mut sys::Seat,
    block: u64,
) -> Result<BlockLook, LookError> {
    let mut look = sys::Look::default();
    // SAFETY: the handle is this call's alone.
    let code = unsafe { sys::zem_ring_look_block(seat, block, &mut look) };
    if code == sys::BAD_BLOCK {
        return Err(LookError::Block);
    }
    Ok(found(code, &look))
}

pub(crate) fn entry<const W: usize>(
    seat: &mut sys::Seat,
    at: Cursor,
) -> Result<[u64; W], LookError> {
    let (mut look, mut out) = (sys::Look::default(), [0; W]);
    // SAFETY: the handle is this call's alone, and `W` words are the queue's width.
    let code = unsafe {
        sys::zem_ring_look_entry(seat, at.block, at.offset, out.as_mut_ptr(), W, &mut look)
    };
    match code {
        sys::OK => Ok(out),
        sys::BAD_BLOCK => Err(LookError::Block),
        sys::OVERRUN => Err(LookError::Overrun {
            now: look.allocated.into(),
        }),
        sys::EMPTY => Err(LookError::Missing(found(sys::OK, &look))),
        _ => Err(LookError::Missing(found(code, &look))),
    }
}

fn found(code: u32, look: &sys::Look) -> BlockLook {
    let (committed, allocated) = (look.committed.into(), look.allocated.into());
    match code {
        sys::UNOPENED => BlockLook::Unopened { committed },
        sys::OK => BlockLook::Whole {
            count: look.count,
            committed,
            allocated,
        },
        _ => BlockLook::Gap {
            committed,
            allocated,
        },
    }
}
