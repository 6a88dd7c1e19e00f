//! What a running ring was seen to hold.
use crate::errors::Cursor;
use crate::sys;

/// What a running ring was seen to hold, without taking.
#[derive(Clone, Debug, PartialEq, Eq)]
pub struct View<const W: usize> {
    /// The items, with their places, which rise.
    pub items: Vec<(u64, [u64; W])>,
    /// The blocks of which the view may lack items, which rise too.
    pub gaps: Vec<Gap>,
}

/// A block of which a view may lack items, as calls were under way in it: the two cursors differ, or
/// are of another block.
#[derive(Clone, Copy, Debug, PartialEq, Eq)]
pub struct Gap {
    /// The block.
    pub block: u64,
    /// How far its entries stood.
    pub committed: Cursor,
    /// How far they were given out to puts.
    pub allocated: Cursor,
}

/// The caller's room for a view.
pub(crate) struct Room {
    items: Vec<sys::Item>,
    gaps: Vec<sys::Gap>,
}

impl Room {
    /// Room for so many items and as many gaps.
    pub(crate) fn new(room: usize) -> Room {
        Room {
            items: vec![sys::Item::default(); room],
            gaps: vec![sys::Gap::default(); room],
        }
    }

    /// The view, unless there is too little room or memory.
    pub(crate) fn fill<const W: usize>(&mut self, seat: &mut sys::Seat) -> Result<View<W>, u32> {
        let mut view = sys::View::default();
        // SAFETY: the handle is this call's alone, and the slices have the lengths that are said.
        let code = unsafe {
            sys::zem_ring_view(
                seat,
                self.items.as_mut_ptr(),
                self.items.len(),
                self.gaps.as_mut_ptr(),
                self.gaps.len(),
                &mut view,
            )
        };
        if code != sys::OK {
            return Err(code);
        }
        let items = &self.items[..view.items as usize];
        let gaps = &self.gaps[..view.gaps as usize];
        Ok(View {
            items: items.iter().map(item).collect(),
            gaps: gaps.iter().map(gap).collect(),
        })
    }
}

fn item<const W: usize>(item: &sys::Item) -> (u64, [u64; W]) {
    let mut words = [0; W];
    words.copy_from_slice(&item.words[..W]);
    (item.place, words)
}

fn gap(gap: &sys::Gap) -> Gap {
    Gap {
        block: gap.block,
        committed: gap.committed.into(),
        allocated: gap.allocated.into(),
    }
}
