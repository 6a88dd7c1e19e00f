//! Closed queues.
use std::error::Error;
use std::fmt::{self, Debug, Display, Formatter};
use std::mem::replace;

use crate::sys;

/// What a closed queue had: an iterator over the entries that were left, with their places, in order
/// of place.
pub struct Closed<const W: usize> {
    raw: sys::Seat,
    counts: sys::Counts,
    next: usize,
}

// SAFETY: what lies behind the handle may be used by any thread, and `&mut self` gives it to one call
// at a time.
unsafe impl<const W: usize> Send for Closed<W> {}

/// Why a queue wasn't closed, with its seats, which are as they were.
pub enum CloseError<S> {
    /// These aren't all the seats of one queue.
    Seats(Vec<S>),
    /// There is no memory.
    Memory(Vec<S>),
}

impl<S> CloseError<S> {
    /// The seats.
    ///
    /// ```
    /// let mut seats = zemuschida::queue::<1>(2, 2, 2).unwrap();
    /// let other = seats.pop().unwrap();
    /// let refused = zemuschida::close(seats).err().unwrap();
    /// assert_eq!(refused.into_seats()[0].put(&[7]), Ok(0));
    /// # drop(other);
    /// ```
    pub fn into_seats(self) -> Vec<S> {
        match self {
            CloseError::Seats(seats) | CloseError::Memory(seats) => seats,
        }
    }
}

impl<S> Debug for CloseError<S> {
    fn fmt(&self, f: &mut Formatter<'_>) -> fmt::Result {
        Display::fmt(self, f)
    }
}

impl<S> Display for CloseError<S> {
    fn fmt(&self, f: &mut Formatter<'_>) -> fmt::Result {
        f.write_str(match self {
            CloseError::Seats(_) => "these aren't all the seats of one queue",
            CloseError::Memory(_) => "there is no memory",
        })
    }
}

impl<S> Error for CloseError<S> {}

/// A seat of a queue that can be closed.
pub(crate) trait Closing {
    const CLOSE: sys::Close;

    /// The number of its queue, which no other has.
    fn queue(&self) -> u64;

    fn raw(&mut self) -> &mut sys::Seat;
}

pub(crate) fn close<S: Closing, const W: usize>(
    mut seats: Vec<S>,
) -> Result<Closed<W>, CloseError<S>> {
    if seats.windows(2).any(|two| two[0].queue() != two[1].queue()) {
        return Err(CloseError::Seats(seats));
    }
    let mut all: Vec<sys::Seat> = seats
        .iter_mut()
        .map(|seat| replace(seat.raw(), sys::Seat::NONE))
        .collect();
    let mut raw = sys::Seat::NONE;
    // SAFETY: the handles are this call's alone, and their seats are of one queue.
    let code = unsafe { (S::CLOSE)(all.as_mut_ptr(), all.len(), &mut raw) };
    for (seat, left) in seats.iter_mut().zip(all) {
        *seat.raw() = left;
    }
    match code {
        sys::OK => Ok(Closed::of(raw)),
        sys::MEMORY => Err(CloseError::Memory(seats)),
        sys::NOT_ALL_SEATS => Err(CloseError::Seats(seats)),
        _ => unreachable!("the queue has no other owner, and each handle a seat"),
    }
}

impl<const W: usize> Closed<W> {
    fn of(mut raw: sys::Seat) -> Closed<W> {
        let mut counts = sys::Counts::default();
        // SAFETY: the handle is this call's alone, and has a closed queue, so it isn't refused.
        unsafe { sys::zem_counts(&mut raw, &mut counts) };
        Closed {
            raw,
            counts,
            next: 0,
        }
    }

    /// How many entries the queue had accepted.
    ///
    /// ```
    /// let mut seats = zemuschida::queue::<1>(2, 2, 2)?;
    /// seats[0].put(&[7])?;
    /// seats[1].take()?;
    /// let closed = zemuschida::close(seats)?;
    /// assert_eq!((closed.accepted(), closed.left()), (1, 0));
    /// # Ok::<(), Box<dyn std::error::Error>>(())
    /// ```
    pub fn accepted(&self) -> u64 {
        self.counts.accepted
    }

    /// How many of them were left when it was closed.
    ///
    /// ```
    /// let mut seats = zemuschida::queue::<1>(2, 2, 2)?;
    /// seats[0].put(&[7])?;
    /// assert_eq!(zemuschida::close(seats)?.left(), 1);
    /// # Ok::<(), Box<dyn std::error::Error>>(())
    /// ```
    pub fn left(&self) -> u64 {
        self.counts.left
    }
}

impl<const W: usize> Iterator for Closed<W> {
    type Item = (u64, [u64; W]);

    fn next(&mut self) -> Option<(u64, [u64; W])> {
        let (mut place, mut out) = (0, [0; W]);
        // SAFETY: the handle is this call's alone, and `W` words are the queue's width.
        let code = unsafe {
            sys::zem_left(&mut self.raw, self.next, out.as_mut_ptr(), W, &mut place)
        };
        if code != sys::OK {
            return None;
        }
        self.next += 1;
        Some((place, out))
    }
}

impl<const W: usize> Drop for Closed<W> {
    fn drop(&mut self) {
        // SAFETY: the handle is this call's alone.
        unsafe { sys::zem_done(&mut self.raw) }
    }
}
