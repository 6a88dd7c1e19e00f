//! Bounded queues of entries of one to eight words, for many threads, without a lock.
//!
//! The library under these types is proved; README.md of the project says what of it.
//!
//! ```
//! let mut seats = zemuschida::queue::<2>(8, 64, 2)?;
//! let mut other = seats.pop().unwrap();
//! seats[0].put(&[7, 8])?;
//! let taken = std::thread::spawn(move || other.take()).join().unwrap()?;
//! assert_eq!(taken, (0, [7, 8]));
//! # Ok::<(), Box<dyn std::error::Error>>(())
//! ```
//!
//! A seat isn't shared:
//!
//! ```compile_fail
//! let seats = zemuschida::queue::<1>(2, 2, 1).unwrap();
//! std::thread::scope(|scope| { scope.spawn(|| drop(&seats)); });
//! ```
#![deny(unsafe_op_in_unsafe_fn, missing_docs)]

mod closed;
mod errors;
mod look;
mod sys;
mod view;

use std::sync::atomic::{AtomicU64, Ordering};

use closed::Closing;
pub use closed::{CloseError, Closed};
pub use errors::{Busy, Cursor, MakeError, PutError, TakeError, ViewError};
pub use look::{BlockLook, LookError};
use sys::Answer;
use view::Room;
pub use view::{Gap, View};

// Room for a view that is tried first.
const FIRST_ROOM: usize = 512;

/// The right of one caller to put into a queue and take from it. It goes to another thread, and
/// isn't shared. A call writes it, so each has a cache line of its own.
#[repr(align(128))]
pub struct Seat<const W: usize> {
    raw: sys::Seat,
    queue: u64,
}

/// A seat of a queue that overwrites.
#[repr(align(128))]
pub struct RingSeat<const W: usize> {
    raw: sys::Seat,
    queue: u64,
}

/// The right of one caller to put into a queue from which only its consumer takes.
#[repr(align(128))]
pub struct Producer<const W: usize> {
    raw: sys::Seat,
}

/// The right to take from such a queue. It has one, so a second taker can't be written:
///
/// ```compile_fail
/// let (mut producers, _consumer) = zemuschida::log::<1>(2, 2, 1).unwrap();
/// let _ = producers[0].take();
/// ```
///
/// ```compile_fail
/// let (_producers, consumer) = zemuschida::log::<1>(2, 2, 1).unwrap();
/// let _second = consumer.clone();
/// ```
#[repr(align(128))]
pub struct Consumer<const W: usize> {
    raw: sys::Seat,
}

// SAFETY: what lies behind a handle may be used by any thread, and `&mut self` gives it to one call
// at a time.
unsafe impl<const W: usize> Send for Seat<W> {}

// SAFETY: as of `Seat`.
unsafe impl<const W: usize> Send for RingSeat<W> {}

// SAFETY: as of `Seat`.
unsafe impl<const W: usize> Send for Producer<W> {}

// SAFETY: as of `Seat`.
unsafe impl<const W: usize> Send for Consumer<W> {}

/// Makes a queue of so many blocks of `size` entries of `W` words that refuses entries when it is
/// full, and hands out its seats. It goes with the last of them.
///
/// ```
/// let mut seats = zemuschida::queue::<1>(2, 2, 3)?;
/// for i in 0..4 {
///     assert_eq!(seats[i % 3].put(&[i as u64 * 10]), Ok(i as u64));
/// }
/// assert!(matches!(seats[0].put(&[0]), Err(zemuschida::PutError::Full { head: 3, .. })));
/// assert!(zemuschida::queue::<9>(2, 2, 3).is_err());
/// # Ok::<(), zemuschida::MakeError>(())
/// ```
pub fn queue<const W: usize>(
    blocks: u64,
    size: u64,
    seats: usize,
) -> Result<Vec<Seat<W>>, MakeError> {
    let raw = make(sys::zem_make, blocks, size, W, seats)?;
    let queue = next_queue();
    Ok(raw.into_iter().map(|raw| Seat { raw, queue }).collect())
}

/// Makes a queue that drops its oldest block of entries when it is full, and hands out its seats.
///
/// ```
/// let mut seats = zemuschida::ring::<1>(2, 2, 1)?;
/// for i in 0..100 {
///     assert_eq!(seats[0].put(&[i]), Ok(i));
/// }
/// assert_eq!(seats[0].take(), Ok((96, [96])));
/// # Ok::<(), zemuschida::MakeError>(())
/// ```
pub fn ring<const W: usize>(
    blocks: u64,
    size: u64,
    seats: usize,
) -> Result<Vec<RingSeat<W>>, MakeError> {
    let raw = make(sys::zem_ring_make, blocks, size, W, seats)?;
    let queue = next_queue();
    Ok(raw
        .into_iter()
        .map(|raw| RingSeat { raw, queue })
        .collect())
}

/// Makes a queue that refuses entries when it is full, and which one caller takes from: its
/// consumer, and so many producers.
///
/// ```
/// let (mut producers, mut consumer) = zemuschida::log::<1>(2, 2, 2)?;
/// assert_eq!(producers[0].put(&[7]), Ok(0));
/// assert_eq!(producers[1].put(&[8]), Ok(1));
/// assert_eq!(consumer.take(), Ok((0, [7])));
/// assert!(zemuschida::log::<1>(2, 2, 1024).is_err());
/// # Ok::<(), zemuschida::MakeError>(())
/// ```
pub fn log<const W: usize>(
    blocks: u64,
    size: u64,
    producers: usize,
) -> Result<(Vec<Producer<W>>, Consumer<W>), MakeError> {
    let (mut consumer, mut raw) = (sys::Seat::NONE, no_seats(producers));
    let (width, n) = (W as u64, raw.len());
    // SAFETY: handles that have no seat.
    let code =
        unsafe { sys::zem_log_make(blocks, size, width, &mut consumer, raw.as_mut_ptr(), n) };
    made(code)?;
    let producers = raw.into_iter().map(|raw| Producer { raw }).collect();
    Ok((producers, Consumer { raw: consumer }))
}

/// Closes a queue with all its seats, in any order. Its entries that are left can be read then.
///
/// ```
/// let mut seats = zemuschida::queue::<1>(4, 2, 2)?;
/// for i in 0..5 {
///     seats[i % 2].put(&[10 * i as u64])?;
/// }
/// seats[1].take()?;
/// let closed = zemuschida::close(seats)?;
/// let left: Vec<_> = closed.collect();
/// assert_eq!(left, [(1, [10]), (2, [20]), (3, [30]), (4, [40])]);
/// # Ok::<(), Box<dyn std::error::Error>>(())
/// ```
///
/// Seats of two queues are refused:
///
/// ```
/// let mut seats = zemuschida::queue::<1>(2, 2, 1)?;
/// seats.append(&mut zemuschida::queue::<1>(2, 2, 1)?);
/// assert!(zemuschida::close(seats).is_err());
/// # Ok::<(), zemuschida::MakeError>(())
/// ```
pub fn close<const W: usize>(seats: Vec<Seat<W>>) -> Result<Closed<W>, CloseError<Seat<W>>> {
    closed::close(seats)
}

/// Closes a ring with all its seats, in any order.
///
/// ```
/// let mut seats = zemuschida::ring::<1>(2, 2, 1)?;
/// for i in 0..100 {
///     seats[0].put(&[i])?;
/// }
/// seats[0].take()?;
/// let left: Vec<_> = zemuschida::close_ring(seats)?.collect();
/// assert_eq!(left, [(97, [97]), (98, [98]), (99, [99])]);
/// # Ok::<(), Box<dyn std::error::Error>>(())
/// ```
pub fn close_ring<const W: usize>(
    seats: Vec<RingSeat<W>>,
) -> Result<Closed<W>, CloseError<RingSeat<W>>> {
    closed::close(seats)
}

impl<const W: usize> Closing for Seat<W> {
    const CLOSE: sys::Close = sys::zem_close;

    fn queue(&self) -> u64 {
        self.queue
    }

    fn raw(&mut self) -> &mut sys::Seat {
        &mut self.raw
    }
}

impl<const W: usize> Closing for RingSeat<W> {
    const CLOSE: sys::Close = sys::zem_ring_close;

    fn queue(&self) -> u64 {
        self.queue
    }

    fn raw(&mut self) -> &mut sys::Seat {
        &mut self.raw
    }
}

// A number that no queue had.
fn next_queue() -> u64 {
    static QUEUES: AtomicU64 = AtomicU64::new(0);
    QUEUES.fetch_add(1, Ordering::Relaxed)
}

fn make(
    make: sys::Make,
    blocks: u64,
    size: u64,
    width: usize,
    seats: usize,
) -> Result<Vec<sys::Seat>, MakeError> {
    let mut raw = no_seats(seats);
    // SAFETY: a slice of handles that have no seat.
    let code = unsafe { make(blocks, size, width as u64, raw.as_mut_ptr(), raw.len()) };
    made(code)?;
    Ok(raw)
}

fn no_seats(seats: usize) -> Vec<sys::Seat> {
    (0..seats.min(sys::TOO_MANY_SEATS))
        .map(|_| sys::Seat::NONE)
        .collect()
}

fn made(code: u32) -> Result<(), MakeError> {
    match code {
        sys::OK => Ok(()),
        sys::BAD_BLOCKS => Err(MakeError::Blocks),
        sys::BAD_SIZE => Err(MakeError::Size),
        sys::BAD_WIDTH => Err(MakeError::Width),
        sys::BAD_SEATS => Err(MakeError::Seats),
        _ => Err(MakeError::Memory),
    }
}

// Puts by the call of the seat's kind.
#[inline(always)]
fn put<const W: usize>(
    put: sys::Put,
    raw: &mut sys::Seat,
    entry: &[u64; W],
) -> Result<u64, PutError> {
    let mut answer = Answer::default();
    // SAFETY: the handle is this call's alone, and `W` words are the queue's width.
    let code = unsafe { put(raw, entry.as_ptr(), W, &mut answer) };
    put_answer(code, &answer)
}

#[inline(always)]
fn take<const W: usize>(
    take: sys::Take,
    raw: &mut sys::Seat,
) -> Result<(u64, [u64; W]), TakeError> {
    let (mut answer, mut out) = (Answer::default(), [0; W]);
    // SAFETY: the handle is this call's alone, and `W` words are the queue's width.
    let code = unsafe { take(raw, out.as_mut_ptr(), W, &mut answer) };
    take_answer(code, &answer, out)
}

fn put_answer(code: u32, answer: &Answer) -> Result<u64, PutError> {
    match code {
        sys::OK => Ok(answer.place),
        sys::FULL => Err(PutError::Full {
            head: answer.block,
            consumed: answer.first.into(),
        }),
        sys::SPENT => Err(PutError::Spent),
        _ => Err(PutError::Busy(Busy::of(code, answer))),
    }
}

fn take_answer<const W: usize>(
    code: u32,
    answer: &Answer,
    out: [u64; W],
) -> Result<(u64, [u64; W]), TakeError> {
    match code {
        sys::OK => Ok((answer.place, out)),
        sys::EMPTY => Err(TakeError::Empty {
            place: answer.place,
        }),
        sys::OVERRUN => Err(TakeError::Overrun {
            place: answer.place,
            now: answer.first.into(),
        }),
        _ => Err(TakeError::Busy(Busy::of(code, answer))),
    }
}

impl<const W: usize> Seat<W> {
    /// Puts an entry, and answers its place.
    ///
    /// ```
    /// let mut seats = zemuschida::queue::<2>(2, 2, 1)?;
    /// assert_eq!(seats[0].put(&[1, 2]), Ok(0));
    /// # Ok::<(), zemuschida::MakeError>(())
    /// ```
    #[inline]
    pub fn put(&mut self, entry: &[u64; W]) -> Result<u64, PutError> {
        put(sys::zem_put, &mut self.raw, entry)
    }

    /// Takes an entry, and answers its place and its words.
    ///
    /// ```
    /// let mut seats = zemuschida::queue::<2>(2, 2, 1)?;
    /// assert_eq!(seats[0].take(), Err(zemuschida::TakeError::Empty { place: 0 }));
    /// # Ok::<(), zemuschida::MakeError>(())
    /// ```
    #[inline]
    pub fn take(&mut self) -> Result<(u64, [u64; W]), TakeError> {
        take(sys::zem_take, &mut self.raw)
    }
}

impl<const W: usize> RingSeat<W> {
    /// Puts an entry, and answers its place. It is never answered that the queue is full.
    ///
    /// ```
    /// let mut seats = zemuschida::ring::<2>(2, 2, 1)?;
    /// assert_eq!(seats[0].put(&[1, 2]), Ok(0));
    /// # Ok::<(), zemuschida::MakeError>(())
    /// ```
    #[inline]
    pub fn put(&mut self, entry: &[u64; W]) -> Result<u64, PutError> {
        put(sys::zem_ring_put, &mut self.raw, entry)
    }

    /// Takes an entry, and answers its place and its words.
    ///
    /// ```
    /// let mut seats = zemuschida::ring::<2>(2, 2, 1)?;
    /// assert_eq!(seats[0].take(), Err(zemuschida::TakeError::Empty { place: 0 }));
    /// # Ok::<(), zemuschida::MakeError>(())
    /// ```
    #[inline]
    pub fn take(&mut self) -> Result<(u64, [u64; W]), TakeError> {
        take(sys::zem_ring_take, &mut self.raw)
    }

    /// What the queue holds while it runs, and takes nothing. Each item that this seat has put and
    /// that isn't overwritten is there, or its block is among the gaps.
    ///
    /// ```
    /// let mut seats = zemuschida::ring::<1>(2, 2, 2)?;
    /// for i in 0..100 {
    ///     seats[0].put(&[i])?;
    /// }
    /// let view = seats[1].view()?;
    /// assert_eq!(view.items, [(96, [96]), (97, [97]), (98, [98]), (99, [99])]);
    /// assert!(view.gaps.is_empty());
    /// assert_eq!(seats[0].take(), Ok((96, [96])));
    /// # Ok::<(), Box<dyn std::error::Error>>(())
    /// ```
    pub fn view(&mut self) -> Result<View<W>, ViewError> {
        let mut room = FIRST_ROOM;
        loop {
            match Room::new(room).fill(&mut self.raw) {
                Err(sys::ROOM) => room *= 2,
                filled => return filled.map_err(|_| ViewError),
            }
        }
    }

    /// How far the queue has come: the cursor that gives out entries to puts in its newest block.
    ///
    /// ```
    /// let mut seats = zemuschida::ring::<1>(2, 2, 1)?;
    /// seats[0].put(&[7])?;
    /// assert_eq!(seats[0].look_head(), zemuschida::Cursor { block: 2, offset: 1 });
    /// # Ok::<(), Box<dyn std::error::Error>>(())
    /// ```
    pub fn look_head(&mut self) -> Cursor {
        look::head(&mut self.raw)
    }

    /// Whether the entries of a block are all there, and how many. It takes nothing. The first block
    /// has the number of how many blocks the queue has.
    ///
    /// ```
    /// let mut seats = zemuschida::ring::<1>(2, 2, 1)?;
    /// seats[0].put(&[7])?;
    /// let found = seats[0].look_block(2)?;
    /// assert!(matches!(found, zemuschida::BlockLook::Whole { count: 1, .. }));
    /// let found = seats[0].look_block(3)?;
    /// assert!(matches!(found, zemuschida::BlockLook::Unopened { .. }));
    /// assert_eq!(seats[0].look_block(1), Err(zemuschida::LookError::Block));
    /// # Ok::<(), Box<dyn std::error::Error>>(())
    /// ```
    pub fn look_block(&mut self, block: u64) -> Result<BlockLook, LookError> {
        look::block(&mut self.raw, block)
    }

    /// The words of an entry, which it looks at after its block. It takes nothing.
    ///
    /// ```
    /// let mut seats = zemuschida::ring::<1>(2, 2, 1)?;
    /// seats[0].put(&[7])?;
    /// assert_eq!(seats[0].look_entry(zemuschida::Cursor { block: 2, offset: 0 }), Ok([7]));
    /// assert!(seats[0].look_entry(zemuschida::Cursor { block: 2, offset: 1 }).is_err());
    /// assert_eq!(seats[0].take(), Ok((0, [7])));
    /// # Ok::<(), Box<dyn std::error::Error>>(())
    /// ```
    pub fn look_entry(&mut self, at: Cursor) -> Result<[u64; W], LookError> {
        look::entry(&mut self.raw, at)
    }
}

impl<const W: usize> Producer<W> {
    /// Puts an entry, and answers its place. Once the consumer is dropped, nobody takes, and the
    /// queue fills.
    ///
    /// ```
    /// let (mut producers, _consumer) = zemuschida::log::<2>(2, 2, 1)?;
    /// assert_eq!(producers[0].put(&[1, 2]), Ok(0));
    /// # Ok::<(), zemuschida::MakeError>(())
    /// ```
    #[inline]
    pub fn put(&mut self, entry: &[u64; W]) -> Result<u64, PutError> {
        put(sys::zem_log_put, &mut self.raw, entry)
    }
}

impl<const W: usize> Consumer<W> {
    /// Takes the oldest entry, and answers its place and its words.
    ///
    /// ```
    /// let (_producers, mut consumer) = zemuschida::log::<2>(2, 2, 1)?;
    /// assert_eq!(consumer.take(), Err(zemuschida::TakeError::Empty { place: 0 }));
    /// # Ok::<(), zemuschida::MakeError>(())
    /// ```
    #[inline]
    pub fn take(&mut self) -> Result<(u64, [u64; W]), TakeError> {
        take(sys::zem_log_take, &mut self.raw)
    }
}

impl<const W: usize> Drop for Seat<W> {
    fn drop(&mut self) {
        // SAFETY: the handle is this call's alone.
        unsafe { sys::zem_free(&mut self.raw) }
    }
}

impl<const W: usize> Drop for RingSeat<W> {
    fn drop(&mut self) {
        // SAFETY: the handle is this call's alone.
        unsafe { sys::zem_ring_free(&mut self.raw) }
    }
}

impl<const W: usize> Drop for Producer<W> {
    fn drop(&mut self) {
        // SAFETY: the handle is this call's alone.
        unsafe { sys::zem_log_free(&mut self.raw) }
    }
}

impl<const W: usize> Drop for Consumer<W> {
    fn drop(&mut self) {
        // SAFETY: the handle is this call's alone.
        unsafe { sys::zem_log_consumer_free(&mut self.raw) }
    }
}
