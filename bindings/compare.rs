//! Times a put with a take by one thread, and passes from one and four producers to one taker, for
//! entries of one and six words, through the queue, the queue with a sole consumer, a mutex round a
//! `VecDeque`, std's `sync_channel` and, where its sources are there, crossbeam's `ArrayQueue`, each
//! with room for 512 entries.
#[cfg(feature = "crossbeam-queue")]
use crossbeam_queue::ArrayQueue;
use std::collections::VecDeque;
use std::hint::spin_loop;
use std::sync::mpsc::{sync_channel, Receiver, SyncSender};
use std::sync::{Arc, Mutex};
use std::thread::{scope, yield_now};
use std::time::Instant;
use zemuschida::{log, queue, Consumer, Producer, Seat};

const ROOM: usize = 512;
const ENTRIES: u64 = 20_000;
const ROUNDS: usize = 20;

trait Put<const W: usize>: Send {
    fn put(&mut self, entry: &[u64; W]) -> bool;
}

trait Take<const W: usize>: Send {
    fn take(&mut self) -> Option<[u64; W]>;
}

impl<const W: usize> Put<W> for Seat<W> {
    fn put(&mut self, entry: &[u64; W]) -> bool {
        Seat::put(self, entry).is_ok()
    }
}

impl<const W: usize> Take<W> for Seat<W> {
    fn take(&mut self) -> Option<[u64; W]> {
        Seat::take(self).ok().map(|(_, entry)| entry)
    }
}

impl<const W: usize> Put<W> for Producer<W> {
    fn put(&mut self, entry: &[u64; W]) -> bool {
        Producer::put(self, entry).is_ok()
    }
}

impl<const W: usize> Take<W> for Consumer<W> {
    fn take(&mut self) -> Option<[u64; W]> {
        Consumer::take(self).ok().map(|(_, entry)| entry)
    }
}

#[cfg(feature = "crossbeam-queue")]
impl<const W: usize> Put<W> for Arc<ArrayQueue<[u64; W]>> {
    fn put(&mut self, entry: &[u64; W]) -> bool {
        self.push(*entry).is_ok()
    }
}

#[cfg(feature = "crossbeam-queue")]
impl<const W: usize> Take<W> for Arc<ArrayQueue<[u64; W]>> {
    fn take(&mut self) -> Option<[u64; W]> {
        self.pop()
    }
}

impl<const W: usize> Put<W> for Arc<Mutex<VecDeque<[u64; W]>>> {
    fn put(&mut self, entry: &[u64; W]) -> bool {
        let mut entries = self.lock().unwrap();
        let has_room = entries.len() < ROOM;
        if has_room {
            entries.push_back(*entry);
        }
        has_room
    }
}

impl<const W: usize> Take<W> for Arc<Mutex<VecDeque<[u64; W]>>> {
    fn take(&mut self) -> Option<[u64; W]> {
        self.lock().unwrap().pop_front()
    }
}

impl<const W: usize> Put<W> for SyncSender<[u64; W]> {
    fn put(&mut self, entry: &[u64; W]) -> bool {
        self.try_send(*entry).is_ok()
    }
}

impl<const W: usize> Take<W> for Receiver<[u64; W]> {
    fn take(&mut self) -> Option<[u64; W]> {
        self.try_recv().ok()
    }
}

/// Tries again until it succeeds: at once a few times, longer and longer, and then after others ran.
fn until(mut tries: impl FnMut() -> bool) {
    let mut step = 0;
    while !tries() {
        if step > 6 {
            yield_now();
        } else {
            (0..1 << step).for_each(|_| spin_loop());
            step += 1;
        }
    }
}

/// Nanoseconds an entry, through producers and a taker on threads of their own.
fn pass<const W: usize>(producers: Vec<impl Put<W>>, mut taker: impl Take<W>) -> f64 {
    let all = producers.len() as u64 * ENTRIES;
    let start = Instant::now();
    scope(|threads| {
        for mut producer in producers {
            threads.spawn(move || {
                for entry in 0..ENTRIES {
                    until(|| producer.put(&[entry; W]));
                }
            });
        }
        threads.spawn(move || {
            for _ in 0..all {
                until(|| taker.take().is_some());
            }
        });
    });
    start.elapsed().as_nanos() as f64 / all as f64
}

/// The same, each entry put and then taken by one thread.
fn pairs<const W: usize>(producer: &mut impl Put<W>, taker: &mut impl Take<W>) -> f64 {
    let start = Instant::now();
    for entry in 0..ENTRIES {
        assert!(producer.put(&[entry; W]));
        assert_eq!(taker.take(), Some([entry; W]));
    }
    start.elapsed().as_nanos() as f64 / ENTRIES as f64
}

fn show(name: &str, round: impl FnMut() -> f64) {
    let mut times: Vec<f64> = std::iter::repeat_with(round).take(ROUNDS).collect();
    times.sort_by(f64::total_cmp);
    print!("  {name} {:.0} ({:.0})", times[0], times[ROUNDS / 2]);
}

fn compare_pairs<const W: usize>() {
    print!("one thread, {W} words:");
    show("queue", || {
        let mut seats = queue::<W>(8, 64, 2).unwrap();
        let mut taker = seats.pop().unwrap();
        pairs::<W>(&mut seats[0], &mut taker)
    });
    show("log", || {
        let (mut producers, mut consumer) = log::<W>(8, 64, 1).unwrap();
        pairs::<W>(&mut producers[0], &mut consumer)
    });
    #[cfg(feature = "crossbeam-queue")]
    {
        let one = Arc::new(ArrayQueue::<[u64; W]>::new(ROOM));
        show("ArrayQueue", || {
            pairs::<W>(&mut one.clone(), &mut one.clone())
        });
    }
    let one = Arc::new(Mutex::new(VecDeque::<[u64; W]>::with_capacity(ROOM)));
    show("Mutex", || pairs::<W>(&mut one.clone(), &mut one.clone()));
    show("sync_channel", || {
        let (mut sender, mut receiver) = sync_channel::<[u64; W]>(ROOM);
        pairs::<W>(&mut sender, &mut receiver)
    });
    println!();
}

fn compare_passes<const W: usize>(producers: usize) {
    print!("{producers} to 1, {W} words:");
    show("queue", || {
        let mut seats = queue::<W>(8, 64, producers + 1).unwrap();
        let taker = seats.pop().unwrap();
        pass::<W>(seats, taker)
    });
    show("log", || {
        let (seats, consumer) = log::<W>(8, 64, producers).unwrap();
        pass::<W>(seats, consumer)
    });
    #[cfg(feature = "crossbeam-queue")]
    {
        let one = Arc::new(ArrayQueue::<[u64; W]>::new(ROOM));
        show("ArrayQueue", || {
            pass::<W>(vec![one.clone(); producers], one.clone())
        });
    }
    let one = Arc::new(Mutex::new(VecDeque::<[u64; W]>::with_capacity(ROOM)));
    show("Mutex", || {
        pass::<W>(vec![one.clone(); producers], one.clone())
    });
    show("sync_channel", || {
        let (sender, receiver) = sync_channel::<[u64; W]>(ROOM);
        pass::<W>(vec![sender; producers], receiver)
    });
    println!();
}

fn compare<const W: usize>() {
    compare_pairs::<W>();
    compare_passes::<W>(1);
    compare_passes::<W>(4);
}

fn main() {
    println!("nanoseconds an entry: the least round (the median round)");
    compare::<1>();
    compare::<6>();
}
