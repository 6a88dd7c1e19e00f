//! The steps of the refusing and of the overwriting queue in plain Rust, one after another and
//! without a proof, and what they cost for entries of six words: a put and a take by one thread,
//! overwriting puts by one thread and by four, and the steps of a put and a take alone, which no
//! queue of these steps can undercut. A put and a take and an overwriting put are timed with the
//! sizes known to the compiler and with sizes chosen at run time, as those of the queues are.
//! bench/queue.sh builds it where rustc is there.
use std::hint::black_box;
use std::sync::atomic::{AtomicU64, Ordering::SeqCst};
use std::thread::scope;
use std::time::Instant;

const WIDTH: usize = 6;
const SIZE: u64 = 64;
const OFFSETS: u64 = 1 << 20;
const PRODUCERS: usize = 4;

/// How many entries a round has, and how many rounds there are, of which the least counts.
const ENTRIES: u64 = 20_000;
const ROUNDS: usize = 200;
const PASSES: usize = 40;

/// How many entries a block has, and how many words an entry has.
trait Sizes: Sync {
    fn block(&self) -> u64;
    fn entry(&self) -> usize;
}

/// Sizes that the compiler knows.
struct Known;

impl Sizes for Known {
    fn block(&self) -> u64 {
        SIZE
    }

    fn entry(&self) -> usize {
        WIDTH
    }
}

/// Sizes that are chosen at run time.
struct Chosen {
    block: u64,
    entry: usize,
}

impl Chosen {
    fn usual() -> Chosen {
        Chosen {
            block: black_box(SIZE),
            entry: black_box(WIDTH),
        }
    }
}

impl Sizes for Chosen {
    fn block(&self) -> u64 {
        self.block
    }

    fn entry(&self) -> usize {
        self.entry
    }
}

/// The cursors of a block lie side by side, in this order.
#[derive(Clone, Copy)]
enum Part {
    Allocated,
    Committed,
    Reserved,
    Consumed,
}
use Part::{Allocated, Committed, Consumed, Reserved};

const PRODUCER: usize = 0;
const CONSUMER: usize = 1;

/// The words of a queue: two heads, the cursors of the blocks, and the entries. The first block has
/// the number `blocks`.
struct Queue<S> {
    words: Vec<AtomicU64>,
    blocks: u64,
    sizes: S,
}

fn cursor(block: u64, offset: u64) -> u64 {
    block * OFFSETS + offset
}

impl<S: Sizes> Queue<S> {
    fn new(blocks: u64, sizes: S) -> Queue<S> {
        let count = 2 + blocks * (4 + sizes.block() * sizes.entry() as u64);
        let queue = Queue {
            words: (0..count).map(|_| AtomicU64::new(0)).collect(),
            blocks,
            sizes,
        };
        for block in 0..blocks {
            let (number, offset) = if block == 0 {
                (blocks, 0)
            } else {
                (block, queue.sizes.block())
            };
            for part in [Allocated, Committed, Reserved, Consumed] {
                queue
                    .part(part, block)
                    .store(cursor(number, offset), SeqCst);
            }
        }
        queue.words[PRODUCER].store(blocks, SeqCst);
        queue.words[CONSUMER].store(blocks, SeqCst);
        queue
    }

    fn part(&self, part: Part, block: u64) -> &AtomicU64 {
        &self.words[2 + 4 * (block % self.blocks) as usize + part as usize]
    }

    fn entry(&self, at: u64) -> &[AtomicU64] {
        let (block, offset) = (at / OFFSETS % self.blocks, at % OFFSETS);
        let index = (block * self.sizes.block() + offset) as usize;
        let from = (2 + 4 * self.blocks) as usize + index * self.sizes.entry();
        &self.words[from..from + self.sizes.entry()]
    }

    /// Opens the next block to puts, where the older one there has come so far by this cursor.
    fn opens(&self, full: u64, by: Part) -> bool {
        let next = full + 1;
        if self.part(by, next).load(SeqCst) < cursor(next - self.blocks, self.sizes.block()) {
            return false;
        }
        self.part(Committed, next)
            .fetch_max(cursor(next, 0), SeqCst);
        self.part(Allocated, next)
            .fetch_max(cursor(next, 0), SeqCst);
        self.words[PRODUCER].fetch_max(next, SeqCst);
        true
    }

    fn put(&self, entry: &[u64], by: Part) -> bool {
        for turn in 1..=2 {
            let head = self.words[PRODUCER].load(SeqCst);
            let allocated = self.part(Allocated, head);
            let mut found = allocated.load(SeqCst);
            if found % OFFSETS < self.sizes.block() {
                found = allocated.fetch_add(1, SeqCst);
            }
            if found % OFFSETS < self.sizes.block() {
                for (word, value) in self.entry(found).iter().zip(entry) {
                    word.store(*value, SeqCst);
                }
                self.part(Committed, found / OFFSETS).fetch_add(1, SeqCst);
                return true;
            }
            if turn == 2 || !self.opens(found / OFFSETS, by) {
                return false;
            }
        }
        false
    }

    fn take(&self, out: &mut [u64]) -> bool {
        for turn in 1..=2 {
            let head = self.words[CONSUMER].load(SeqCst);
            let at = self.part(Reserved, head).load(SeqCst);
            if at % OFFSETS < self.sizes.block() {
                return self.takes_at(at, out);
            }
            let next = at / OFFSETS + 1;
            if turn == 2 || self.part(Committed, next).load(SeqCst) / OFFSETS < next {
                return false;
            }
            self.part(Consumed, next).fetch_max(cursor(next, 0), SeqCst);
            self.part(Reserved, next).fetch_max(cursor(next, 0), SeqCst);
            self.words[CONSUMER].fetch_max(next, SeqCst);
        }
        false
    }

    fn takes_at(&self, at: u64, out: &mut [u64]) -> bool {
        let block = at / OFFSETS;
        let committed = self.part(Committed, block).load(SeqCst);
        if committed == at || committed / OFFSETS != block {
            return false;
        }
        if committed % OFFSETS < self.sizes.block()
            && self.part(Allocated, block).load(SeqCst) != committed
        {
            return false;
        }
        if self.part(Reserved, block).fetch_max(at + 1, SeqCst) != at {
            return false;
        }
        for (value, word) in out.iter_mut().zip(self.entry(at)) {
            *value = word.load(SeqCst);
        }
        self.part(Consumed, block).fetch_add(1, SeqCst);
        true
    }
}

fn pairs(blocks: u64, sizes: impl Sizes) -> f64 {
    let queue = Queue::new(blocks, sizes);
    let start = Instant::now();
    for value in 0..ENTRIES {
        let mut out = [0; WIDTH];
        assert!(queue.put(&[value; WIDTH], Consumed) && queue.take(&mut out));
        assert_eq!(out, [value; WIDTH]);
    }
    start.elapsed().as_nanos() as f64 / ENTRIES as f64
}

fn overwriting(blocks: u64, sizes: impl Sizes) -> f64 {
    let queue = Queue::new(blocks, sizes);
    let start = Instant::now();
    for value in 0..ENTRIES {
        assert!(queue.put(&[value; WIDTH], Committed));
    }
    start.elapsed().as_nanos() as f64 / ENTRIES as f64
}

fn overwriting_by_four(blocks: u64, sizes: impl Sizes) -> f64 {
    let queue = Queue::new(blocks, sizes);
    let start = Instant::now();
    scope(|threads| {
        for _ in 0..PRODUCERS {
            threads.spawn(|| {
                for value in 0..ENTRIES {
                    while !queue.put(&[value; WIDTH], Committed) {}
                }
            });
        }
    });
    start.elapsed().as_nanos() as f64 / (ENTRIES * PRODUCERS as u64) as f64
}

/// Twelve loads, of which six read an entry, six stores, three additions and a maximum: what a put and
/// a take do that meet no full block, with nothing between.
fn steps() -> f64 {
    let words: Vec<_> = (0..22).map(|_| AtomicU64::new(0)).collect();
    let words = black_box(words.as_slice());
    let start = Instant::now();
    for value in 0..ENTRIES {
        words[0].load(SeqCst);
        words[1].load(SeqCst);
        words[1].fetch_add(1, SeqCst);
        for word in &words[6..12] {
            word.store(value, SeqCst);
        }
        words[2].fetch_add(1, SeqCst);
        for word in &words[0..4] {
            word.load(SeqCst);
        }
        words[3].fetch_max(value, SeqCst);
        for word in &words[6..12] {
            black_box(word.load(SeqCst));
        }
        words[4].fetch_add(1, SeqCst);
    }
    start.elapsed().as_nanos() as f64 / ENTRIES as f64
}

fn show(name: &str, rounds: usize, round: impl Fn() -> f64) {
    let least = (0..rounds).map(|_| round()).fold(f64::INFINITY, f64::min);
    println!("{name}: {least:.0} ns");
}

fn main() {
    let blocks = std::env::args()
        .nth(1)
        .and_then(|word| word.parse().ok())
        .unwrap_or(8);
    show("a put and a take, plain Rust", ROUNDS, || {
        pairs(blocks, Known)
    });
    show(
        "a put and a take, plain Rust of chosen sizes",
        ROUNDS,
        || pairs(blocks, Chosen::usual()),
    );
    show(
        "the steps of a put and a take alone, plain Rust",
        ROUNDS,
        steps,
    );
    show("overwriting put, plain Rust", ROUNDS, || {
        overwriting(blocks, Known)
    });
    show(
        "overwriting put, plain Rust of chosen sizes",
        ROUNDS,
        || overwriting(blocks, Chosen::usual()),
    );
    show("four overwriting producers, plain Rust", PASSES, || {
        overwriting_by_four(blocks, Known)
    });
    show(
        "four overwriting producers, plain Rust of chosen sizes",
        PASSES,
        || overwriting_by_four(blocks, Chosen::usual()),
    );
}
