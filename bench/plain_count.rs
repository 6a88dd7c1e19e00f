//! A word count in plain Rust, as a peer for bench/count.sh: the threads draw pieces of one text and
//! count them in hash maps of the standard library, which are merged into the largest.
//! Use: plain_count THREADS FILE
use std::collections::HashMap;
use std::io::{self, BufWriter, Write};
use std::sync::atomic::{AtomicUsize, Ordering};
use std::{env, fs, thread};

const PIECE: usize = 65_536;

type Counts<'a> = HashMap<&'a [u8], u64>;

/// The end of the piece that begins here: no word is cut.
fn end_of_piece(text: &[u8], start: usize) -> usize {
    let least = text.len().min(start + PIECE);
    let word = text[least..].iter().take_while(|b| !is_space(**b)).count();
    least + word
}

/// What `tr -s '[:space:]'` splits at.
fn is_space(byte: u8) -> bool {
    matches!(byte, b'\t'..=b'\r' | b' ')
}

fn pieces(text: &[u8]) -> Vec<&[u8]> {
    let mut pieces = Vec::new();
    let mut start = 0;
    while start < text.len() {
        let end = end_of_piece(text, start);
        pieces.push(&text[start..end]);
        start = end;
    }
    pieces
}

fn count<'a>(pieces: &[&'a [u8]], next: &AtomicUsize) -> Counts<'a> {
    let mut counts = Counts::new();
    while let Some(piece) = pieces.get(next.fetch_add(1, Ordering::Relaxed)) {
        for word in piece.split(|byte| is_space(*byte)).filter(|word| !word.is_empty()) {
            *counts.entry(word).or_insert(0) += 1;
        }
    }
    counts
}

fn merge(mut all: Vec<Counts<'_>>) -> Counts<'_> {
    all.sort_by_key(|counts| counts.len());
    let mut largest = all.pop().unwrap_or_default();
    for (word, number) in all.into_iter().flatten() {
        *largest.entry(word).or_insert(0) += number;
    }
    largest
}

fn main() -> io::Result<()> {
    let arguments: Vec<String> = env::args().collect();
    let [_, threads, name] = arguments.as_slice() else {
        return Err(io::Error::other("use: plain_count THREADS FILE"));
    };
    let threads: usize = threads.parse().map_err(io::Error::other)?;
    let text = fs::read(name)?;
    let pieces = pieces(&text);
    let next = AtomicUsize::new(0);
    let counted = thread::scope(|scope| {
        let begun: Vec<_> = (0..threads).map(|_| scope.spawn(|| count(&pieces, &next))).collect();
        begun.into_iter().map(|worker| worker.join().unwrap_or_default()).collect()
    });
    let counts = merge(counted);
    let mut lines: Vec<_> = counts.iter().collect();
    lines.sort_unstable();
    let words: u64 = counts.values().sum();
    let mut out = BufWriter::new(io::stdout().lock());
    writeln!(out, "words {words} distinct {}", lines.len())?;
    for (word, number) in lines {
        write!(out, "{number} ")?;
        out.write_all(word)?;
        out.write_all(b"\n")?;
    }
    out.flush()
}
