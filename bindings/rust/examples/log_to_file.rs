//! Four threads log lines of fixed words, and one writes them to a file in their order.
use std::fs::File;
use std::io::{BufWriter, Write};
use std::thread::{scope, yield_now};

const LINES: u64 = 1000;

fn main() -> Result<(), Box<dyn std::error::Error>> {
    let path = std::env::args().nth(1).unwrap_or("log".into());
    let mut file = BufWriter::new(File::create(path)?);
    let (producers, mut consumer) = zemuschida::log::<2>(8, 64, 4)?;
    scope(|threads| {
        for (thread, mut producer) in producers.into_iter().enumerate() {
            threads.spawn(move || {
                for line in 0..LINES {
                    while producer.put(&[thread as u64, line]).is_err() {
                        yield_now();
                    }
                }
            });
        }
        let mut written = 0;
        while written < 4 * LINES {
            match consumer.take() {
                Ok((place, [thread, line])) => {
                    writeln!(file, "{place} thread {thread} line {line}")?;
                    written += 1;
                }
                Err(_) => yield_now(),
            }
        }
        Ok(file.flush()?)
    })
}
