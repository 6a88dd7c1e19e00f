//! Four threads note what they do in a ring, until one of them comes upon a fault. Then the newest
//! notes are printed, while the others go on.
use std::sync::atomic::{AtomicBool, Ordering::SeqCst};
use std::thread::{scope, yield_now};

const FAULTY_STEP: u64 = 1000;

fn main() -> Result<(), Box<dyn std::error::Error>> {
    let mut seats = zemuschida::ring::<2>(4, 16, 5)?;
    let mut recorder = seats.pop().ok_or("no seat")?;
    let (is_faulty, is_printed) = (AtomicBool::new(false), AtomicBool::new(false));
    let view = scope(|threads| {
        for (thread, mut seat) in seats.into_iter().enumerate() {
            let (is_faulty, is_printed) = (&is_faulty, &is_printed);
            threads.spawn(move || {
                for step in 0.. {
                    while seat.put(&[thread as u64, step]).is_err() {
                        yield_now();
                    }
                    if thread == 0 && step == FAULTY_STEP {
                        is_faulty.store(true, SeqCst);
                    }
                    if is_printed.load(SeqCst) {
                        break;
                    }
                }
            });
        }
        while !is_faulty.load(SeqCst) {
            yield_now();
        }
        let view = recorder.view();
        is_printed.store(true, SeqCst);
        view
    })?;
    for (place, [thread, step]) in view.items {
        println!("{place} thread {thread} step {step}");
    }
    for gap in view.gaps {
        println!("block {} was being written", gap.block);
    }
    Ok(())
}
