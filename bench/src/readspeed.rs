//! How many bytes of a source the two readers read in a second.

use std::hint::black_box;
use std::time::{Duration, Instant};

use crate::boundary;
use crate::random::Random;
use crate::reader::{MAX_SOURCE, read};
use crate::sources::well_formed;
use crate::tree::Read;

const SIZES: [usize; 4] = [8 * 1024, 16 * 1024, 32 * 1024, MAX_SOURCE];
const SEED: u64 = 1;

/// Measuring a row goes on for so long, and for at least so many runs of each reader.
const TIME: Duration = Duration::from_millis(1_000);
const RUNS: usize = 9;

/// Prints the table of speeds.
pub fn readspeed() {
    println!(
        "MB of source per second (a million bytes), best of at least {RUNS} runs on the same well-formed source"
    );
    println!("plain: unproved Rust, which allocates its tree in the call\n");
    println!("  bytes    nodes   proved    plain   plain/proved");
    for size in SIZES {
        row(size);
    }
}

fn row(size: usize) {
    let source = well_formed(size, &mut Random::new(SEED));
    let nodes = read(&source, &[], size).nodes.len();
    let (mut plain, mut proved) = (Duration::MAX, None);
    let start = Instant::now();
    let mut runs = 0;
    while runs < RUNS || start.elapsed() < TIME {
        runs += 1;
        let (time, _) = timed(|| Some(read(black_box(&source), &[], nodes)));
        plain = plain.min(time);
        if let (time, true) = timed(|| boundary::read(black_box(&source), &[], nodes)) {
            proved = Some(proved.unwrap_or(Duration::MAX).min(time));
        }
    }
    let speed = |time: Duration| size as f64 / time.as_secs_f64() / 1e6;
    let plain = speed(plain);
    match proved.map(speed) {
        Some(proved) => println!("{size:7} {nodes:8} {proved:8.1} {plain:8.1} {:14.2}", plain / proved),
        None => println!("{size:7} {nodes:8} {:>8} {plain:8.1}", "-"),
    }
}

/// The time of one run, and whether the reader is there. It must have read the source.
fn timed(run: impl FnOnce() -> Option<Read>) -> (Duration, bool) {
    let start = Instant::now();
    let read = black_box(run());
    let time = start.elapsed();
    assert!(read.as_ref().is_none_or(|read| read.number == 0));
    (time, read.is_some())
}
