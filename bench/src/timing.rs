//! Medians of pieces of work that are done in turns, each of them on several files in rotation: where one file is timed again and again
//! its branches are learned, and code that branches on what a file says looks faster than it is.

use std::hint::black_box;
use std::time::{Duration, Instant};

/// One sample lasts at least about this long.
const SAMPLE: Duration = Duration::from_micros(400);

/// Lets no work be left out because nobody looks at what it gives.
pub fn keep<T>(value: T) {
    let _ = black_box(value);
}

/// Microseconds for one of `count` runs, which go on from the file that is next.
fn sample(work: &mut dyn FnMut(usize), files: usize, next: &mut usize, count: usize) -> f64 {
    let start = Instant::now();
    for _ in 0..count {
        work(*next);
        *next = (*next + 1) % files;
    }
    start.elapsed().as_secs_f64() * 1e6 / count as f64
}

/// The medians of several pieces of work, their samples taken in turns. Each is given the index of a file.
pub fn medians<const W: usize>(
    rounds: usize,
    files: usize,
    mut works: [&mut dyn FnMut(usize); W],
) -> [f64; W] {
    let mut nexts = [0; W];
    let counts: [usize; W] = std::array::from_fn(|w| {
        sample(works[w], files, &mut nexts[w], files);
        let one = sample(works[w], files, &mut nexts[w], files).max(0.01);
        ((SAMPLE.as_secs_f64() * 1e6 / one) as usize).clamp(1, 100_000)
    });
    let mut samples = [const { Vec::new() }; W];
    for round in 0..rounds {
        for turn in 0..W {
            // Every other round goes backwards, so that none is always the one behind another.
            let w = if round % 2 == 0 { turn } else { W - 1 - turn };
            samples[w].push(sample(works[w], files, &mut nexts[w], counts[w]));
        }
    }
    samples.map(|mut list: Vec<f64>| {
        list.sort_by(f64::total_cmp);
        list[list.len() / 2]
    })
}
