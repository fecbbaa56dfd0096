//! The calls of `probe`.

use crate::time;
use crate::trial::Trial;
use bench::files::{drawn, reread, rotated, Again, Shape, LARGEST};
use bench::timing::keep;
use std::hint::black_box;

/// All of them, on one file or on two.
pub fn make_calls(trial: &mut Trial, file: &[u8], other: &[u8]) {
    let n = file.len() as u32 / 512;
    let (a, b) = (
        trial.rng.below(n + 1) as usize,
        trial.rng.below(n + 1) as usize,
    );
    let line = trial.rng.below(520) as usize;
    let points: Vec<u16> = (1..n as u16).filter(|_| trial.rng.below(4) == 0).collect();
    trial.both(
        "useful",
        64,
        |out| old::useful(file, a, out),
        |out| calls::useful(file, a, out),
    );
    trial.both(
        "next_read",
        24,
        |out| old::next_read(file, line, a, out),
        |out| calls::next_read(file, line, a, out),
    );
    trial.both(
        "region",
        72,
        |out| old::region(file, a, b, out),
        |out| calls::region(file, a, b, out),
    );
    trial.both(
        "replay",
        16,
        |out| old::replay(file, &points, out),
        |out| calls::replay(file, &points, out),
    );
    let numbers = [u32::MAX, 66, 34, 514, u32::MAX, u32::MAX].map(|most| trial.rng.below(most));
    let len = 512 * (1 + numbers[1] + numbers[2]) as usize;
    trial.both(
        "generate",
        len,
        |out| old::generate(numbers, out),
        |out| calls::generate(numbers, out),
    );
    trial.both(
        "join",
        (file.len() + other.len()).saturating_sub(512),
        |out| old::join(file, other, out),
        |out| calls::join(file, other, out),
    );
}

pub fn time_calls() {
    let mut out = [(); 2].map(|_| vec![0; 97 * 512]);
    let [left, right] = black_box(&mut out);
    let files = rotated(|seed| drawn(&LARGEST, seed));
    println!("largest file");
    let near = rotated(|seed| reread(&LARGEST, 1, Again::InEachBlock, seed));
    for (name, files, k) in [("useful", &files, 32), ("useful near", &near, 1)] {
        time(
            name,
            files.len(),
            |i| keep(old::useful(&files[i], k, &mut left[..64])),
            |i| keep(calls::useful(&files[i], k, &mut right[..64])),
        );
    }
    time(
        "next_read",
        files.len(),
        |i| keep(old::next_read(&files[i], 512, 1, &mut left[..24])),
        |i| keep(calls::next_read(&files[i], 512, 1, &mut right[..24])),
    );
    for (name, a, b) in [("short region", 32, 33), ("long region", 1, 64)] {
        time(
            name,
            files.len(),
            |i| keep(old::region(&files[i], a, b, &mut left[..72])),
            |i| keep(calls::region(&files[i], a, b, &mut right[..72])),
        );
    }
    let points: Vec<u16> = (1..8).map(|i| 8 * i).collect();
    time(
        "replay",
        files.len(),
        |i| keep(old::replay(&files[i], &points, &mut left[..16])),
        |i| keep(calls::replay(&files[i], &points, &mut right[..16])),
    );
    let numbers = |seed: usize| [seed as u32, 64, 32, 512, 5000, 10];
    time(
        "generate",
        files.len(),
        |i| keep(old::generate(numbers(i), left)),
        |i| keep(calls::generate(numbers(i), right)),
    );
    let half = Shape {
        n: 32,
        m: 16,
        ..LARGEST
    };
    let halves = rotated(|seed| drawn(&half, seed));
    time(
        "join",
        halves.len(),
        |i| keep(old::join(&halves[i], &halves[0], left)),
        |i| keep(calls::join(&halves[i], &halves[0], right)),
    );
}
