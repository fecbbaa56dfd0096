//! `compare [SEED [COUNT]]` holds the C calls of today's libraries to those of older ones, which must answer alike on random files, and then
//! times both in turns on the files of the benchmark: the medians of the old ones, of the new ones, and their ratio. The calls of `probe` are
//! made only with the feature of that name, since both libraries must have them with the same arguments.

#[cfg(feature = "probe")]
mod probe;
mod trial;

#[cfg(not(feature = "probe"))]
mod probe {
    pub fn make_calls(_: &mut crate::trial::Trial, _: &[u8], _: &[u8]) {}
    pub fn time_calls() {}
}

use bench::files::{growing, planned};
use bench::timing::{keep, medians};
use std::hint::black_box;
use std::time::{SystemTime, UNIX_EPOCH};

const CALLS: u64 = 100_000;
const ROUNDS: usize = 501;

/// Times a call of both; each is given the index of a file.
fn time(call: &str, files: usize, mut before: impl FnMut(usize), mut now: impl FnMut(usize)) {
    let [before, now] = medians(ROUNDS, files, [&mut before, &mut now]);
    println!(
        "  {call:<12} old {before:9.2} us   new {now:9.2} us   ratio {:6.3}",
        now / before
    );
}

fn time_firmware() {
    let mut out = [[0; 512]; 2];
    let [left, right] = black_box(&mut out);
    for (name, files) in planned().into_iter().chain(growing()) {
        println!("{name}");
        let mut plans = vec![[0; 512]; files.len()];
        for (plan, file) in plans.iter_mut().zip(&files) {
            calls::plan(file, plan).expect("a plan");
        }
        time(
            "plan",
            files.len(),
            |i| keep(old::plan(&files[i], left)),
            |i| keep(calls::plan(&files[i], right)),
        );
        time(
            "price",
            files.len(),
            |i| keep(old::price(&files[i], &plans[i], left)),
            |i| keep(calls::price(&files[i], &plans[i], right)),
        );
    }
}

fn main() {
    let numbers: Vec<u64> = std::env::args()
        .skip(1)
        .map(|word| word.parse().expect("usage: compare [SEED [COUNT]]"))
        .collect();
    let clock = SystemTime::now().duration_since(UNIX_EPOCH).unwrap();
    let seed = numbers.first().copied();
    let count = numbers.get(1).copied();
    trial::hold_alike(
        seed.unwrap_or(clock.as_secs() % 1_000_000),
        count.unwrap_or(CALLS),
    );
    println!("medians of {ROUNDS} rounds in turns, the files of a row in rotation; the ratio is that of new to old");
    time_firmware();
    probe::time_calls();
}
