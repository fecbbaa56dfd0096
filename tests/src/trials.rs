//! Tries the comparison itself: each wrong program must be noticed, and the reference without a switch must not.

use crate::{bugs, FILES};
use std::process::{Command, ExitCode};
use std::sync::atomic::{AtomicUsize, Ordering};
use std::sync::Mutex;
use std::thread;

const SEED: u64 = 1;
/// So many random files meet the reference without a switch; a wrong program meets as many as the library.
const FEW: u64 = 400;

/// What a run of this program with one switch says: where it stopped, if it noticed something.
struct Verdict {
    noticed: bool,
    agrees: bool,
    at: String,
}

/// A process of its own, since some of them touch memory that isn't theirs.
fn tried(name: &str) -> Verdict {
    let files = if name.is_empty() { FEW } else { FILES };
    let me = std::env::current_exe().unwrap();
    let run = Command::new(me)
        .args(["bug", name])
        .args([SEED, files].map(|number| number.to_string()))
        .env_remove("OPPONENT_CASE")
        .output()
        .unwrap();
    let text = String::from_utf8_lossy(&run.stdout).into_owned();
    let line = |starts: &str| text.lines().find(|l| l.starts_with(starts)).unwrap_or("");
    let seed = format!("seed {SEED} ");
    let case = line(&format!("{seed}case")).split(',').next().unwrap();
    let case = case.strip_prefix(&seed).unwrap_or("a fixed case");
    Verdict {
        noticed: run.status.code() == Some(1) && text.lines().any(|l| l == "FAILED"),
        agrees: run.status.success(),
        at: format!("{case}, {}", line("call: ")),
    }
}

pub fn run() -> ExitCode {
    let names: Vec<&str> = [""].into_iter().chain(bugs::all()).collect();
    let next = AtomicUsize::new(0);
    let verdicts = Mutex::new(Vec::new());
    thread::scope(|scope| {
        for _ in 0..thread::available_parallelism().map_or(1, |n| n.get()) {
            scope.spawn(|| loop {
                let i = next.fetch_add(1, Ordering::Relaxed);
                let Some(name) = names.get(i) else {
                    break;
                };
                let verdict = tried(name);
                verdicts.lock().unwrap().push((i, verdict));
            });
        }
    });
    let mut verdicts = verdicts.into_inner().unwrap();
    verdicts.sort_by_key(|(i, _)| *i);
    let mut missed = 0;
    for (i, verdict) in &verdicts {
        match (*i, verdict.noticed, verdict.agrees) {
            (0, false, true) => {}
            (0, ..) => {
                missed += 1;
                println!("NOTICED without a switch: {}", verdict.at);
            }
            (_, true, _) => println!("noticed: {:<52} {}", names[*i], verdict.at),
            _ => {
                missed += 1;
                println!("MISSED: {}", names[*i]);
            }
        }
    }
    let count = names.len() - 1;
    println!("opponent: {count} wrong programs, seed {SEED}, at most {FILES} files each: {missed} missed");
    ExitCode::from((missed > 0) as u8)
}
