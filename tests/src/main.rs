//! `opponent [SEED [COUNT [CASE]]]` drives the planner through its C calls and compares every
//! answer with a plain implementation. With CASE only that case is run. OPPONENT_SEED and
//! OPPONENT_COUNT serve where an argument is missing.
//!
//! `opponent bugs` puts each wrong program in the library's place and fails if the comparison doesn't
//! notice one. `opponent bug NAME [SEED [COUNT [CASE]]]` does so with one of them.

mod bugs;
mod cases;
mod counts;
mod driver;
mod fixed;
mod inputs;
mod pages;
mod reference;
mod rng;
mod stand_in;
mod trials;
mod watch;

use counts::Counts;
use driver::{Driver, Planner};
use stand_in::StandIn;
use std::process::ExitCode;

/// Random files, where no count is given.
const FILES: u64 = 24000;

fn setting(args: &[String], index: usize, name: &str) -> Option<u64> {
    let text = args
        .get(index)
        .cloned()
        .or_else(|| std::env::var(name).ok())?;
    match text.parse() {
        Ok(value) => Some(value),
        Err(_) => {
            eprintln!("usage: opponent [bugs | [bug NAME] SEED [COUNT [CASE]]], not {text:?}");
            std::process::exit(2);
        }
    }
}

fn clock_seed() -> u64 {
    let since = std::time::SystemTime::now()
        .duration_since(std::time::UNIX_EPOCH)
        .unwrap();
    since.as_nanos() as u64
}

/// What is compared with the reference: the library, or the wrong program that the arguments name.
fn planner(args: &mut Vec<String>) -> Planner {
    if args.len() < 2 || args[0] != "bug" {
        return Planner::Library;
    }
    let named: Vec<String> = args.drain(..2).collect();
    let mut names = bugs::all().into_iter().chain([""]);
    match names.find(|name| *name == named[1]) {
        Some(name) => Planner::Wrong(Box::new(StandIn::new(name))),
        None => {
            eprintln!("no wrong program {:?}", named[1]);
            std::process::exit(2);
        }
    }
}

fn main() -> ExitCode {
    let mut args: Vec<String> = std::env::args().skip(1).collect();
    if args.first().is_some_and(|a| a == "bugs") {
        return trials::run();
    }
    let planner = planner(&mut args);
    let tried = matches!(planner, Planner::Wrong(_));
    let seed = setting(&args, 0, "OPPONENT_SEED").unwrap_or_else(clock_seed);
    let count = setting(&args, 1, "OPPONENT_COUNT").unwrap_or(FILES);
    let only = setting(&args, 2, "OPPONENT_CASE");
    watch::start(seed);
    println!("seed {seed}, {count} files");
    let mut driver = Driver::new(planner);
    let mut counts = Counts::new();

    let cases = match only {
        Some(case) => case..case + 1,
        None => 0..count,
    };
    let fixed = |driver: &mut Driver| match only {
        Some(_) => Ok(()),
        None => fixed::run(driver),
    };
    let mut random = |driver: &mut Driver| {
        let mut cases = cases.clone();
        cases.try_for_each(|case| cases::run(driver, &mut counts, seed, case))
    };
    // A wrong program meets the random files first, so that they show what they notice alone.
    let compared = if tried {
        random(&mut driver).and_then(|()| fixed(&mut driver))
    } else {
        fixed(&mut driver).and_then(|()| random(&mut driver))
    };
    if let Err(text) = compared {
        watch::failed(&text);
        return ExitCode::FAILURE;
    }
    watch::stop();
    if only.is_some() {
        println!("opponent: case agrees");
        return ExitCode::SUCCESS;
    }
    counts.print();
    println!("{} calls", driver.calls);
    println!("opponent: {count} files agree");
    let missing = counts.missing();
    if missing.is_empty() || tried {
        return ExitCode::SUCCESS;
    }
    let few = count < FILES;
    let of = if few { " in so few files" } else { "" };
    println!("did not come up{of}: {}", missing.join("; "));
    ExitCode::from(!few as u8)
}
