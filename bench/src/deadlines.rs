//! The deadlines of a task set, in plain Rust: from instant to instant, over the records as they lie.

use crate::fast::refusal;
use crate::files::Rng;
use calls::{Returned, TaskRecord};

const MOST_TASKS: usize = 16;
pub const MOST_TICKS: u32 = 0xff_ffff;

/// So many tasks, each by e, p, d and q.
pub fn task_set(count: u32, fields: impl Fn(u32) -> [u32; 4]) -> Vec<TaskRecord> {
    let task = |i| {
        let [execution, period, deadline, region] = fields(i);
        TaskRecord {
            execution,
            period,
            deadline,
            region,
        }
    };
    (0..count).map(task).collect()
}

/// A random set of small numbers, a few of them 0, and a horizon.
pub fn any_set(rng: &mut Rng) -> (Vec<TaskRecord>, u32) {
    let most = [5, 18][(rng.below(8) == 0) as usize];
    let numbers: Vec<[u32; 4]> = (0..rng.below(most))
        .map(|_| {
            let execution = (1 + rng.below(4)) * (rng.below(40) > 0) as u32;
            [
                execution,
                1 + rng.below(30),
                1 + rng.below(30),
                1 + rng.below(9),
            ]
        })
        .collect();
    let tasks = task_set(numbers.len() as u32, |i| numbers[i as usize]);
    (tasks, rng.below(1000))
}

fn in_range(task: &TaskRecord) -> bool {
    let range = 1..=MOST_TICKS;
    range.contains(&task.execution)
        && range.contains(&task.period)
        && range.contains(&task.deadline)
        && range.contains(&task.region)
}

/// The first time that fails. What blocks is found again only where a deadline has passed.
fn first_miss(tasks: &[TaskRecord], horizon: u32) -> Option<u32> {
    let mut instants = [0; MOST_TASKS];
    for (instant, task) in instants.iter_mut().zip(tasks) {
        *instant = task.deadline;
    }
    let (mut demand, mut region, mut until) = (0, 0, 0);
    let mut t = tasks.iter().map(|task| task.deadline).min()?;
    while t <= horizon {
        let mut next = horizon + 1;
        for (task, instant) in tasks.iter().zip(&mut instants) {
            if *instant == t {
                demand += task.execution;
                *instant += task.period;
            }
            next = next.min(*instant);
        }
        if until <= t {
            (region, until) = (0, u32::MAX);
            for task in tasks.iter().filter(|task| task.deadline > t) {
                region = region.max(task.region);
                until = until.min(task.deadline);
            }
        }
        if demand + region > t {
            return Some(t);
        }
        t = next;
    }
    None
}

pub fn deadlines(tasks: &[TaskRecord], horizon: u32, out: &mut [u8]) -> Returned {
    if out.len() != 16 {
        return Err(refusal(9, 0));
    }
    let counted = (1..=MOST_TASKS).contains(&tasks.len());
    if !counted || !tasks.iter().all(in_range) || horizon > MOST_TICKS {
        return Err(refusal(16, 0));
    }
    let (missed, t) = match first_miss(tasks, horizon) {
        None => (0, 0),
        Some(t) => (1, t as u64),
    };
    out[..8].copy_from_slice(&u64::to_le_bytes(missed));
    out[8..].copy_from_slice(&t.to_le_bytes());
    Ok(())
}
