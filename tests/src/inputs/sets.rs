//! Task sets: small numbers and large ones, equal deadlines, regions at the border, horizons around instants.

use crate::reference::deadlines::{TaskRecord, TaskSet, MOST_TASKS, MOST_TICKS};
use crate::rng::Rng;

/// So many times are looked at as a rule, since the reference goes through every one.
const MOST_TIMES: u32 = 1500;

fn ticks(rng: &mut Rng, low: u32, high: u32) -> u32 {
    rng.between(low as usize, high as usize) as u32
}

fn some_tasks(rng: &mut Rng, mut task: impl FnMut(&mut Rng, u32) -> TaskRecord) -> Vec<TaskRecord> {
    let count = match rng.below(10) {
        0 => 16,
        1 => rng.between(5, 16),
        _ => rng.between(1, 4),
    };
    (0..count).map(|_| task(rng, count as u32)).collect()
}

/// Anything small: as a rule more is demanded than there is time for.
fn small(rng: &mut Rng) -> Vec<TaskRecord> {
    some_tasks(rng, |rng, _| TaskRecord {
        execution: ticks(rng, 1, 4),
        period: ticks(rng, 1, 20),
        deadline: ticks(rng, 1, 30),
        region: ticks(rng, 1, 12),
    })
}

/// Sets whose demand grows about as fast as time does.
fn fitting(rng: &mut Rng) -> Vec<TaskRecord> {
    let (less, slack) = rng.pick(&[(0, 6), (0, 0), (1, 0), (1, 2)]);
    some_tasks(rng, |rng, count| {
        let execution = ticks(rng, 1, 5);
        let period = (execution * count + ticks(rng, 0, slack)).saturating_sub(less);
        let deadline = period + ticks(rng, 0, 20 + slack);
        TaskRecord {
            execution,
            period: period.max(1),
            deadline: deadline.saturating_sub(ticks(rng, 0, 3)).max(1),
            region: ticks(rng, 1, 5),
        }
    })
}

/// Deadlines shortly before the largest horizon.
fn late(rng: &mut Rng) -> Vec<TaskRecord> {
    let any = |rng: &mut Rng| {
        let bits = ticks(rng, 1, 24);
        ticks(rng, 1, (1 << bits) - 1)
    };
    some_tasks(rng, |rng, _| TaskRecord {
        execution: any(rng),
        period: any(rng),
        deadline: MOST_TICKS - ticks(rng, 0, 300),
        region: any(rng),
    })
}

/// At the largest horizon the sums would be near 2^48, or above.
fn huge(rng: &mut Rng) -> Vec<TaskRecord> {
    let deadline = ticks(rng, 1, 40);
    some_tasks(rng, |rng, _| TaskRecord {
        execution: MOST_TICKS - ticks(rng, 0, 3),
        period: ticks(rng, 1, 2),
        deadline: deadline + ticks(rng, 0, 2),
        region: MOST_TICKS - ticks(rng, 0, 3),
    })
}

/// One task or two groups with one deadline each.
fn share_deadlines(rng: &mut Rng, tasks: &mut [TaskRecord]) {
    let both = [rng.pick(tasks).deadline, rng.pick(tasks).deadline];
    for task in tasks {
        task.deadline = rng.pick(&both);
    }
}

/// A region that brings the total to t, or a tick above or below, at an instant before its task's deadline.
fn at_border(rng: &mut Rng, tasks: &mut [TaskRecord]) {
    let j = rng.below(tasks.len());
    let task = rng.pick(tasks);
    let t = task.deadline as i64 + task.period as i64 * rng.pick(&[0, 0, 0, 1, 2]);
    let set = TaskSet { tasks, horizon: 0 };
    let region = t - set.demands(t) + rng.pick(&[-1, 0, 0, 1, 1]);
    if (1..=MOST_TICKS as i64).contains(&region) {
        tasks[j].region = region as u32;
        if rng.percent(50) && t < MOST_TICKS as i64 {
            tasks[j].deadline = tasks[j].deadline.max(t as u32 + 1);
        }
    }
}

/// An instant of a task, or a tick beside it.
fn around_instant(rng: &mut Rng, tasks: &[TaskRecord], i: u64) -> u32 {
    let task = rng.pick(tasks);
    let instant = task.deadline as u64 + i * task.period as u64;
    (instant + rng.pick(&[0, 0, 1, 2]) - 1).min(MOST_TICKS as u64) as u32
}

/// A set that is accepted, with a horizon.
pub fn random_set(rng: &mut Rng) -> (Vec<TaskRecord>, u32) {
    let kind = rng.below(20);
    let mut tasks = match kind {
        0..=5 => small(rng),
        6..=15 => fitting(rng),
        16..=18 => late(rng),
        _ => huge(rng),
    };
    if kind == 19 {
        return (tasks, rng.pick(&[MOST_TICKS, MOST_TICKS - 1]));
    }
    if rng.percent(20) {
        share_deadlines(rng, &mut tasks);
    }
    if rng.percent(35) {
        at_border(rng, &mut tasks);
    }
    let most = match rng.below(400) {
        0 => 60_000,
        _ => MOST_TIMES,
    };
    let least = tasks.iter().map(|task| task.deadline).min().unwrap();
    let i = rng.pick(&[0, 0, 1, 2, 3, 10, 100]);
    let far = (least + most).min(MOST_TICKS);
    let horizon = match rng.below(14) {
        0 => rng.pick(&[0, 1, least - 1, least, least + 1, least / 2]),
        1..=4 => around_instant(rng, &tasks, i),
        5..=8 => around_miss(rng, &tasks, far),
        9 => MOST_TICKS,
        _ => least + ticks(rng, 0, most),
    };
    (tasks, horizon.min(far))
}

/// The first t that fails, or a tick beside it.
fn around_miss(rng: &mut Rng, tasks: &[TaskRecord], horizon: u32) -> u32 {
    match (TaskSet { tasks, horizon }).first_miss() {
        Some(t) => (t as u32 + rng.pick(&[0, 0, 1, 2])) - 1,
        None => horizon,
    }
}

/// Too many or no records, or a number out of its range.
pub fn damaged(rng: &mut Rng, mut tasks: Vec<TaskRecord>, horizon: u32) -> (Vec<TaskRecord>, u32) {
    let some = ticks(rng, 1, 30);
    let high = rng.pick(&[
        MOST_TICKS + 1,
        MOST_TICKS + some,
        (1 << 25) + some,
        (1 << 31) + some,
        u32::MAX - some,
        u32::MAX,
    ]);
    let wrong = rng.pick(&[0, 0, high]);
    let first = tasks[0];
    let j = rng.below(tasks.len());
    match rng.below(10) {
        0 => tasks.clear(),
        1..=2 => tasks.resize(MOST_TASKS + 1, first),
        3 => {
            let more = rng.pick(&[18, 31, 32, 255, 256, 257, 256 + some as usize, 512]);
            tasks.resize(more, first);
        }
        4 => tasks[j].execution = wrong,
        5 => tasks[j].period = wrong,
        6 => tasks[j].deadline = wrong,
        7 => tasks[j].region = wrong,
        _ => return (tasks, high),
    }
    (tasks, horizon)
}
