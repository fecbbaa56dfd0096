//! Task sets worked by hand.

use super::Fixed;
use crate::reference::bytes::words;
use crate::reference::calls::{Call, Reference};
use crate::reference::deadlines::{TaskRecord, TaskSet, MOST_TICKS};
use crate::watch;

/// e, p, d and q.
fn task([execution, period, deadline, region]: [u32; 4]) -> TaskRecord {
    TaskRecord {
        execution,
        period,
        deadline,
        region,
    }
}

impl Fixed<'_> {
    /// The first t that fails, or none.
    fn missed(&mut self, set: &[[u32; 4]], horizon: u32, right: Option<u64>) -> Result<(), String> {
        let tasks: Vec<TaskRecord> = set.iter().copied().map(task).collect();
        let call = Call::Deadlines(TaskSet {
            tasks: &tasks,
            horizon,
        });
        let left = right.map_or([0, 0], |t| [1, t]);
        match self.check(&call)? {
            Ok(bytes) if bytes == words(&left) => Ok(()),
            _ => Err(format!(
                "{set:?} up to {horizon}: the reference doesn't answer {right:?}"
            )),
        }
    }

    fn wrong_set(&mut self, set: &[[u32; 4]], horizon: u32) -> Result<(), String> {
        let tasks: Vec<TaskRecord> = set.iter().copied().map(task).collect();
        let tasks = &tasks;
        self.refused(&Call::Deadlines(TaskSet { tasks, horizon }), 16, 0)
    }
}

pub fn run(f: &mut Fixed) -> Result<(), String> {
    watch::file(None, "none", &[]);
    f.reference = Reference::new(&[]);
    f.missed(&[[2, 5, 5, 1]], 20, None)?;
    f.missed(&[[2, 4, 4, 1], [3, 6, 6, 1]], 100, None)?;
    let late = [[2, 4, 4, 1], [4, 6, 6, 1]];
    f.missed(&late, 11, None)?;
    for horizon in [12, 13, 100, MOST_TICKS] {
        f.missed(&late, horizon, Some(12))?;
    }
    let blocked = [[1, 10, 3, 1], [1, 10, 9, 3]];
    for horizon in [3, 4, 100] {
        f.missed(&blocked, horizon, Some(3))?;
    }
    for horizon in [0, 1, 2] {
        f.missed(&blocked, horizon, None)?;
    }
    f.missed(&[[1, 10, 3, 1], [1, 10, 9, 2]], 100, None)?;

    // The longest test: an instant at every t, and a second task that falls due at the last alone.
    let longest = [[1, 1, 2, 1], [2, 1, MOST_TICKS, 1]];
    f.missed(&longest, MOST_TICKS, Some(MOST_TICKS as u64))?;
    let most = [MOST_TICKS; 4];
    f.missed(&[most], MOST_TICKS, None)?;
    f.missed(&[most; 16], MOST_TICKS - 1, None)?;
    f.missed(&[most; 16], MOST_TICKS, Some(MOST_TICKS as u64))?;
    f.missed(&[[MOST_TICKS, 1, 1, MOST_TICKS]; 16], MOST_TICKS, Some(1))?;

    let right = [1, 100, 100, 1];
    f.missed(&[right; 16], 20, None)?;
    for set in [vec![], vec![right; 17], vec![right; 256 + 1]] {
        f.wrong_set(&set, 20)?;
    }
    for field in 0..4 {
        for wrong in [0, MOST_TICKS + 1, u32::MAX] {
            for count in [1, 16] {
                let mut set = vec![right; count];
                set[count - 1][field] = wrong;
                f.wrong_set(&set, 20)?;
            }
        }
    }
    for horizon in [MOST_TICKS + 1, u32::MAX] {
        f.wrong_set(&[right], horizon)?;
    }
    Ok(())
}
