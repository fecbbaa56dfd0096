//! Task sets.

use super::Trial;
use crate::inputs::numbers::out_len;
use crate::inputs::sets::{damaged, random_set};
use crate::reference::calls::{Call, Reference};
use crate::reference::deadlines::{TaskSet, MOST_TASKS};
use crate::watch;

/// The kinds that must come up.
pub const KINDS: [&str; 23] = [
    "deadlines: 0",
    "deadlines: 9",
    "deadlines: 16",
    "deadlines met",
    "deadlines missed",
    "missed at the first",
    "missed later",
    "missed by blocking",
    "missed with no block",
    "missed at horizon",
    "missed after horizon",
    "total equal to t",
    "total of t + 1",
    "horizon below all d",
    "horizon at an instant",
    "horizon beside one",
    "equal deadlines",
    "set of one task",
    "set of 16 tasks",
    "set of 17 tasks",
    "set of no task",
    "2^47 at the horizon",
    "times above 2^23",
];

impl Trial<'_> {
    /// A task set, now and then refused or with an output of another length.
    pub fn deadlines(&mut self) -> Result<(), String> {
        let (mut tasks, mut horizon) = random_set(&mut self.rng);
        if self.rng.percent(15) {
            (tasks, horizon) = damaged(&mut self.rng, tasks, horizon);
        }
        let set = TaskSet {
            tasks: &tasks,
            horizon,
        };
        let none = Reference::new(&[]);
        let call = Call::Deadlines(set);
        let len = out_len(&mut self.rng, none.out_len(&call));
        watch::file(Some(self.case), "none", &[]);
        let answer = self.driver.check(&mut self.rng, &none, &call, len)?;
        let number = answer.map_or_else(|refusal| refusal.number, |_| 0);
        self.counts.add(&format!("deadlines: {number}"));
        match number {
            0 => self.count_set(&set),
            16 => {
                let count = tasks.len();
                self.counts
                    .add_if(count == MOST_TASKS + 1, "set of 17 tasks");
                self.counts.add_if(count == 0, "set of no task");
            }
            _ => {}
        }
        Ok(())
    }

    fn count_set(&mut self, set: &TaskSet) {
        let (least, horizon) = (set.least_deadline(), set.horizon as i64);
        let miss = set.first_miss();
        let mut count = |came: bool, name: &str| self.counts.add_if(came, name);
        count(miss.is_none(), "deadlines met");
        if let Some(t) = miss {
            count(true, "deadlines missed");
            count(t == least, "missed at the first");
            count(t > least, "missed later");
            count(set.demands(t) <= t, "missed by blocking");
            count(set.blocking(t) == 0, "missed with no block");
            count(t == horizon, "missed at horizon");
            count(set.total(t) == t + 1, "total of t + 1");
        }
        let next = TaskSet {
            horizon: set.horizon + 1,
            ..*set
        };
        count(
            miss.is_none() && horizon >= least && next.first_miss().is_some(),
            "missed after horizon",
        );
        let tested = || least..=horizon.min(miss.map_or(horizon, |t| t - 1));
        count(
            tested().any(|t| set.total(t) == t && set.is_instant(t)),
            "total equal to t",
        );
        let beside = set.is_instant(horizon - 1) || set.is_instant(horizon + 1);
        count(horizon < least, "horizon below all d");
        count(set.is_instant(horizon), "horizon at an instant");
        count(beside && !set.is_instant(horizon), "horizon beside one");
        let deadlines = || set.tasks.iter().map(|task| task.deadline as i64);
        let shared = deadlines().filter(|&d| d == least).count() > 1;
        count(shared, "equal deadlines");
        count(set.tasks.len() == 1, "set of one task");
        count(set.tasks.len() == MOST_TASKS, "set of 16 tasks");
        count(set.demands(horizon) >= 1 << 47, "2^47 at the horizon");
        count(least > 1 << 23, "times above 2^23");
    }
}
