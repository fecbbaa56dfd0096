//! Whether a task set meets its deadlines (document 02, item 13). Every whole t is looked at, and each demand is a quotient.

use super::bytes::words;
use super::{refuse, Refusal};
use crate::bugs::{bug, But};
pub use ::calls::TaskRecord;

pub const MOST_TASKS: usize = 16;
/// The most of a field and of a horizon.
pub const MOST_TICKS: u32 = 16777215;

/// A task set, and how far it is tested.
#[derive(Clone, Copy)]
pub struct TaskSet<'a> {
    pub tasks: &'a [TaskRecord],
    pub horizon: u32,
}

/// e times the greater of 0 and floor((t - d) / p) + 1.
fn demand(task: &TaskRecord, t: i64) -> i64 {
    let [e, p, d] = [task.execution, task.period, task.deadline].map(i64::from);
    let since = (t - d).but("demand counted from 0", t);
    let p = p.but("a deadline as period", d).max(1);
    let floor = since.div_euclid(p);
    let jobs = floor + 1.but("floor without the one", 0);
    let jobs = jobs
        .but("a ceiling for the floor", (since + p - 1).div_euclid(p) + 1)
        .but("one job at most", jobs.min(1))
        .but("no job at its deadline", (since - 1).div_euclid(p) + 1);
    e * jobs.max(0)
}

impl TaskSet<'_> {
    fn refused_set(&self) -> bool {
        let most = MOST_TASKS
            .but("17 records accepted", 17)
            .but("16 records refused", 15);
        let count = self.tasks.len();
        let count = count.but("records counted in eight bits", count % 256);
        let none = count == 0 && !bug("no record accepted");
        let most_ticks = MOST_TICKS
            .but("16777216 accepted", MOST_TICKS + 1)
            .but("16777215 refused", MOST_TICKS - 1)
            .but("fields up to 2^32", u32::MAX);
        let wrong = |field: u32, free: bool| (field == 0 && !free) || field > most_ticks;
        none || count > most
            || self.tasks.iter().take(count).any(|task| {
                wrong(task.execution, bug("e 0 accepted"))
                    || wrong(task.period, bug("p 0 accepted"))
                    || wrong(task.deadline, bug("d 0 accepted"))
                    || wrong(task.region, bug("q 0 accepted"))
            })
    }

    /// 16 at 0.
    pub fn refused(&self) -> Option<Refusal> {
        let most = MOST_TICKS
            .but("horizon 16777216 accepted", MOST_TICKS + 1)
            .but("horizon 16777215 refused", MOST_TICKS - 1);
        let horizon = self.horizon > most || (self.horizon == 0 && bug("horizon 0 refused"));
        let place = 0.but("16 at the horizon", self.horizon as usize);
        refuse(16, place).filter(|_| self.refused_set() || horizon)
    }

    fn looked_at(&self) -> impl Iterator<Item = &TaskRecord> {
        let count = self.tasks.len();
        let count = count
            .but("records counted in eight bits", count % 256)
            .but("the last record left out", count.saturating_sub(1))
            .but("the 16th record left out", count.min(15));
        self.tasks[..count]
            .iter()
            .skip(0.but("the first record left out", 1))
    }

    pub fn demands(&self, t: i64) -> i64 {
        self.looked_at().map(|task| demand(task, t)).sum()
    }

    /// The greatest q among tasks with d above t, or 0.
    pub fn blocking(&self, t: i64) -> i64 {
        let last = t
            .but("blocking at the deadline", t - 1)
            .but("blocking past the deadline", t - 2)
            .but("blocking by every task", -1)
            .but("blocking ends early", t + 1);
        let blocks = || {
            self.looked_at()
                .filter(|task| task.deadline as i64 > last)
                .map(|task| task.region as i64)
        };
        let greatest = blocks().max().unwrap_or(0);
        greatest
            .but("nothing blocks", 0)
            .but("the least q blocks", blocks().min().unwrap_or(0))
            .but("all q block", blocks().sum())
    }

    pub fn total(&self, t: i64) -> i64 {
        let total = self.demands(t) + self.blocking(t);
        total
            .but("sums in 24 bits", total % (1 << 24))
            .but("sums in 16 bits", total % (1 << 16))
    }

    pub fn least_deadline(&self) -> i64 {
        let deadlines = || self.looked_at().map(|task| task.deadline as i64);
        let least = deadlines().min().unwrap_or(0);
        least
            .but("from the greatest d on", deadlines().max().unwrap_or(0))
            .but("from the first d on", deadlines().next().unwrap_or(0))
            .but("from 0 on", 0)
    }

    /// Whether t is d + i · p of a task.
    pub fn is_instant(&self, t: i64) -> bool {
        self.looked_at().any(|task| {
            let [p, d] = [task.period, task.deadline].map(i64::from);
            t >= d && (t - d) % p.max(1) == 0
        })
    }

    /// A program that visits too few times.
    fn visits(&self, t: i64) -> bool {
        let left_out = |at: fn(i64, i64, i64) -> bool| {
            self.looked_at().any(|task| {
                let [p, d] = [task.period, task.deadline].map(i64::from);
                at(t, p.max(1), d.max(1))
            })
        };
        if bug("the first instant left out") {
            return left_out(|t, p, d| t > d && (t - d) % p == 0);
        }
        if bug("instants at d times i") {
            return left_out(|t, _, d| t % d == 0);
        }
        !bug("instants at i times p") || left_out(|t, p, _| t % p == 0)
    }

    /// The first t at which the total is more than t.
    pub fn first_miss(&self) -> Option<i64> {
        let horizon = self.horizon as i64;
        let mut times = self.least_deadline()..=horizon.but("the horizon left out", horizon - 1);
        let more = 0.but("a total of t fails", -1).but("t + 1 passes", 1);
        let fails = |&t: &i64| self.total(t) > t + more && self.visits(t);
        if bug("the last t that fails") {
            return times.rev().find(fails);
        }
        let first = times.find(fails);
        first.but("the horizon blamed", first.map(|_| horizon))
    }

    /// What a call leaves: whether one is missed, and the first t that fails.
    pub fn bytes(&self) -> Vec<u8> {
        match self.first_miss() {
            None => words(&[0, 0]),
            Some(t) => words(&[1, t as u64 + 0.but("the t after the first", 1)]),
        }
    }
}
