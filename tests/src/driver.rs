//! Makes one call on guarded buffers and compares everything with the reference.

use crate::pages::{Lane, Side};
use crate::reference::bytes::hex;
use crate::reference::calls::{Answer, Call, Reference};
use crate::reference::deadlines::{TaskRecord, TaskSet};
use crate::reference::seeds::Request;
use crate::rng::Rng;
use crate::stand_in::StandIn;
use crate::watch;
use calls::Returned;

/// Pages of a lane for inputs: more than the longest file, and than the longest list.
const INPUT_PAGES: usize = 40;
/// Pages of the buffer for a file that a call makes: 97 blocks and some.
const MADE_PAGES: usize = 14;
/// So many bytes on either side of an output are random too.
const MARGIN: usize = 4096;

/// What is compared with the reference.
pub enum Planner {
    Library,
    Wrong(Box<StandIn>),
}

impl Planner {
    /// What a call returns, and the length that it answers, if it does.
    fn answer(&mut self, file: &[u8], call: &Call, out: &mut [u8]) -> (Returned, Option<usize>) {
        if let Planner::Wrong(program) = self {
            return program.answer(file, call, out);
        }
        let returned = match *call {
            Call::Plan => calls::plan(file, out),
            Call::Price(points) => calls::price(file, points, out),
            Call::Useful(k) => calls::useful(file, k, out),
            Call::NextRead(line, k) => calls::next_read(file, line, k, out),
            Call::Region(a, b) => calls::region(file, a, b, out),
            Call::Charged(list) => calls::charged_price(file, list, out),
            Call::ChargedPlan => calls::charged_plan(file, out),
            Call::Replay(list) => calls::replay(file, list, out),
            Call::Generate(Request {
                seed,
                n,
                m,
                s,
                q,
                r,
            }) => calls::generate([seed, n, m, s, q, r], out),
            Call::Join(second) => calls::join(file, second, out),
            Call::NextList(start, i) => calls::next_list(file, start, i, out),
            Call::Deadlines(TaskSet { tasks, horizon }) => calls::deadlines(tasks, horizon, out),
            Call::Trace(text, settings) => {
                let (returned, length) = calls::trace(text, settings.numbers(), out);
                return (returned, Some(length));
            }
        };
        (returned, None)
    }
}

/// What a call returned, and its output before and after.
#[derive(PartialEq)]
struct Left {
    returned: Returned,
    length: Option<usize>,
    before: Vec<u8>,
    after: Vec<u8>,
}

pub struct Driver {
    planner: Planner,
    file: Lane,
    /// A plan block, a list, a second file or a task set.
    other: Lane,
    out: Lane,
    made: Lane,
    pub calls: u64,
}

pub fn random_side(rng: &mut Rng) -> Side {
    match rng.below(20) {
        0..=13 => Side::End,
        14..=18 => Side::Start,
        _ => Side::Odd,
    }
}

/// Numbers lie at an address that their width divides, also where there are none.
fn even_side(rng: &mut Rng, count: usize) -> Side {
    match random_side(rng) {
        Side::Start if count > 0 => Side::Start,
        _ => Side::End,
    }
}

fn record_bytes(task: &TaskRecord) -> Vec<u8> {
    let fields = [task.execution, task.period, task.deadline, task.region];
    fields
        .iter()
        .flat_map(|field| field.to_ne_bytes())
        .collect()
}

impl Driver {
    pub fn new(planner: Planner) -> Driver {
        Driver {
            planner,
            file: Lane::new(INPUT_PAGES),
            other: Lane::new(INPUT_PAGES),
            out: Lane::new(1),
            made: Lane::new(MADE_PAGES),
            calls: 0,
        }
    }

    pub fn lend_file(&mut self, file: &[u8], side: Side) {
        self.file.lend(file, side);
    }

    /// The longest buffer that a file can be made in.
    pub fn most_made(&self) -> usize {
        self.made.bytes().len()
    }

    fn lend_list(&mut self, rng: &mut Rng, list: &[u16]) {
        let bytes: Vec<u8> = list.iter().flat_map(|p| p.to_ne_bytes()).collect();
        self.other.lend(&bytes, even_side(rng, list.len()));
    }

    /// Makes a call, or says which byte beside the output changed.
    fn ask(&mut self, rng: &mut Rng, call: &Call, out_len: usize) -> Result<Left, String> {
        let call = match *call {
            Call::Price(points) => {
                self.other.lend(points, random_side(rng));
                Call::Price(self.other.lent())
            }
            Call::Charged(list) => {
                self.lend_list(rng, list);
                Call::Charged(self.other.lent_numbers())
            }
            Call::Replay(list) => {
                self.lend_list(rng, list);
                Call::Replay(self.other.lent_numbers())
            }
            Call::Join(second) => {
                self.other.lend(second, random_side(rng));
                Call::Join(self.other.lent())
            }
            Call::Trace(text, settings) => {
                self.other.lend(text, random_side(rng));
                Call::Trace(self.other.lent(), settings)
            }
            Call::Deadlines(TaskSet { tasks, horizon }) => {
                let bytes: Vec<u8> = tasks.iter().flat_map(record_bytes).collect();
                self.other.lend(&bytes, even_side(rng, tasks.len()));
                let tasks = self.other.lent_records();
                Call::Deadlines(TaskSet { tasks, horizon })
            }
            call => call,
        };
        let lane = match call {
            Call::Generate(_) | Call::Join(_) | Call::Trace(..) => &mut self.made,
            _ => &mut self.out,
        };
        lane.lend_out(out_len, random_side(rng));
        let from = lane.offset();
        let bytes = lane.bytes_mut();
        let end = bytes.len().min(from + out_len + MARGIN);
        rng.fill(&mut bytes[from.saturating_sub(MARGIN)..end]);
        let before = bytes.to_vec();
        self.calls += 1;
        let points = match call {
            Call::Price(_)
            | Call::Charged(_)
            | Call::Replay(_)
            | Call::Trace(..)
            | Call::Deadlines(_) => self.other.lent(),
            _ => &[],
        };
        watch::call(said(&call, out_len), points);
        let (returned, length) = self
            .planner
            .answer(self.file.lent(), &call, lane.lent_mut());
        let (before, after) = within(&before, lane.bytes(), from, out_len)?;
        Ok(Left {
            returned,
            length,
            before,
            after,
        })
    }

    /// Compares a call on the file lent with the reference, and hands out the answer.
    pub fn check(
        &mut self,
        rng: &mut Rng,
        reference: &Reference,
        call: &Call,
        out_len: usize,
    ) -> Result<Answer, String> {
        let left = self.ask(rng, call, out_len)?;
        let answer = reference.answer(call, out_len);
        let returned = answer.as_ref().map(|_| ()).map_err(|&refusal| refusal);
        if left.returned != returned {
            let [right, got] = [returned, left.returned].map(returned_said);
            return Err(format!("expected: {right}\ngot: {got}"));
        }
        let made = answer.as_ref().map_or(&[][..], |bytes| bytes);
        if let Some(length) = left.length.filter(|&length| length != made.len()) {
            let right = made.len();
            return Err(format!("expected: the length {right}\ngot: {length}"));
        }
        let mut right = left.before.clone();
        right[..made.len()].copy_from_slice(made);
        if left.after != right {
            let i = (0..out_len).find(|&i| left.after[i] != right[i]).unwrap();
            return Err(format!(
                "returned: {}\nexpected: {} at byte {i} of the output\ngot: {}\nthe output expected:\n{}got:\n{}",
                returned_said(returned),
                right[i],
                left.after[i],
                hex(&right),
                hex(&left.after)
            ));
        }
        Ok(answer)
    }

    /// Makes one call on each of two files, with the same bytes in the output, and compares what it returns and leaves.
    pub fn check_alike(
        &mut self,
        rng: &mut Rng,
        files: [&[u8]; 2],
        call: &Call,
        out_len: usize,
    ) -> Result<(), String> {
        let mut same = rng.clone();
        self.lend_file(files[0], Side::End);
        let one = self.ask(rng, call, out_len)?;
        self.lend_file(files[1], Side::End);
        let other = self.ask(&mut same, call, out_len)?;
        if one == other {
            return Ok(());
        }
        let [first, second] = [&one, &other].map(|left| returned_said(left.returned));
        Err(format!(
            "expected: the answer of the file with other interrupters on the same lines\ngot: {first} and {second}, output {}",
            if one.after == other.after { "the same" } else { "another" }
        ))
    }

    /// U(k) of the file lent.
    pub fn useful(&mut self, rng: &mut Rng, k: usize) -> Result<Vec<u8>, String> {
        let left = self.ask(rng, &Call::Useful(k), 64)?;
        match left.returned {
            Ok(()) => Ok(left.after),
            refused => Err(format!("expected: 0\ngot: {}", returned_said(refused))),
        }
    }
}

fn returned_said(returned: Returned) -> String {
    match returned {
        Ok(()) => "0".to_string(),
        Err(refusal) => format!("{} at {}", refusal.number, refusal.place),
    }
}

fn said(call: &Call, out_len: usize) -> String {
    let call = match *call {
        Call::Plan => "preempt_plan".to_string(),
        Call::Price(points) => format!("preempt_price, points of {}", points.len()),
        Call::Useful(k) => format!("probe_useful, k {k}"),
        Call::NextRead(line, k) => format!("probe_next_read, line {line} k {k}"),
        Call::Region(a, b) => format!("probe_region, a {a} b {b}"),
        Call::Charged(list) => format!("probe_price, {} points", list.len()),
        Call::ChargedPlan => "probe_plan".to_string(),
        Call::Replay(list) => format!("probe_replay, {} points", list.len()),
        Call::Generate(request) => format!("probe_generate, {request:?}"),
        Call::Join(second) => format!("probe_join, second of {}", second.len()),
        Call::Trace(text, settings) => format!("probe_trace, {} bytes, {settings:?}", text.len()),
        Call::NextList(start, i) => format!("probe_next_list, start {start} point {i}"),
        Call::Deadlines(TaskSet { tasks, horizon }) => {
            format!(
                "probe_deadlines, horizon {horizon}, {} tasks: {tasks:?}",
                tasks.len()
            )
        }
    };
    format!("{call}, output of {out_len}")
}

/// The lent bytes before and after a call, or which byte beside them changed.
fn within(
    before: &[u8],
    after: &[u8],
    from: usize,
    len: usize,
) -> Result<(Vec<u8>, Vec<u8>), String> {
    let end = from + len;
    if after[..from] != before[..from] || after[end..] != before[end..] {
        let i = (0..from)
            .chain(end..after.len())
            .find(|&i| after[i] != before[i])
            .unwrap();
        return Err(format!(
            "expected: nothing written beside the output\ngot: byte {} from its start changed",
            i as isize - from as isize
        ));
    }
    Ok((before[from..end].to_vec(), after[from..end].to_vec()))
}
