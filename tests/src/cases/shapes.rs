//! Which answers and which shapes of files, lists and plans came up.

use crate::counts::Counts;
use crate::inputs::tasks::tightest;
use crate::reference::bytes::{field, seal, BLOCK};
use crate::reference::calls::{Answer, Reference};
use crate::reference::charges;
use crate::reference::choice::{Least, TRY_ALL};
use crate::reference::files::{file_refusal, Reads, Task};
use crate::reference::joining::Pair;
use crate::reference::lines;
use crate::reference::listing::SHORT;
use crate::reference::plans::points_of;
use crate::reference::regions::Model;
use crate::reference::Refusal;

/// Whether a list with points fits.
fn some_points_fit(model: &Model) -> bool {
    let n = model.n;
    let mut ends = vec![false; n + 1];
    ends[n] = true;
    for a in (1..n).rev() {
        ends[a] = (a + 1..=n).any(|b| ends[b] && model.within(a, b));
    }
    (1..n).any(|b| ends[b] && model.within(0, b))
}

impl Counts {
    pub fn refusal(&mut self, call: &str, answer: &Answer, n: usize) {
        let Err(Refusal { number, place }) = *answer else {
            self.add(&format!("{call}: 0"));
            return;
        };
        if call == "price" && matches!(number, 1 | 2 | 5) && place == 97 {
            self.add(&format!("{call}: {number}+97"));
            return;
        }
        self.add(&format!("{call}: {number}"));
        self.add_if(number == 2 && place > 0, "2 above block 0");
        self.add_if(number == 5 && place <= n, "5 in a basic block");
        self.add_if(number == 5 && place > n, "5 in an interrupter");
        let of_list = matches!(call, "price" | "charged" | "replay");
        self.add_if(of_list && number == 7 && place == 0, "7 at index 0");
        self.add_if(number == 7 && place > 0, "7 above index 0");
        self.add_if(number == 8 && place == 0, "8 at stretch 0");
        self.add_if(number == 8 && place > 0, "8 above stretch 0");
    }

    pub fn plan(&mut self, reference: &Reference, points: &[usize]) {
        let (Ok(model), Some(least)) = (reference.model(), reference.least()) else {
            return;
        };
        let (n, many, tie) = (model.n, model.n > TRY_ALL, least.ties > 1);
        let costs = least.price > 0;
        let ranged = model.task.scratch.count > 0;
        let beginning = least.last.starts_with(points);
        self.add(match points.len() {
            0 => "plan of 0 points",
            1 => "plan of 1 point",
            _ => "plan of several",
        });
        self.add_if(n > 2 && points.len() == n - 1, "plan of all N-1");
        self.add_if(!costs, "plan at price 0");
        self.add_if(model.task.reload == 0, "plan at R 0");
        self.add_if(costs, "plan at price > 0");
        self.add_if(costs && ranged, "range, price > 0");
        self.add_if(costs && many, "price > 0, N > 12");
        self.add_if(tie, "plan with ties");
        self.add_if(tie && many, "ties with N > 12");
        self.add_if(tie && beginning, "tie by beginning");
        self.add_if(tie && !beginning, "tie by a lower point");
        self.add_if(!tie && n > 1, "plan, only one list");
        self.add_if(many, "plan with N > 12");
        self.add_if(n == 64, "plan with N 64");
        if model.task.switch > 0 {
            self.plan_with_switch(model, least);
        }
    }

    /// What G changes in a plan.
    fn plan_with_switch(&mut self, model: &Model, least: &Least) {
        let points = &least.points;
        let without = model.without_switch();
        let other = without.least_by_recursion().unwrap().points;
        let too_long = model.first_above(&other).is_some();
        let dearer = other != *points && !too_long;
        let more_lines = model.lines_of(points) > model.lines_of(&other);
        let pointless = points.is_empty() && !some_points_fit(model) && some_points_fit(&without);
        self.add_if(pointless, "no points by G");
        self.add_if(too_long, "other plan by fit");
        self.add_if(dearer, "other plan by price");
        self.add_if(dearer && more_lines, "more lines by G");
        self.add_if(points.len() != least.last.len(), "tie of other counts");
        let free = model.task.reload == 0 && !points.is_empty();
        self.add_if(free, "plan with G, R 0");
    }

    pub fn price(&mut self, model: &Model, block: &[u8]) {
        let points = points_of(block);
        let other_n = field(block, 2, 2) as usize != model.n;
        self.add_if(model.price_of(&points) >= 1 << 32, "priced above 2^32");
        self.add_if(model.lines_of(&points) > 255, "priced lines > 255");
        self.add_if(other_n, "other N in the block");
        let switches = model.task.switch as u64 * points.len() as u64;
        self.add_if(switches > 0, "priced with G");
        self.add_if(switches >= 1 << 32, "switches above 2^32");
    }

    /// A list or a plan that is charged.
    pub fn charged(&mut self, model: &Model, points: &[usize]) {
        let task = &model.task;
        let charges = charges::charges(model, points);
        let own = charges::own_lines(task);
        let touch = |i: usize, c: usize| {
            let numbers = &task.interrupters[i].numbers;
            numbers.iter().any(|&m| task.line_of(m) == Some(c))
        };
        let m = task.interrupters.len();
        let mut several = false;
        for (a, b) in model.stretches(points) {
            let loaded = model.loaded(a, b);
            let first = |c| (0..m).find(|&i| own[i][c]).unwrap();
            several |=
                (0..lines::LINES).any(|c| loaded[c] && (first(c) + 1..m).any(|i| touch(i, c)));
        }
        let whole: u64 = charges.iter().sum();
        self.add_if(m == 0, "charged, M 0");
        self.add_if(m == 1 && whole > 0, "charged, M 1");
        self.add_if(m == 32 && whole > 0, "charged, M 32");
        let silent = task.interrupters.iter().any(|r| r.numbers.is_empty());
        self.add_if(silent && whole > 0, "reads nothing");
        self.add_if(several, "several touch a line");
        self.add_if(
            charges.iter().filter(|&&charge| charge > 0).count() > 1,
            "charged to several",
        );
        self.add_if(whole > model.different_lines(points), "charged twice");
        self.add_if(
            charges.iter().any(|&charge| charge > 255),
            "charge above 255",
        );
        self.add_if(charges[31] > 0, "charge 31");
        self.add_if(task.switch > 0 && whole > 0, "charged with G");
    }

    pub fn list(&mut self, reference: &Reference, start: u64, answer: &Answer) {
        let file = &reference.file;
        let n = if file.len() < BLOCK {
            0
        } else {
            field(file, 2, 2) as usize
        };
        let refused = answer.as_ref().map_or_else(|refusal| refusal.number, |_| 0);
        self.add_if(refused == 15 && n == SHORT + 1, "15 at N 17");
        self.add_if(refused == 5 && n > SHORT, "5 before 15");
        let (Ok(found), Ok(listing)) = (answer, reference.listing()) else {
            return;
        };
        let (there, number, end) = (field(found, 0, 8) == 1, field(found, 8, 8), 1 << (n - 1));
        let switched = reference.model().is_ok_and(|m| m.task.switch > 0);
        self.add_if(there && number > 0 && switched, "listed with G");
        self.add_if(there && number == start, "list at the start");
        self.add_if(there && number > start, "list further on");
        self.add_if(there && n == 1, "list of N 1");
        self.add_if(there && n == SHORT, "list of N 16");
        self.add_if(there && number == 32767, "last list of N 16");
        self.add_if(
            there && n > 2 && listing.len() == end as usize,
            "all lists fit",
        );
        self.add_if(listing.is_empty(), "no list fits");
        self.add_if(
            !there && !listing.is_empty() && start < end,
            "past the last list",
        );
        self.add_if(start == end, "start of 2^(N-1)");
        self.add_if(start >= 1 << 32, "start above 2^32");
    }

    pub fn region(&mut self, model: &Model, a: usize, b: usize) {
        let high = model.loaded(a, b)[256..].contains(&true);
        self.add_if(model.length(a, b) >= 1 << 32, "length above 2^32");
        self.add_if(high, "lines above 255 used");
        self.add_if(model.loads_for_the_last_time(a, b), "last read loaded");
        self.add_if(a > 0 && model.task.switch > 0, "region with G");
    }

    pub fn replay(&mut self, model: &Model, points: &[usize]) {
        let misses = lines::replay(&model.task, points);
        let added = misses.with_points - misses.alone;
        let reads: usize = model.task.blocks.iter().map(|b| b.numbers.len()).sum();
        let all = model.n > 2 && points.len() == model.n - 1;
        self.add_if(points.is_empty(), "replay of 0 points");
        self.add_if(all, "replay of all N-1");
        self.add_if(model.first_above(points).is_some(), "replay above Q");
        self.add_if(added > 0, "points add misses");
        self.add_if(!points.is_empty() && added == 0, "points add no miss");
        self.add_if(misses.alone < reads as u64, "a read hits alone");
        let switched = !points.is_empty() && model.task.switch > 0;
        self.add_if(switched, "replay with G");
    }

    /// A header that is refused and wouldn't be with the same bytes and no range.
    pub fn too_far_a_range(&mut self, file: &[u8]) {
        let is_3 = |file: &[u8]| file_refusal(file).is_some_and(|r| r.number == 3);
        if is_3(file) {
            let mut without = file.to_vec();
            without[20..28].fill(0);
            seal(&mut without[..BLOCK]);
            self.add_if(!is_3(&without), "3 by the range alone");
        }
    }

    pub fn scratch(&mut self, model: &Model) {
        let task = &model.task;
        let scratch = task.scratch;
        let numbers = |blocks: &[Reads]| -> Vec<u32> {
            blocks.iter().flat_map(|b| b.numbers.clone()).collect()
        };
        let (read, struck) = (numbers(&task.blocks), numbers(&task.interrupters));
        let (some, end) = (scratch.count > 0, scratch.end());
        let last = read.iter().any(|&m| m as u64 + 1 == end);
        let all = !read.is_empty() && read.iter().all(|&m| scratch.has(m));
        let strikes = struck.iter().any(|&m| scratch.has(m));
        self.add_if(some, "range of numbers");
        self.add_if(scratch.count == 1, "range of one number");
        self.add_if(!some && scratch.first > 0, "empty, first above 0");
        self.add_if(some && end == 1 << 32, "range up to 2^32");
        self.add_if(some && read.contains(&scratch.first), "first of the range");
        self.add_if(some && last, "last of the range");
        self.add_if(all, "all reads in a range");
        self.add_if(strikes, "strikes in a range");
        self.add_if(model.strikes_fewer(), "fewer lines struck");
    }

    pub fn arming(&mut self, model: &Model) {
        let task = &model.task;
        let count = task.blocks.iter().filter(|block| block.armed).count();
        let (some, q, q2) = (count > 0, task.limit, task.second);
        self.add(match count {
            0 => "no block armed",
            1 => "one block armed",
            _ if count < model.n => "some blocks armed",
            _ => "all blocks armed",
        });
        self.add_if(some && q2 < q, "armed, Q2 below Q");
        self.add_if(some && q2 == q, "armed, Q2 at Q");
        self.add_if(some && q2 > q, "armed, Q2 above Q");
    }

    pub fn switch(&mut self, model: &Model) {
        let task = &model.task;
        let times: u64 = task.blocks.iter().map(|block| block.word as u64).sum();
        self.add_if(task.switch == 0, "G 0");
        self.add_if((1..=20).contains(&task.switch), "small G");
        self.add_if(task.switch as u64 > times, "G above all times");
    }

    /// A refused plan: a list may fit Q, or fit with G 0.
    pub fn no_plan(&mut self, model: &Model) {
        let fits_q = tightest(model) <= model.task.limit as u64;
        let without = model.without_switch().least_by_recursion();
        self.add_if(fits_q, "6 by Q2 alone");
        self.add_if(without.is_some(), "6 by G alone");
    }

    /// A list that is refused at a stretch, which may be within Q, or fit with G 0.
    pub fn above(&mut self, model: &Model, block: &[u8], place: usize) {
        let (a, b) = model.stretches(&points_of(block))[place];
        let within_q = model.length(a, b) <= model.task.limit as u64;
        let without = model.without_switch().within(a, b);
        self.add_if(within_q, "8 by Q2 alone");
        self.add_if(without, "8 by G alone");
    }

    pub fn search(&mut self, task: &Task, line: usize, k: usize) {
        let lines::Found { number, looked } = lines::next_read(task, line, k);
        let near = task.blocks.get(k).map_or(0, |block| block.numbers.len());
        let (some, none) = (number.is_some(), number.is_none());
        let mut ahead = task.blocks[k..].iter().flat_map(|block| &block.numbers);
        let past = ahead.by_ref().take(looked).any(|&m| task.scratch.has(m));
        self.add_if(some && looked == 1, "next read at once");
        self.add_if(some && looked > 1, "next read further on");
        self.add_if(some && looked > near, "next in later block");
        self.add_if(number == Some(0), "next is number 0");
        self.add_if(none && line < task.lines && looked > 0, "no next read");
        self.add_if(looked == 0, "no read after block k");
        self.add_if(past, "search past a range");
        self.add_if(line >= task.lines && line < 512, "line of S or more");
        self.add_if(line >= 512, "line of 512 or more");
    }

    pub fn join(&mut self, pair: &Pair, len: usize, answer: &Answer) {
        let Err(Refusal { number, place }) = *answer else {
            let [first, second] = [pair.first, pair.second].map(|file| field(file, 8, 4));
            let [n, m] = pair.totals();
            self.add("join: 0");
            self.add_if(first < second, "Q of the first");
            self.add_if(second < first, "Q of the second");
            let [first, second] = [pair.first, pair.second].map(|file| field(file, 28, 4));
            self.add_if(first < second, "Q2 of the first");
            self.add_if(second < first, "Q2 of the second");
            let blocks = [pair.first, pair.second].map(|file| Task::read(file).blocks);
            let armed = blocks.iter().flatten().any(|block| block.armed);
            self.add_if(armed, "armed file joined");
            self.add_if(field(pair.first, 32, 4) > 0, "joined with G");
            self.add_if(n == 64, "joined N 64");
            self.add_if(m == 32, "joined M 32");
            self.add_if(n == 64 && m == 32, "97 blocks joined");
            return;
        };
        let (in_second, other_len) = (place >= 97, len != pair.length());
        let suffix = if in_second { "+97" } else { "" };
        self.add(&format!("join: {number}{suffix}"));
        if number <= 5 {
            let both = !in_second && file_refusal(pair.second).is_some();
            self.add_if(both, "both refused");
            self.add_if(other_len, "1 to 5 before 9");
            return;
        }
        let [n, m] = pair.totals();
        if let [name] = pair.differences()[..] {
            let no_range = field(pair.first, 24, 4) == 0;
            self.add(&format!("11 by {name}"));
            self.add_if(name == "range's first" && no_range, "11 by empty ranges");
        }
        self.add_if(number == 11 && (n > 64 || m > 32), "11 before 12");
        self.add_if(number == 11 && other_len, "11 before 9");
        self.add_if(number == 12 && m <= 32, "12 by N");
        self.add_if(number == 12 && n <= 64, "12 by M");
        self.add_if(number == 12 && other_len, "12 before 9");
    }
}
