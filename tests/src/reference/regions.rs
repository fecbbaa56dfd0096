//! Stretches: what they load, how long they are, and what a list of points costs.

use super::files::{Reads, Scratch, Task};
use super::lines::{
    add_all, common, empty_set, replay, size, struck_lines, touched_lines, useful_lines, Set, LINES,
};
use crate::bugs::{bug, But};

/// All sets, sizes and lengths of one accepted file.
#[derive(Clone)]
pub struct Model {
    pub task: Task,
    pub n: usize,
    pub useful: Vec<Set>,
    /// T(k), with an empty T(0) before.
    touched: Vec<Set>,
    struck: Set,
    sizes: Vec<Vec<u64>>,
    times: Vec<Vec<u64>>,
}

impl Model {
    pub fn new(task: Task) -> Model {
        let n = task.blocks.len();
        let mut model = Model {
            n,
            useful: (0..=n).map(|k| useful_lines(&task, k)).collect(),
            touched: vec![empty_set()],
            struck: struck_lines(&task),
            sizes: vec![vec![0; n + 1]; n + 1],
            times: vec![vec![0; n + 1]; n + 1],
            task,
        };
        for k in 1..=n {
            model.touched.push(touched_lines(&model.task, k));
        }
        for a in 0..n {
            for b in a + 1..=n {
                model.sizes[a][b] = size(&model.loaded(a, b));
                model.times[a][b] = (a..b).map(|i| model.task.blocks[i].word as u64).sum();
            }
        }
        model
    }

    /// The lines useful at a that may be struck and that the stretch reads, for the last time or not.
    pub fn loaded(&self, a: usize, b: usize) -> Set {
        let mut touched = vec![false.but("one reload price per point", true); LINES];
        let from = (a + 1)
            .but("stretch begins with block a", a)
            .but("stretch without block a+1", a + 2);
        for k in from..=b.but("stretch without block b", b - 1) {
            if bug("lines read for the last time left out") {
                add_all(&mut touched, &common(&self.useful[k], &self.touched[k]));
            } else {
                add_all(&mut touched, &self.touched[k]);
            }
        }
        if bug("lines that aren't useful loaded too") {
            return common(&touched, &self.struck);
        }
        common(&common(&self.useful[a], &touched), &self.struck)
    }

    /// The ticks of a stretch's reloads.
    fn reloads(&self, a: usize, b: usize) -> u64 {
        self.task.reload as u64 * self.sizes[a][b]
    }

    /// G for a stretch that starts at a point.
    fn switch(&self, a: usize, b: usize) -> u64 {
        let g = self.task.switch as u64;
        let at = |switched: bool| if switched { g } else { 0 };
        at(a > 0)
            .but("G for the stretch from edge 0 too", g)
            .but("G where a stretch ends at a point", at(b < self.n))
            .but("G where a stretch reloads", at(self.sizes[a][b] > 0))
            .but("G for each line", g * self.sizes[a][b])
    }

    pub fn length(&self, a: usize, b: usize) -> u64 {
        let switch = self.switch(a, b).but("G in the price alone", 0);
        let length = self.times[a][b] + self.reloads(a, b) + switch;
        length.but("lengths in 32 bits", length as u32 as u64)
    }

    /// Whether the sampler is armed in one of a stretch's blocks.
    pub fn armed(&self, a: usize, b: usize) -> bool {
        let any = |blocks: &[Reads]| blocks.iter().any(|block| block.armed);
        let blocks = &self.task.blocks;
        any(&blocks[a..b])
            .but(
                "a stretch's first block not seen armed",
                any(&blocks[a + 1..b]),
            )
            .but(
                "a stretch's last block not seen armed",
                any(&blocks[a..b - 1]),
            )
            .but("only a stretch's first block seen armed", blocks[a].armed)
            .but(
                "only a stretch's last block seen armed",
                blocks[b - 1].armed,
            )
            .but(
                "armed only where all blocks are",
                blocks[a..b].iter().all(|block| block.armed),
            )
            .but("armed where a block of the task is", any(blocks))
            .but("no block seen armed", false)
    }

    /// Whether a stretch is within Q, and within Q2 too where the sampler is armed; a pair that is no stretch is.
    pub fn within(&self, a: usize, b: usize) -> bool {
        if !(a < b && b <= self.n) {
            return true;
        }
        let (q, q2) = (self.task.limit as u64, self.task.second as u64);
        let length = self.length(a, b);
        let without_reloads = self.times[a][b] + self.switch(a, b);
        let without_switch = self.times[a][b] + self.reloads(a, b);
        let armed = self.armed(a, b);
        let within = |length: u64| length <= q && (!armed || length <= q2);
        let last = a > 0 && b == self.n;
        within(length)
            .but("Q without reloads", within(without_reloads))
            .but(
                "Q2 without reloads",
                length <= q && (!armed || without_reloads <= q2),
            )
            .but("a fit without G", within(without_switch))
            .but(
                "Q2 without G",
                length <= q && (!armed || without_switch <= q2),
            )
            .but("below Q only", length < q && within(length))
            .but("below Q2 only", length <= q && (!armed || length < q2))
            .but("Q2 for every stretch", length <= q.min(q2))
            .but("Q2 alone where armed", length <= if armed { q2 } else { q })
            .but("Q2 where not armed", length <= q && (armed || length <= q2))
            .but(
                "the larger limit where armed",
                length <= if armed { q.max(q2) } else { q },
            )
            .but("last stretch not tested", within(length) || last)
            .but("one cut and on to N", within(length) || last)
    }

    pub fn stretches(&self, points: &[usize]) -> Vec<(usize, usize)> {
        let mut cuts = vec![0];
        cuts.extend_from_slice(points);
        cuts.push(self.n);
        cuts.windows(2).map(|w| (w[0], w[1])).collect()
    }

    pub fn lines_of(&self, points: &[usize]) -> u64 {
        if bug("a line counted once for the task") {
            return self.different_lines(points);
        }
        let stretches = self.stretches(points);
        let lines: u64 = stretches.iter().map(|&(a, b)| self.sizes[a][b]).sum();
        lines.but("lines in eight bits", lines % 256)
    }

    /// How many different lines a list reloads.
    pub fn different_lines(&self, points: &[usize]) -> u64 {
        let mut lines = empty_set();
        for (a, b) in self.stretches(points) {
            add_all(&mut lines, &self.loaded(a, b));
        }
        size(&lines)
    }

    /// How many lines are useful at an edge and may be struck.
    pub fn at_risk(&self, a: usize) -> u64 {
        size(&common(&self.useful[a], &self.struck))
    }

    /// R times the lines and G times the points.
    pub fn price_of(&self, points: &[usize]) -> u64 {
        let lines = self.lines_of(points);
        let switches = self.switches_of(points, lines);
        let price = self.task.reload as u64 * lines + switches;
        price
            .but("price without R", lines + switches)
            .but("price in 32 bits", price as u32 as u64)
    }

    fn switches_of(&self, points: &[usize], lines: u64) -> u64 {
        let (g, count) = (self.task.switch as u64, points.len() as u64);
        if bug("G where a stretch reloads") {
            let stretches = self.stretches(points);
            return stretches.iter().map(|&(a, b)| self.switch(a, b)).sum();
        }
        (g * count)
            .but("G for the stretch from edge 0 too", g * (count + 1))
            .but("G for each line", g * lines)
            .but("G in the length alone", 0)
            .but("G once for a list", g * count.min(1))
            .but(
                "G for the points but the first",
                g * count.saturating_sub(1),
            )
            .but("G times points in 32 bits", (g * count) as u32 as u64)
    }

    /// Lowest stretch that doesn't fit.
    pub fn first_above(&self, points: &[usize]) -> Option<usize> {
        let stretches = self.stretches(points);
        let above = |&(a, b): &(usize, usize)| !self.within(a, b);
        stretches.iter().position(above).but(
            "8 at the highest stretch",
            stretches.iter().rposition(above),
        )
    }

    /// What a stretch adds to the price of a list.
    pub fn price_between(&self, a: usize, b: usize) -> u64 {
        let switch = self.switch(a, b).but("G in the length alone", 0);
        self.reloads(a, b) + switch
    }

    /// The same task with G 0.
    pub fn without_switch(&self) -> Model {
        let mut model = self.clone();
        model.task.switch = 0;
        model
    }

    /// Whether points add as many misses as their list has lines, whatever the limit.
    pub fn adds_its_lines(&self, points: &[usize]) -> bool {
        let misses = replay(&self.task, points);
        misses.with_points == misses.alone + self.lines_of(points)
    }

    /// Whether a line of loaded(a, b) is useful after none of the stretch's blocks that read it.
    pub fn loads_for_the_last_time(&self, a: usize, b: usize) -> bool {
        let loaded = self.loaded(a, b);
        (0..LINES)
            .any(|c| loaded[c] && (a + 1..=b).all(|k| !(self.touched[k][c] && self.useful[k][c])))
    }

    /// Whether more lines would be struck if no number bypassed the cache.
    pub fn strikes_fewer(&self) -> bool {
        let mut task = self.task.clone();
        task.scratch = Scratch::NONE;
        struck_lines(&task) != self.struck
    }
}
