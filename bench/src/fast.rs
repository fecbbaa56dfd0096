//! Planning and pricing written for speed in plain Rust. How the lines of a region are counted
//! is left to a method: `counts` or `by_line`.

use crate::checks::{check_of, lowest_wrong};
use calls::{Refusal, Returned};
use std::hint::select_unpredictable;

pub const BLOCK: usize = 512;
pub const MOST_BASIC: usize = 64;
const MOST_BLOCKS: usize = 97;

fn get16(b: &[u8], at: usize) -> usize {
    u16::from_le_bytes([b[at], b[at + 1]]) as usize
}

fn get32(b: &[u8], at: usize) -> u32 {
    u32::from_le_bytes([b[at], b[at + 1], b[at + 2], b[at + 3]])
}

fn all_zero(bytes: &[u8]) -> bool {
    bytes.iter().fold(0, |all, b| all | b) == 0
}

pub fn refusal(number: u32, place: usize) -> Refusal {
    Refusal { number, place }
}

/// m mod S by one reciprocal; no line in the range, which one comparison tells.
#[derive(Clone, Copy)]
pub struct Lines {
    s: u64,
    reciprocal: u64,
    first: u32,
    count: u32,
}

impl Lines {
    fn new(s: usize, (first, count): (u32, u32)) -> Lines {
        let s = s as u64;
        Lines {
            s,
            reciprocal: (u64::MAX / s).wrapping_add(1),
            first,
            count,
        }
    }

    fn bypasses(self, m: u32) -> bool {
        m.wrapping_sub(self.first) < self.count
    }

    fn remainder(self, m: u32) -> usize {
        let part = self.reciprocal.wrapping_mul(m as u64);
        ((part as u128 * self.s as u128) >> 64) as usize & 511
    }

    pub fn of(self, m: u32) -> Option<usize> {
        (!self.bypasses(m)).then(|| self.remainder(m))
    }

    /// The line of m, or `NO_LINE`, without a branch.
    pub fn or_none(self, m: u32) -> usize {
        select_unpredictable(self.bypasses(m), NO_LINE, self.remainder(m))
    }
}

/// Stands behind the lines for the numbers that lie on none.
pub const NO_LINE: usize = 512;

pub struct Task<'a> {
    pub n: usize,
    pub lines: Lines,
    limit: u64,
    second: u64,
    reload: u64,
    switch: u64,
    id: u32,
    blocks: &'a [u8],
    preempters: &'a [u8],
}

impl Task<'_> {
    pub fn blocks(&self) -> impl Iterator<Item = &[u8]> {
        self.blocks.chunks_exact(BLOCK)
    }

    pub fn preempters(&self) -> impl DoubleEndedIterator<Item = &[u8]> + ExactSizeIterator {
        self.preempters.chunks_exact(BLOCK)
    }

    fn time(&self, k: usize) -> u64 {
        get32(self.blocks, (k - 1) * BLOCK + 4) as u64
    }

    /// The limit that counts for block k: the smaller one where the sampler is armed.
    fn limit_in(&self, k: usize) -> u64 {
        match self.blocks[(k - 1) * BLOCK + 1] {
            0 => self.limit,
            _ => self.limit.min(self.second),
        }
    }

    /// The switch of a region from edge a: none if no point is there.
    fn switch_at(&self, a: usize) -> u64 {
        match a {
            0 => 0,
            _ => self.switch,
        }
    }

    /// The length of a region that reloads so many lines.
    pub fn length(&self, a: usize, b: usize, lines: u64) -> u64 {
        let times: u64 = (a + 1..=b).map(|k| self.time(k)).sum();
        times + self.reload * lines + self.switch_at(a)
    }

    /// The cost of a list of so many points that reloads so many lines.
    pub fn cost(&self, lines: u64, points: usize) -> u64 {
        self.reload * lines + self.switch * points as u64
    }
}

pub fn numbers(block: &[u8]) -> impl Iterator<Item = u32> + '_ {
    let r = get16(block, 2);
    block[8..8 + 4 * r].chunks_exact(4).map(|m| get32(m, 0))
}

pub trait Method {
    /// What planning needs of the reads.
    fn all_regions(task: &Task) -> Self;
    /// Calls `each(b, size of loaded(a, b))` for b from a + 1 to n until it says no.
    fn grow(&self, a: usize, n: usize, each: impl FnMut(usize, u64) -> bool);
    /// The sizes of loaded of the regions that end at the given edges, which rise up to N.
    fn regions(task: &Task, ends: &[u16]) -> [u64; MOST_BASIC];
}

pub fn open(file: &[u8]) -> Result<Task<'_>, Refusal> {
    let count = file.len() / BLOCK;
    if count == 0 || file.len() % BLOCK != 0 || count > MOST_BLOCKS {
        return Err(refusal(1, 0));
    }
    if let Some(i) = lowest_wrong(file) {
        return Err(refusal(2, i));
    }
    let (header, rest) = file.split_at(BLOCK);
    let (n, m, s) = (get16(header, 2), get16(header, 4), get16(header, 6));
    let scratch = (get32(header, 20), get32(header, 24));
    if header[0] != 1
        || header[1] != 0
        || n == 0
        || n > MOST_BASIC
        || m > 32
        || s == 0
        || s > 512
        || scratch.0 as u64 + scratch.1 as u64 > 1 << 32
        || !all_zero(&header[36..508])
    {
        return Err(refusal(3, 0));
    }
    if count != 1 + n + m {
        return Err(refusal(4, 0));
    }
    for (i, block) in rest.chunks_exact(BLOCK).enumerate() {
        let r = get16(block, 2);
        let kind = if i < n { 2 } else { 3 };
        if block[0] != kind
            || block[1] > (i < n) as u8
            || r > 124
            || get32(block, 504) as usize != i + 1
            || !all_zero(&block[8 + 4 * r..504])
        {
            return Err(refusal(5, i + 1));
        }
    }
    let (blocks, preempters) = rest.split_at(n * BLOCK);
    Ok(Task {
        n,
        lines: Lines::new(s, scratch),
        limit: get32(header, 8) as u64,
        second: get32(header, 28) as u64,
        reload: get32(header, 12) as u64,
        switch: get32(header, 32) as u64,
        id: get32(header, 16),
        blocks,
        preempters,
    })
}

/// The points of a list and then N: the ends of its regions.
struct Ends {
    count: usize,
    list: [u16; MOST_BASIC],
}

impl Ends {
    fn new() -> Ends {
        Ends {
            count: 0,
            list: [0; MOST_BASIC],
        }
    }

    fn push(&mut self, end: usize) {
        self.list[self.count] = end as u16;
        self.count += 1;
    }

    fn all(&self) -> &[u16] {
        &self.list[..self.count]
    }

    fn points(&self) -> &[u16] {
        &self.list[..self.count - 1]
    }
}

/// The cheapest way from an edge to the end.
#[derive(Clone, Copy)]
struct Rest {
    cost: u64,
    lines: u64,
    next: usize,
}

/// From the end: the cheapest rest at each edge. A region only grows longer with its end, so the first one above Q ends
/// the search from its start. Of several ends that cost the same N comes first, and then the lowest.
fn choose<M: Method>(task: &Task, method: &M) -> Option<(Ends, u64)> {
    /// Above each cost, and no sum with it overflows.
    const NONE: u64 = 1 << 62;
    let n = task.n;
    let mut times = [0; MOST_BASIC + 1];
    let mut limits = [0; MOST_BASIC + 1];
    for k in 1..=n {
        times[k] = task.time(k);
        limits[k] = task.limit_in(k);
    }
    let mut rests = [Rest {
        cost: 0,
        lines: 0,
        next: n,
    }; MOST_BASIC + 1];
    for a in (0..n).rev() {
        let switch = task.switch_at(a);
        let mut sum = switch;
        let mut limit = task.limit;
        let mut best = Rest {
            cost: NONE,
            lines: 0,
            next: 0,
        };
        method.grow(a, n, |b, lines| {
            let reloads = task.reload * lines;
            sum += times[b];
            limit = limit.min(limits[b]);
            if sum + reloads > limit {
                return false;
            }
            let rest = &rests[b];
            let cost = reloads + rest.cost;
            let better = cost < best.cost + (b == n) as u64;
            best.cost = select_unpredictable(better, cost, best.cost);
            best.lines = select_unpredictable(better, lines + rest.lines, best.lines);
            best.next = select_unpredictable(better, b, best.next);
            true
        });
        // All regions from here have the same switch.
        best.cost += switch;
        rests[a] = best;
    }
    if rests[0].cost >= NONE {
        return None;
    }
    let mut ends = Ends::new();
    let mut a = 0;
    while a < n {
        a = rests[a].next;
        ends.push(a);
    }
    Some((ends, rests[0].lines))
}

/// The lines of a list whose regions end at these edges and have so many lines.
pub fn weigh(task: &Task, ends: &[u16], sizes: [u64; MOST_BASIC]) -> Result<u64, Refusal> {
    let mut whole = 0;
    let mut a = 0;
    for (i, (&b, lines)) in ends.iter().zip(sizes).enumerate() {
        let b = b as usize;
        let limit = (a + 1..=b).map(|k| task.limit_in(k)).min();
        if Some(task.length(a, b, lines)) > limit {
            return Err(refusal(8, i));
        }
        whole += lines;
        a = b;
    }
    Ok(whole)
}

fn store(task: &Task, points: &[u16], lines: u64, block: &mut [u8]) {
    block.fill(0);
    block[0] = 4;
    block[2..4].copy_from_slice(&(task.n as u16).to_le_bytes());
    block[4..6].copy_from_slice(&(points.len() as u16).to_le_bytes());
    block[6..8].copy_from_slice(&(lines as u16).to_le_bytes());
    block[8..16].copy_from_slice(&task.cost(lines, points.len()).to_le_bytes());
    block[16..20].copy_from_slice(&task.id.to_le_bytes());
    for (place, p) in block[20..].chunks_exact_mut(2).zip(points) {
        place.copy_from_slice(&p.to_le_bytes());
    }
    let check = check_of(block);
    block[508..].copy_from_slice(&check.to_le_bytes());
}

/// The points of a plan block, which may be another task's.
fn read_points(block: &[u8]) -> Result<Ends, Refusal> {
    if block.len() != BLOCK {
        return Err(refusal(1, 97));
    }
    if check_of(block) != get32(block, 508) {
        return Err(refusal(2, 97));
    }
    let (n, count) = (get16(block, 2), get16(block, 4));
    if block[0] != 4
        || block[1] != 0
        || n == 0
        || n > MOST_BASIC
        || count >= n
        || !all_zero(&block[20 + 2 * count..508])
    {
        return Err(refusal(5, 97));
    }
    let mut points = Ends::new();
    let mut before = 0;
    for p in block[20..20 + 2 * count].chunks_exact(2) {
        let p = get16(p, 0);
        if p <= before || p >= n {
            return Err(refusal(5, 97));
        }
        points.push(p);
        before = p;
    }
    Ok(points)
}

pub fn plan<M: Method>(file: &[u8], block: &mut [u8]) -> Returned {
    if block.len() != BLOCK {
        return Err(refusal(9, 0));
    }
    let task = open(file)?;
    let (ends, lines) = choose(&task, &M::all_regions(&task)).ok_or(refusal(6, 0))?;
    store(&task, ends.points(), lines, block);
    Ok(())
}

pub fn price<M: Method>(file: &[u8], first: &[u8], block: &mut [u8]) -> Returned {
    if block.len() != BLOCK {
        return Err(refusal(9, 0));
    }
    let task = open(file)?;
    let mut ends = read_points(first)?;
    if let Some(i) = ends.all().iter().position(|&p| p as usize >= task.n) {
        return Err(refusal(7, i));
    }
    ends.push(task.n);
    let lines = weigh(&task, ends.all(), M::regions(&task, ends.all()))?;
    store(&task, ends.points(), lines, block);
    Ok(())
}
