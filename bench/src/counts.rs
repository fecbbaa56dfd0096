//! The planner's method: one walk over the reads, and counts. A read in block b of the number that its line holds since an earlier block s
//! is loaded, if a preempter evicts that line, by the regions (a, b') with s ≤ a < b ≤ b', and by no others. So it makes one
//! count at (s, b). No step branches on a number or on a line.

use crate::fast::{numbers, Method, Task, MOST_BASIC, NO_LINE};

/// A line that was not read yet is held since here; no region begins so late.
const NEVER: u8 = MOST_BASIC as u8;

struct Cache {
    /// 1 for the lines of H.
    evicted: [u8; NO_LINE + 1],
    held: [u32; NO_LINE + 1],
    /// The block that read the line last.
    since: [u8; NO_LINE + 1],
}

impl Cache {
    fn empty(task: &Task) -> Cache {
        let mut evicted = [0; NO_LINE + 1];
        for block in task.preempters() {
            for m in numbers(block) {
                evicted[task.lines.or_none(m)] = 1;
            }
        }
        evicted[NO_LINE] = 0;
        Cache {
            evicted,
            held: [0; NO_LINE + 1],
            since: [NEVER; NO_LINE + 1],
        }
    }

    /// Block k reads m on line c: since when the line holds what it holds, and 1 if that is m and the line is of H.
    fn read(&mut self, c: usize, m: u32, k: u8) -> (u8, u8) {
        let since = std::mem::replace(&mut self.since[c], k);
        let held = std::mem::replace(&mut self.held[c], m);
        (since, self.evicted[c] & (held == m) as u8)
    }
}

pub struct Counts {
    /// [a][b - 1]: lines in loaded(a, b) that aren't in loaded(a, b - 1).
    joining: [[u8; MOST_BASIC]; MOST_BASIC + 1],
}

impl Method for Counts {
    fn all_regions(task: &Task) -> Counts {
        let mut cache = Cache::empty(task);
        let mut joining = [[0; MOST_BASIC]; MOST_BASIC + 1];
        for (k, block) in task.blocks().enumerate() {
            for m in numbers(block) {
                let (since, again) = cache.read(task.lines.or_none(m), m, k as u8 + 1);
                joining[since as usize][k] += again;
            }
        }
        // Sums over s; of a row only blocks after its edge are looked at.
        let mut row = joining[0];
        for next in &mut joining[1..MOST_BASIC] {
            for (here, before) in next.iter_mut().zip(row) {
                *here += before;
            }
            row = *next;
        }
        Counts { joining }
    }

    fn grow(&self, a: usize, n: usize, mut each: impl FnMut(usize, u64) -> bool) {
        let mut lines = 0;
        for (b, &more) in (a + 1..=n).zip(&self.joining[a][a..]) {
            lines += more as u64;
            if !each(b, lines) {
                break;
            }
        }
    }

    /// The same walk: in the region from a those reads count whose lines hold their numbers since a block up to a.
    fn regions(task: &Task, ends: &[u16]) -> [u64; MOST_BASIC] {
        let mut cache = Cache::empty(task);
        let mut sizes = [0; MOST_BASIC];
        let mut blocks = (1..).zip(task.blocks());
        let mut a = 0;
        for (size, &b) in sizes.iter_mut().zip(ends) {
            let mut counts = [0u16; MOST_BASIC + 1];
            for (k, block) in blocks.by_ref().take((b - a) as usize) {
                for m in numbers(block) {
                    let (since, again) = cache.read(task.lines.or_none(m), m, k);
                    counts[since as usize] += again as u16;
                }
            }
            *size = counts[..=a as usize].iter().map(|&c| c as u64).sum();
            a = b;
        }
        sizes
    }
}
