//! One word per line instead, with a bit for every edge: no branch in the walk but that of the range,
//! and a line that is useful at a joins the regions from a at the first block after a that reads it.

use crate::fast::{numbers, Method, Task, MOST_BASIC};
use std::hint::select_unpredictable;

#[derive(Clone, Copy)]
struct Line {
    held: u32,
    evicted: bool,
    /// Bits below the block last read; all ones while the line is empty.
    below: u64,
    /// Bit a: useful at edge a.
    useful: u64,
    /// Bit k - 1: block k reads it.
    accessed: u64,
}

/// The words of U and T, for the lines in H that are useful somewhere.
struct Words {
    count: usize,
    list: [(u64, u64); 512],
}

pub struct ByLine {
    /// [a][b - 1]: lines in loaded(a, b) that aren't in loaded(a, b - 1).
    joining: [[u16; MOST_BASIC]; MOST_BASIC],
}

impl Words {
    fn all(&self) -> &[(u64, u64)] {
        &self.list[..self.count]
    }

    fn walk(task: &Task) -> Words {
        let empty = Line {
            held: 0,
            evicted: false,
            below: u64::MAX,
            useful: 0,
            accessed: 0,
        };
        let mut lines = [empty; 512];
        let mut below = 1u64;
        for block in task.blocks() {
            // Bits 0 to k - 1, and bit k - 1.
            let own = below ^ below >> 1;
            for m in numbers(block) {
                let Some(c) = task.lines.of(m) else { continue };
                let line = &mut lines[c];
                let since = below & !line.below;
                line.useful |= select_unpredictable(line.held == m, since, 0);
                line.accessed |= own;
                line.below = below;
                line.held = m;
            }
            below |= below << 1;
        }
        for block in task.preempters() {
            for c in numbers(block).filter_map(|m| task.lines.of(m)) {
                lines[c].evicted = true;
            }
        }
        let mut words = Words {
            count: 0,
            list: [(0, 0); 512],
        };
        for line in &lines {
            if line.evicted && line.useful != 0 {
                words.list[words.count] = (line.useful, line.accessed);
                words.count += 1;
            }
        }
        words
    }

    /// The size of loaded(a, b).
    fn lines(&self, a: usize, b: usize) -> u64 {
        let blocks = (u64::MAX >> (64 - b)) & (u64::MAX << a);
        self.all()
            .iter()
            .map(|(useful, accessed)| useful >> a & 1 & (accessed & blocks != 0) as u64)
            .sum()
    }
}

impl Method for ByLine {
    /// From a block that reads it to the next that does a line is useful at all edges or at none, and
    /// it joins the regions from those edges in that next block.
    fn all_regions(task: &Task) -> ByLine {
        let mut joining = [[0; MOST_BASIC]; MOST_BASIC];
        for &(useful, accessed) in Words::walk(task).all() {
            let mut edges = useful & accessed << 1;
            while edges != 0 {
                let a = edges.trailing_zeros() as usize;
                let b = a + (accessed >> a).trailing_zeros() as usize;
                joining[a][b] += 1;
                edges &= edges - 1;
            }
        }
        // Sums over the edges; of a row only blocks after its edge are looked at.
        let mut row = joining[0];
        for next in &mut joining[1..] {
            for (here, before) in next.iter_mut().zip(row) {
                *here += before;
            }
            row = *next;
        }
        ByLine { joining }
    }

    fn grow(&self, a: usize, n: usize, mut each: impl FnMut(usize, u64) -> bool) {
        let mut lines = 0;
        for b in a + 1..=n {
            lines += self.joining[a][b - 1] as u64;
            if !each(b, lines) {
                break;
            }
        }
    }

    fn regions(task: &Task, ends: &[u16]) -> [u64; MOST_BASIC] {
        let words = Words::walk(task);
        let mut sizes = [0; MOST_BASIC];
        let mut a = 0;
        for (size, &b) in sizes.iter_mut().zip(ends) {
            *size = words.lines(a, b as usize);
            a = b as usize;
        }
        sizes
    }
}
