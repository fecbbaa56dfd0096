//! The price of a list with each preempter's charge, in plain Rust: one walk, as the planner, with the first preempter that touches a line in
//! place of the mark of H.

use crate::fast::{numbers, open, refusal, weigh, Task, MOST_BASIC, NO_LINE};
use crate::replays::wrong_point;
use calls::Returned;

/// Behind the 32 preempters: none touches the line.
const NONE: u8 = 32;
/// A line that was not read yet was read last here; no region comes behind it.
const NEVER: u8 = u8::MAX;

/// Each preempter overwrites those behind it.
fn first_touching(task: &Task) -> [u8; NO_LINE + 1] {
    let mut first = [NONE; NO_LINE + 1];
    for (i, block) in task.preempters().enumerate().rev() {
        for m in numbers(block) {
            first[task.lines.or_none(m)] = i as u8;
        }
    }
    first[NO_LINE] = NONE;
    first
}

/// The lines of the regions that end at these edges, and the charges of the preempters, with that of none behind them; no index needs a
/// test.
fn walk(task: &Task, ends: &[u16]) -> ([u64; MOST_BASIC], [u32; 64]) {
    let first = first_touching(task);
    let mut held = [0; NO_LINE + 1];
    let mut since = [NEVER; NO_LINE + 1];
    let mut sizes = [0; MOST_BASIC];
    let mut charges = [0; 64];
    let mut blocks = task.blocks();
    let mut a = 0;
    for (region, (size, &b)) in (0..).zip(sizes.iter_mut().zip(ends)) {
        let mut count = 0;
        for block in blocks.by_ref().take((b - a) as usize) {
            for m in numbers(block) {
                let c = task.lines.or_none(m);
                let owner = first[c];
                let loaded = ((owner < NONE) & (held[c] == m) & (since[c] < region)) as u32;
                count += loaded;
                charges[(owner & 63) as usize] += loaded;
                held[c] = m;
                since[c] = region;
            }
        }
        *size = count as u64;
        a = b;
    }
    (sizes, charges)
}

pub fn price(file: &[u8], points: &[u16], out: &mut [u8]) -> Returned {
    if out.len() != 272 {
        return Err(refusal(9, 0));
    }
    let task = open(file)?;
    if let Some(i) = wrong_point(task.n, points) {
        return Err(refusal(7, i));
    }
    let mut list = [0; MOST_BASIC];
    list[..points.len()].copy_from_slice(points);
    list[points.len()] = task.n as u16;
    let ends = &list[..=points.len()];
    let (sizes, charges) = walk(&task, ends);
    let lines = weigh(&task, ends, sizes)?;
    let numbers = [lines, task.cost(lines, points.len())];
    let numbers = numbers
        .into_iter()
        .chain(charges[..32].iter().map(|&c| c as u64));
    for (place, number) in out.chunks_exact_mut(8).zip(numbers) {
        place.copy_from_slice(&number.to_le_bytes());
    }
    Ok(())
}
