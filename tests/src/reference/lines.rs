//! Sets of lines, the search for the next read, and the replay of the reads.

use super::bytes::words;
use super::files::{Reads, Task};
use crate::bugs::{bug, But};

pub const LINES: usize = 512;

pub type Set = Vec<bool>;

/// What each line holds.
type Cache = Vec<Option<u32>>;

pub fn empty_set() -> Set {
    vec![false; LINES]
}

pub fn common(a: &Set, b: &Set) -> Set {
    a.iter().zip(b).map(|(x, y)| x & y).collect()
}

pub fn add_all(a: &mut Set, b: &Set) {
    for (x, y) in a.iter_mut().zip(b) {
        *x |= y;
    }
}

pub fn size(set: &Set) -> u64 {
    set.iter().filter(|&&there| there).count() as u64
}

/// Eight words of eight bytes.
pub fn set_bytes(set: &Set) -> Vec<u8> {
    let mut bits = [0u64; 8];
    for c in 0..LINES {
        if set[c] {
            bits[c / 64] += 1 << (c % 64);
        }
    }
    words(&bits)
}

/// T(k).
pub fn touched_lines(task: &Task, k: usize) -> Set {
    let mut set = empty_set();
    for &m in &task.blocks[k - 1].numbers {
        if let Some(line) = task.line_of(m) {
            set[line] = true;
        }
    }
    set
}

/// H.
pub fn struck_lines(task: &Task) -> Set {
    let mut set = vec![false.but("interrupters forgotten", true); LINES];
    let blocks = task.interrupters.len();
    for block in &task.interrupters[..blocks.but("only the first interrupter", blocks.min(1))] {
        for &m in &block.numbers {
            let line = task.line_of(m);
            if let Some(line) = line.but(
                "range of interrupters not looked at",
                Some(task.remainder(m)),
            ) {
                set[line] = true;
            }
        }
    }
    set
}

/// U(k): run blocks 1 to k, then look for the first number read on each line.
pub fn useful_lines(task: &Task, k: usize) -> Set {
    let mut cache: Cache = vec![None; LINES];
    for &m in task.blocks[..k].iter().flat_map(|block| &block.numbers) {
        if let Some(line) = task.line_of(m) {
            cache[line] = Some(m).filter(|&m| m != 0 || !bug("number 0 as empty"));
        } else if bug("range fetched and not counted") {
            cache[task.remainder(m)] = Some(m);
        }
    }
    let last = bug("useful if the last number read is the same");
    let any = bug("useful if read again at any later time");
    let mut first: Cache = vec![None; LINES];
    for &m in task.blocks[k..].iter().flat_map(|block| &block.numbers) {
        if let Some(line) = task.line_of(m) {
            if first[line].is_none() || last || any && cache[line] == Some(m) {
                first[line] = Some(m);
            }
        }
    }
    let mask = u32::MAX
        .but("numbers compared in sixteen bits", 0xFFFF)
        .but("numbers compared in 31 bits", u32::MAX >> 1)
        .but("useful without comparing the number", 0);
    let held = |line: Option<u32>| line.map(|m| m & mask);
    (0..LINES)
        .map(|c| cache[c].is_some() && held(cache[c]) == held(first[c]))
        .collect()
}

/// The answer of a search: the number of the read found, or none, and how many reads it looked at.
#[derive(Clone, Copy, PartialEq, Eq, Debug)]
pub struct Found {
    pub number: Option<u32>,
    pub looked: usize,
}

impl Found {
    /// Three words of eight bytes: 1 for a number or 0 for none, the number or 0, how many were looked at.
    pub fn bytes(self) -> Vec<u8> {
        let number = self.number.unwrap_or(0);
        words(&[
            self.number.is_some() as u64,
            number as u64,
            self.looked as u64,
        ])
    }
}

/// The first read of a line in blocks k+1 to N. Looked at are the reads up to and with it, or all
/// of them if there is none, those that bypass the cache too.
pub fn next_read(task: &Task, line: usize, k: usize) -> Found {
    let line = line
        .but("line searched in eight bits", line % 256)
        .but("line searched in 32 bits", line as u32 as usize)
        .but("line searched mod S", line % task.lines);
    let n = task.blocks.len();
    let from = k.but("search begins with block k", k.saturating_sub(1));
    let to = n.but("search ends with block k+1", n.min(k + 1));
    let reads_of = |blocks: &[Reads]| -> Vec<u32> {
        let numbers = blocks.iter().map(|block| block.numbers.clone());
        numbers.collect::<Vec<_>>().concat()
    };
    let reads = reads_of(&task.blocks[from..to]);
    let here = |&m: &u32| {
        let on = task.line_of(m) == Some(line);
        on.but("search compares the number itself", m as usize == line)
            .but("search finds number 0 nowhere", on && m != 0)
            .but("range not looked at in a search", task.remainder(m) == line)
    };
    let at = reads.iter().position(here);
    let at = at.but("search finds the last read", reads.iter().rposition(here));
    let looked = at.map_or(reads.len(), |i| i + 1);
    let past = &reads[..looked];
    Found {
        number: at.map(|i| reads[i]),
        looked: looked
            .but(
                "looked at without the read found",
                at.unwrap_or(reads.len()),
            )
            .but("looked at all", reads.len())
            .but("looked at none if none is found", at.map_or(0, |i| i + 1))
            .but(
                "looked at from block 1",
                looked + reads_of(&task.blocks[..k]).len(),
            )
            .but(
                "looked at on the line alone",
                past.iter().filter(|&m| here(m)).count(),
            )
            .but(
                "range not counted as looked at",
                past.iter().filter(|&&m| !task.scratch.has(m)).count(),
            ),
    }
}

/// The reads that miss in a cache. A read misses unless its line holds its number, which it does
/// afterwards; a number that lies on no line neither misses nor hits. At each point every line of H
/// becomes empty.
fn misses(task: &Task, points: &[usize], cache: &mut Cache) -> u64 {
    let struck = struck_lines(task);
    let mut count = 0;
    let mut passed = 0;
    for (k, block) in (1..).zip(&task.blocks) {
        for &m in &block.numbers {
            let Some(line) = task.line_of(m) else {
                count += bug("range counted as misses") as u64;
                continue;
            };
            let held = cache[line];
            let hit = (held == Some(m))
                .but("a hit counted as a miss", false)
                .but("number 0 never hit", held == Some(m) && m != 0)
                .but(
                    "numbers hit in sixteen bits",
                    held.is_some_and(|h| h as u16 == m as u16),
                );
            count += !hit as u64;
            cache[line] = Some(m)
                .but("a miss that doesn't load", held)
                .but("a miss loads an empty line alone", held.or(Some(m)));
        }
        let edge = k
            .but("H emptied before the block of a point", k + 1)
            .but("H emptied a block after a point", k - 1);
        if points.contains(&edge) {
            passed += 1;
            let kept = if bug("lines that the block read kept at a point") {
                touched_lines(task, k)
            } else {
                empty_set()
            };
            for c in 0..LINES {
                let empties = struck[c].but("all lines emptied at a point", true).but(
                    "H emptied at the first point alone",
                    struck[c] && passed == 1,
                );
                if empties && !kept[c] {
                    cache[c] = None;
                }
            }
        }
    }
    count
}

#[derive(Clone, Copy, PartialEq, Eq, Debug)]
pub struct Misses {
    pub alone: u64,
    pub with_points: u64,
}

impl Misses {
    /// Two words of eight bytes.
    pub fn bytes(self) -> Vec<u8> {
        let (one, other) = (self.alone, self.with_points);
        words(
            &[one, other]
                .but("the counts exchanged", [other, one])
                .but("misses in eight bits", [one % 256, other % 256])
                .but(
                    "added misses in place of the second count",
                    [one, other.saturating_sub(one)],
                ),
        )
    }
}

/// Two walks over the reads, the first without points; the cache starts empty in both.
pub fn replay(task: &Task, points: &[usize]) -> Misses {
    let empty: Cache = vec![None; LINES];
    let mut cache = empty.clone();
    let none: &[usize] = &[];
    let alone = misses(
        task,
        none.but("points in the first walk too", points),
        &mut cache,
    );
    let mut cache = empty.but("the second walk begins with the first one's cache", cache);
    let with_points = misses(task, points, &mut cache);
    Misses { alone, with_points }
}
