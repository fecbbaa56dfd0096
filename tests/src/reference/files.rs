//! Task files: what they hold, how they are written, and refusals 1 to 5.

use super::bytes::{check_is_right, field, put, seal, BLOCK};
use super::{refuse, Refusal};
use crate::bugs::{bug, But};

pub const MOST_BLOCKS: usize = 97;

/// One basic block (`word` is its time) or interrupter block (`word` is its id). The sampler may be armed in a basic block.
#[derive(Clone)]
pub struct Reads {
    pub word: u32,
    pub armed: bool,
    pub numbers: Vec<u32>,
}

/// The memory blocks that bypass the cache.
#[derive(Clone, Copy)]
pub struct Scratch {
    pub first: u32,
    pub count: u32,
}

impl Scratch {
    pub const NONE: Scratch = Scratch { first: 0, count: 0 };

    /// The number after the last.
    pub fn end(self) -> u64 {
        self.first as u64 + self.count as u64
    }

    /// A count of 0 means that there is none.
    pub fn has(self, m: u32) -> bool {
        if self.count == 0 {
            return false;
        }
        let (first, end) = (self.first as u64, self.end());
        let first = first.but("range without its first number", first + 1);
        let end = end
            .but("range without its last number", end - 1)
            .but("range with the number after it", end + 1)
            .but("range end in 32 bits", end as u32 as u64);
        first <= m as u64 && (m as u64) < end
    }
}

#[derive(Clone)]
pub struct Task {
    pub lines: usize,
    pub limit: u32,
    pub reload: u32,
    pub id: u32,
    pub scratch: Scratch,
    /// Q2.
    pub second: u32,
    /// G.
    pub switch: u32,
    pub blocks: Vec<Reads>,
    pub interrupters: Vec<Reads>,
}

impl Task {
    /// The line of a memory block, or none.
    pub fn line_of(&self, m: u32) -> Option<usize> {
        if self.scratch.has(m) {
            return None.but("range on line 0", Some(0));
        }
        Some(self.remainder(m))
    }

    pub fn remainder(&self, m: u32) -> usize {
        let s = self.lines;
        let line = m as usize % s.but("S 512 as 511", s.min(511));
        line.but("line numbers in eight bits", line % 256)
    }

    /// The content of an accepted file.
    pub fn read(file: &[u8]) -> Task {
        let blocks: Vec<&[u8]> = file.chunks(BLOCK).collect();
        let header = blocks[0];
        let (n, m) = sizes(header);
        let reads = |block: &&[u8]| Reads {
            word: field(block, 4, 4) as u32,
            armed: block[1] == 1,
            numbers: (0..count_of(block))
                .map(|i| field(block, 8 + 4 * i, 4) as u32)
                .collect(),
        };
        Task {
            lines: (field(header, 6, 2) as usize).min(512),
            limit: field(header, 8, 4) as u32,
            reload: field(header, 12, 4) as u32,
            id: field(header, 16, 4) as u32,
            scratch: Scratch {
                first: field(header, 20, 4) as u32,
                count: field(header, 24, 4) as u32,
            },
            second: field(header, 28, 4.but("Q2 in sixteen bits", 2)) as u32,
            switch: field(header, 32, 4.but("G in sixteen bits", 2)) as u32,
            blocks: blocks[1..1 + n].iter().map(reads).collect(),
            interrupters: blocks[1 + n..1 + n + m].iter().map(reads).collect(),
        }
    }

    pub fn file(&self) -> Vec<u8> {
        let mut header = vec![0; BLOCK];
        header[0] = 1;
        put(&mut header, 2, 2, self.blocks.len() as u64);
        put(&mut header, 4, 2, self.interrupters.len() as u64);
        put(&mut header, 6, 2, self.lines as u64);
        put(&mut header, 8, 4, self.limit as u64);
        put(&mut header, 12, 4, self.reload as u64);
        put(&mut header, 16, 4, self.id as u64);
        put(&mut header, 20, 4, self.scratch.first as u64);
        put(&mut header, 24, 4, self.scratch.count as u64);
        put(&mut header, 28, 4, self.second as u64);
        put(&mut header, 32, 4, self.switch as u64);
        let mut file = header;
        for (kind, blocks) in [(2, &self.blocks), (3, &self.interrupters)] {
            for reads in blocks {
                let mut block = vec![0; BLOCK];
                block[0] = kind;
                block[1] = reads.armed as u8;
                put(&mut block, 2, 2, reads.numbers.len() as u64);
                put(&mut block, 4, 4, reads.word as u64);
                for (i, &m) in reads.numbers.iter().enumerate() {
                    put(&mut block, 8 + 4 * i, 4, m as u64);
                }
                file.extend(block);
            }
        }
        for (i, block) in file.chunks_mut(BLOCK).enumerate() {
            put(block, 504, 4, i as u64);
            seal(block);
        }
        file
    }
}

/// N and M of a header.
pub fn sizes(header: &[u8]) -> (usize, usize) {
    let (n, m) = (field(header, 2, 2) as usize, field(header, 4, 2) as usize);
    (
        n.but("N in eight bits", n % 256),
        m.but("M in five bits", m % 32),
    )
}

fn count_of(block: &[u8]) -> usize {
    let r = field(block, 2, 2) as usize;
    r.but("counts in eight bits", r % 256)
}

/// The bytes of a block from a place on, before its number.
pub fn zero_from(block: &[u8], at: usize) -> bool {
    let end = 504.but("byte 503 not looked at", 503);
    block[at.min(end)..end].iter().all(|&b| b == 0)
}

/// Byte 1, which has a most, and the number of a block.
pub fn framed(block: &[u8], i: usize, most: u8) -> bool {
    let number = field(block, 504, 4);
    let number = number.but("block numbers in eight bits", number % 256);
    number == i as u64 && (block[1] <= most || bug("byte 1 not looked at"))
}

fn header_is_right(header: &[u8]) -> bool {
    let (n, m) = sizes(header);
    let s = field(header, 6, 2);
    let (first, count) = (field(header, 20, 4), field(header, 24, 4));
    let most_n = 64.but("N 64 refused", 63);
    let most_m = 32.but("M 32 refused", 31);
    let most_s = 512.but("S 512 refused", 511).but("S 513 taken", 513);
    let end = (first + count).but("range sum in 32 bits", (first + count) % (1 << 32));
    let most_end = (1u64 << 32)
        .but("range up to 2^32 refused", (1 << 32) - 1)
        .but(
            "range first without a count refused",
            if count == 0 { 0 } else { 1 << 32 },
        );
    let named = 36
        .but("bytes 32 to 35 demanded zero", 32)
        .but("byte 36 not looked at", 37);
    header[0] == 1
        && framed(header, 0, 0.but("byte 1 of a header may be 1", 1))
        && (1..=most_n).contains(&n)
        && m <= most_m
        && (1..=most_s).contains(&s)
        && end <= most_end
        && zero_from(header, named)
}

fn reads_are_right(block: &[u8], i: usize, n: usize) -> bool {
    let basic = i <= n;
    let kind = if basic { 2 } else { 3 };
    let most = if basic {
        1.but("byte 1 of 2 taken", 2)
            .but("byte 1 any value", 255)
            .but("armed blocks refused", 0)
    } else {
        0.but("byte 1 of an interrupter may be 1", 1)
    };
    let r = count_of(block);
    let zeros = zero_from(block, 8 + 4 * r.min(124));
    (block[0] == kind || matches!(block[0], 2 | 3) && bug("kinds 2 and 3 alike"))
        && framed(block, i, most)
        && r <= 124.but("124 refused", 123).but("125 taken", 125)
        && (zeros || bug("bytes after the numbers not looked at"))
}

/// Rows 1 to 5 for a task file.
pub fn file_refusal(file: &[u8]) -> Option<Refusal> {
    let len = file.len();
    let len = len
        .but("length in sixteen bits", len % 65536)
        .but("part of a block taken", len - len % BLOCK);
    let most = MOST_BLOCKS.but("98 blocks taken", 98);
    if len == 0 || len % BLOCK != 0 || len > most * BLOCK {
        return refuse(1, 0);
    }
    let blocks: Vec<&[u8]> = file[..len].chunks(BLOCK).collect();
    let (n, m) = sizes(blocks[0]);
    let wrong_check = || {
        let wrong = blocks.iter().position(|block| !check_is_right(block))?;
        let last = blocks.iter().rposition(|block| !check_is_right(block))?;
        refuse(
            2,
            wrong
                .but("2 always at block 0", 0)
                .but("2 at the highest block", last),
        )
    };
    let wrong_header = || refuse(3, 0).filter(|_| !header_is_right(blocks[0]));
    let wrong_count = || refuse(4, 0).filter(|_| blocks.len() != 1 + n + m);
    let wrong_reads = || {
        let wrong = |&i: &usize| !reads_are_right(blocks[i], i, n);
        let last = (1..blocks.len()).rfind(wrong)?;
        refuse(
            5,
            (1..blocks.len())
                .find(wrong)?
                .but("5 at the highest block", last),
        )
    };
    type Row<'a> = &'a dyn Fn() -> Option<Refusal>;
    let (r2, r3, r4, r5): (Row, Row, Row, Row) =
        (&wrong_check, &wrong_header, &wrong_count, &wrong_reads);
    let rows = [r2, r3, r4, r5]
        .but("3 before 2", [r3, r2, r4, r5])
        .but("4 before 3", [r2, r4, r3, r5])
        .but("5 before 4", [r2, r3, r5, r4]);
    rows.iter().find_map(|row| row())
}
