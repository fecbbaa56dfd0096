//! The files that are timed, several of each shape.

use crate::checks::check_of;

const BLOCK: usize = 512;
/// So many files of one shape are timed in rotation.
const FILES: u32 = 8;

#[derive(Clone, Copy)]
pub struct Shape {
    pub n: usize,
    pub m: usize,
    pub s: usize,
    /// The reads of each block.
    pub r: usize,
    pub limit: u32,
    pub reload: u32,
    /// The first memory block that bypasses the cache, and how many do.
    pub scratch: (u32, u32),
    /// G.
    pub switch: u32,
    /// As many numbers lie on each line. With one of them every line that is read again is useful until then.
    pub on_line: u32,
}

pub const LARGEST: Shape = Shape {
    n: 64,
    m: 32,
    s: 512,
    r: 124,
    limit: 5000,
    reload: 10,
    scratch: (0, 0),
    switch: 0,
    on_line: 2,
};

pub struct Rng(pub u64);

impl Rng {
    pub fn below(&mut self, n: u32) -> u32 {
        self.0 = self
            .0
            .wrapping_mul(6364136223846793005)
            .wrapping_add(1442695040888963407);
        (((self.0 >> 32) * n as u64) >> 32) as u32
    }
}

fn put(block: &mut [u8], at: usize, bytes: &[u8]) {
    block[at..at + bytes.len()].copy_from_slice(bytes);
}

fn seal(block: &mut [u8], number: usize) {
    put(block, 504, &(number as u32).to_le_bytes());
    let check = check_of(block);
    put(block, 508, &check.to_le_bytes());
}

fn header(shape: &Shape, id: u32) -> Vec<u8> {
    let mut block = vec![0; BLOCK];
    block[0] = 1;
    put(&mut block, 2, &(shape.n as u16).to_le_bytes());
    put(&mut block, 4, &(shape.m as u16).to_le_bytes());
    put(&mut block, 6, &(shape.s as u16).to_le_bytes());
    put(&mut block, 8, &shape.limit.to_le_bytes());
    put(&mut block, 12, &shape.reload.to_le_bytes());
    put(&mut block, 16, &id.to_le_bytes());
    put(&mut block, 20, &shape.scratch.0.to_le_bytes());
    put(&mut block, 24, &shape.scratch.1.to_le_bytes());
    put(&mut block, 32, &shape.switch.to_le_bytes());
    seal(&mut block, 0);
    block
}

fn reads(file: &mut Vec<u8>, kind: u8, word: u32, numbers: &[u32]) {
    let mut block = vec![0; BLOCK];
    block[0] = kind;
    put(&mut block, 2, &(numbers.len() as u16).to_le_bytes());
    put(&mut block, 4, &word.to_le_bytes());
    for (i, m) in numbers.iter().enumerate() {
        put(&mut block, 8 + 4 * i, &m.to_le_bytes());
    }
    seal(&mut block, file.len() / BLOCK);
    file.extend(block);
}

pub fn seven() -> Vec<u8> {
    let shape = Shape {
        n: 4,
        m: 1,
        s: 4,
        limit: 60,
        ..LARGEST
    };
    let mut file = header(&shape, 7);
    for numbers in [&[0, 1][..], &[2], &[0], &[5, 0]] {
        reads(&mut file, 2, 20, numbers);
    }
    reads(&mut file, 3, 0, &[4, 1]);
    file
}

/// Where the lines that the first blocks read are read again.
#[derive(Clone, Copy)]
pub enum Again {
    InEachBlock,
    InTheLast,
    AtTheEnds,
    Never,
}

/// The first blocks read a line once each, with one number for a line, which the seed chooses. Every later block reads them
/// again, or the last ones alone do, or each reads its share of them at its end, or none does; all other reads are of other lines.
pub fn reread(shape: &Shape, first: usize, again: Again, seed: u32) -> Vec<u8> {
    let (n, r) = (shape.n, shape.r);
    let held = first * r;
    let share = |later: usize| held * later / (n - first);
    let mut file = header(shape, 64);
    for i in 0..n + shape.m {
        let own = i % first * r..i % first * r + r;
        let again = match again {
            _ if i < first => own,
            Again::InEachBlock if i < n => own,
            Again::InTheLast if i < n && i + first >= n => own,
            Again::AtTheEnds if i < n => share(i - first)..share(i - first + 1),
            _ => 0..0,
        };
        let others = r - again.len();
        let number = |j| match j < others {
            true => held + j % (shape.s - held),
            false => again.start + j - others,
        };
        let above = seed * shape.s as u32;
        let numbers: Vec<u32> = (0..r).map(|j| above + number(j) as u32).collect();
        let kind = if i < n { 2 } else { 3 };
        reads(&mut file, kind, 100 + i as u32, &numbers);
    }
    file
}

/// Every number of every line as likely as the others.
pub fn drawn(shape: &Shape, seed: u32) -> Vec<u8> {
    let mut rng = Rng(seed as u64);
    let mut file = header(shape, 64);
    for i in 0..shape.n + shape.m {
        let numbers: Vec<u32> = (0..shape.r)
            .map(|_| rng.below(shape.s as u32) + shape.s as u32 * rng.below(shape.on_line))
            .collect();
        let kind = if i < shape.n { 2 } else { 3 };
        reads(&mut file, kind, 100 + i as u32, &numbers);
    }
    file
}

/// The files of the first seeds.
pub fn rotated(make: impl Fn(u32) -> Vec<u8>) -> Vec<Vec<u8>> {
    (1..=FILES).map(make).collect()
}

/// A name, and the files that are timed under it.
pub type Row = (String, Vec<Vec<u8>>);

fn row(name: &str, shape: Shape) -> Row {
    (name.to_string(), rotated(|seed| drawn(&shape, seed)))
}

/// The files that are planned and priced.
pub fn planned() -> Vec<Row> {
    let quarter = Shape {
        n: 16,
        m: 8,
        limit: 1250,
        ..LARGEST
    };
    let with_limit = |limit| Shape { limit, ..LARGEST };
    vec![
        row("largest file", LARGEST),
        row("largest file, Q without limit", with_limit(u32::MAX)),
        row("largest file, tight limit", with_limit(1000)),
        row(
            "largest file, every line useful",
            Shape {
                on_line: 1,
                ..LARGEST
            },
        ),
        row(
            "largest file, half of its numbers bypass the cache",
            Shape {
                scratch: (512, 512),
                ..LARGEST
            },
        ),
        row("31 reads in each block", Shape { r: 31, ..LARGEST }),
        row("N 16, M 8", quarter),
        ("File Seven".to_string(), vec![seven()]),
    ]
}

/// The same with N and the reads of a block growing, and no limit.
pub fn growing() -> Vec<Row> {
    let unlimited = Shape {
        limit: u32::MAX,
        ..LARGEST
    };
    let by_blocks =
        [8, 16, 32, 64].map(|n| row(&format!("N {n}, r 124, M 32"), Shape { n, ..unlimited }));
    let by_reads =
        [8, 31, 62, 124].map(|r| row(&format!("r {r}, N 64, M 32"), Shape { r, ..unlimited }));
    by_blocks.into_iter().chain(by_reads).collect()
}

impl Rng {
    fn one_of<T: Copy>(&mut self, list: &[T]) -> T {
        list[self.below(list.len() as u32) as usize]
    }

    fn up_to_one_of(&mut self, mosts: &[u32]) -> u32 {
        let most = self.one_of(mosts);
        self.below(most + 1)
    }
}

/// Any file within the limits: N, M, S, the reads, times, limits, reloads and switches small or large, with a scratch range or none.
pub fn any(rng: &mut Rng) -> Vec<u8> {
    let s = 1 + rng.up_to_one_of(&[3, 15, 511]);
    let numbers = s * (1 + rng.below(3));
    let base = rng.one_of(&[0, 0, u32::MAX - numbers]);
    let scratch = match rng.below(2) {
        0 => (0, 0),
        _ => (base + rng.below(numbers), rng.below(numbers)),
    };
    let reads_most = rng.one_of(&[3, 20, 124]);
    let time_most = rng.one_of(&[0, 20, 1000]);
    let shape = Shape {
        n: 1 + rng.up_to_one_of(&[3, 11, 63]) as usize,
        m: rng.up_to_one_of(&[1, 4, 32]) as usize,
        s: s as usize,
        r: 0,
        limit: rng.up_to_one_of(&[100, 2000, 20000, u32::MAX - 1]),
        reload: rng.up_to_one_of(&[0, 1, 20, u32::MAX - 1]),
        scratch,
        switch: rng.up_to_one_of(&[0, 0, 20, 20, 2000, u32::MAX - 1]),
        on_line: 0,
    };
    let mut file = header(&shape, rng.below(u32::MAX));
    for i in 0..shape.n + shape.m {
        let list: Vec<u32> = (0..rng.below(reads_most + 1))
            .map(|_| base + rng.below(numbers))
            .collect();
        let kind = if i < shape.n { 2 } else { 3 };
        reads(&mut file, kind, rng.below(time_most + 1), &list);
    }
    file
}

/// Another G in a file's header.
pub fn set_switch(file: &mut [u8], switch: u32) {
    put(file, 32, &switch.to_le_bytes());
    seal(&mut file[..BLOCK], 0);
}

/// Makes a byte another one; half of the time the checksum of its block is right afterwards.
pub fn damage(rng: &mut Rng, bytes: &mut [u8]) {
    let at = match rng.below(2) {
        0 => rng.below(bytes.len() as u32),
        _ => rng.below(BLOCK as u32),
    } as usize;
    bytes[at] ^= 1 << rng.below(8);
    if rng.below(2) == 0 {
        let first = at / BLOCK * BLOCK;
        let block = &mut bytes[first..first + BLOCK];
        let check = check_of(block);
        put(block, 508, &check.to_le_bytes());
    }
}

/// A plan block with any points below N.
pub fn any_points(rng: &mut Rng, n: usize) -> Vec<u8> {
    let one_in = 1 + rng.below(8);
    let points: Vec<usize> = (1..n).filter(|_| rng.below(one_in) == 0).collect();
    let mut block = vec![0; BLOCK];
    block[0] = 4;
    put(&mut block, 2, &(n as u16).to_le_bytes());
    put(&mut block, 4, &(points.len() as u16).to_le_bytes());
    for (i, p) in points.iter().enumerate() {
        put(&mut block, 20 + 2 * i, &(*p as u16).to_le_bytes());
    }
    seal(&mut block, 0);
    block
}
