//! Damaged task files.

use crate::reference::bytes::{field, put, seal, BLOCK};
use crate::reference::files::MOST_BLOCKS;
use crate::rng::Rng;

fn block_count(file: &[u8]) -> usize {
    file.len() / BLOCK
}

fn block_mut(file: &mut [u8], i: usize) -> &mut [u8] {
    &mut file[i * BLOCK..(i + 1) * BLOCK]
}

fn seal_all(file: &mut [u8]) {
    for block in file.chunks_exact_mut(BLOCK) {
        seal(block);
    }
}

pub fn other_byte(rng: &mut Rng, old: u8) -> u8 {
    old ^ rng.pick(&[1, 2, 4, 8, 16, 32, 64, 128, 3, 7, 255])
}

/// Changes one to four things; says which.
pub fn damage(rng: &mut Rng, file: &mut Vec<u8>) -> String {
    let count = rng.pick(&[1, 1, 1, 1, 2, 2, 3, 4]);
    let mut said = Vec::new();
    for _ in 0..count {
        said.push(damage_once(rng, file));
    }
    said.join(", ")
}

fn damage_once(rng: &mut Rng, file: &mut Vec<u8>) -> String {
    let blocks = block_count(file);
    let kind = if blocks == 0 { 0 } else { rng.below(16) };
    match kind {
        0 => damage_length(rng, file),
        1 => {
            let i = rng.below(file.len());
            file[i] = other_byte(rng, file[i]);
            format!("byte {i} changed")
        }
        2 => {
            let i = rng.below(blocks);
            let at = 508 + rng.below(4);
            let block = block_mut(file, i);
            block[at] = other_byte(rng, block[at]);
            format!("check of block {i} wrong")
        }
        3 => {
            let i = rng.below(blocks);
            let at = rng.below(508);
            let block = block_mut(file, i);
            block[at] = other_byte(rng, block[at]);
            seal(block);
            format!("byte {at} of block {i} changed and sealed")
        }
        4..=6 => damage_header(rng, block_mut(file, 0)),
        7..=11 => {
            let i = if blocks > 1 {
                rng.between(1, blocks - 1)
            } else {
                0
            };
            damage_reads(rng, block_mut(file, i), i)
        }
        12 => {
            let (i, j) = (rng.below(blocks), rng.below(blocks));
            let (x, y) = (block_mut(file, i).to_vec(), block_mut(file, j).to_vec());
            block_mut(file, j).copy_from_slice(&x);
            if rng.percent(50) {
                block_mut(file, i).copy_from_slice(&y);
            }
            format!("block {i} put at {j}")
        }
        13 => {
            let header = block_mut(file, 0);
            let (n, m) = (field(header, 2, 2), field(header, 4, 2));
            let (n, m) = if rng.percent(50) {
                (n + 1, m.saturating_sub(1))
            } else {
                (n.saturating_sub(1), m + 1)
            };
            put(header, 2, 2, n);
            put(header, 4, 2, m);
            seal(header);
            format!("N {n} and M {m} together")
        }
        _ => {
            let count = rng.between(1, 3);
            if rng.percent(50) {
                for _ in 0..count {
                    let mut block = vec![0; BLOCK];
                    block[0] = rng.pick(&[2, 3]);
                    put(&mut block, 504, 4, block_count(file) as u64);
                    seal(&mut block);
                    file.extend(block);
                }
                format!("{count} sealed blocks more")
            } else {
                file.truncate(blocks.saturating_sub(count).max(1) * BLOCK);
                format!("{count} blocks less")
            }
        }
    }
}

fn damage_length(rng: &mut Rng, file: &mut Vec<u8>) -> String {
    let whole = file.len();
    let most = MOST_BLOCKS * BLOCK;
    let len = match rng.below(8) {
        0 => rng.pick(&[0, 0, 1, 511, 512, 513, 1023, 1024, 1025]),
        1 => rng.pick(&[
            most - 512,
            most - 1,
            most,
            most + 1,
            most + 511,
            most + 512,
            most + 1024,
        ]),
        2 => rng.pick(&[65535, 65536, 65536 + 512, 65536 + whole.min(most), 131072]),
        3 => rng.below(most + 1025),
        4 => BLOCK * rng.between(0, MOST_BLOCKS + 2),
        5 => whole.saturating_sub(1),
        6 => whole + 1,
        _ => whole + rng.pick(&[256, 511, 512, 1024]),
    };
    file.resize(len, 0);
    if len > whole {
        match rng.below(3) {
            0 => rng.fill(&mut file[whole..]),
            1 => {
                for (i, block) in file.chunks_exact_mut(BLOCK).enumerate().skip(whole / BLOCK) {
                    block[0] = rng.pick(&[2, 3]);
                    put(block, 504, 4, i as u64);
                }
            }
            _ => {}
        }
        if rng.percent(60) {
            seal_all(&mut file[whole / BLOCK * BLOCK..]);
        }
    }
    format!("length {len}")
}

pub fn wrong_number(rng: &mut Rng, i: usize) -> u64 {
    let i = i as u64;
    match rng.below(7) {
        0 => i + 1,
        1 => i.wrapping_sub(1),
        2 => i + 256,
        3 => i + 65536,
        4 => i + (1 << 24),
        5 => rng.below(100) as u64,
        _ => u32::MAX as u64,
    }
}

fn damage_header(rng: &mut Rng, header: &mut [u8]) -> String {
    let (n, m, s) = (
        field(header, 2, 2),
        field(header, 4, 2),
        field(header, 6, 2),
    );
    let said = match rng.below(11) {
        0 => {
            header[0] = rng.pick(&[0, 2, 3, 4, 5, 129, 255]);
            format!("header kind {}", header[0])
        }
        1 => {
            header[1] = other_byte(rng, header[1]);
            format!("header byte 1 {}", header[1])
        }
        2 | 3 => {
            let n = rng.pick(&[
                0,
                65,
                66,
                128,
                255,
                256,
                256 + n,
                32768 + n,
                65535,
                n + 1,
                n.saturating_sub(1),
                64,
                1,
            ]);
            put(header, 2, 2, n);
            format!("N {n}")
        }
        4 => {
            let m = rng.pick(&[
                33,
                34,
                64,
                255,
                256,
                256 + m,
                32768 + m,
                65535,
                m + 1,
                m.saturating_sub(1),
                32,
                0,
            ]);
            put(header, 4, 2, m);
            format!("M {m}")
        }
        5 => {
            let s = rng.pick(&[0, 513, 514, 1023, 1024, 512 + s, 32768 + s, 65535, 1, 512]);
            put(header, 6, 2, s);
            format!("S {s}")
        }
        6 => {
            let at = rng.pick(&[
                20, 21, 22, 23, 24, 25, 26, 27, 28, 29, 30, 31, 32, 33, 34, 35, 36, 36, 37, 503,
                502,
            ]);
            header[at] = other_byte(rng, header[at]);
            format!("header byte {at}")
        }
        7 => {
            let at = rng.between(20, 503);
            header[at] = other_byte(rng, header[at]);
            format!("header byte {at}")
        }
        8 | 9 => {
            let most = u32::MAX as u64;
            let any = rng.word() as u64;
            let first = rng.pick(&[1, 2, 1 << 31, most - 1, most, any]);
            let past = rng.pick(&[0, 0, 1, 1, 2, 1 << 31, most]);
            let count = ((1 << 32) + past - first).min(most);
            put(header, 20, 4, first);
            put(header, 24, 4, count);
            format!("range of {count} from {first}")
        }
        _ => {
            let number = wrong_number(rng, 0);
            put(header, 504, 4, number);
            format!("header number {number}")
        }
    };
    seal(header);
    said + " sealed"
}

fn damage_reads(rng: &mut Rng, block: &mut [u8], i: usize) -> String {
    let r = field(block, 2, 2);
    let after = 8 + 4 * r.min(124) as usize;
    let said = match rng.below(8) {
        0 => {
            block[0] = rng.pick(&[0, 1, 2, 3, 4, 2 + 128, 3 + 128, 255]);
            format!("kind {} in block {i}", block[0])
        }
        1 => {
            block[1] = rng.pick(&[0, 1, 1, 2, 2, 3, 128, 129, 255]);
            format!("byte 1 {} of block {i}", block[1])
        }
        2 | 3 => {
            let r = rng.pick(&[
                125,
                126,
                127,
                128,
                255,
                256,
                257,
                32768,
                65535,
                256 + r,
                r + 1,
                r.saturating_sub(1),
            ]);
            put(block, 2, 2, r);
            format!("count {r} in block {i}")
        }
        4 if after < 504 => {
            block[after] = other_byte(rng, block[after]);
            format!("byte {after} of block {i}")
        }
        5 if after < 504 => {
            block[503] = other_byte(rng, block[503]);
            format!("byte 503 of block {i}")
        }
        6 if after < 504 => {
            let at = rng.between(after, 503);
            block[at] = other_byte(rng, block[at]);
            format!("byte {at} of block {i}")
        }
        _ => {
            let number = wrong_number(rng, i);
            put(block, 504, 4, number);
            format!("number {number} in block {i}")
        }
    };
    seal(block);
    said + " sealed"
}
