//! Files from a seed, in plain Rust: every byte is written once, and four checks run side by side.

use crate::checks::store_checks;
use crate::fast::refusal;
use calls::Returned;

const BLOCK: usize = 512;

struct Source(u32);

impl Source {
    fn draw(&mut self) -> u32 {
        self.0 = self.0.wrapping_mul(1664525).wrapping_add(1013904223);
        self.0 >> 16
    }
}

fn put(block: &mut [u8], at: usize, bytes: &[u8]) {
    block[at..at + bytes.len()].copy_from_slice(bytes);
}

/// Zeros from `end` on, and the block's number.
fn close(block: &mut [u8], end: usize, number: usize) {
    block[end..504].fill(0);
    put(block, 504, &(number as u32).to_le_bytes());
}

fn entry(source: &mut Source, block: &mut [u8], kind: u8, word: u32, number: usize) {
    let r = (source.draw() % 125) as usize;
    for place in block[8..8 + 4 * r].chunks_exact_mut(4) {
        place.copy_from_slice(&(source.draw() % 4096).to_le_bytes());
    }
    put(block, 0, &[kind, 0]);
    put(block, 2, &(r as u16).to_le_bytes());
    put(block, 4, &word.to_le_bytes());
    close(block, 8 + 4 * r, number);
}

/// The file of a seed, N, M, S, Q and R.
pub fn generate([seed, n, m, s, q, r]: [u32; 6], out: &mut [u8]) -> Returned {
    if n < 1 || n > 64 || m > 32 || s < 1 || s > 512 {
        return Err(refusal(10, 0));
    }
    if out.len() != BLOCK * (1 + n as usize + m as usize) {
        return Err(refusal(9, 0));
    }
    let (header, entries) = out.split_at_mut(BLOCK);
    put(header, 0, &[1, 0]);
    for (at, v) in [(2, n), (4, m), (6, s)] {
        put(header, at, &(v as u16).to_le_bytes());
    }
    for (at, v) in [(8, q), (12, r), (16, seed)] {
        put(header, at, &v.to_le_bytes());
    }
    close(header, 20, 0);
    let mut source = Source(seed);
    for (i, block) in entries.chunks_exact_mut(BLOCK).enumerate() {
        if i < n as usize {
            let time = 1 + source.draw() % 1000;
            entry(&mut source, block, 2, time, 1 + i);
        } else {
            entry(&mut source, block, 3, i as u32 - n, 1 + i);
        }
    }
    store_checks(out);
    Ok(())
}
