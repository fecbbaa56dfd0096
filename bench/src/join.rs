//! Two files joined, in plain Rust: every byte is copied once, and four checks run side by side.

use crate::checks::store_checks;
use crate::fast::{open, refusal, BLOCK, MOST_BASIC};
use calls::{Refusal, Returned};

fn put(block: &mut [u8], at: usize, bytes: &[u8]) {
    block[at..at + bytes.len()].copy_from_slice(bytes);
}

fn number(file: &[u8], at: usize) -> u32 {
    u32::from_le_bytes([file[at], file[at + 1], file[at + 2], file[at + 3]])
}

/// The basic blocks and the preempters of a file that was opened.
fn parts(file: &[u8], n: usize) -> (&[u8], &[u8]) {
    file[BLOCK..].split_at(n * BLOCK)
}

pub fn join(first: &[u8], second: &[u8], out: &mut [u8]) -> Returned {
    let one = parts(first, open(first)?.n);
    let in_second = |Refusal { number, place }| Refusal {
        number,
        place: place + 97,
    };
    let other = parts(second, open(second).map_err(in_second)?.n);
    if [6..8, 12..16, 20..28, 32..36]
        .into_iter()
        .any(|field| first[field.clone()] != second[field])
    {
        return Err(refusal(11, 0));
    }
    let n = (one.0.len() + other.0.len()) / BLOCK;
    let m = (one.1.len() + other.1.len()) / BLOCK;
    if n > MOST_BASIC || m > 32 {
        return Err(refusal(12, 0));
    }
    if out.len() != BLOCK * (1 + n + m) {
        return Err(refusal(9, 0));
    }
    let mut at = 0;
    for part in [&first[..BLOCK], one.0, other.0, one.1, other.1] {
        put(out, at, part);
        at += part.len();
    }
    put(out, 2, &(n as u16).to_le_bytes());
    put(out, 4, &(m as u16).to_le_bytes());
    for at in [8, 28] {
        let smaller = number(first, at).min(number(second, at));
        put(out, at, &smaller.to_le_bytes());
    }
    for (i, block) in out.chunks_exact_mut(BLOCK).enumerate() {
        put(block, 504, &(i as u32).to_le_bytes());
    }
    store_checks(out);
    Ok(())
}
