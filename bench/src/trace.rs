//! A file from a trace in din form, in plain Rust: the text is read once, line by line, every byte of the file is written once, and four checks run side by side.

use crate::checks::store_checks;
use crate::fast::refusal;
use calls::Returned;

const BLOCK: usize = 512;
const OUTPUT: usize = 65 * BLOCK;
const MOST: usize = 64 * 124;

fn address(line: &[u8]) -> Option<u32> {
    let [b'0'..=b'2', b' ', digits @ ..] = line else {
        return None;
    };
    if !(1..=8).contains(&digits.len()) {
        return None;
    }
    digits.iter().try_fold(0, |address, &b| {
        Some(address << 4 | (b as char).to_digit(16)?)
    })
}

fn put(block: &mut [u8], at: usize, bytes: &[u8]) {
    block[at..at + bytes.len()].copy_from_slice(bytes);
}

fn close(block: &mut [u8], end: usize, number: usize) {
    block[end..504].fill(0);
    put(block, 504, &(number as u32).to_le_bytes());
}

/// The file of a trace by size, g, ticks, S, Q, R and id, and its length.
pub fn trace(text: &[u8], numbers: [u32; 7], out: &mut [u8]) -> (Returned, usize) {
    let [size, g, ticks, s, q, r, id] = numbers;
    if out.len() != OUTPUT {
        return (Err(refusal(9, 0)), 0);
    }
    if s < 1 || s > 512 || size == 0 || g < 1 || g > 124 {
        return (Err(refusal(10, 0)), 0);
    }
    let mut addresses = [0; MOST];
    let (mut count, mut rest) = (0, text);
    while !rest.is_empty() {
        let end = rest.iter().position(|&b| b == b'\n');
        let Some(found) = end.and_then(|end| address(&rest[..end])) else {
            return (Err(refusal(13, count)), 0);
        };
        if count < MOST {
            addresses[count] = found;
        }
        rest = &rest[end.unwrap() + 1..];
        count += 1;
    }
    let longest = count.min(g as usize) as u64 * ticks as u64;
    if count == 0 || count > 64 * g as usize || longest > u32::MAX as u64 {
        return (Err(refusal(14, 0)), 0);
    }
    let n = count.div_ceil(g as usize);
    let file = &mut out[..BLOCK * (1 + n)];
    let (header, entries) = file.split_at_mut(BLOCK);
    put(header, 0, &[1, 0]);
    for (at, v) in [(2, n as u32), (4, 0), (6, s)] {
        put(header, at, &(v as u16).to_le_bytes());
    }
    for (at, v) in [(8, q), (12, r), (16, id)] {
        put(header, at, &v.to_le_bytes());
    }
    close(header, 20, 0);
    let groups = addresses[..count].chunks(g as usize);
    for (i, (block, group)) in entries.chunks_exact_mut(BLOCK).zip(groups).enumerate() {
        put(block, 0, &[2, 0]);
        put(block, 2, &(group.len() as u16).to_le_bytes());
        put(block, 4, &(group.len() as u32 * ticks).to_le_bytes());
        for (place, address) in block[8..].chunks_exact_mut(4).zip(group) {
            place.copy_from_slice(&(address / size).to_le_bytes());
        }
        close(block, 8 + 4 * group.len(), 1 + i);
    }
    store_checks(file);
    (Ok(()), file.len())
}
