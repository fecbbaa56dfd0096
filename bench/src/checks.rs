//! FNV-1a over the blocks of a file, four of them side by side and zeros eight at a time, as the planner; it takes sixteen where a block is alone.

use std::array::from_fn;

const BLOCK: usize = 512;
const START: u32 = 2166136261;
const PRIME: u32 = 16777619;
/// PRIME to the eighth power.
const EIGHT_ZEROS: u32 = 1566662433;

fn stored(block: &[u8]) -> u32 {
    u32::from_le_bytes([block[508], block[509], block[510], block[511]])
}

fn mixed(state: u32, byte: u8) -> u32 {
    (state ^ byte as u32).wrapping_mul(PRIME)
}

pub fn check_of(block: &[u8]) -> u32 {
    let [check] = checks_of(block);
    check
}

/// The checks of C blocks that lie one after the other, a word at a time where it is 0 in all of them.
fn checks_of<const C: usize>(blocks: &[u8]) -> [u32; C] {
    let blocks: [&[u8]; C] = from_fn(|c| &blocks[c * BLOCK..(c + 1) * BLOCK]);
    let mut states = [START; C];
    for i in (0..504).step_by(8) {
        let words = blocks.map(|block| u64::from_le_bytes(block[i..i + 8].try_into().unwrap()));
        if words.iter().fold(0, |any, word| any | word) == 0 {
            states = states.map(|state| state.wrapping_mul(EIGHT_ZEROS));
            continue;
        }
        for j in i..i + 8 {
            states = from_fn(|c| mixed(states[c], blocks[c][j]));
        }
    }
    for j in 504..508 {
        states = from_fn(|c| mixed(states[c], blocks[c][j]));
    }
    states
}

fn wrong_of<const C: usize>(blocks: &[u8]) -> Option<usize> {
    let checks = checks_of::<C>(blocks);
    blocks
        .chunks_exact(BLOCK)
        .zip(checks)
        .position(|(block, check)| stored(block) != check)
}

fn store_of<const C: usize>(blocks: &mut [u8]) {
    let checks = checks_of::<C>(blocks);
    for (block, check) in blocks.chunks_exact_mut(BLOCK).zip(checks) {
        block[508..].copy_from_slice(&check.to_le_bytes());
    }
}

/// Stores every block's check: first those of the blocks that are left over from fours.
pub fn store_checks(file: &mut [u8]) {
    let (few, fours) = file.split_at_mut(file.len() % (4 * BLOCK));
    few.chunks_exact_mut(BLOCK).for_each(store_of::<1>);
    fours.chunks_exact_mut(4 * BLOCK).for_each(store_of::<4>);
}

/// Lowest block whose check is wrong; the blocks that are left over from fours come first.
pub fn lowest_wrong(file: &[u8]) -> Option<usize> {
    let (few, fours) = file.split_at(file.len() % (4 * BLOCK));
    let first = few
        .chunks_exact(BLOCK)
        .position(|block| wrong_of::<1>(block).is_some());
    first.or_else(|| {
        let mut groups = fours.chunks_exact(4 * BLOCK).enumerate();
        groups.find_map(|(k, blocks)| Some(few.len() / BLOCK + 4 * k + wrong_of::<4>(blocks)?))
    })
}
