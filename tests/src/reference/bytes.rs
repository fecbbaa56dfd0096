//! Fields, checks and zero bytes of blocks.

pub const BLOCK: usize = 512;

pub fn fnv1a(bytes: &[u8]) -> u32 {
    let mut state: u32 = 2166136261;
    for &byte in bytes {
        state ^= byte as u32;
        state = ((state as u64 * 16777619) % (1u64 << 32)) as u32;
    }
    state
}

pub fn field(block: &[u8], at: usize, width: usize) -> u64 {
    let mut value = 0;
    for i in (0..width).rev() {
        value = value * 256 + block[at + i] as u64;
    }
    value
}

pub fn put(block: &mut [u8], at: usize, width: usize, value: u64) {
    let mut rest = value;
    for i in 0..width {
        block[at + i] = (rest % 256) as u8;
        rest /= 256;
    }
}

pub fn seal(block: &mut [u8]) {
    let check = fnv1a(&block[..508]);
    put(block, 508, 4, check as u64);
}

pub fn check_is_right(block: &[u8]) -> bool {
    fnv1a(&block[..508]) as u64 == field(block, 508, 4)
}

/// Numbers of eight bytes.
pub fn words(numbers: &[u64]) -> Vec<u8> {
    numbers.iter().flat_map(|n| n.to_le_bytes()).collect()
}

/// A dump by rows of 16 bytes; rows of zeros are left out.
pub fn hex(bytes: &[u8]) -> String {
    let mut text = String::new();
    for (i, row) in bytes.chunks(16).enumerate() {
        if row.iter().all(|&b| b == 0) && bytes.len() > 16 {
            continue;
        }
        let row: Vec<String> = row.iter().map(|b| format!("{b:02x}")).collect();
        text += &format!(
            "  {:6} (block {} byte {}): {}\n",
            i * 16,
            i * 16 / BLOCK,
            i * 16 % BLOCK,
            row.join(" ")
        );
    }
    text
}
