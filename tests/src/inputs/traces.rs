//! Traces, well and badly formed, and what they are made files with.

use super::tasks::{any_word, random_lines};
use crate::reference::traces::{lines, Settings};
use crate::rng::Rng;

impl Settings {
    /// Within the ranges, and as a rule with times that fit.
    pub fn random(rng: &mut Rng) -> Settings {
        let any_g = rng.between(1, 124) as u32;
        let g = rng.pick(&[1, 2, 3, 5, 124, any_g, any_g]);
        let (any_size, any_ticks, any_r) = (any_word(rng).max(1), any_word(rng), any_word(rng));
        let most = u32::MAX / g;
        Settings {
            size: rng.pick(&[1, 4, 16, 32, 64, 100, 4096, any_size]),
            g,
            ticks: rng.pick(&[0, 1, 3, 10, most, most, most.saturating_add(1), any_ticks]),
            s: random_lines(rng) as u32,
            q: any_word(rng),
            r: rng.pick(&[0, 1, 20, any_r]),
            id: any_word(rng),
        }
    }

    /// With S, the size or g perhaps out of its range.
    pub fn damaged(mut self, rng: &mut Rng) -> Settings {
        match rng.below(6) {
            0 => self.s = rng.pick(&[0, 513, 514, 65537, u32::MAX]),
            1 => self.size = 0,
            2 => self.g = 0,
            3 => self.g = rng.pick(&[125, 126, 256, 257, 65537, u32::MAX]),
            4 => {
                self.size = 0;
                self.s = 0;
            }
            _ => {}
        }
        self
    }
}

fn address(rng: &mut Rng) -> u32 {
    match rng.below(6) {
        0 => any_word(rng),
        1 => rng.pick(&[0, 1, 0xf, 0x10, 0xabcdef, 0xffff_ffff, 0xdead_beef]),
        _ => rng.word() >> rng.between(12, 31),
    }
}

fn line(rng: &mut Rng) -> Vec<u8> {
    let (label, address) = (rng.below(3), address(rng));
    let width = rng.pick(&[1, 1, 1, 4, 7, 8]);
    let text = if rng.percent(50) {
        format!("{label} {address:0width$x}\n")
    } else {
        format!("{label} {address:0width$X}\n")
    };
    text.into_bytes()
}

/// How many records: around a block, around 64 blocks, or few; now and then as many as a file has.
fn count(rng: &mut Rng, g: usize) -> usize {
    let most = 64 * g;
    let blocks = rng.between(1, 6);
    let some = rng.between(1, blocks * g);
    match rng.below(20) {
        0 => 0,
        1 => rng.pick(&[most - 1, most, most, most + 1, most + g]),
        2 => rng.pick(&[1, g, g + 1, 2 * g, blocks * g]),
        _ => some,
    }
}

/// A text of right lines.
pub fn random_trace(rng: &mut Rng, g: u32) -> Vec<u8> {
    let count = count(rng, (g as usize).clamp(1, 124));
    (0..count).flat_map(|_| line(rng)).collect()
}

const BAD: [&[u8]; 30] = [
    b"\n",
    b"0\n",
    b"0 \n",
    b" \n",
    b"3 0\n",
    b"/ 0\n",
    b"00 0\n",
    b"0  0\n",
    b"0\t0\n",
    b" 0 0\n",
    b"0 0 \n",
    b"0 0\r\n",
    b"0 +1\n",
    b"0 -1\n",
    b"0 0x1\n",
    b"0 0X1\n",
    b"0 123456789\n",
    b"0 000000000\n",
    b"0 g\n",
    b"0 G\n",
    b"0 @\n",
    b"0 `\n",
    b"0 :\n",
    b"0 /\n",
    b"0 \x81\n",
    b"0 1\0\n",
    b"0,1\n",
    b"r 1\n",
    b"0 1 2\n",
    b"0 fffffffff\n",
];

/// One or two lines made bad, a byte changed, or the end cut off.
pub fn damage(rng: &mut Rng, text: &[u8]) -> Vec<u8> {
    let mut parts: Vec<Vec<u8>> = lines(text).into_iter().map(|l| l.to_vec()).collect();
    for _ in 0..rng.pick(&[1, 1, 1, 2, 3]) {
        let at = match rng.below(3) {
            0 => parts.len().saturating_sub(1),
            _ => rng.below(parts.len() + 1),
        };
        let bad = rng.pick(&BAD).to_vec();
        match rng.below(4) {
            0 if at < parts.len() => {
                let i = rng.below(parts[at].len());
                parts[at][i] = rng.pick(&[rng.clone().next() as u8, b' ', b'\n', b'0', 0, 255]);
            }
            1 if at < parts.len() => parts[at] = bad,
            2 if at < parts.len() => parts[at].insert(0, b' '),
            _ => parts.insert(at, bad),
        }
    }
    let mut text = parts.concat();
    match rng.below(8) {
        0 => {
            text.pop();
        }
        1 => text.extend(rng.pick(&[&b"0"[..], b"0 1", b"\0", b"1 12345678", b" "])),
        _ => {}
    }
    text
}
