//! The text of a task, in plain Rust: a file's text is measured and then written, and the file of a text is made aside, line by line.

use crate::checks::store_checks;
use crate::fast::{numbers, open, refusal};
use calls::Returned;

const BLOCK: usize = 512;
const LARGEST: usize = 97 * BLOCK;
const MOST_READS: usize = 124;
const HEADER: [(&[u8], &[usize]); 7] = [
    (b"task", &[16]),
    (b"lines", &[6]),
    (b"limit", &[8]),
    (b"sampler", &[28]),
    (b"reload", &[12]),
    (b"switch", &[32]),
    (b"scratch", &[20, 24]),
];

fn number(bytes: &[u8], at: usize) -> u32 {
    u32::from_le_bytes(bytes[at..at + 4].try_into().unwrap())
}

fn digits(n: u32) -> usize {
    n.checked_ilog10().map_or(1, |most| most as usize + 1)
}

/// The words and numbers of each line, in order.
fn lines(file: &[u8], mut each: impl FnMut(&[u8], &mut dyn Iterator<Item = u32>)) {
    let (header, entries) = file.split_at(BLOCK);
    for (word, places) in HEADER {
        each(
            word,
            &mut places.iter().map(|&at| header_number(header, at)),
        );
    }
    for block in entries.chunks_exact(BLOCK) {
        let word: &[u8] = match (block[0], block[1]) {
            (2, 0) => b"block",
            (2, _) => b"armed",
            _ => b"preempter",
        };
        each(
            word,
            &mut std::iter::once(number(block, 4)).chain(numbers(block)),
        );
    }
}

fn header_number(header: &[u8], at: usize) -> u32 {
    match at {
        6 => u16::from_le_bytes([header[6], header[7]]) as u32,
        _ => number(header, at),
    }
}

fn put_number(out: &mut [u8], at: usize, mut n: u32) -> usize {
    let end = at + digits(n);
    for place in out[at..end].iter_mut().rev() {
        *place = b'0' + (n % 10) as u8;
        n /= 10;
    }
    end
}

/// The text of a file, and its length.
pub fn show(file: &[u8], out: &mut [u8]) -> (Returned, usize) {
    if let Err(refused) = open(file) {
        return (Err(refused), 0);
    }
    let mut length = 0;
    lines(file, |word, numbers| {
        length += word.len() + 1 + numbers.map(|n| 1 + digits(n)).sum::<usize>();
    });
    if out.len() < length {
        return (Err(refusal(9, 0)), 0);
    }
    let mut at = 0;
    lines(file, |word, numbers| {
        out[at..at + word.len()].copy_from_slice(word);
        at += word.len();
        for n in numbers {
            out[at] = b' ';
            at = put_number(out, at + 1, n);
        }
        out[at] = b'\n';
        at += 1;
    });
    (Ok(()), length)
}

/// The number that a word says: digits alone, at most 32 bits.
fn said(word: &[u8]) -> Option<u32> {
    word.iter().try_fold(0u32, |n, &b| match b {
        b'0'..=b'9' => n.checked_mul(10)?.checked_add((b - b'0') as u32),
        _ => None,
    })
}

fn put(block: &mut [u8], at: usize, bytes: &[u8]) {
    block[at..at + bytes.len()].copy_from_slice(bytes);
}

/// A file that is being made: how many header lines there are, basic blocks and preempters.
struct Draft {
    file: [u8; LARGEST],
    given: usize,
    n: usize,
    m: usize,
}

impl Draft {
    fn take_header(&mut self, word: &[u8], numbers: &[u32]) -> Option<()> {
        let (name, places) = HEADER[self.given];
        if word != name || numbers.len() != places.len() {
            return None;
        }
        match self.given {
            1 if !(1..=512).contains(&numbers[0]) => return None,
            1 => put(&mut self.file, 6, &(numbers[0] as u16).to_le_bytes()),
            6 if numbers[0] as u64 + numbers[1] as u64 > 1 << 32 => return None,
            _ => {
                for (&at, n) in places.iter().zip(numbers) {
                    put(&mut self.file, at, &n.to_le_bytes());
                }
            }
        }
        self.given += 1;
        Some(())
    }

    fn take_entry(&mut self, word: &[u8], numbers: &[u32]) -> Option<()> {
        let (kind, armed) = match word {
            b"block" => (2, 0),
            b"armed" => (2, 1),
            b"preempter" => (3, 0),
            _ => return None,
        };
        let room = match kind {
            2 => self.m == 0 && self.n < 64,
            _ => self.n > 0 && self.m < 32,
        };
        let (first, reads) = numbers.split_first()?;
        if !room {
            return None;
        }
        match kind {
            2 => self.n += 1,
            _ => self.m += 1,
        }
        let k = self.n + self.m;
        let block = &mut self.file[k * BLOCK..(k + 1) * BLOCK];
        put(block, 0, &[kind, armed]);
        put(block, 2, &(reads.len() as u16).to_le_bytes());
        put(block, 4, &first.to_le_bytes());
        for (place, n) in block[8..].chunks_exact_mut(4).zip(reads) {
            place.copy_from_slice(&n.to_le_bytes());
        }
        put(block, 504, &(k as u32).to_le_bytes());
        Some(())
    }

    fn take(&mut self, line: &[u8]) -> Option<()> {
        let line = line.split(|&b| b == b'#').next().unwrap();
        let mut words = line
            .split(|b| matches!(b, b' ' | b'\t' | b'\r'))
            .filter(|word| !word.is_empty());
        let Some(word) = words.next() else {
            return Some(());
        };
        let mut numbers = [0; MOST_READS + 1];
        let mut count = 0;
        for word in words {
            *numbers.get_mut(count)? = said(word)?;
            count += 1;
        }
        match self.given < HEADER.len() {
            true => self.take_header(word, &numbers[..count]),
            false => self.take_entry(word, &numbers[..count]),
        }
    }
}

/// The file of a text, and its length.
pub fn assemble(text: &[u8], out: &mut [u8]) -> (Returned, usize) {
    if out.len() != LARGEST {
        return (Err(refusal(9, 0)), 0);
    }
    let mut draft = Draft {
        file: [0; LARGEST],
        given: 0,
        n: 0,
        m: 0,
    };
    let (mut count, mut rest) = (0, text);
    while !rest.is_empty() {
        let end = rest.iter().position(|&b| b == b'\n').unwrap_or(rest.len());
        if draft.take(&rest[..end]).is_none() {
            return (Err(refusal(17, count)), 0);
        }
        count += 1;
        rest = rest.get(end + 1..).unwrap_or(&[]);
    }
    if draft.given < HEADER.len() || draft.n == 0 {
        return (Err(refusal(17, count)), 0);
    }
    let length = BLOCK * (1 + draft.n + draft.m);
    let file = &mut draft.file[..length];
    file[0] = 1;
    put(file, 2, &(draft.n as u16).to_le_bytes());
    put(file, 4, &(draft.m as u16).to_le_bytes());
    store_checks(file);
    out[..length].copy_from_slice(file);
    (Ok(()), length)
}
