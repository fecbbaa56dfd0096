//! Traces in din form (document 02, item 11).

use super::files::{Reads, Scratch, Task};
use super::{refuse, Refusal};
use crate::bugs::{bug, But};

/// The output that a file is made in.
pub const OUTPUT: usize = 33280;

/// What a trace is made a file with.
#[derive(Clone, Copy, Debug)]
pub struct Settings {
    pub size: u32,
    pub g: u32,
    pub ticks: u32,
    pub s: u32,
    pub q: u32,
    pub r: u32,
    pub id: u32,
}

/// The lines of a text, each with its line feed; the last may have none.
pub fn lines(text: &[u8]) -> Vec<&[u8]> {
    text.split_inclusive(|&b| b == b'\n').collect()
}

/// The label and the address of a line, unless it is malformed.
pub fn record(line: &[u8]) -> Option<(u8, u32)> {
    let ended = match line.strip_suffix(b"\n") {
        None if bug("a last line without its line feed taken") => line,
        ended => ended?,
    };
    let ended = ended.but(
        "a carriage return taken",
        ended.strip_suffix(b"\r").unwrap_or(ended),
    );
    let (&label, rest) = ended.split_first()?;
    let (&space, digits) = rest.split_first()?;
    let most = b'2'
        .but("label 3 taken", b'3')
        .but("label 2 malformed", b'1');
    let labelled = (b'0'..=most).contains(&label);
    let spaced = space == b' ' || space == b'\t' && bug("a tab taken for the space");
    let digits = match digits {
        [b' ', more @ ..] if bug("two spaces taken") => more,
        [b'0', b'x', more @ ..] if bug("0x taken") => more,
        _ => digits,
    };
    let least = 1.but("no digit taken", 0);
    let longest = 8
        .but("nine digits taken", 9)
        .but("eight digits malformed", 7);
    let hex = |b: &u8| match b {
        b'A'..=b'F' => !bug("capital digits malformed"),
        b'a'..=b'f' => !bug("small digits malformed"),
        b'g' => bug("g taken for a digit"),
        _ => b.is_ascii_digit(),
    };
    let right =
        labelled && spaced && (least..=longest).contains(&digits.len()) && digits.iter().all(hex);
    if !right {
        return None;
    }
    let value = |b: &u8| (*b as char).to_digit(16).unwrap_or(0) as u64;
    let address = digits.iter().fold(0, |address, b| address * 16 + value(b));
    Some((label, address as u32))
}

impl Settings {
    pub fn numbers(&self) -> [u32; 7] {
        [
            self.size, self.g, self.ticks, self.s, self.q, self.r, self.id,
        ]
    }

    fn in_range(&self) -> bool {
        let most_g = 124.but("g 125 taken", 125).but("g 124 refused", 123);
        let most_s = 512.but("S 513 of a trace taken", 513);
        let lines = (1..=most_s).contains(&self.s);
        let size = self.size != 0 || bug("size 0 taken");
        lines && size && (1..=most_g).contains(&self.g)
    }

    /// The records of each basic block, where g is in its range.
    fn blocks(&self, text: &[u8]) -> Vec<Vec<u32>> {
        let records = lines(text).into_iter().filter_map(record);
        let addresses: Vec<u32> = records
            .filter(|(label, _)| *label != b'2' || !bug("fetches passed over"))
            .map(|(_, address)| address)
            .collect();
        let mut blocks: Vec<Vec<u32>> = addresses
            .chunks(self.g as usize)
            .map(|block| block.to_vec())
            .collect();
        let short = |block: &Vec<u32>| block.len() < self.g as usize;
        if blocks.len() > 1 && blocks.last().is_some_and(short) && bug("a short block dropped") {
            blocks.pop();
        }
        blocks
    }

    fn time(&self, block: &[u32]) -> u64 {
        let records = block
            .len()
            .but("a short block's time a full one's", self.g as usize);
        records as u64 * self.ticks as u64
    }

    /// 9, 10, 13, 14.
    pub fn refused(&self, text: &[u8], out_len: usize) -> Option<Refusal> {
        let nine = || {
            let shorter = out_len < OUTPUT;
            refuse(9, 0)
                .filter(|_| (out_len != OUTPUT).but("a trace's longer output taken", shorter))
        };
        let ten = || refuse(10, 0).filter(|_| !self.in_range());
        let thirteen = || {
            let lines = lines(text);
            let mut places = (0..lines.len()).filter(|&i| {
                record(lines[i]).is_none()
                    && !(lines[i] == b"\n" && bug("an empty line passed over"))
            });
            let first = places.next()?;
            let last = places.last().unwrap_or(first);
            refuse(
                13,
                first
                    .but("the highest malformed line", last)
                    .but("lines from 1", first + 1),
            )
        };
        let fourteen = || {
            let count = lines(text).len();
            let most = 64
                .but("65 g records taken", 65)
                .but("64 g records refused", 63);
            let none = count == 0 && !bug("no record taken");
            let many = count as u64 > most * self.g as u64;
            let long = |block: &Vec<u32>| self.time(block) > u32::MAX as u64;
            let long =
                !bug("times not looked at") && self.g > 0 && self.blocks(text).iter().any(long);
            refuse(14, 0).filter(|_| none || many || long)
        };
        type Row<'a> = &'a dyn Fn() -> Option<Refusal>;
        let (a, b, c, d): (Row, Row, Row, Row) = (&nine, &ten, &thirteen, &fourteen);
        let rows = [a, b, c, d]
            .but("10 of a trace before 9", [b, a, c, d])
            .but("13 before 10", [a, c, b, d])
            .but("14 before 13", [a, b, d, c]);
        rows.iter().find_map(|row| row())
    }

    /// The file, where nothing is refused.
    pub fn file(&self, text: &[u8]) -> Vec<u8> {
        let size = self.size.max(1);
        let number = |address: &u32| {
            (address / size)
                .but("addresses not divided", *address)
                .but("remainders of the size", address % size)
                .but("addresses divided by S", address / self.s)
        };
        let block = |block: &Vec<u32>| Reads {
            word: self.time(block) as u32,
            armed: false.but("blocks of a trace armed", true),
            numbers: block.iter().map(number).collect(),
        };
        let blocks: Vec<Reads> = self.blocks(text).iter().map(block).collect();
        let task = Task {
            scratch: Scratch::NONE,
            second: 0.but("Q as Q2 of a trace", self.q),
            switch: 0.but("R as G of a trace", self.r),
            lines: self.s as usize,
            limit: self.q.but("R for Q", self.r),
            reload: self.r,
            id: self.id.but("no id of a trace", 0),
            blocks,
            interrupters: Vec::new(),
        };
        task.file()
    }
}
