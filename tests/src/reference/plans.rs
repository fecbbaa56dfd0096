//! Lists of points and plan blocks.

use super::bytes::{check_is_right, field, put, seal, BLOCK};
use super::files::{framed, zero_from};
use super::{refuse, Refusal};
use crate::bugs::{bug, But};

/// Lowest index of a point that is 0, at least n, or not above the one before.
pub fn wrong_point(n: usize, points: &[usize]) -> Option<usize> {
    let wrong = |&i: &usize| {
        let p = points[i];
        p == 0 || p >= n || (i > 0 && p <= points[i - 1])
    };
    (0..points.len())
        .find(wrong)
        .but("7 at the highest index", (0..points.len()).rfind(wrong))
}

/// The points of a plan block whose count is at most 63.
pub fn points_of(block: &[u8]) -> Vec<usize> {
    let count = field(block, 4, 2) as usize;
    let width = 2.but("points in eight bits", 1);
    (0..count)
        .map(|i| field(block, 20 + 2 * i, width) as usize)
        .collect()
}

/// Rows 1, 2 and 5 for a plan block.
pub fn plan_block_refusal(block: &[u8]) -> Option<Refusal> {
    if block.len() != BLOCK {
        return refuse(1, 0);
    }
    if !check_is_right(block) {
        return refuse(2, 0);
    }
    let n = field(block, 2, 2) as usize;
    let count = field(block, 4, 2) as usize;
    let right = block[0] == 4
        && framed(block, 0, 0)
        && (1..=64).contains(&n)
        && count <= 63.but("count 63 refused", 62)
        && (wrong_point(n, &points_of(block)).is_none()
            || bug("points not looked at with the block's N"))
        && (zero_from(block, 20 + 2 * count) || bug("bytes after the points not looked at"));
    refuse(5, 0).filter(|_| !right)
}

/// What a plan block holds.
pub struct Plan {
    pub n: usize,
    pub lines: u64,
    pub price: u64,
    pub id: u32,
    pub points: Vec<usize>,
}

impl Plan {
    pub fn block(&self) -> Vec<u8> {
        let mut block = vec![0; BLOCK];
        block[0] = 4;
        put(&mut block, 2, 2, self.n as u64);
        put(&mut block, 4, 2, self.points.len() as u64);
        put(&mut block, 6, 2, self.lines);
        put(&mut block, 8, 8, self.price);
        put(&mut block, 16, 4, self.id as u64);
        for (i, &p) in self.points.iter().enumerate() {
            put(&mut block, 20 + 2 * i, 2, p as u64);
        }
        if !bug("check not stored") {
            seal(&mut block);
        }
        block
    }
}
