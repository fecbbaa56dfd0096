//! Lists of points and plan blocks, right and damaged.

use super::damage::{other_byte, wrong_number};
use super::tasks::any_word;
use crate::reference::bytes::{field, put, seal, BLOCK};
use crate::reference::plans::Plan;
use crate::rng::Rng;

/// Any rising list for n.
pub fn random_points(rng: &mut Rng, n: usize) -> Vec<usize> {
    match rng.below(8) {
        0 => Vec::new(),
        1 => (1..n).collect(),
        2 if n > 1 => vec![rng.between(1, n - 1)],
        _ => {
            let dense = rng.between(5, 95);
            (1..n).filter(|_| rng.percent(dense)).collect()
        }
    }
}

/// A list near a given one.
pub fn near_points(rng: &mut Rng, n: usize, from: &[usize]) -> Vec<usize> {
    let mut points = from.to_vec();
    for _ in 0..rng.below(3) {
        if n < 2 {
            break;
        }
        let p = rng.between(1, n - 1);
        match points.binary_search(&p) {
            Ok(i) => {
                points.remove(i);
            }
            Err(i) => points.insert(i, p),
        }
    }
    points
}

/// The longest list for a replay: more than there are two-byte numbers.
const MOST_LISTED: usize = 70000;

/// Points for a replay, mostly well formed. `good` lists the points worth trying.
pub fn random_list(rng: &mut Rng, n: usize, good: &[Vec<usize>]) -> Vec<u16> {
    let mut points = if !good.is_empty() && rng.percent(30) {
        let from = rng.below(good.len());
        near_points(rng, n, &good[from])
    } else {
        random_points(rng, n)
    };
    if rng.percent(40) {
        for _ in 0..rng.pick(&[1, 1, 1, 2, 3]) {
            damage_list(rng, n, &mut points);
        }
    }
    points.truncate(MOST_LISTED);
    points.iter().map(|&p| p as u16).collect()
}

fn damage_list(rng: &mut Rng, n: usize, points: &mut Vec<usize>) {
    let at = rng.between(0, points.len());
    match rng.below(9) {
        0 => points.insert(at, 0),
        1 => points.insert(at, n),
        2 => points.insert(at, rng.between(0, n + 1)),
        3 => {
            let above = rng.pick(&[n + 1, n + 2, 63, 64, 65, 255, 256, 32768, 65535]);
            points.insert(at, above);
        }
        4 if at < points.len() => points.insert(at, points[at]),
        5 if at < points.len() => points[at] += rng.pick(&[64, 256, 32768]),
        6 => points.reverse(),
        7 => {
            // Rising once more, up to N.
            let low = rng.between(1, n);
            points.extend(low..=n);
        }
        _ => {
            for _ in 0..rng.pick(&[1, 2, 64, 300, 5000, MOST_LISTED]) {
                points.push(rng.below(65536));
            }
        }
    }
}

/// A readable plan block; lines, price and id are anything.
pub fn points_block(rng: &mut Rng, n: usize, points: &[usize]) -> Vec<u8> {
    let price = if rng.percent(50) {
        rng.next()
    } else {
        rng.below(100) as u64
    };
    let plan = Plan {
        n,
        id: any_word(rng),
        lines: (rng.word() % 65536) as u64,
        price,
        points: points.to_vec(),
    };
    plan.block()
}

/// A first block for pricing, mostly readable. `good` lists the points worth trying.
pub fn random_points_block(rng: &mut Rng, n: usize, good: &[Vec<usize>]) -> (Vec<u8>, String) {
    let points = match rng.below(3) {
        0 => random_points(rng, n),
        _ if good.is_empty() => random_points(rng, n),
        1 => {
            let from = rng.below(good.len());
            good[from].clone()
        }
        _ => {
            let from = rng.below(good.len());
            near_points(rng, n, &good[from])
        }
    };
    let own = match rng.below(4) {
        0 => rng.between(points.last().map_or(1, |p| p + 1), 64),
        1 => 64,
        _ => n,
    };
    match rng.below(10) {
        0 => {
            // Right for the block's own N, which may not be the file's.
            let own = rng.between(1, 64);
            let list = random_points(rng, own);
            (
                points_block(rng, own, &list),
                format!("list {list:?} for N {own}"),
            )
        }
        1 if n < 64 => {
            let own = rng.between(n + 1, 64);
            let mut list = points;
            list.extend((n..own).filter(|_| rng.percent(40)));
            (
                points_block(rng, own, &list),
                format!("list {list:?} for N {own}"),
            )
        }
        2..=4 => {
            let mut block = points_block(rng, own, &points);
            let mut said = Vec::new();
            for _ in 0..rng.pick(&[1, 1, 1, 2, 3]) {
                said.push(damage_points(rng, &mut block));
            }
            (
                block,
                format!("list {points:?} for N {own}, {}", said.join(", ")),
            )
        }
        _ => (
            points_block(rng, own, &points),
            format!("list {points:?} for N {own}"),
        ),
    }
}

fn damage_points(rng: &mut Rng, block: &mut Vec<u8>) -> String {
    let kind = if block.len() < BLOCK {
        0
    } else {
        rng.below(14)
    };
    if kind == 0 {
        let len = rng.pick(&[0, 1, 20, 256, 511, 513, 1024, 2048, 512]);
        block.resize(len, 0);
        return format!("length {len}");
    }
    let n = field(block, 2, 2);
    let count = field(block, 4, 2);
    let held = count.min(242) as usize;
    let said = match kind {
        1 => {
            let at = rng.below(BLOCK);
            block[at] = other_byte(rng, block[at]);
            return format!("byte {at} changed");
        }
        2 => {
            block[0] = rng.pick(&[0, 1, 2, 3, 5, 4 + 128, 255]);
            format!("kind {}", block[0])
        }
        3 => {
            block[1] = other_byte(rng, block[1]);
            format!("byte 1 {}", block[1])
        }
        4 => {
            let n = rng.pick(&[
                0,
                65,
                66,
                128,
                256,
                256 + n,
                65535,
                n + 1,
                n.saturating_sub(1),
                1,
                64,
                count,
                count + 1,
            ]);
            put(block, 2, 2, n);
            format!("N {n}")
        }
        5 => {
            let count = rng.pick(&[
                62,
                63,
                64,
                65,
                127,
                128,
                241,
                242,
                243,
                244,
                255,
                256,
                256 + count,
                32768,
                65535,
                count + 1,
                count.saturating_sub(1),
            ]);
            put(block, 4, 2, count);
            format!("count {count}")
        }
        6 | 7 if held > 0 => {
            let i = rng.below(held);
            let old = field(block, 20 + 2 * i, 2);
            let before = if i > 0 {
                field(block, 20 + 2 * (i - 1), 2)
            } else {
                0
            };
            let p = rng.pick(&[
                0,
                n,
                n + 1,
                64,
                65,
                before,
                before.saturating_sub(1),
                old + 256,
                old + 32768,
                65535,
                old + 1,
            ]);
            put(block, 20 + 2 * i, 2, p % 65536);
            format!("point {i} is {}", p % 65536)
        }
        8 => {
            // A rising list as long as it can be, or longer.
            let count = rng.pick(&[62, 63, 64, 65, 100]);
            put(block, 2, 2, rng.pick(&[63, 64, 65, 128]));
            put(block, 4, 2, count);
            for i in 0..count as usize {
                put(block, 20 + 2 * i, 2, i as u64 + 1);
            }
            format!("{count} rising points")
        }
        9 => {
            let at = 20 + 2 * held + rng.below(2);
            block[at] = other_byte(rng, block[at]);
            format!("byte {at} after the points")
        }
        10 => {
            let at = rng.pick(&[503, 502, 147, 148, 149, 146]);
            block[at] = other_byte(rng, block[at]);
            format!("byte {at}")
        }
        11 => {
            let at = rng.below(508);
            block[at] = other_byte(rng, block[at]);
            format!("byte {at} sealed")
        }
        12 => {
            let number = wrong_number(rng, 0);
            put(block, 504, 4, number);
            format!("number {number}")
        }
        _ => {
            rng.fill(&mut block[6..20]);
            "lines, price and id anything".to_string()
        }
    };
    seal(&mut block[..BLOCK]);
    said
}
