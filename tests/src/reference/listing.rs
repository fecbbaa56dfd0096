//! All fitting lists of a short task, by putting stretches behind one another, and the next of them from a number on.

use super::bytes::words;
use super::regions::Model;
use crate::bugs::{bug, But};

/// The most basic blocks of a task whose lists are numbered.
pub const SHORT: usize = 16;

/// A fitting list.
#[derive(Clone)]
pub struct Listed {
    pub number: u64,
    pub points: Vec<usize>,
    pub lines: u64,
    pub price: u64,
}

/// The sum of 2 to the power p - 1 over the points.
pub fn number_of(points: &[usize]) -> u64 {
    points
        .iter()
        .map(|&p| 1 << p.but("a list numbered by 2^p", p + 1) >> 1)
        .sum()
}

impl Model {
    /// All fitting lists, in the order of their numbers.
    pub fn listing(&self) -> Vec<Listed> {
        let mut all = Vec::new();
        if bug("a listing without G") {
            self.without_switch().list_behind(&mut Vec::new(), &mut all);
        } else {
            self.list_behind(&mut Vec::new(), &mut all);
        }
        all.sort_by_key(|list| list.number);
        all
    }

    /// The fitting lists that begin with these points.
    fn list_behind(&self, points: &mut Vec<usize>, all: &mut Vec<Listed>) {
        let a = points.last().copied().unwrap_or(0);
        let tested = |b: usize| {
            self.within(a, b)
                || bug("a list's first stretch not tested") && a == 0
                || bug("a list's last stretch not tested") && b == self.n
        };
        if tested(self.n) {
            all.push(self.listed(points));
        }
        for b in a + 1..self.n {
            if tested(b) {
                points.push(b);
                self.list_behind(points, all);
                points.pop();
            }
        }
    }

    fn listed(&self, points: &[usize]) -> Listed {
        let price = self.price_of(points);
        let last = points.last().copied().unwrap_or(0);
        Listed {
            number: number_of(points),
            points: points.to_vec(),
            lines: self.lines_of(points),
            price: price
                .but(
                    "a listed price without the last stretch",
                    price.wrapping_sub(self.price_between(last, self.n)),
                )
                .but(
                    "a listed price without G",
                    self.task.reload as u64 * self.lines_of(points),
                ),
        }
    }
}

/// The lowest-numbered of these lists at or above the start.
pub fn next_of(listing: &[Listed], n: usize, start: u64) -> Option<&Listed> {
    let start = start
        .but("a start in 16 bits", start as u16 as u64)
        .but("a start in 32 bits", start as u32 as u64)
        .but("the start itself passed over", start.saturating_add(1))
        .but("the start passed by one", start.saturating_sub(1));
    let at_or_above = |list: &&Listed| list.number >= start;
    let last = 1 << (n - 1);
    listing
        .iter()
        .find(at_or_above)
        .but(
            "the highest number first",
            listing.iter().rev().find(at_or_above),
        )
        .filter(|list| !bug("no more one too early") || list.number + 1 < last)
}

/// Found or not, the number, the lines, the price, the count of the points and point i.
pub fn bytes_of(found: Option<&Listed>, i: usize) -> Vec<u8> {
    let Some(list) = found else {
        return words(&[0; 6]);
    };
    let mut points = list.points.clone();
    if bug("a list's points from the last") {
        points.reverse();
    }
    let point = points.get(i).map_or(0, |&p| p as u64);
    let count = points.len() as u64;
    words(&[1, list.number, list.lines, list.price, count, point])
}
