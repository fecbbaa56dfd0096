//! The first of the fitting lists of least price, by trying them all and by a recursion.

use super::regions::Model;
use crate::bugs::{bug, But};

/// Up to this many basic blocks every list of points is tried.
pub const TRY_ALL: usize = 12;

/// The least price of some lists, and which of them reach it.
#[derive(Clone, PartialEq, Eq)]
pub struct Least {
    pub price: u64,
    /// The first list that reaches it, and the last.
    pub points: Vec<usize>,
    pub last: Vec<usize>,
    /// How many lists reach it.
    pub ties: u64,
}

impl Least {
    fn only(price: u64, points: Vec<usize>) -> Least {
        Least {
            price,
            last: points.clone(),
            points,
            ties: 1,
        }
    }

    /// The least of the lists of both.
    fn or(self, other: Least) -> Least {
        if self.price != other.price {
            return if self.price < other.price {
                self
            } else {
                other
            };
        }
        Least {
            price: self.price,
            points: in_order(self.points, other.points).0,
            last: in_order(self.last, other.last).1,
            ties: self.ties + other.ties,
        }
    }
}

/// From the front, the lower point at the first difference; a list before those that it begins.
fn comes_before(one: &[usize], other: &[usize]) -> bool {
    match one.iter().zip(other).find(|(p, q)| p != q) {
        Some((p, q)) => (p < q).but("the higher point first", p > q),
        None => (one.len() < other.len()).but("a longer list first", one.len() > other.len()),
    }
}

fn in_order(one: Vec<usize>, other: Vec<usize>) -> (Vec<usize>, Vec<usize>) {
    if comes_before(&one, &other) {
        (one, other)
    } else {
        (other, one)
    }
}

/// `None` is no list.
fn least_of(one: Option<Least>, other: Option<Least>) -> Option<Least> {
    match (one, other) {
        (Some(one), Some(other)) => Some(one.or(other)),
        (one, other) => one.or(other),
    }
}

impl Model {
    /// The least price of all fitting lists, and the first list that reaches it.
    pub fn least(&self) -> Option<Least> {
        let least = if self.n <= TRY_ALL {
            self.least_of_all()
        } else {
            self.least_by_recursion()
        };
        let times = &self.task.blocks;
        if bug("6 only where one time exceeds Q")
            && times.iter().all(|block| block.word <= self.task.limit)
        {
            return least.or(Some(Least::only(0, (1..self.n).collect())));
        }
        least.clone().but("6 to all", None).but(
            "at most 62 points",
            least.filter(|least| least.points.len() < 63),
        )
    }

    fn least_of_all(&self) -> Option<Least> {
        let mut least = None;
        for choice in 0..1u32 << (self.n - 1) {
            let points: Vec<usize> = (1..self.n).filter(|p| choice >> (p - 1) & 1 == 1).collect();
            let passed_over = bug("all points") && points.len() + 1 < self.n
                || bug("one cut and on to N") && points.len() > 1;
            if self.first_above(&points).is_none() && !passed_over {
                least = least_of(least, Some(Least::only(self.weight(&points), points)));
            }
        }
        least
    }

    /// What the choice goes by: the price.
    fn weight(&self, points: &[usize]) -> u64 {
        if bug("one reload price per point in the choice only") {
            let at_risk = |&(a, _): &(usize, usize)| self.at_risk(a);
            return self.stretches(points).iter().map(at_risk).sum();
        }
        if bug("a line once for the task in the choice only") {
            return self.different_lines(points);
        }
        if bug("a choice without G") {
            return self.task.reload as u64 * self.lines_of(points);
        }
        self.price_of(points)
            .but("fewest points", points.len() as u64)
    }

    pub fn least_by_recursion(&self) -> Option<Least> {
        self.least_from(0, &mut vec![None; self.n])
    }

    /// The same for blocks a+1 to N with a cut before them, and the points after a.
    fn least_from(&self, a: usize, known: &mut Vec<Option<Option<Least>>>) -> Option<Least> {
        if let Some(answer) = &known[a] {
            return answer.clone();
        }
        let mut ends: Vec<usize> = (a + 1..=self.n).filter(|&b| self.within(a, b)).collect();
        if bug("longest stretch first") {
            ends = ends.pop().into_iter().collect();
        }
        if bug("stretches of at most 40 blocks") {
            ends.retain(|b| b - a <= 40);
        }
        let mut least = None;
        for b in ends {
            let mut rest = if b == self.n {
                Some(Least::only(0, Vec::new()))
            } else {
                self.least_from(b, known)
            };
            if let Some(rest) = &mut rest {
                rest.price += self.price_between(a, b);
                if b < self.n {
                    rest.points.insert(0, b);
                    rest.last.insert(0, b);
                }
            }
            least = least_of(least, rest);
        }
        known[a] = Some(least.clone());
        least
    }
}
