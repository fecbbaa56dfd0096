//! Two files joined (document 02, item 8).

use super::bytes::{field, BLOCK};
use super::files::{file_refusal, sizes, Reads, Scratch, Task};
use super::{refuse, Refusal};
use crate::bugs::{bug, But};

/// Two files to join, accepted or not.
#[derive(Clone, Copy)]
pub struct Pair<'a> {
    pub first: &'a [u8],
    pub second: &'a [u8],
}

impl Pair<'_> {
    /// The joined N and M of accepted files.
    pub fn totals(&self) -> [usize; 2] {
        let ((n, m), (more_n, more_m)) = (sizes(self.first), sizes(self.second));
        [n + more_n, m + more_m]
    }

    /// The joined file has one header.
    pub fn length(&self) -> usize {
        (self.first.len() + self.second.len()).saturating_sub(BLOCK)
    }

    /// In which of the fields that must be alike accepted files differ.
    pub fn differences(&self) -> Vec<&'static str> {
        let both = [self.first, self.second];
        let differ = |at: usize, width: usize| {
            let [one, other] = both.map(|file| field(file, at, width));
            one != other
        };
        let no_range = both.iter().all(|file| field(file, 24, 4) == 0);
        let s = differ(6, 2.but("S compared in eight bits", 1)) && !bug("S not compared");
        let r = differ(12, 4) && !bug("R not compared");
        let first = differ(20, 4)
            && !bug("range compared without its first")
            && !(no_range && bug("empty ranges alike"));
        let count = differ(24, 4) && !bug("range compared without its count");
        let second = differ(28, 4) && bug("Q2 compared");
        let switch = differ(32, 4.but("G compared in sixteen bits", 2)) && !bug("G not compared");
        let mut names = Vec::new();
        for (name, differs) in [
            ("S", s),
            ("R", r),
            ("range's first", first),
            ("range's count", count),
            ("Q2", second),
            ("G", switch),
        ] {
            if differs {
                names.push(name);
            }
        }
        names
    }

    /// The first file's refusals, the second's, 11, 12, 9.
    pub fn refused(&self, out_len: usize) -> Option<Refusal> {
        let further = |Refusal { number, place }, by: usize| refuse(number, place + by);
        let first = || {
            further(
                file_refusal(self.first)?,
                0.but("97 added for the first", 97),
            )
        };
        let second = || {
            let refusal = file_refusal(self.second)?;
            let at_0 = matches!(refusal.number, 1 | 3 | 4);
            further(
                refusal,
                97.but("97 not added", 0)
                    .but("97 not added to 1, 3 and 4", if at_0 { 0 } else { 97 }),
            )
        };
        let unlike = || refuse(11, 0).filter(|_| !self.differences().is_empty());
        let too_many = || {
            let [n, m] = self.totals();
            let most_n = 64
                .but("65 basic blocks joined", 65)
                .but("N 64 not joined", 63);
            let most_m = 32
                .but("33 interrupters joined", 33)
                .but("M 32 not joined", 31);
            refuse(12, 0).filter(|_| n > most_n || m > most_m)
        };
        let output = || {
            let wrong = out_len != self.length();
            let shorter = out_len < self.length();
            refuse(9, 0).filter(|_| wrong.but("a longer output taken", shorter))
        };
        type Row<'a> = &'a dyn Fn() -> Option<Refusal>;
        let (a, b, c, d, e): (Row, Row, Row, Row, Row) =
            (&first, &second, &unlike, &too_many, &output);
        let rows = [a, b, c, d, e]
            .but("the second file looked at first", [b, a, c, d, e])
            .but("9 first of a join", [e, a, b, c, d])
            .but("9 before 11", [a, b, e, c, d])
            .but("9 before 12", [a, b, c, e, d])
            .but("12 before 11", [a, b, d, c, e]);
        rows.iter().find_map(|row| row())
    }

    /// The joined file, where nothing is refused.
    pub fn file(&self) -> Vec<u8> {
        let (first, second) = (Task::read(self.first), Task::read(self.second));
        let (q, more_q) = (first.limit, second.limit);
        let signed = if (q as i32) < more_q as i32 {
            q
        } else {
            more_q
        };
        let (q2, more_q2) = (first.second, second.second);
        let disarmed = |blocks: &[Reads]| -> Vec<Reads> {
            let off = |block: &Reads| Reads {
                armed: false,
                ..block.clone()
            };
            blocks.iter().map(off).collect()
        };
        let concat = |one: &[_], other: &[_]| [one, other].concat();
        let task = Task {
            limit: q
                .min(more_q)
                .but("the larger Q", q.max(more_q))
                .but("the first's Q", q)
                .but("the second's Q", more_q)
                .but("Q compared with a sign", signed),
            second: q2
                .min(more_q2)
                .but("the larger Q2", q2.max(more_q2))
                .but("the first's Q2", q2)
                .but("the second's Q2", more_q2),
            switch: first
                .switch
                .but("no G joined", 0)
                .but("both G added", first.switch.wrapping_add(second.switch)),
            id: first.id.but("the second's id", second.id),
            scratch: first.scratch.but("no range joined", Scratch::NONE),
            blocks: concat(&first.blocks, &second.blocks)
                .but(
                    "the second's basic blocks first",
                    concat(&second.blocks, &first.blocks),
                )
                .but(
                    "no block armed after a join",
                    disarmed(&concat(&first.blocks, &second.blocks)),
                ),
            interrupters: concat(&first.interrupters, &second.interrupters).but(
                "the second's interrupters first",
                concat(&second.interrupters, &first.interrupters),
            ),
            ..first
        };
        task.file()
    }
}
