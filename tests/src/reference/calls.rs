//! Every call on any bytes and numbers: the refusal, or the bytes that it leaves.

use super::bytes::{field, words, BLOCK};
use super::charges::charged;
use super::choice::{Least, TRY_ALL};
use super::deadlines::TaskSet;
use super::files::{file_refusal, Task};
use super::joining::Pair;
use super::lines::{next_read, replay, set_bytes};
use super::listing::{bytes_of, next_of, Listed, SHORT};
use super::plans::{plan_block_refusal, points_of, wrong_point, Plan};
use super::regions::Model;
use super::seeds::Request;
use super::traces::{Settings, OUTPUT};
use super::{refuse, Refusal};
use crate::bugs::{bug, But};
use std::cell::OnceCell;

/// A call, on one file.
#[derive(Clone, Copy)]
pub enum Call<'a> {
    Plan,
    Price(&'a [u8]),
    Useful(usize),
    /// A line, and the block after which it is looked for.
    NextRead(usize, usize),
    Region(usize, usize),
    /// Lines, price and charges of a list.
    Charged(&'a [u16]),
    /// Lines, price and charges of the plan.
    ChargedPlan,
    Replay(&'a [u16]),
    /// Makes a file; this call has no other.
    Generate(Request),
    /// Joins the file and this one.
    Join(&'a [u8]),
    /// Makes a file of a trace; this call has no other.
    Trace(&'a [u8], Settings),
    /// The next fitting list from this number on, and the index of a point.
    NextList(u64, usize),
    /// Tests a task set; this call has no file.
    Deadlines(TaskSet<'a>),
}

pub type Answer = Result<Vec<u8>, Refusal>;

/// The points of a list of two-byte numbers.
pub fn points_in(list: &[u16]) -> Vec<usize> {
    list.iter().map(|&p| p as usize).collect()
}

fn given(refusal: Option<Refusal>) -> Result<(), Refusal> {
    refusal.map_or(Ok(()), Err)
}

/// What is known of one file, each thing found when it is first asked for.
pub struct Reference {
    pub file: Vec<u8>,
    refusal: OnceCell<Option<Refusal>>,
    model: OnceCell<Model>,
    least: OnceCell<Option<Least>>,
    listing: OnceCell<Vec<Listed>>,
}

impl Reference {
    pub fn new(file: &[u8]) -> Reference {
        Reference {
            file: file.to_vec(),
            refusal: OnceCell::new(),
            model: OnceCell::new(),
            least: OnceCell::new(),
            listing: OnceCell::new(),
        }
    }

    /// The file's refusal, or its model.
    pub fn model(&self) -> Result<&Model, Refusal> {
        given(*self.refusal.get_or_init(|| file_refusal(&self.file)))?;
        Ok(self
            .model
            .get_or_init(|| Model::new(Task::read(&self.file))))
    }

    pub fn least(&self) -> Option<&Least> {
        let model = self.model().ok()?;
        self.least.get_or_init(|| model.least()).as_ref()
    }

    /// Where every list was tried, the recursion must find the same price and lists.
    pub fn agrees_with_itself(&self) -> bool {
        match self.model() {
            Ok(model) if model.n <= TRY_ALL => model.least_by_recursion().as_ref() == self.least(),
            _ => true,
        }
    }

    /// How long the output of a call is to be.
    pub fn out_len(&self, call: &Call) -> usize {
        match *call {
            Call::Plan | Call::Price(_) => BLOCK,
            Call::Useful(_) => 64,
            Call::NextRead(..) => 24,
            Call::Region(..) => 72,
            Call::Charged(_) | Call::ChargedPlan => 272,
            Call::Replay(_) | Call::Deadlines(_) => 16,
            Call::NextList(..) => 48,
            Call::Generate(request) => request.length() as usize,
            Call::Join(second) => self.with(second).length(),
            Call::Trace(..) => OUTPUT,
        }
    }

    pub fn with<'a>(&'a self, second: &'a [u8]) -> Pair<'a> {
        Pair {
            first: &self.file,
            second,
        }
    }

    /// Refusals in the documents' order: 9 first, but last where a file is made from a seed or joined. The output begins with what is left.
    pub fn answer(&self, call: &Call, out_len: usize) -> Answer {
        match *call {
            Call::Generate(request) => {
                given(request.refused(out_len))?;
                Ok(request.task().file())
            }
            Call::Join(second) => {
                given(self.with(second).refused(out_len))?;
                Ok(self.with(second).file())
            }
            Call::Trace(text, settings) => {
                given(settings.refused(text, out_len))?;
                Ok(settings.file(text))
            }
            _ => {
                let right = self.out_len(call);
                let longer = right == 512 && out_len > 512 && bug("512 or more as output");
                let output = refuse(9, 0).filter(|_| out_len != right && !longer);
                given(output.but("9 last", None))?;
                let left = self.left(call)?;
                given(output)?;
                Ok(left)
            }
        }
    }

    fn left(&self, call: &Call) -> Answer {
        match *call {
            Call::Plan => self.planned(),
            Call::Price(block) => self.priced(block),
            Call::Useful(k) => {
                let model = self.model()?;
                let k = k.but("k in 32 bits", k as u32 as usize);
                given(refuse(7, 0).filter(|_| k > model.n))?;
                Ok(set_bytes(&model.useful[k]))
            }
            Call::NextRead(line, k) => {
                let model = self.model()?;
                let k = k.but("k of the search in 32 bits", k as u32 as usize);
                let wrong = (k > model.n).but("k at N refused", k >= model.n).but(
                    "line of S or more refused",
                    k > model.n || line >= model.task.lines,
                );
                given(refuse(7, 0).filter(|_| wrong))?;
                Ok(next_read(&model.task, line, k).bytes())
            }
            Call::Region(a, b) => {
                let model = self.model()?;
                given(refuse(7, 0).filter(|_| !(a < b && b <= model.n)))?;
                let length = if bug("a stretch asked for without G") {
                    model.without_switch().length(a, b)
                } else {
                    model.length(a, b)
                };
                let mut bytes = set_bytes(&model.loaded(a, b));
                bytes.extend(words(&[length]));
                Ok(bytes)
            }
            Call::Charged(list) => self.charged(&points_in(list)),
            Call::ChargedPlan => self.charged_plan(),
            Call::Replay(list) => self.replayed(&points_in(list)),
            Call::NextList(start, i) => self.next_list(start, i),
            Call::Deadlines(set) => {
                given(set.refused())?;
                Ok(set.bytes())
            }
            Call::Generate(_) | Call::Join(_) | Call::Trace(..) => unreachable!(),
        }
    }

    /// All fitting lists of a file that is accepted and short.
    pub fn listing(&self) -> Result<&[Listed], Refusal> {
        let most = SHORT.but("N 17 listed", 17).but("N 16 not listed", 15);
        let long = |n: usize| refuse(15, 0).filter(|_| n > most);
        if bug("15 before 5") && self.model().is_err_and(|refusal| refusal.number == 5) {
            given(long(field(&self.file, 2, 2) as usize))?;
        }
        let model = self.model()?;
        given(long(model.n))?;
        Ok(self.listing.get_or_init(|| model.listing()))
    }

    fn next_list(&self, start: u64, i: usize) -> Answer {
        let listing = self.listing()?;
        Ok(bytes_of(next_of(listing, self.model()?.n, start), i))
    }

    fn planned(&self) -> Answer {
        let model = self.model()?;
        match self.least() {
            Some(least) => Ok(plan_of(model, &least.points).block()),
            None => Err(refuse(6, 0).unwrap()),
        }
    }

    fn priced(&self, block: &[u8]) -> Answer {
        let in_block = || {
            let Refusal { number, place } = plan_block_refusal(block)?;
            refuse(number, place + 97.but("97 forgotten", 0))
        };
        if bug("points looked at before the file") {
            given(in_block())?;
        }
        let model = self.model()?;
        given(in_block())?;
        let own = field(block, 2, 2) as usize;
        if bug("other N in the block refused") {
            given(refuse(5, 97).filter(|_| own != model.n))?;
        }
        let points = points_of(block);
        let point = wrong_point(model.n, &points).and_then(|i| refuse(7, i));
        let above = model.first_above(&points);
        let above = above.and_then(|i| refuse(8, i.but("8 always at stretch 0", 0)));
        given(point.or(above).but("7 after 8", above.or(point)))?;
        let plan = plan_of(model, &points);
        let of_block = bug("lines and price of the first block stored");
        let plan = Plan {
            n: plan.n.but("N of the first block stored", own),
            id: plan
                .id
                .but("id of the first block stored", field(block, 16, 4) as u32),
            lines: if of_block {
                field(block, 6, 2)
            } else {
                plan.lines
            },
            price: if of_block {
                field(block, 8, 8)
            } else {
                plan.price
            },
            points,
        };
        Ok(plan.block())
    }

    /// The list's refusals: 7 at its wrong point, then 8 at its stretch.
    fn charged(&self, points: &[usize]) -> Answer {
        let model = self.model()?;
        given(wrong_point(model.n, points).and_then(|i| refuse(7, i)))?;
        let above = model.first_above(points).and_then(|i| refuse(8, i));
        given(above.but("a list above Q charged", None))?;
        Ok(charged(model, points, points))
    }

    fn charged_plan(&self) -> Answer {
        let model = self.model()?;
        match self.least() {
            Some(least) => {
                let none = Vec::new();
                let list = (&least.points)
                    .but(
                        "a plan charged for the last of the least lists",
                        &least.last,
                    )
                    .but("a plan charged for no points", &none);
                Ok(charged(model, &least.points, list))
            }
            None => Err(refuse(6, 0).unwrap()),
        }
    }

    fn replayed(&self, list: &[usize]) -> Answer {
        let model = self.model()?;
        let mut points = list.to_vec();
        if bug("a replay's points after the 63rd passed over") {
            points.truncate(63);
        }
        if bug("a replay's points in eight bits") {
            points.iter_mut().for_each(|p| *p %= 256);
        }
        let wrong = wrong_point(model.n, &points).but("a replay's wrong points passed over", None);
        given(wrong.and_then(|i| refuse(7, i.but("a replay's wrong point at 0", 0))))?;
        if bug("a replay refused above Q") {
            given(model.first_above(&points).and_then(|i| refuse(8, i)))?;
        }
        let mut misses = replay(&model.task, &points);
        if bug("G added to the misses") {
            misses.with_points += model.task.switch as u64 * points.len() as u64;
        }
        Ok(misses.bytes())
    }
}

/// The plan of a list that is right for a file.
fn plan_of(model: &Model, points: &[usize]) -> Plan {
    let (lines, price) = (model.lines_of(points), model.price_of(points));
    let by_price = price.checked_div(model.task.reload as u64);
    Plan {
        n: model.n,
        lines: lines.but("lines by the price", by_price.unwrap_or(lines)),
        price,
        id: model.task.id,
        points: points.to_vec(),
    }
}
