//! Every call on one file, whole or damaged.

use super::Trial;
use crate::driver::random_side;
use crate::inputs::damage::damage;
use crate::inputs::numbers::{out_len, random_k, random_line, random_region, random_start};
use crate::inputs::points::{random_list, random_points_block};
use crate::inputs::tasks::{random_task, renumbered, renumbered_each};
use crate::pages::Side;
use crate::reference::bytes::{field, BLOCK};
use crate::reference::calls::{points_in, Answer, Call, Reference};
use crate::reference::charges::charges;
use crate::reference::files::{Task, MOST_BLOCKS};
use crate::reference::plans::{points_of, wrong_point};
use crate::reference::seeds::Request;
use crate::watch;

/// A listing of fewer lists is leafed through.
const LEAFED: usize = 40;

/// A file, and what to ask about it.
struct Asked {
    reference: Reference,
    /// The file's task; that before it was damaged where the file is refused.
    task: Task,
    /// Lists of points that are worth trying.
    good: Vec<Vec<usize>>,
}

impl Asked {
    fn n(&self) -> usize {
        self.task.blocks.len()
    }

    fn accepted(&self) -> bool {
        self.reference.model().is_ok()
    }
}

impl Trial<'_> {
    pub fn file(&mut self) -> Result<(), String> {
        let asked = self.lend_some_file();
        let reference = &asked.reference;
        if !reference.agrees_with_itself() {
            return Err(
                "the reference finds another least price or list by trying all lists than by recursion"
                    .to_string(),
            );
        }
        match reference.model() {
            Ok(model) => {
                self.counts.scratch(model);
                self.counts.arming(model);
                self.counts.switch(model);
            }
            Err(_) => self.counts.too_far_a_range(&reference.file),
        }
        self.plan(&asked)?;
        self.prices(&asked)?;
        self.useful(&asked)?;
        self.searches(&asked)?;
        self.regions(&asked)?;
        self.charges(&asked)?;
        self.replays(&asked)?;
        self.lists(&asked)?;
        if asked.accepted() && self.rng.percent(40) {
            self.alike(&asked)?;
        }
        Ok(())
    }

    fn lend_some_file(&mut self) -> Asked {
        let rng = &mut self.rng;
        let drawn = rng.percent(5);
        let mut task = if drawn {
            Request::random(rng).task()
        } else {
            random_task(rng)
        };
        self.counts.add_if(drawn, "file from a seed");
        let mut file = task.file();
        let mut kind = if drawn { "from a seed" } else { "whole" }.to_string();
        if rng.percent(35) {
            kind = damage(rng, &mut file);
        }
        let side = random_side(rng);
        watch::file(Some(self.case), &kind, &file);
        self.driver.lend_file(&file, side);
        self.counts.add(match side {
            Side::End => "end-aligned file",
            Side::Start => "start-aligned file",
            Side::Odd => "file at an odd place",
        });
        self.counts
            .add_if(file.len() == MOST_BLOCKS * BLOCK, "file of 97 blocks");
        let reference = Reference::new(&file);
        if let Ok(model) = reference.model() {
            task = model.task.clone();
        }
        let mut good = Vec::new();
        if let Some(least) = reference.least() {
            good.push(least.points.clone());
            good.push(least.last.clone());
        }
        Asked {
            reference,
            task,
            good,
        }
    }

    /// Compares one call, and counts its refusal.
    fn ask(&mut self, asked: &Asked, name: &str, call: &Call) -> Result<Answer, String> {
        let reference = &asked.reference;
        let len = out_len(&mut self.rng, reference.out_len(call));
        let answer = self.driver.check(&mut self.rng, reference, call, len)?;
        let file = &reference.file;
        let n = if file.len() >= BLOCK {
            field(file, 2, 2)
        } else {
            0
        };
        self.counts.refusal(name, &answer, n as usize);
        Ok(answer)
    }

    fn plan(&mut self, asked: &Asked) -> Result<(), String> {
        match (
            self.ask(asked, "plan", &Call::Plan)?,
            asked.reference.model(),
        ) {
            (Ok(block), _) => self.counts.plan(&asked.reference, &points_of(&block)),
            (Err(refusal), Ok(model)) if refusal.number == 6 => self.counts.no_plan(model),
            _ => {}
        }
        Ok(())
    }

    fn prices(&mut self, asked: &Asked) -> Result<(), String> {
        for _ in 0..if asked.accepted() { 4 } else { 2 } {
            let (block, said) = random_points_block(&mut self.rng, asked.n(), &asked.good);
            let answer = self
                .ask(asked, "price", &Call::Price(&block))
                .map_err(|text| format!("points: {said}\n{text}"))?;
            match (answer, asked.reference.model()) {
                (Ok(_), Ok(model)) => self.counts.price(model, &block),
                (Err(refusal), Ok(model)) if refusal.number == 8 => {
                    self.counts.above(model, &block, refusal.place);
                }
                _ => {}
            }
        }
        Ok(())
    }

    fn useful(&mut self, asked: &Asked) -> Result<(), String> {
        for _ in 0..if asked.accepted() { 4 } else { 1 } {
            let k = random_k(&mut self.rng, asked.n());
            let _ = self.ask(asked, "useful", &Call::Useful(k))?;
        }
        Ok(())
    }

    fn searches(&mut self, asked: &Asked) -> Result<(), String> {
        for _ in 0..if asked.accepted() { 6 } else { 1 } {
            let line = random_line(&mut self.rng, &asked.task);
            let k = random_k(&mut self.rng, asked.n());
            if self.ask(asked, "next", &Call::NextRead(line, k))?.is_ok() {
                self.counts.search(&asked.task, line, k);
            }
        }
        Ok(())
    }

    fn regions(&mut self, asked: &Asked) -> Result<(), String> {
        let times = match (asked.accepted(), asked.n()) {
            (false, _) => 1,
            (true, ..=40) => 6,
            (true, _) => 8,
        };
        for _ in 0..times {
            let (a, b) = random_region(&mut self.rng, asked.n());
            let answer = self.ask(asked, "region", &Call::Region(a, b))?;
            if let (Ok(_), Ok(model)) = (answer, asked.reference.model()) {
                self.counts.region(model, a, b);
            }
        }
        Ok(())
    }

    /// The plan's charges, and those of some lists; they add up to the lines, within the limit or not.
    fn charges(&mut self, asked: &Asked) -> Result<(), String> {
        let planned = self.ask(asked, "charged plan", &Call::ChargedPlan)?;
        if let (Ok(_), Ok(model), Some(least)) =
            (planned, asked.reference.model(), asked.reference.least())
        {
            self.counts.charged(model, &least.points);
        }
        for _ in 0..if asked.accepted() { 3 } else { 1 } {
            let list = random_list(&mut self.rng, asked.n(), &asked.good);
            let answer = self
                .ask(asked, "charged", &Call::Charged(&list))
                .map_err(|text| format!("points: {:?}\n{text}", &list[..list.len().min(100)]))?;
            let Ok(model) = asked.reference.model() else {
                continue;
            };
            let points = points_in(&list);
            if wrong_point(model.n, &points).is_some() {
                continue;
            }
            let whole: u64 = charges(model, &points).iter().sum();
            if whole != model.lines_of(&points) {
                return Err(format!(
                    "the reference: the charges of {points:?} add up to {whole} and not to its {} lines",
                    model.lines_of(&points)
                ));
            }
            if answer.is_ok() {
                self.counts.charged(model, &points);
            }
        }
        Ok(())
    }

    fn replays(&mut self, asked: &Asked) -> Result<(), String> {
        for _ in 0..if asked.accepted() { 4 } else { 1 } {
            let list = random_list(&mut self.rng, asked.n(), &asked.good);
            let answer = self
                .ask(asked, "replay", &Call::Replay(&list))
                .map_err(|text| format!("points: {:?}\n{text}", &list[..list.len().min(100)]))?;
            self.counts.add_if(list.len() > 63, "list above 63 points");
            if let (Ok(_), Ok(model)) = (answer, asked.reference.model()) {
                let points = points_in(&list);
                if !model.adds_its_lines(&points) {
                    return Err(format!(
                        "the reference: {points:?} adds to the misses other than its {} lines",
                        model.lines_of(&points)
                    ));
                }
                self.counts.replay(model, &points);
            }
        }
        Ok(())
    }

    /// Some next lists, and the whole listing where it is not long.
    fn lists(&mut self, asked: &Asked) -> Result<(), String> {
        let numbers: Vec<u64> = match asked.reference.listing() {
            Ok(listing) => listing.iter().map(|list| list.number).collect(),
            Err(_) => Vec::new(),
        };
        for _ in 0..if asked.accepted() { 4 } else { 1 } {
            let start = random_start(&mut self.rng, asked.n(), &numbers);
            let i = match self.rng.below(8) {
                0 => random_k(&mut self.rng, 16),
                _ => self.rng.below(asked.n()),
            };
            let answer = self.ask(asked, "list", &Call::NextList(start, i))?;
            self.counts.list(&asked.reference, start, &answer);
        }
        if asked.reference.listing().is_ok() && numbers.len() < LEAFED && self.rng.percent(25) {
            self.leaf_through(asked)?;
        }
        Ok(())
    }

    /// From 0, and then from one above the last number: the lowest price is the plan's.
    fn leaf_through(&mut self, asked: &Asked) -> Result<(), String> {
        let mut ask = |call: &Call| {
            let len = asked.reference.out_len(call);
            self.driver
                .check(&mut self.rng, &asked.reference, call, len)
        };
        let (mut start, mut lowest) = (0, None);
        while let Ok(found) = ask(&Call::NextList(start, 0))? {
            if field(&found, 0, 8) == 0 {
                break;
            }
            let price = field(&found, 24, 8);
            lowest = Some(lowest.map_or(price, |least: u64| least.min(price)));
            start = field(&found, 8, 8) + 1;
        }
        let planned = ask(&Call::Plan)?;
        let right = match &planned {
            Ok(block) => lowest == Some(field(block, 8, 8)),
            Err(refusal) => refusal.number == 6 && lowest.is_none(),
        };
        if !right {
            return Err(format!(
                "expected: the price of the plan lowest in the listing\ngot: {lowest:?}"
            ));
        }
        self.counts.add_if(planned.is_ok(), "listing to its end");
        self.counts.add_if(planned.is_err(), "empty listing");
        Ok(())
    }

    /// Every call answers alike where the interrupters have other numbers, orders and ids, and touch the same lines; charges do where each
    /// touches its own lines again.
    fn alike(&mut self, asked: &Asked) -> Result<(), String> {
        let (rng, n) = (&mut self.rng, asked.n());
        let file = &asked.reference.file;
        let other = renumbered(rng, &asked.task).file();
        self.counts.add_if(*file != other, "others, same lines");
        let (block, _) = random_points_block(rng, n, &asked.good);
        let list = random_list(rng, n, &asked.good);
        let (a, b) = random_region(rng, n);
        for call in [
            Call::Plan,
            Call::Price(&block),
            Call::Useful(random_k(rng, n)),
            Call::NextRead(random_line(rng, &asked.task), random_k(rng, n)),
            Call::Region(a, b),
            Call::Replay(&list),
        ] {
            let len = out_len(rng, asked.reference.out_len(&call));
            self.driver.check_alike(rng, [file, &other], &call, len)?;
        }
        let other = renumbered_each(rng, &asked.task).file();
        self.counts.add_if(*file != other, "each its own lines");
        for call in [Call::ChargedPlan, Call::Charged(&list)] {
            let len = out_len(rng, asked.reference.out_len(&call));
            self.driver.check_alike(rng, [file, &other], &call, len)?;
        }
        Ok(())
    }
}
