//! Which interrupter each reload is charged to.

use super::bytes::words;
use super::files::Task;
use super::lines::{add_all, common, empty_set, size, Set, LINES};
use super::regions::Model;
use crate::bugs::{bug, But};

pub const CHARGES: usize = 32;

/// The lines that each interrupter touches by itself.
fn touched_by_each(task: &Task) -> Vec<Set> {
    let mut blocks: Vec<&Vec<u32>> = task.interrupters.iter().map(|r| &r.numbers).collect();
    if bug("interrupters that read nothing not counted") {
        blocks.retain(|numbers| !numbers.is_empty());
    }
    let lines_of = |numbers: &Vec<u32>| {
        let mut set = empty_set();
        for &m in numbers {
            let line = task.line_of(m);
            let line = line.but("charged for numbers of the range", Some(task.remainder(m)));
            if let Some(line) = line {
                set[line] = true;
            }
        }
        set
    };
    blocks.into_iter().map(lines_of).collect()
}

/// The lines of each interrupter that no earlier one touches.
pub fn own_lines(task: &Task) -> Vec<Set> {
    let mut touched = touched_by_each(task);
    if bug("charged to every one that touches") {
        return touched;
    }
    if bug("charged to the last that touches") {
        touched.reverse();
    }
    let mut taken = empty_set();
    let mut own = Vec::new();
    for lines in touched {
        own.push((0..LINES).map(|c| lines[c] && !taken[c]).collect());
        add_all(&mut taken, &lines);
    }
    if bug("charged to the last that touches") {
        own.reverse();
    }
    if bug("charged to the one after") && !own.is_empty() {
        own.rotate_right(1);
    }
    own
}

/// What each interrupter is charged for a list, once for each stretch that loads a line.
pub fn charges(model: &Model, points: &[usize]) -> [u64; CHARGES] {
    let mut charges = [0; CHARGES];
    let mut loaded: Vec<Set> = Vec::new();
    for (a, b) in model.stretches(points) {
        loaded.push(model.loaded(a, b));
    }
    if bug("charged once for the task") {
        let mut all = empty_set();
        loaded.iter().for_each(|lines| add_all(&mut all, lines));
        loaded = vec![all];
    }
    if bug("the first stretch that loads not charged") {
        let first = loaded.iter().position(|lines| size(lines) > 0);
        first.map(|i| loaded.remove(i));
    }
    for (i, own) in own_lines(&model.task).iter().enumerate() {
        for lines in &loaded {
            charges[i] +=
                size(&common(lines, own)).but("lines that aren't loaded charged", size(own));
        }
        charges[i] = charges[i].but("charges in eight bits", charges[i] % 256);
    }
    if bug("charge 31 left out") {
        charges[CHARGES - 1] = 0;
    }
    if bug("a switch charged as a line") && model.task.switch > 0 {
        charges[0] += points.len() as u64;
    }
    if bug("charges from M on not zero") {
        charges[model.task.interrupters.len()..].fill(1);
    }
    charges
}

/// Lines, price and charges, in 34 words of eight bytes.
pub fn charged(model: &Model, points: &[usize], list: &[usize]) -> Vec<u8> {
    let (lines, price) = (model.lines_of(points), model.price_of(points));
    let reloads = model.task.reload as u64 * lines;
    let mut numbers = vec![lines, price.but("a charged price without G", reloads)];
    numbers.extend(charges(model, list));
    words(&numbers)
}
