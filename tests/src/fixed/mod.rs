//! The document's own cases, asked of the planner and of the reference, and a change of every
//! bit of File Seven and of one plan block.

mod deadlines;
mod joins;
mod traces;

use crate::driver::Driver;
use crate::inputs::known::{largest, reads, seven};
use crate::pages::Side;
use crate::reference::bytes::{field, fnv1a, put, seal, words, BLOCK};
use crate::reference::calls::{points_in, Answer, Call, Reference};
use crate::reference::files::{Scratch, Task};
use crate::reference::lines::{empty_set, next_read, replay, set_bytes, Found, Misses};
use crate::reference::plans::{points_of, Plan};
use crate::rng::Rng;
use crate::watch;

struct Fixed<'a> {
    driver: &'a mut Driver,
    rng: Rng,
    reference: Reference,
}

impl Fixed<'_> {
    fn file(&mut self, kind: &str, file: &[u8]) {
        watch::file(None, kind, file);
        self.reference = Reference::new(file);
        self.driver.lend_file(file, Side::End);
    }

    fn task(&mut self, kind: &str, task: &Task) {
        self.file(kind, &task.file());
    }

    fn check(&mut self, call: &Call) -> Result<Answer, String> {
        let len = self.reference.out_len(call);
        self.driver.check(&mut self.rng, &self.reference, call, len)
    }

    fn anything(&mut self, call: &Call) -> Result<(), String> {
        self.check(call).map(|_| ())
    }

    fn refused(&mut self, call: &Call, number: u32, place: usize) -> Result<(), String> {
        match self.check(call)? {
            Err(r) if r.number == number && r.place == place => Ok(()),
            _ => Err(format!(
                "the reference doesn't refuse with {number} at {place}"
            )),
        }
    }

    fn planned(&mut self, right: &[usize], price: u64) -> Result<(), String> {
        let points = points_of(&self.plans_something()?);
        if points == right && self.reference.least().unwrap().price == price {
            return Ok(());
        }
        Err(format!(
            "expected: {right:?} at price {price}\ngot: {points:?}, and the reference agrees"
        ))
    }

    fn plans_something(&mut self) -> Result<Vec<u8>, String> {
        self.check(&Call::Plan)?
            .map_err(|_| "the reference plans nothing".to_string())
    }

    fn set(&mut self, call: &Call, lines: &[usize]) -> Result<(), String> {
        let mut set = empty_set();
        for &c in lines {
            set[c] = true;
        }
        match self.check(call)? {
            Ok(answer) if answer[..64] == set_bytes(&set) => Ok(()),
            _ => Err(format!("the reference doesn't give {lines:?}")),
        }
    }

    fn next(
        &mut self,
        line: usize,
        k: usize,
        number: Option<u32>,
        looked: usize,
    ) -> Result<(), String> {
        self.anything(&Call::NextRead(line, k))?;
        let right = Found { number, looked };
        let task = &self.reference.model().unwrap().task;
        match next_read(task, line, k) {
            found if found == right => Ok(()),
            found => Err(format!(
                "line {line} after block {k}: the reference finds {found:?} and not {right:?}"
            )),
        }
    }

    fn misses(&mut self, list: &[u16], alone: u64, with_points: u64) -> Result<(), String> {
        self.anything(&Call::Replay(list))?;
        let right = Misses { alone, with_points };
        let task = &self.reference.model().unwrap().task;
        match replay(task, &points_in(list)) {
            found if found == right => Ok(()),
            found => Err(format!(
                "points {list:?}: the reference finds {found:?} and not {right:?}"
            )),
        }
    }

    fn length(&mut self, a: usize, b: usize, right: u64) -> Result<(), String> {
        match self.check(&Call::Region(a, b))? {
            Ok(answer) if field(&answer, 64, 8) == right => Ok(()),
            _ => Err(format!(
                "the reference doesn't give ({a}, {b}) the length {right}"
            )),
        }
    }

    /// The lengths of a list's stretches.
    fn lengths(&mut self, points: &[usize], right: &[u64]) -> Result<(), String> {
        let stretches = self.reference.model().unwrap().stretches(points);
        if stretches.len() != right.len() {
            return Err(format!("{points:?} has not {} stretches", right.len()));
        }
        for (&(a, b), &length) in stretches.iter().zip(right) {
            self.length(a, b, length)?;
        }
        Ok(())
    }

    /// The whole listing: each list's number and price.
    fn lists(&mut self, right: &[(u64, u64)]) -> Result<(), String> {
        let (mut start, mut listing) = (0, Vec::new());
        while let Ok(found) = self.check(&Call::NextList(start, 0))? {
            if field(&found, 0, 8) == 0 {
                break;
            }
            listing.push((field(&found, 8, 8), field(&found, 24, 8)));
            start = field(&found, 8, 8) + 1;
        }
        if listing == right {
            return Ok(());
        }
        Err(format!(
            "expected: {right:?}\ngot: {listing:?}, and the reference agrees"
        ))
    }

    /// Into an output that is longer by so many bytes than it should be.
    fn join(&mut self, kind: &str, files: [&[u8]; 2], more: isize) -> Result<Answer, String> {
        watch::files(None, kind, &files);
        self.reference = Reference::new(files[0]);
        self.driver.lend_file(files[0], Side::End);
        let call = Call::Join(files[1]);
        let len = self.reference.out_len(&call).saturating_add_signed(more);
        let len = len.min(self.driver.most_made());
        self.driver
            .check(&mut self.rng, &self.reference, &call, len)
    }

    fn joined(&mut self, kind: &str, files: [&[u8]; 2], right: &Task) -> Result<(), String> {
        match self.join(kind, files, 0)? {
            Ok(file) if file == right.file() => Ok(()),
            _ => Err("the reference doesn't join them so".to_string()),
        }
    }

    fn not_joined(
        &mut self,
        kind: &str,
        files: [&[u8]; 2],
        more: isize,
        right: (u32, usize),
    ) -> Result<(), String> {
        match self.join(kind, files, more)? {
            Err(r) if (r.number, r.place) == right => Ok(()),
            _ => Err(format!(
                "the reference doesn't refuse with {} at {}",
                right.0, right.1
            )),
        }
    }
}

/// A plan block with some numbers.
fn plan_block(n: usize, points: &[usize]) -> Vec<u8> {
    let plan = Plan {
        n,
        lines: 8,
        price: 7,
        id: 9,
        points: points.to_vec(),
    };
    plan.block()
}

fn one_block(time: u32, limit: u32) -> Task {
    Task {
        lines: 4,
        limit,
        reload: 10,
        id: 1,
        scratch: Scratch::NONE,
        second: 0,
        switch: 0,
        blocks: vec![reads(time, &[0])],
        interrupters: Vec::new(),
    }
}

pub fn run(driver: &mut Driver) -> Result<(), String> {
    for (text, check) in [
        ("", 0x811c_9dc5),
        ("a", 0xe40c_292c),
        ("b", 0xe70c_2de5),
        ("foobar", 0xbf9c_f968),
    ] {
        if fnv1a(text.as_bytes()) != check {
            return Err(format!("the reference's FNV-1a of {text:?} is wrong"));
        }
    }

    let mut f = Fixed {
        driver,
        rng: Rng::new(0, 0),
        reference: Reference::new(&[]),
    };
    f.task("File Seven, Q 60", &seven(60));
    for k in 0..=4 {
        f.set(
            &Call::Useful(k),
            if (1..=3).contains(&k) { &[0] } else { &[] },
        )?;
    }
    f.next(0, 1, Some(0), 2)?;
    f.next(1, 1, Some(5), 3)?;
    f.next(2, 2, None, 3)?;
    f.next(3, 0, None, 6)?;
    f.next(4, 0, None, 6)?;
    f.next(512, 1, None, 4)?;
    f.next(0, 4, None, 0)?;
    f.set(&Call::Region(1, 3), &[0])?;
    f.set(&Call::Region(1, 2), &[])?;
    f.set(&Call::Region(3, 4), &[0])?;
    f.planned(&[1, 2], 10)?;
    f.refused(&Call::Price(&plan_block(4, &[1])), 8, 1)?;
    f.refused(&Call::Price(&plan_block(4, &[2, 2])), 5, 97)?;
    f.refused(&Call::Useful(5), 7, 0)?;
    f.refused(&Call::NextRead(0, 5), 7, 0)?;
    f.refused(&Call::NextRead(4, 5), 7, 0)?;
    f.refused(&Call::Region(2, 2), 7, 0)?;
    f.misses(&[], 4, 4)?;
    f.misses(&[1, 2], 4, 5)?;
    f.misses(&[1, 2, 3], 4, 6)?;
    f.misses(&[3], 4, 5)?;
    f.refused(&Call::Replay(&[0]), 7, 0)?;
    f.refused(&Call::Replay(&[4]), 7, 0)?;
    f.refused(&Call::Replay(&[2, 2]), 7, 1)?;
    f.refused(&Call::Replay(&[1, 3, 2]), 7, 2)?;
    f.refused(&Call::Replay(&[1, 2, 3, 4]), 7, 3)?;
    let all: Vec<u16> = (1..=65535).collect();
    f.refused(&Call::Replay(&all), 7, 3)?;
    f.refused(&Call::Replay(&vec![1; 70000]), 7, 1)?;
    let far = [
        255,
        256,
        65535,
        65536,
        65537,
        1 << 32,
        (1 << 32) + 1,
        1 << 63,
        usize::MAX - 1,
        usize::MAX,
    ];
    let near: Vec<usize> = (0..8).chain(far).collect();
    for &a in &near {
        f.anything(&Call::Useful(a))?;
        for &b in &near {
            f.anything(&Call::Region(a, b))?;
            f.anything(&Call::NextRead(a, b))?;
        }
    }
    f.task("File Seven, Q 80", &seven(80));
    f.planned(&[], 0)?;
    f.task("File Seven, Q 70", &seven(70));
    f.planned(&[1], 10)?;
    f.task("File Seven, Q 40", &seven(40));
    f.planned(&[1, 2, 3], 20)?;
    f.task("File Seven, Q 30", &seven(30));
    f.planned(&[1, 2, 3], 20)?;
    f.task("File Seven, Q 29", &seven(29));
    f.refused(&Call::Plan, 6, 0)?;
    f.misses(&[1], 4, 5)?;
    f.misses(&[1, 2, 3], 4, 6)?;

    // The table that block 1 reads is read once more, in block 3.
    let mut task = seven(40);
    task.blocks = vec![reads(20, &[0]), reads(20, &[2]), reads(20, &[0])];
    f.task("a last read, Q 40", &task);
    f.set(&Call::Region(0, 3), &[])?;
    f.set(&Call::Region(1, 2), &[])?;
    f.set(&Call::Region(1, 3), &[0])?;
    f.set(&Call::Region(2, 3), &[0])?;
    f.planned(&[1, 2], 10)?;
    task.interrupters = vec![reads(0, &[2])];
    f.task("a last read that nobody strikes, Q 40", &task);
    f.set(&Call::Region(2, 3), &[])?;
    f.planned(&[1], 0)?;

    f.task("one basic block, Q 60", &one_block(60, 60));
    f.planned(&[], 0)?;
    f.task("one basic block, Q 59", &one_block(60, 59));
    f.refused(&Call::Plan, 6, 0)?;

    let mut task = seven(60);
    task.lines = 512;
    task.blocks = vec![
        reads(1, &[300, 512]),
        reads(1, &[512, 300]),
        reads(1, &[300, 512]),
    ];
    task.interrupters = vec![reads(0, &[300, 1024])];
    f.task("numbers 300 and 512, S 512", &task);
    f.set(&Call::Useful(1), &[0, 300])?;
    f.set(&Call::Region(1, 2), &[0, 300])?;
    f.next(0, 1, Some(512), 1)?;
    f.next(300, 1, Some(300), 2)?;
    f.next(44, 1, None, 4)?;

    scratch(&mut f)?;
    armed(&mut f)?;
    switched(&mut f)?;
    charged(&mut f)?;
    lists(&mut f)?;

    let most = largest();
    f.task("the largest file", &most);
    f.plans_something()?;
    let all: Vec<u16> = (1..64).collect();
    f.anything(&Call::Replay(&all))?;
    f.anything(&Call::Replay(&[]))?;
    f.anything(&Call::ChargedPlan)?;
    f.anything(&Call::Charged(&all))?;
    f.refused(&Call::Charged(&[&all[..], &[64]].concat()), 7, 63)?;
    f.refused(&Call::Replay(&[&all[..], &[64]].concat()), 7, 63)?;
    for k in [0, 1, 32, 63, 64] {
        f.anything(&Call::Useful(k))?;
        for line in [0, 44, 300, 511, 512] {
            f.anything(&Call::NextRead(line, k))?;
        }
    }
    let mut task = most.clone();
    task.blocks.push(reads(1, &[]));
    task.interrupters.pop();
    f.task("N 65", &task);
    f.refused(&Call::Plan, 3, 0)?;
    let mut task = most.clone();
    task.blocks.pop();
    task.interrupters.push(reads(1, &[]));
    f.task("M 33", &task);
    f.refused(&Call::Plan, 3, 0)?;
    let mut task = most.clone();
    task.lines = 513;
    f.task("S 513", &task);
    f.refused(&Call::Plan, 3, 0)?;
    let mut file = most.file();
    put(&mut file, 5 * BLOCK + 2, 2, 125);
    seal(&mut file[5 * BLOCK..6 * BLOCK]);
    f.file("r 125 in block 5", &file);
    f.refused(&Call::Plan, 5, 5)?;
    let mut task = most;
    task.blocks.push(reads(1, &[]));
    f.task("50,176 bytes", &task);
    f.refused(&Call::Plan, 1, 0)?;

    joins::run(&mut f)?;
    traces::run(&mut f)?;
    deadlines::run(&mut f)?;
    changed_bits(&mut f)
}

fn seven_with(first: u32, count: u32) -> Task {
    Task {
        scratch: Scratch { first, count },
        ..seven(60)
    }
}

/// A range of memory blocks that bypass the cache.
fn scratch(f: &mut Fixed) -> Result<(), String> {
    f.task("File Seven, 0 bypasses the cache", &seven_with(0, 1));
    for k in 0..=4 {
        f.set(&Call::Useful(k), &[])?;
    }
    f.next(0, 1, None, 4)?;
    f.next(1, 1, Some(5), 3)?;
    f.next(1, 0, Some(1), 2)?;
    f.set(&Call::Region(1, 4), &[])?;
    f.planned(&[1], 0)?;
    f.task("File Seven, 4 and no read bypasses", &seven_with(4, 1));
    f.set(&Call::Useful(1), &[0])?;
    f.set(&Call::Region(1, 4), &[])?;
    f.task("File Seven, 1 and 2 bypass", &seven_with(1, 2));
    f.set(&Call::Useful(1), &[0])?;
    f.set(&Call::Region(1, 4), &[0])?;
    f.next(1, 0, Some(5), 5)?;
    f.next(2, 0, None, 6)?;
    f.task("File Seven, an empty range", &seven_with(0, 0));
    f.planned(&[1, 2], 10)?;
    for (first, count) in [(1, 0), (0, u32::MAX), (1, u32::MAX), (u32::MAX, 0)] {
        f.task(&format!("{count} from {first}"), &seven_with(first, count));
        f.plans_something()?;
    }

    // The last number that there is, alone in a range and beside one.
    let mut task = seven_with(u32::MAX, 1);
    task.lines = 512;
    task.blocks = vec![
        reads(20, &[u32::MAX, u32::MAX - 1]),
        reads(20, &[u32::MAX, u32::MAX - 1]),
    ];
    task.interrupters = vec![reads(0, &[510, 511])];
    task.limit = 30;
    f.task("4294967295 bypasses", &task);
    f.set(&Call::Useful(1), &[510])?;
    f.next(511, 0, None, 4)?;
    f.planned(&[1], 10)?;
    task.scratch = Scratch {
        first: u32::MAX - 1,
        count: 1,
    };
    f.task("4294967294 bypasses", &task);
    f.set(&Call::Useful(1), &[511])?;
    task.scratch.count = 2;
    f.task("both bypass", &task);
    f.set(&Call::Useful(1), &[])?;
    f.planned(&[1], 0)?;

    for (first, count) in [
        (u32::MAX, 2),
        (2, u32::MAX),
        (1 << 31, (1 << 31) + 1),
        (u32::MAX, u32::MAX),
    ] {
        f.task(&format!("{count} from {first}"), &seven_with(first, count));
        f.refused(&Call::Plan, 3, 0)?;
    }
    Ok(())
}

/// File Seven at Q 60 with this Q2 and these blocks armed.
fn armed_seven(second: u32, armed: &[usize]) -> Task {
    let mut task = seven(60);
    task.second = second;
    for &k in armed {
        task.blocks[k - 1].armed = true;
    }
    task
}

/// A second limit where the sampler is armed.
fn armed(f: &mut Fixed) -> Result<(), String> {
    type Row<'a> = (&'a [usize], u32, Option<(&'a [usize], u64)>);
    let all = &[1, 2, 3, 4];
    let rows: [Row; 15] = [
        (&[], 0, Some((&[1, 2], 10))),
        (&[], u32::MAX, Some((&[1, 2], 10))),
        (&[1], 20, Some((&[1, 2], 10))),
        (&[1], 19, None),
        (&[3], 30, Some((&[1, 2, 3], 20))),
        (&[3], 29, None),
        (&[3], 50, Some((&[1, 2], 10))),
        (&[4], 30, Some((&[3], 10))),
        (&[4], 50, Some((&[1, 2], 10))),
        (&[2, 3], 30, Some((&[1, 2, 3], 20))),
        (all, 29, None),
        (all, 39, Some((&[1, 2, 3], 20))),
        (all, 40, Some((&[1, 2, 3], 20))),
        (all, 60, Some((&[1, 2], 10))),
        (all, 70, Some((&[1, 2], 10))),
    ];
    for (blocks, second, right) in rows {
        f.task(
            &format!("File Seven, {blocks:?} armed, Q2 {second}"),
            &armed_seven(second, blocks),
        );
        match right {
            Some((points, price)) => f.planned(points, price)?,
            None => f.refused(&Call::Plan, 6, 0)?,
        }
    }
    f.task("File Seven, block 4 armed", &armed_seven(30, &[4]));
    f.refused(&Call::Price(&plan_block(4, &[2])), 8, 1)?;
    f.anything(&Call::Price(&plan_block(4, &[3])))?;
    f.task("File Seven, block 1 armed", &armed_seven(19, &[1]));
    f.refused(&Call::Price(&plan_block(4, &[1])), 8, 0)?;

    for (block, value, place) in [
        (1, 2, 1),
        (4, 255, 4),
        (3, 3, 3),
        (5, 1, 5),
        (5, 2, 5),
        (5, 255, 5),
    ] {
        let mut file = armed_seven(30, &[4]).file();
        file[block * BLOCK + 1] = value;
        seal(&mut file[block * BLOCK..(block + 1) * BLOCK]);
        f.file(&format!("byte 1 of block {block} is {value}"), &file);
        f.refused(&Call::Plan, 5, place)?;
    }
    Ok(())
}

/// File Seven with this Q and G.
fn switched_seven(limit: u32, switch: u32) -> Task {
    Task {
        switch,
        ..seven(limit)
    }
}

/// A switch at each point.
fn switched(f: &mut Fixed) -> Result<(), String> {
    /// Points, lines, price, and the stretches' lengths.
    type Row<'a> = (u32, u32, Option<(&'a [usize], u64, u64, &'a [u64])>);
    let two = Some((&[2, 3][..], 2, 30, &[40, 35, 35][..]));
    let none = Some((&[][..], 0, 0, &[80][..]));
    let rows: [Row; 15] = [
        (5, 80, none),
        (5, 79, Some((&[1], 1, 15, &[20, 75]))),
        (5, 60, Some((&[2], 1, 15, &[40, 55]))),
        (5, 55, Some((&[2], 1, 15, &[40, 55]))),
        (5, 54, two),
        (5, 50, two),
        (5, 40, two),
        (5, 39, Some((&[1, 2, 3], 2, 35, &[20, 25, 35, 35]))),
        (5, 35, Some((&[1, 2, 3], 2, 35, &[20, 25, 35, 35]))),
        (5, 34, None),
        (100, 80, none),
        (100, 79, None),
        (u32::MAX, 80, none),
        (u32::MAX, 79, None),
        (1, 60, Some((&[2], 1, 11, &[40, 51]))),
    ];
    for (g, q, right) in rows {
        f.task(&format!("File Seven, Q {q}, G {g}"), &switched_seven(q, g));
        let Some((points, lines, price, lengths)) = right else {
            f.refused(&Call::Plan, 6, 0)?;
            f.lists(&[])?;
            continue;
        };
        f.planned(points, price)?;
        let block = f.plans_something()?;
        if (field(&block, 6, 2), field(&block, 8, 8)) != (lines, price) {
            return Err(format!("the reference doesn't plan {lines} lines"));
        }
        f.anything(&Call::Price(&block))?;
        f.anything(&Call::ChargedPlan)?;
        f.lengths(points, lengths)?;
    }

    let fitting = [(2, 15), (3, 20), (4, 15), (5, 30), (6, 30), (7, 35)];
    f.task("File Seven, Q 60, G 5, listed", &switched_seven(60, 5));
    f.lists(&fitting)?;
    f.task("File Seven, Q 35, G 5, listed", &switched_seven(35, 5));
    f.lists(&fitting[5..])?;
    f.task("File Seven, Q 80, G 100, listed", &switched_seven(80, 100));
    f.lists(&[(0, 0)])?;

    // A stretch that the switch makes too long by one tick.
    f.task("File Seven, Q 60, G 10", &switched_seven(60, 10));
    f.planned(&[2], 20)?;
    f.refused(&Call::Price(&plan_block(4, &[1])), 8, 1)?;
    f.refused(&Call::Price(&plan_block(4, &[])), 8, 0)?;
    f.task("File Seven, Q 60, G 11", &switched_seven(60, 11));
    f.refused(&Call::Price(&plan_block(4, &[2])), 8, 1)?;
    f.planned(&[3], 21)?;

    // Point 2 costs two reloads, and 1, 3 none: two lines against one point more, and 1, 3 comes first.
    for (g, points, price) in [(1, &[1, 3][..], 2), (2, &[1, 3], 4), (3, &[2], 5)] {
        let task = Task {
            reload: 1,
            switch: g,
            blocks: vec![
                reads(40, &[0]),
                reads(10, &[1, 2]),
                reads(10, &[1, 2]),
                reads(40, &[3]),
            ],
            interrupters: vec![reads(0, &[1, 2])],
            ..seven(55)
        };
        f.task(&format!("two lines or a point, G {g}"), &task);
        f.planned(points, price)?;
    }

    // What isn't in ticks is what it was: lines, charges and misses.
    f.task("File Seven, Q 60, G 5", &switched_seven(60, 5));
    f.misses(&[], 4, 4)?;
    f.misses(&[1, 2], 4, 5)?;
    f.misses(&[1, 2, 3], 4, 6)?;
    f.misses(&[3], 4, 5)?;
    let mut right = vec![2, 35, 2];
    right.resize(34, 0);
    match f.check(&Call::Charged(&[1, 2, 3]))? {
        Ok(answer) if answer == words(&right) => {}
        _ => return Err("the reference doesn't charge 2 lines at 35".to_string()),
    }

    // Nothing is reloaded where 0 bypasses the cache, and a switch is paid for all the same.
    let mut task = seven_with(0, 1);
    task.switch = 5;
    f.task("File Seven, 0 bypasses the cache, G 5", &task);
    f.planned(&[2], 5)?;
    f.lengths(&[2], &[40, 45])?;

    // Q2 is compared with the switch too.
    for (second, right) in [(35, Some((&[3][..], 15))), (34, None)] {
        let mut task = armed_seven(second, &[4]);
        task.switch = 5;
        f.task(&format!("File Seven, 4 armed, Q2 {second}, G 5"), &task);
        match right {
            Some((points, price)) => f.planned(points, price)?,
            None => f.refused(&Call::Plan, 6, 0)?,
        }
    }

    widest_switches(f)?;
    for (at, right) in [(32, true), (33, true), (34, true), (35, true), (36, false)] {
        let mut file = seven(80).file();
        file[at] = 255;
        seal(&mut file[..BLOCK]);
        f.file(&format!("header byte {at} is 255"), &file);
        match right {
            true => f.planned(&[], 0)?,
            false => f.refused(&Call::Plan, 3, 0)?,
        }
    }
    Ok(())
}

/// The most that lengths and prices come to.
fn widest_switches(f: &mut Fixed) -> Result<(), String> {
    let most = u32::MAX;
    let numbers = |i: u32| -> Vec<u32> { (103 * i..103 * (i + 1)).map(|m| m % 512).collect() };
    let block = |word: u32, i: u32| reads(word, &numbers(i % 5));
    let mut task = Task {
        limit: most,
        reload: most,
        switch: most,
        blocks: (0..64).map(|i| block(most, i)).collect(),
        interrupters: (0..5).map(|i| block(i, i)).collect(),
        ..largest()
    };
    f.task("the largest times, R and G", &task);
    let widest = 59 + 512 + 1;
    f.length(5, 64, widest * most as u64)?;
    f.length(0, 64, 64 * most as u64)?;
    f.refused(&Call::Plan, 6, 0)?;

    // Every list fits, and each of its points costs 2^32 - 1.
    task.reload = 0;
    task.blocks.iter_mut().for_each(|block| block.word = 0);
    f.task("the largest G, no times and R 0", &task);
    f.planned(&[], 0)?;
    let all: Vec<usize> = (1..64).collect();
    match f.check(&Call::Price(&plan_block(64, &all)))? {
        Ok(block) if field(&block, 8, 8) == 63 * most as u64 => Ok(()),
        _ => Err("the reference doesn't price 63 of the largest G".to_string()),
    }
}

/// Reloads charged to interrupters: File Seven at Q 60 with interrupters that read these numbers, and the first charges of a list.
fn charged(f: &mut Fixed) -> Result<(), String> {
    type Row<'a> = (&'a [&'a [u32]], &'a [u64]);
    let rows: [Row; 7] = [
        (&[&[4, 1]], &[2]),
        (&[&[1], &[4, 1]], &[0, 2]),
        (&[&[4], &[4, 1]], &[2, 0]),
        (&[&[], &[3], &[8], &[0]], &[0, 0, 2, 0]),
        (&[&[4], &[1]], &[2, 0]),
        (&[&[1], &[4]], &[0, 2]),
        (&[], &[]),
    ];
    for (numbers, right) in rows {
        let mut task = seven(60);
        task.interrupters = numbers.iter().map(|numbers| reads(0, numbers)).collect();
        f.task(
            &format!("File Seven, interrupters reading {numbers:?}"),
            &task,
        );
        let mut words_right = vec![right.iter().sum(), 10 * right.iter().sum::<u64>()];
        words_right.extend(right);
        words_right.resize(34, 0);
        match f.check(&Call::Charged(&[1, 2, 3]))? {
            Ok(answer) if answer == words(&words_right) => {}
            _ => return Err(format!("the reference doesn't charge {right:?}")),
        }
        f.anything(&Call::ChargedPlan)?;
    }
    f.task("File Seven, Q 60", &seven(60));
    f.refused(&Call::Charged(&[1]), 8, 1)?;
    f.refused(&Call::Charged(&[2, 2]), 7, 1)?;
    f.task("File Seven, Q 29", &seven(29));
    f.refused(&Call::ChargedPlan, 6, 0)
}

/// All fitting lists by number.
fn lists(f: &mut Fixed) -> Result<(), String> {
    let from_2 = [(2, 10), (3, 10), (4, 10), (5, 20), (6, 20), (7, 20)];
    let all = [&[(0, 0), (1, 10)], &from_2[..]].concat();
    for (q, right) in [
        (29, &[][..]),
        (30, &from_2[5..]),
        (40, &from_2[4..]),
        (60, &from_2),
        (70, &all[1..]),
        (80, &all),
    ] {
        f.task(&format!("File Seven, Q {q}, listed"), &seven(q));
        f.lists(right)?;
        for start in [0, 1, 5, 7, 8, 9, 1 << 16, 1 << 32, 1 << 63, u64::MAX] {
            for i in [0, 1, 2, 3, 15, 16, usize::MAX] {
                f.anything(&Call::NextList(start, i))?;
            }
        }
    }
    f.task("one basic block, Q 60, listed", &one_block(60, 60));
    f.lists(&[(0, 0)])?;
    f.anything(&Call::NextList(1, 0))?;
    f.task("one basic block, Q 59, listed", &one_block(60, 59));
    f.lists(&[])?;

    let mut task = largest();
    task.limit = u32::MAX;
    task.blocks.truncate(16);
    f.task("N 16", &task);
    for start in [0, 1, 255, 32766, 32767, 32768, 65536, 1 << 32, u64::MAX] {
        for i in [0, 14, 15] {
            f.anything(&Call::NextList(start, i))?;
        }
    }
    let mut task = largest();
    task.blocks.truncate(17);
    f.task("N 17", &task);
    f.refused(&Call::NextList(0, 0), 15, 0)?;
    f.refused(&Call::NextList(u64::MAX, 16), 15, 0)?;
    f.task("N 64", &largest());
    f.refused(&Call::NextList(0, 0), 15, 0)?;
    let mut file = task.file();
    put(&mut file, 20 * BLOCK + 2, 2, 125);
    seal(&mut file[20 * BLOCK..21 * BLOCK]);
    f.file("N 17, r 125 in block 20", &file);
    f.refused(&Call::NextList(0, 0), 5, 20)
}

fn changed_bits(f: &mut Fixed) -> Result<(), String> {
    let whole = seven(60).file();
    let points = plan_block(5, &[2, 3]);
    for i in 0..whole.len() * 8 {
        for sealed in [true, false] {
            if !sealed && i % 8 != i / 8 % 8 {
                continue;
            }
            let mut file = whole.clone();
            file[i / 8] ^= 1 << (i % 8);
            if sealed {
                file.chunks_mut(BLOCK).for_each(seal);
            }
            let said = if sealed { ", sealed" } else { "" };
            f.file(
                &format!("File Seven, byte {} bit {} changed{said}", i / 8, i % 8),
                &file,
            );
            f.anything(&Call::Plan)?;
            if i % 7 == 0 {
                f.anything(&Call::Price(&points))?;
                f.anything(&Call::Useful(2))?;
                f.anything(&Call::NextRead(1, 1))?;
                f.anything(&Call::Region(1, 3))?;
                f.anything(&Call::Charged(&[1, 3]))?;
                f.anything(&Call::Replay(&[1, 3]))?;
                f.anything(&Call::NextList(3, 1))?;
                let mut files = [&file[..], &whole];
                files.rotate_right(i % 2);
                let _ = f.join("File Seven twice, a bit changed", files, 0)?;
            }
        }
    }
    f.file("File Seven, Q 60", &whole);
    for i in 0..points.len() * 8 {
        let mut block = points.clone();
        block[i / 8] ^= 1 << (i % 8);
        f.anything(&Call::Price(&block))?;
        seal(&mut block);
        f.anything(&Call::Price(&block))?;
    }
    Ok(())
}
