//! Random calls, of which each is made to both libraries and must be answered alike.

use crate::probe::make_calls;
use bench::files::{any, any_points, damage, set_switch, seven, Rng};
use std::process::exit;

/// What a call returned and what it left in a lent buffer.
type Answer = (calls::Returned, Vec<u8>);

fn answer(held: u8, len: usize, call: impl FnOnce(&mut [u8]) -> calls::Returned) -> Answer {
    let mut out = vec![held; len];
    (call(&mut out), out)
}

fn today(returned: old::Returned) -> calls::Returned {
    returned.map_err(|old::Refusal { number, place }| calls::Refusal { number, place })
}

pub struct Trial {
    seed: u64,
    case: u64,
    pub rng: Rng,
    made: u64,
    /// How often each number was returned; 0 is for accepted calls.
    returned: [u64; 20],
}

impl Trial {
    /// Makes a call to both, each lent a buffer of so many bytes, and gives what it left there if it was accepted.
    pub fn both(
        &mut self,
        call: &str,
        len: usize,
        before: impl FnOnce(&mut [u8]) -> old::Returned,
        now: impl FnOnce(&mut [u8]) -> calls::Returned,
    ) -> Option<Vec<u8>> {
        let held = self.rng.below(256) as u8;
        let before = answer(held, len, |out| today(before(out)));
        let now = answer(held, len, now);
        if before != now {
            println!(
                "{call} differs in case {} of seed {}: old {:?}, new {:?}{}",
                self.case,
                self.seed,
                before.0,
                now.0,
                match before.0 == now.0 {
                    true => ", other bytes",
                    false => "",
                }
            );
            exit(1);
        }
        let (returned, left) = now;
        self.made += 1;
        self.returned[returned.map_or_else(|refusal| refusal.number as usize, |()| 0)] += 1;
        returned.is_ok().then_some(left)
    }

    /// Planning and pricing one file.
    fn firmware(&mut self, file: &[u8]) {
        let len = if self.rng.below(50) == 0 { 511 } else { 512 };
        let plan = self.both(
            "plan",
            len,
            |out| old::plan(file, out),
            |out| calls::plan(file, out),
        );
        let mut points = match (plan, self.rng.below(3)) {
            (Some(plan), 0) => plan,
            _ => {
                let n = 1 + self.rng.below(64).min(file.len() as u32 / 512);
                any_points(&mut self.rng, n as usize)
            }
        };
        if self.rng.below(10) == 0 {
            damage(&mut self.rng, &mut points);
        }
        self.both(
            "price",
            len,
            |out| old::price(file, &points, out),
            |out| calls::price(file, &points, out),
        );
    }
}

/// Whether the older library knows header bytes 32 to 35, the switch; to one that does not they are zero bytes.
fn old_has_switch() -> bool {
    let mut file = seven();
    set_switch(&mut file, 5);
    old::plan(&file, &mut [0; 512]).is_ok()
}

/// Holds both to the same answers until so many calls are made. Files have no switch if the older library knows none.
pub fn hold_alike(seed: u64, count: u64) {
    println!("seed {seed}, {count} calls");
    let mut trial = Trial {
        seed,
        case: 0,
        rng: Rng(0),
        made: 0,
        returned: [0; 20],
    };
    let mut before = seven();
    let switched = old_has_switch();
    while trial.made < count {
        trial.case += 1;
        trial.rng = Rng(seed.wrapping_mul(1 << 32).wrapping_add(trial.case));
        let mut file = any(&mut trial.rng);
        match trial.rng.below(24) {
            0..4 => damage(&mut trial.rng, &mut file),
            4 => file.truncate(trial.rng.below(file.len() as u32) as usize),
            5 => file.truncate(file.len() - 512),
            _ => {}
        }
        if !switched && file.len() >= 512 && file[32..36] != [0; 4] {
            set_switch(&mut file, 0);
        }
        trial.firmware(&file);
        let twice = trial.rng.below(2) == 0;
        make_calls(&mut trial, &file, if twice { &file } else { &before });
        before = file;
    }
    if !switched {
        print!("without a switch ");
    }
    print!("all alike: {} accepted", trial.returned[0]);
    for (number, times) in trial.returned.iter().enumerate().skip(1) {
        if *times > 0 {
            print!(", {times} refused {number}");
        }
    }
    println!();
}
