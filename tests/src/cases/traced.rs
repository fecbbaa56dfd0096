//! Files that are made of traces.

use super::Trial;
use crate::driver::random_side;
use crate::inputs::numbers::made_len;
use crate::inputs::traces::{damage, random_trace};
use crate::reference::calls::{Call, Reference};
use crate::reference::traces::{lines, record, Settings, OUTPUT};
use crate::watch;

impl Trial<'_> {
    /// A file from a trace, now and then malformed, with a setting out of range or an output of another length.
    pub fn traced(&mut self) -> Result<(), String> {
        let mut settings = Settings::random(&mut self.rng);
        let mut text = random_trace(&mut self.rng, settings.g);
        if self.rng.percent(30) {
            text = damage(&mut self.rng, &text);
        }
        if self.rng.percent(12) {
            settings = settings.damaged(&mut self.rng);
        }
        let len = made_len(&mut self.rng, OUTPUT, self.driver.most_made(), &[]);
        let none = Reference::new(&[]);
        let call = Call::Trace(&text, settings);
        watch::file(Some(self.case), "none", &[]);
        self.driver.lend_file(&[], random_side(&mut self.rng));
        let answer = self.driver.check(&mut self.rng, &none, &call, len)?;
        let refused = answer.as_ref().err().map(|refusal| refusal.number);
        self.counts.add(&format!("trace: {}", refused.unwrap_or(0)));
        self.count(&text, &settings, refused);
        if let (Ok(file), true) = (answer, self.rng.percent(10)) {
            watch::file(Some(self.case), "from a trace", &file);
            self.driver.lend_file(&file, random_side(&mut self.rng));
            let reference = Reference::new(&file);
            let planned = self
                .driver
                .check(&mut self.rng, &reference, &Call::Plan, 512)?;
            self.counts.add_if(planned.is_ok(), "traced file planned");
        }
        Ok(())
    }

    fn count(&mut self, text: &[u8], settings: &Settings, refused: Option<u32>) {
        let all = lines(text);
        let malformed: Vec<usize> = (0..all.len())
            .filter(|&i| record(all[i]).is_none())
            .collect();
        let (count, g) = (all.len() as u64, settings.g as u64);
        let longest = count.min(g) * settings.ticks as u64;
        let out_of_range =
            !(1..=124).contains(&g) || settings.size == 0 || !(1..=512).contains(&settings.s);
        let many = count > 64 * g;
        let counts = &mut self.counts;
        match refused {
            None => {
                counts.add_if(count.div_ceil(g) == 64, "traced N 64");
                counts.add_if(count == 7936, "7936 records");
                counts.add_if(count % g != 0, "short last block");
                counts.add_if(longest == u32::MAX as u64, "time at 2^32 - 1");
            }
            Some(9) => counts.add_if(out_of_range, "9 before 10"),
            Some(10) => counts.add_if(!malformed.is_empty(), "10 before 13"),
            Some(13) => {
                counts.add_if(malformed[0] == 0, "13 at line 0");
                counts.add_if(malformed[0] > 0, "13 above line 0");
                counts.add_if(!text.ends_with(b"\n"), "13, no line feed");
                counts.add_if(malformed.len() > 1, "several malformed");
                counts.add_if(many || longest > u32::MAX as u64, "13 before 14");
            }
            Some(14) => {
                counts.add_if(count == 0, "14, no record");
                counts.add_if(many, "14 above 64 g");
                counts.add_if(count > 0 && !many, "14 by a time");
            }
            _ => {}
        }
    }
}
