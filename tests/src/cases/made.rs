//! Files that calls make: from a seed, and by joining.

use super::Trial;
use crate::driver::random_side;
use crate::inputs::numbers::made_len;
use crate::inputs::pairs::{random_pair, random_three};
use crate::inputs::points::{random_list, random_points_block};
use crate::reference::bytes::{field, hex, BLOCK};
use crate::reference::calls::{Answer, Call, Reference};
use crate::reference::files::MOST_BLOCKS;
use crate::reference::joining::Pair;
use crate::reference::plans::points_of;
use crate::reference::seeds::Request;
use crate::watch;

impl Trial<'_> {
    /// A file from a seed, now and then with a number out of range or a buffer of another length.
    pub fn generated(&mut self) -> Result<(), String> {
        let mut request = Request::random(&mut self.rng);
        if self.rng.percent(30) {
            request = request.damaged(&mut self.rng);
        }
        let none = Reference::new(&[]);
        let call = Call::Generate(request);
        let right = none.out_len(&call);
        let len = made_len(&mut self.rng, right, self.driver.most_made(), &[]);
        watch::file(Some(self.case), "none", &[]);
        let answer = self.driver.check(&mut self.rng, &none, &call, len)?;
        let number = answer.map_or_else(|refusal| refusal.number, |_| 0);
        self.counts.add(&format!("generate: {number}"));
        self.counts
            .add_if(number == 0 && len == MOST_BLOCKS * BLOCK, "97 blocks made");
        self.counts
            .add_if(number == 10 && right != len, "10 before 9");
        Ok(())
    }

    /// Two files joined, now and then unlike, damaged, too large together or with an output of another length.
    pub fn joined(&mut self) -> Result<(), String> {
        let ([first, second], kind) = random_pair(&mut self.rng);
        let pair = Pair {
            first: &first,
            second: &second,
        };
        let lengths = [first.len(), second.len()];
        let len = made_len(
            &mut self.rng,
            pair.length(),
            self.driver.most_made(),
            &lengths,
        );
        let answer = self.join(&kind, &pair, len)?;
        self.counts.join(&pair, len, &answer);
        if let (Ok(file), true) = (answer, self.rng.percent(10)) {
            self.calls_on_joined(&file)?;
            self.contained(&pair, &file)?;
        }
        if self.rng.percent(4) {
            self.three()?;
        }
        Ok(())
    }

    fn join(&mut self, kind: &str, pair: &Pair, out_len: usize) -> Result<Answer, String> {
        watch::files(Some(self.case), kind, &[pair.first, pair.second]);
        self.driver
            .lend_file(pair.first, random_side(&mut self.rng));
        let reference = Reference::new(pair.first);
        let call = Call::Join(pair.second);
        self.driver.check(&mut self.rng, &reference, &call, out_len)
    }

    /// The other calls on a file that was made by joining.
    fn calls_on_joined(&mut self, file: &[u8]) -> Result<(), String> {
        watch::file(Some(self.case), "joined", file);
        let reference = Reference::new(file);
        let n = field(file, 2, 2) as usize;
        self.driver.lend_file(file, random_side(&mut self.rng));
        let mut check = |call: &Call| {
            let len = reference.out_len(call);
            self.driver.check(&mut self.rng, &reference, call, len)
        };
        let planned = check(&Call::Plan)?;
        let good: Vec<Vec<usize>> = planned.iter().map(|block| points_of(block)).collect();
        self.counts.add_if(planned.is_ok(), "joined file planned");
        if self.rng.percent(50) {
            let (block, _) = random_points_block(&mut self.rng, n, &good);
            let call = Call::Price(&block);
            let answer = self.driver.check(&mut self.rng, &reference, &call, BLOCK)?;
            self.counts.add_if(answer.is_ok(), "joined file priced");
        } else {
            let list = random_list(&mut self.rng, n, &good);
            let call = Call::Replay(&list);
            let answer = self.driver.check(&mut self.rng, &reference, &call, 16)?;
            self.counts.add_if(answer.is_ok(), "joined file replayed");
        }
        Ok(())
    }

    /// U of either file is contained in U at the same edge of the joined one.
    fn contained(&mut self, pair: &Pair, joined: &[u8]) -> Result<(), String> {
        let blocks = |file: &[u8]| field(file, 2, 2) as usize;
        for (file, before) in [(pair.first, 0), (pair.second, blocks(pair.first))] {
            let kind = "a part and the joined one";
            watch::files(Some(self.case), kind, &[file, joined]);
            let rng = &mut self.rng;
            let k = rng.between(0, blocks(file));
            self.driver.lend_file(file, random_side(rng));
            let own = self.driver.useful(rng, k)?;
            self.driver.lend_file(joined, random_side(rng));
            let all = self.driver.useful(rng, before + k)?;
            if own.iter().zip(&all).any(|(one, other)| one & !other != 0) {
                return Err(format!(
                    "expected: U({k}) of a file contained in U({}) of the joined one\ngot:\n{}and\n{}",
                    before + k,
                    hex(&own),
                    hex(&all)
                ));
            }
            self.counts
                .add_if(own.iter().any(|&b| b != 0), "U of a part");
            self.counts.add_if(own != all, "U grows by joining");
        }
        Ok(())
    }

    /// Joining three files gives the same bytes whichever two are joined first.
    fn three(&mut self) -> Result<(), String> {
        let [a, b, c] = random_three(&mut self.rng);
        let mut join = |first: &[u8], second: &[u8]| {
            let pair = Pair { first, second };
            self.join("one of three", &pair, pair.length())?
                .map_err(|_| "the reference doesn't join two of three files".to_string())
        };
        let (ab, bc) = (join(&a, &b)?, join(&b, &c)?);
        if join(&ab, &c)? != join(&a, &bc)? {
            return Err(
                "expected: the same bytes whichever two of three files are joined first\ngot: others"
                    .to_string(),
            );
        }
        self.counts.add("three files joined");
        Ok(())
    }
}
