//! Files from traces: the trace that was worked elsewhere, the bounds, and a line of each malformed kind.

use super::Fixed;
use crate::reference::bytes::fnv1a;
use crate::reference::calls::{Answer, Call, Reference};
use crate::reference::traces::{Settings, OUTPUT};
use crate::watch;

const PLAIN: Settings = Settings {
    size: 1,
    g: 1,
    ticks: 1,
    s: 1,
    q: 0,
    r: 0,
    id: 0,
};

impl Fixed<'_> {
    fn trace(&mut self, text: &[u8], settings: Settings, len: usize) -> Result<Answer, String> {
        watch::file(None, "none", &[]);
        let none = Reference::new(&[]);
        let call = Call::Trace(text, settings);
        self.driver.check(&mut self.rng, &none, &call, len)
    }

    fn traced(&mut self, text: &[u8], settings: Settings) -> Result<Vec<u8>, String> {
        self.trace(text, settings, OUTPUT)?.map_err(|r| {
            format!(
                "the reference refuses a trace with {} at {}",
                r.number, r.place
            )
        })
    }

    fn not_traced(
        &mut self,
        text: &[u8],
        settings: Settings,
        len: usize,
        (number, place): (u32, usize),
    ) -> Result<(), String> {
        match self.trace(text, settings, len)? {
            Err(r) if r.number == number && r.place == place => Ok(()),
            _ => Err(format!(
                "the reference doesn't refuse a trace with {number} at {place}"
            )),
        }
    }
}

pub fn run(f: &mut Fixed) -> Result<(), String> {
    let line = |i: u64| format!("{} {:x}\n", i % 3, (i * i * 40503 + i * 97) % (1 << 32));
    let text: String = (0..1000).map(line).collect();
    let settings = Settings {
        size: 32,
        g: 100,
        ticks: 3,
        s: 256,
        q: 5000,
        r: 20,
        id: 11,
    };
    let file = f.traced(text.as_bytes(), settings)?;
    if (file.len(), fnv1a(&file)) != (5632, 0x0f8466ac) {
        return Err(format!(
            "expected: 5632 bytes with 0f8466ac\ngot: {} with {:08x}, and the reference agrees",
            file.len(),
            fnv1a(&file)
        ));
    }

    let records = |count: usize| b"2 aBcDeF09\n".repeat(count);
    for g in [1, 2, 124] {
        let settings = Settings { g, ..PLAIN };
        let most = 64 * g as usize;
        for count in [1, most - 1, most] {
            f.traced(&records(count), settings)?;
        }
        f.not_traced(&records(most + 1), settings, OUTPUT, (14, 0))?;
    }
    f.not_traced(b"", PLAIN, OUTPUT, (14, 0))?;
    let slow = |g, ticks| Settings { g, ticks, ..PLAIN };
    f.traced(&records(1), slow(124, u32::MAX))?;
    f.traced(&records(2), slow(1, u32::MAX))?;
    f.traced(&records(3), slow(2, u32::MAX / 2))?;
    f.not_traced(&records(2), slow(2, 1 << 31), OUTPUT, (14, 0))?;
    f.not_traced(&records(3), slow(3, u32::MAX / 3 + 1), OUTPUT, (14, 0))?;

    let wrong = [
        Settings { s: 0, ..PLAIN },
        Settings { s: 513, ..PLAIN },
        Settings { size: 0, ..PLAIN },
        Settings { g: 0, ..PLAIN },
        Settings { g: 125, ..PLAIN },
    ];
    for settings in wrong {
        f.not_traced(b"x", settings, OUTPUT, (10, 0))?;
        f.not_traced(b"x", settings, OUTPUT - 512, (9, 0))?;
    }
    for len in [0, 512, OUTPUT - 1, OUTPUT + 1, OUTPUT + 512] {
        f.not_traced(&records(1), PLAIN, len, (9, 0))?;
    }

    // every byte in each place of a line
    for at in 0..6 {
        for byte in 0..=255 {
            let mut bad = *b"1 0a\n1 B\n";
            bad[at] = byte;
            let settings = Settings { g: 4, ..PLAIN };
            f.trace(&bad, settings, OUTPUT)?.ok();
        }
    }
    for bad in [
        &b"\n"[..],
        b"0\n",
        b"0 \n",
        b"00 1\n",
        b"0  1\n",
        b" 0 1\n",
        b"0 1 \n",
        b"0 1\r\n",
        b"0 0x1\n",
        b"0 000000001\n",
        b"0 1",
        b"0",
    ] {
        let after = [&b"0 1\n0 2\n"[..], bad].concat();
        f.not_traced(&after, slow(1, u32::MAX), OUTPUT, (13, 2))?;
        if bad.ends_with(b"\n") {
            let twice = [bad, b"0 1\n", bad].concat();
            f.not_traced(&twice, PLAIN, OUTPUT, (13, 0))?;
        }
    }
    Ok(())
}
