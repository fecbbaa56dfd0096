//! The C calls of the libraries `firmware` and `probe`, on slices. With `old` their names have that in front: bench/compare links
//! older libraries so, beside those of today.

/// A refusal's number and its place.
#[derive(Clone, Copy, PartialEq, Eq, Debug)]
pub struct Refusal {
    pub number: u32,
    pub place: usize,
}

pub type Returned = Result<(), Refusal>;

/// A task of a set: e, p, d and q.
#[repr(C)]
#[derive(Clone, Copy, PartialEq, Eq, Debug)]
pub struct TaskRecord {
    pub execution: u32,
    pub period: u32,
    pub deadline: u32,
    pub region: u32,
}

mod linked {
    use super::TaskRecord;

    extern "C" {
        #[cfg_attr(old, link_name = "old_preempt_plan")]
        pub fn preempt_plan(
            file: *const u8,
            file_len: usize,
            block: *mut u8,
            block_len: usize,
        ) -> u32;
        #[cfg_attr(old, link_name = "old_preempt_price")]
        pub fn preempt_price(
            file: *const u8,
            file_len: usize,
            points: *const u8,
            points_len: usize,
            block: *mut u8,
            block_len: usize,
        ) -> u32;
        #[cfg_attr(old, link_name = "old_probe_useful")]
        pub fn probe_useful(
            file: *const u8,
            file_len: usize,
            k: usize,
            out: *mut u8,
            out_len: usize,
            place: *mut usize,
        ) -> u32;
        #[cfg_attr(old, link_name = "old_probe_next_read")]
        pub fn probe_next_read(
            file: *const u8,
            file_len: usize,
            line: usize,
            k: usize,
            out: *mut u8,
            out_len: usize,
            place: *mut usize,
        ) -> u32;
        #[cfg_attr(old, link_name = "old_probe_region")]
        pub fn probe_region(
            file: *const u8,
            file_len: usize,
            a: usize,
            b: usize,
            out: *mut u8,
            out_len: usize,
            place: *mut usize,
        ) -> u32;
        #[cfg_attr(old, link_name = "old_probe_price")]
        pub fn probe_price(
            file: *const u8,
            file_len: usize,
            points: *const u16,
            points_len: usize,
            out: *mut u8,
            out_len: usize,
            place: *mut usize,
        ) -> u32;
        #[cfg_attr(old, link_name = "old_probe_plan")]
        pub fn probe_plan(
            file: *const u8,
            file_len: usize,
            out: *mut u8,
            out_len: usize,
            place: *mut usize,
        ) -> u32;
        #[cfg_attr(old, link_name = "old_probe_replay")]
        pub fn probe_replay(
            file: *const u8,
            file_len: usize,
            points: *const u16,
            points_len: usize,
            out: *mut u8,
            out_len: usize,
            place: *mut usize,
        ) -> u32;
        #[cfg_attr(old, link_name = "old_probe_generate")]
        pub fn probe_generate(
            seed: u32,
            n: u32,
            m: u32,
            s: u32,
            q: u32,
            r: u32,
            out: *mut u8,
            out_len: usize,
            place: *mut usize,
        ) -> u32;
        #[cfg_attr(old, link_name = "old_probe_next_list")]
        pub fn probe_next_list(
            file: *const u8,
            file_len: usize,
            start: u64,
            i: usize,
            out: *mut u8,
            out_len: usize,
            place: *mut usize,
        ) -> u32;
        #[cfg_attr(old, link_name = "old_probe_join")]
        pub fn probe_join(
            first: *const u8,
            first_len: usize,
            second: *const u8,
            second_len: usize,
            out: *mut u8,
            out_len: usize,
            place: *mut usize,
        ) -> u32;
        #[cfg_attr(old, link_name = "old_probe_trace")]
        pub fn probe_trace(
            text: *const u8,
            text_len: usize,
            size: u32,
            g: u32,
            ticks: u32,
            s: u32,
            q: u32,
            r: u32,
            id: u32,
            out: *mut u8,
            out_len: usize,
            length: *mut usize,
            place: *mut usize,
        ) -> u32;
        #[cfg_attr(old, link_name = "old_probe_show")]
        pub fn probe_show(
            file: *const u8,
            len: usize,
            out: *mut u8,
            out_len: usize,
            length: *mut usize,
            place: *mut usize,
        ) -> u32;
        #[cfg_attr(old, link_name = "old_probe_assemble")]
        pub fn probe_assemble(
            text: *const u8,
            len: usize,
            out: *mut u8,
            out_len: usize,
            length: *mut usize,
            place: *mut usize,
        ) -> u32;
        #[cfg_attr(old, link_name = "old_probe_deadlines")]
        pub fn probe_deadlines(
            tasks: *const TaskRecord,
            count: usize,
            horizon: u32,
            out: *mut u8,
            out_len: usize,
            place: *mut usize,
        ) -> u32;
    }
}

/// What a call of `firmware` returns: 0, or number times 65536 plus place.
fn firmware(code: u32) -> Returned {
    match code {
        0 => Ok(()),
        _ => Err(Refusal {
            number: code / 65536,
            place: (code % 65536) as usize,
        }),
    }
}

/// What a call of `probe` returns and leaves: the number, and the place beside it.
fn probe(call: impl FnOnce(*mut usize) -> u32) -> Returned {
    let mut place = usize::MAX;
    match call(&mut place) {
        0 => {
            assert_eq!(place, 0, "a place is left where nothing is refused");
            Ok(())
        }
        number => Err(Refusal { number, place }),
    }
}

pub fn plan(file: &[u8], block: &mut [u8]) -> Returned {
    firmware(unsafe {
        linked::preempt_plan(file.as_ptr(), file.len(), block.as_mut_ptr(), block.len())
    })
}

pub fn price(file: &[u8], points: &[u8], block: &mut [u8]) -> Returned {
    firmware(unsafe {
        linked::preempt_price(
            file.as_ptr(),
            file.len(),
            points.as_ptr(),
            points.len(),
            block.as_mut_ptr(),
            block.len(),
        )
    })
}

/// The useful lines at edge k, 64 bytes.
pub fn useful(file: &[u8], k: usize, out: &mut [u8]) -> Returned {
    probe(|place| unsafe {
        linked::probe_useful(
            file.as_ptr(),
            file.len(),
            k,
            out.as_mut_ptr(),
            out.len(),
            place,
        )
    })
}

/// The next read of a line after block k, 24 bytes.
pub fn next_read(file: &[u8], line: usize, k: usize, out: &mut [u8]) -> Returned {
    let (at, len) = (out.as_mut_ptr(), out.len());
    probe(|place| unsafe {
        linked::probe_next_read(file.as_ptr(), file.len(), line, k, at, len, place)
    })
}

/// The loaded lines of a region and its length, 72 bytes.
pub fn region(file: &[u8], a: usize, b: usize, out: &mut [u8]) -> Returned {
    let (at, len) = (out.as_mut_ptr(), out.len());
    probe(|place| unsafe { linked::probe_region(file.as_ptr(), file.len(), a, b, at, len, place) })
}

/// The lines, the cost and the 32 charges of a list, 272 bytes.
pub fn charged_price(file: &[u8], points: &[u16], out: &mut [u8]) -> Returned {
    probe(|place| unsafe {
        linked::probe_price(
            file.as_ptr(),
            file.len(),
            points.as_ptr(),
            points.len(),
            out.as_mut_ptr(),
            out.len(),
            place,
        )
    })
}

/// The same of the plan.
pub fn charged_plan(file: &[u8], out: &mut [u8]) -> Returned {
    probe(|place| unsafe {
        linked::probe_plan(
            file.as_ptr(),
            file.len(),
            out.as_mut_ptr(),
            out.len(),
            place,
        )
    })
}

/// The misses without the points and with them, 16 bytes.
pub fn replay(file: &[u8], points: &[u16], out: &mut [u8]) -> Returned {
    probe(|place| unsafe {
        linked::probe_replay(
            file.as_ptr(),
            file.len(),
            points.as_ptr(),
            points.len(),
            out.as_mut_ptr(),
            out.len(),
            place,
        )
    })
}

/// The task file of a seed, N, M, S, Q and R.
pub fn generate(numbers: [u32; 6], out: &mut [u8]) -> Returned {
    let [seed, n, m, s, q, r] = numbers;
    probe(|place| unsafe {
        linked::probe_generate(seed, n, m, s, q, r, out.as_mut_ptr(), out.len(), place)
    })
}

/// Two task files joined.
pub fn join(first: &[u8], second: &[u8], out: &mut [u8]) -> Returned {
    probe(|place| unsafe {
        linked::probe_join(
            first.as_ptr(),
            first.len(),
            second.as_ptr(),
            second.len(),
            out.as_mut_ptr(),
            out.len(),
            place,
        )
    })
}

/// The task file of a trace, by size, g, ticks, S, Q, R and id, and the length that is answered.
pub fn trace(text: &[u8], numbers: [u32; 7], out: &mut [u8]) -> (Returned, usize) {
    let [size, g, ticks, s, q, r, id] = numbers;
    let mut length = usize::MAX;
    let (at, len) = (out.as_mut_ptr(), out.len());
    let returned = probe(|place| unsafe {
        linked::probe_trace(
            text.as_ptr(),
            text.len(),
            size,
            g,
            ticks,
            s,
            q,
            r,
            id,
            at,
            len,
            &mut length,
            place,
        )
    });
    (returned, length)
}

/// The text of a task file, and the length that is answered.
pub fn show(file: &[u8], out: &mut [u8]) -> (Returned, usize) {
    let mut length = usize::MAX;
    let (at, len) = (out.as_mut_ptr(), out.len());
    let returned = probe(|place| unsafe {
        linked::probe_show(file.as_ptr(), file.len(), at, len, &mut length, place)
    });
    (returned, length)
}

/// The task file of a text, and the length that is answered.
pub fn assemble(text: &[u8], out: &mut [u8]) -> (Returned, usize) {
    let mut length = usize::MAX;
    let (at, len) = (out.as_mut_ptr(), out.len());
    let returned = probe(|place| unsafe {
        linked::probe_assemble(text.as_ptr(), text.len(), at, len, &mut length, place)
    });
    (returned, length)
}

/// The next fitting list from a number on, with its point i, 48 bytes.
pub fn next_list(file: &[u8], start: u64, i: usize, out: &mut [u8]) -> Returned {
    let (at, len) = (out.as_mut_ptr(), out.len());
    probe(|place| unsafe {
        linked::probe_next_list(file.as_ptr(), file.len(), start, i, at, len, place)
    })
}

/// Whether a task set meets its deadlines up to a horizon, 16 bytes: two zeros, or 1 and the first time that fails.
pub fn deadlines(tasks: &[TaskRecord], horizon: u32, out: &mut [u8]) -> Returned {
    probe(|place| unsafe {
        linked::probe_deadlines(
            tasks.as_ptr(),
            tasks.len(),
            horizon,
            out.as_mut_ptr(),
            out.len(),
            place,
        )
    })
}
