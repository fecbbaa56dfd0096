//! A wrong program in the library's place: the reference with one switch on, and what a program does wrong beside its rules.

use crate::bugs::{self, bug, But};
use crate::reference::bytes::{field, put, seal, BLOCK};
use crate::reference::calls::{Call, Reference};
use crate::reference::files::sizes;
use calls::{Refusal, Returned, TaskRecord};

pub struct StandIn {
    name: &'static str,
    last: Option<Reference>,
}

impl StandIn {
    pub fn new(name: &'static str) -> StandIn {
        StandIn { name, last: None }
    }

    pub fn answer(
        &mut self,
        file: &[u8],
        call: &Call,
        out: &mut [u8],
    ) -> (Returned, Option<usize>) {
        let traced = matches!(call, Call::Trace(..));
        bugs::with(self.name, || {
            touch(file, call, out);
            if self.last.as_ref().is_none_or(|last| last.file != file) {
                self.last = Some(Reference::new(file));
            }
            match self.last.as_ref().unwrap().answer(call, out.len()) {
                Ok(bytes) => {
                    let length = bytes.len().but("the output's length answered", out.len());
                    write(file, call, bytes, out);
                    (Ok(()), traced.then_some(length))
                }
                Err(refusal) => {
                    if writes_though(refusal) {
                        out.fill(0);
                    }
                    let length = 0.but("a length with a refusal", BLOCK);
                    (Err(refusal), traced.then_some(length))
                }
            }
        })
    }
}

fn writes_though(refusal: Refusal) -> bool {
    match refusal.number {
        6 => bug("written on refusal 6"),
        7 => bug("written on refusal 7"),
        8 => bug("written on refusal 8"),
        9 => bug("written on refusal 9"),
        10 => bug("written on refusal 10"),
        11 => bug("written on refusal 11"),
        12 => bug("written on refusal 12"),
        13 => bug("written on refusal 13"),
        14 => bug("written on refusal 14"),
        15 => bug("written on refusal 15"),
        16 => bug("written on refusal 16"),
        _ => bug("written on refusals 1 to 5"),
    }
}

fn write(file: &[u8], call: &Call, mut bytes: Vec<u8>, out: &mut [u8]) {
    let mut len = bytes.len().min(out.len());
    if let Call::Plan | Call::Price(_) = call {
        let after = 20 + 2 * field(&bytes, 4, 2) as usize;
        if bug("bytes after the points left") {
            bytes[after..504].copy_from_slice(&out[after..504]);
            seal(&mut bytes);
        }
        len = len.but("nothing written", 0);
    }
    if let Call::Join(second) = call {
        if bug("the second file whole after the first") {
            bytes = [file, &second[BLOCK..]].concat();
            renumber(&mut bytes);
        }
        keep_numbers(file, second, &mut bytes);
    }
    out[..len].copy_from_slice(&bytes[..len]);
    if let (Call::Trace(..), true) = (call, bug("bytes past a trace's file cleared")) {
        out[len..].fill(0);
    }
}

fn renumber(file: &mut [u8]) {
    for (i, block) in file.chunks_mut(BLOCK).enumerate() {
        put(block, 504, 4, i as u64);
        seal(block);
    }
}

/// Numbers or checks of joined blocks left as they were.
fn keep_numbers(first: &[u8], second: &[u8], joined: &mut [u8]) {
    let ((n, m), (more_n, _)) = (sizes(first), sizes(second));
    for (i, block) in joined.chunks_mut(BLOCK).enumerate().skip(1) {
        // Whether the block is of the second file, and its number there or in the first.
        let (of_second, number) = match i {
            _ if i <= n => (false, i),
            _ if i <= n + more_n => (true, i - n),
            _ if i <= n + more_n + m => (false, i - more_n),
            _ => (true, i - n - m),
        };
        let kept = bug("the second's blocks not renumbered") && of_second
            || bug("the first's interrupters not renumbered") && !of_second;
        if kept || bug("checks of joined blocks kept") {
            put(block, 504, 4, number as u64);
            seal(block);
        }
        if !kept {
            put(block, 504, 4, i as u64);
        }
    }
}

/// Touches what isn't lent, or not for writing.
fn touch(file: &[u8], call: &Call, out: &mut [u8]) {
    unsafe {
        if bug("one byte written after the output") {
            out.as_mut_ptr().add(out.len()).write_volatile(1);
        }
        if bug("one byte written before the output") {
            let at = out.as_mut_ptr().sub(1);
            at.write_volatile(at.read_volatile() ^ 1);
        }
    }
    let (list, bytes): (&[u16], &[u8]) = match *call {
        Call::Price(points) => (&[], points),
        Call::Replay(list) => (list, &[]),
        Call::Charged(list) => (list, &[]),
        _ => (&[], &[]),
    };
    let second: &[u8] = match *call {
        Call::Join(second) => second,
        _ => &[],
    };
    let text: &[u8] = match *call {
        Call::Trace(text, _) => text,
        _ => &[],
    };
    beyond(
        text,
        bug("a trace read beyond its end"),
        bug("a trace written"),
    );
    let records: &[TaskRecord] = match *call {
        Call::Deadlines(set) => set.tasks,
        _ => &[],
    };
    beyond(
        records,
        bug("records read beyond their end"),
        bug("records written"),
    );
    beyond(file, bug("file read beyond its end"), bug("file written"));
    if bug("file read before its start") {
        unsafe { file.as_ptr().sub(1).read_volatile() };
    }
    beyond(
        bytes,
        bug("points read beyond their end"),
        bug("points written"),
    );
    beyond(
        list,
        bug("a list's points read beyond their end"),
        bug("a list's points written"),
    );
    beyond(
        second,
        bug("the second file read beyond its end"),
        bug("the second file written"),
    );
}

fn beyond<T: Copy>(input: &[T], read: bool, written: bool) {
    let Some(&first) = input.first() else {
        return;
    };
    unsafe {
        if read {
            input.as_ptr().add(input.len()).read_volatile();
        }
        if written {
            (input.as_ptr() as *mut T).write_volatile(first);
        }
    }
}
