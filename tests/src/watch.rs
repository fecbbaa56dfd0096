//! What is being tried now, so that a failure or a trap can be shown and run again.

use crate::reference::bytes::{field, hex, BLOCK};
use std::sync::Mutex;

pub struct Now {
    seed: u64,
    case: Option<u64>,
    kind: String,
    files: Vec<Vec<u8>>,
    call: String,
    points: Vec<u8>,
}

static NOW: Mutex<Now> = Mutex::new(Now {
    seed: 0,
    case: None,
    kind: String::new(),
    files: Vec::new(),
    call: String::new(),
    points: Vec::new(),
});

/// Seconds of processor time one call may take.
const PATIENCE: i64 = 10;
const VIRTUAL: i32 = 1;

/// Two pairs of seconds and microseconds: the interval and the time left.
#[repr(C)]
struct Timer([i64; 4]);

extern "C" {
    fn signal(number: i32, handler: usize) -> usize;
    fn setitimer(which: i32, new: *const Timer, old: *mut Timer) -> i32;
    fn _exit(status: i32) -> !;
}

extern "C" fn trapped(number: i32) {
    let what = match number {
        4 => "an illegal instruction",
        6 => "an abort",
        7 | 11 => "a touch of memory outside the buffers, or a write to an input",
        8 => "an arithmetic trap",
        26 => "no answer in time",
        _ => "a signal",
    };
    failed(&format!(
        "expected: an answer\ngot: {what} (signal {number})"
    ));
    unsafe { _exit(1) }
}

pub fn start(seed: u64) {
    NOW.lock().unwrap().seed = seed;
    // A closed output ends the program.
    unsafe { signal(13, 0) };
    for number in [4, 6, 7, 8, 11, 26] {
        unsafe { signal(number, trapped as *const () as usize) };
    }
}

pub fn file(case: Option<u64>, kind: &str, bytes: &[u8]) {
    files(case, kind, &[bytes]);
}

pub fn files(case: Option<u64>, kind: &str, files: &[&[u8]]) {
    let mut now = NOW.lock().unwrap();
    now.case = case;
    now.kind = kind.to_string();
    now.files = files.iter().map(|bytes| bytes.to_vec()).collect();
}

pub fn call(text: String, points: &[u8]) {
    let mut now = NOW.lock().unwrap();
    now.call = text;
    now.points = points.to_vec();
    set_timer(PATIENCE);
}

pub fn stop() {
    set_timer(0);
}

fn set_timer(seconds: i64) {
    unsafe { setitimer(VIRTUAL, &Timer([0, 0, seconds, 0]), std::ptr::null_mut()) };
}

pub fn failed(text: &str) {
    let now = NOW.lock().unwrap();
    println!("FAILED");
    match now.case {
        Some(case) => println!(
            "seed {} case {case}, again with: opponent {} 1 {case}",
            now.seed, now.seed
        ),
        None => println!("a case of the document, run first with every seed"),
    }
    println!("file: {}", now.kind);
    println!("call: {}", now.call);
    println!("{text}");
    for file in &now.files {
        println!("file, {} bytes; {}", file.len(), fields(file));
        print!("{}", hex(file));
    }
    if !now.points.is_empty() {
        println!("points, {} bytes", now.points.len());
        print!("{}", hex(&now.points));
    }
}

fn fields(file: &[u8]) -> String {
    if file.len() < BLOCK {
        return "no header".to_string();
    }
    let mut text = format!(
        "N {} M {} S {} Q {} R {} id {}, range of {} from {}\n",
        field(file, 2, 2),
        field(file, 4, 2),
        field(file, 6, 2),
        field(file, 8, 4),
        field(file, 12, 4),
        field(file, 16, 4),
        field(file, 24, 4),
        field(file, 20, 4)
    );
    for (i, block) in file.chunks_exact(BLOCK).enumerate().skip(1) {
        let r = field(block, 2, 2).min(124) as usize;
        let numbers: Vec<u64> = (0..r).map(|j| field(block, 8 + 4 * j, 4)).collect();
        text += &format!(
            "  block {i}: kind {} count {} word {} numbers {numbers:?}\n",
            block[0],
            field(block, 2, 2),
            field(block, 4, 4)
        );
    }
    text + "bytes:"
}
