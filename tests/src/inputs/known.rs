//! Files of the documents and at the limits.

use crate::reference::files::{Reads, Scratch, Task};
use crate::rng::Rng;

pub fn reads(word: u32, numbers: &[u32]) -> Reads {
    Reads {
        word,
        armed: false,
        numbers: numbers.to_vec(),
    }
}

/// File Seven of the document.
pub fn seven(limit: u32) -> Task {
    Task {
        lines: 4,
        limit,
        reload: 10,
        id: 7,
        scratch: Scratch::NONE,
        second: 0,
        switch: 0,
        blocks: vec![
            reads(20, &[0, 1]),
            reads(20, &[2]),
            reads(20, &[0]),
            reads(20, &[5, 0]),
        ],
        interrupters: vec![reads(0, &[4, 1])],
    }
}

/// The largest file: N 64, M 32, S 512, 124 numbers in every block.
pub fn largest() -> Task {
    let mut rng = Rng::new(64, 32);
    let mut block = |word: u32| {
        let numbers: Vec<u32> = (0..124)
            .map(|_| (rng.below(512) + 512 * rng.below(2)) as u32)
            .collect();
        Reads {
            word,
            armed: false,
            numbers,
        }
    };
    Task {
        lines: 512,
        limit: 5000,
        reload: 10,
        id: 64,
        scratch: Scratch::NONE,
        second: 0,
        switch: 0,
        blocks: (0..64).map(|i| block(100 + i)).collect(),
        interrupters: (0..32).map(&mut block).collect(),
    }
}
