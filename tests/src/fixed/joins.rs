//! Two files joined.

use super::{armed_seven, one_block, seven_with, switched_seven, Fixed};
use crate::inputs::known::{largest, reads, seven};
use crate::reference::bytes::{put, seal, BLOCK};
use crate::reference::files::Task;
use std::ops::Range;

pub fn run(f: &mut Fixed) -> Result<(), String> {
    let (long, short) = (seven(60), one_block(70, 59));
    let (file, other) = (long.file(), short.file());
    let mut right = Task {
        limit: 59,
        ..long.clone()
    };
    right.blocks.push(reads(70, &[0]));
    f.joined("File Seven and one block", [&file, &other], &right)?;
    right.id = 1;
    right.blocks.rotate_right(1);
    f.joined("one block and File Seven", [&other, &file], &right)?;
    let (low, high) = (armed_seven(20, &[1]), armed_seven(30, &[4]));
    let mut both = twice(&low);
    both.blocks[4].armed = false;
    both.blocks[7].armed = true;
    f.joined("Q2 20 and 30", [&low.file(), &high.file()], &both)?;
    both.blocks.rotate_left(4);
    f.joined("Q2 30 and 20", [&high.file(), &low.file()], &both)?;
    for more in [-3584, -512, -1, 1, 512] {
        let files = [&file[..], &other];
        f.not_joined("File Seven and one block", files, more, (9, 0))?;
    }

    let unlike = [
        Task {
            lines: 260,
            ..long.clone()
        },
        Task {
            reload: 11,
            ..long.clone()
        },
        seven_with(1, 0),
        seven_with(1 << 31, 0),
        seven_with(0, 1),
        seven_with(0, 1 << 31),
        seven_with(4, 1),
        switched_seven(60, 5),
        switched_seven(60, 1 << 31),
    ];
    for task in &unlike {
        let apart = task.file();
        f.joined("alike", [&apart, &apart], &twice(task))?;
        f.not_joined("unlike", [&file, &apart], 0, (11, 0))?;
        f.not_joined("unlike", [&apart, &file], 512, (11, 0))?;
    }

    let most = largest();
    let whole = most.file();
    let half = |blocks: Range<usize>, interrupters: Range<usize>| Task {
        blocks: most.blocks[blocks].to_vec(),
        interrupters: most.interrupters[interrupters].to_vec(),
        ..most.clone()
    };
    let first = half(0..32, 0..16).file();
    let mut rest = half(32..64, 16..32);
    rest.limit += 1;
    rest.id += 1;
    f.joined("two halves", [&first, &rest.file()], &most)?;
    let over = [half(31..64, 16..32), half(32..64, 15..32)].map(|task| task.file());
    for file in &over {
        f.not_joined("65 or 33", [&first, file], 0, (12, 0))?;
        f.not_joined("65 or 33", [file, &first], 512, (12, 0))?;
    }
    f.not_joined("twice the largest", [&whole, &whole], 0, (12, 0))?;
    f.not_joined("another S, and N 68", [&whole, &file], 0, (11, 0))?;

    let mut check = file.clone();
    check[4 * BLOCK - 1] ^= 1;
    let mut count = whole.clone();
    put(&mut count, 96 * BLOCK + 2, 2, 125);
    seal(&mut count[96 * BLOCK..]);
    let header = Task {
        lines: 513,
        ..long.clone()
    };
    let header = header.file();
    let wrong: [(&[u8], u32, usize); 6] = [
        (&[], 1, 0),
        (&file[..BLOCK + 1], 1, 0),
        (&check, 2, 3),
        (&header, 3, 0),
        (&file[..BLOCK], 4, 0),
        (&count, 5, 96),
    ];
    for (bad, number, place) in wrong {
        f.not_joined("the first is wrong", [bad, &file], 0, (number, place))?;
        f.not_joined("the second is", [&file, bad], 0, (number, 97 + place))?;
        f.not_joined("the second is", [&whole, bad], 1, (number, 97 + place))?;
        for (also, ..) in wrong {
            f.not_joined("both are wrong", [bad, also], 0, (number, place))?;
        }
    }
    Ok(())
}

/// A task joined with itself.
fn twice(task: &Task) -> Task {
    let mut twice = task.clone();
    twice.blocks.extend_from_slice(&task.blocks);
    twice.interrupters.extend_from_slice(&task.interrupters);
    twice
}
