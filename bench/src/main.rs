//! Times the planner's calls against the same work written for speed in plain Rust, in one process and in turns, each row on several
//! files of one shape in rotation. Every figure is the median of many rounds.

use bench::by_line::ByLine;
use bench::checks::lowest_wrong;
use bench::counts::Counts;
use bench::deadlines::{any_set, task_set, MOST_TICKS};
use bench::files::{
    any, any_points, drawn, growing, planned, reread, rotated, seven, Again, Rng, Shape, LARGEST,
};
use bench::timing::{keep, medians};
use bench::{charges, deadlines, fast, generate, join, regions, replays, searches, text, trace};
use calls::{Returned, TaskRecord};
use std::hint::black_box;

const ROUNDS: usize = 151;
/// Of tests that take tenths of a second.
const LONG_ROUNDS: usize = 15;
/// So many random files are tried before anything is timed.
const TRIED: u64 = 2000;

fn are_alike<T: PartialEq>(answers: &[T]) -> bool {
    answers.iter().all(|answer| *answer == answers[0])
}

/// Holds the answers of several programs to those of the first, which is the planner. A figure of a program that answers
/// otherwise is worth nothing.
fn hold_alike<T: PartialEq>(name: &str, answers: &[(Returned, T)]) {
    let (returned, _) = &answers[0];
    assert!(
        *returned == Ok(()),
        "{name}: the planner returns {returned:?}"
    );
    assert!(are_alike(answers), "{name}: answers differ");
}

fn blocks_of(files: &[Vec<u8>]) -> String {
    let blocks = files[0].len() / 512;
    match files.len() {
        1 => format!("{blocks} blocks"),
        count => format!("{count} files of {blocks} blocks"),
    }
}

fn least_to_most(numbers: impl Iterator<Item = u64> + Clone) -> String {
    let (least, most) = (numbers.clone().min().unwrap(), numbers.max().unwrap());
    match least == most {
        true => least.to_string(),
        false => format!("{least} to {most}"),
    }
}

/// A call's time, and that of each other program with the ratio to it.
fn say(call: &str, ours: f64, others: &[(&str, f64)]) {
    print!("  {call:<6} planner {ours:9.2} us");
    for (name, time) in others {
        print!("   {name} {time:8.2} us, ratio {:5.2}", ours / time);
    }
    println!();
}

/// The time for the checksums of the files, and its share of that of each program.
fn say_checks(files: &[Vec<u8>], of: &str, times: &[(&str, f64)]) {
    let [checks] = medians(
        ROUNDS,
        files.len(),
        [&mut |i| keep(lowest_wrong(&files[i]))],
    );
    let shares: Vec<String> = times
        .iter()
        .map(|(name, time)| format!("{name} {:.0}%", 100.0 * checks / time))
        .collect();
    println!(
        "  checksums {checks:15.2} us   share of {of}: {}",
        shares.join(", ")
    );
}

fn answer<const B: usize>(call: impl FnOnce(&mut [u8]) -> Returned) -> (Returned, [u8; B]) {
    let mut out = [0; B];
    (call(&mut out), out)
}

fn word(bytes: &[u8], at: usize) -> u64 {
    u64::from_le_bytes(bytes[at..at + 8].try_into().unwrap())
}

/// The points of a plan block.
fn list_of(block: &[u8]) -> Vec<u16> {
    block[20..][..2 * block[4] as usize]
        .chunks_exact(2)
        .map(|p| u16::from_le_bytes([p[0], p[1]]))
        .collect()
}

/// Holds both methods in Rust to the planner on random files, with refusals.
fn hold_random() {
    for seed in 0..TRIED {
        let mut rng = Rng(seed);
        let file = any(&mut rng);
        let n = file[2] as usize;
        let points = any_points(&mut rng, n);
        let (a, b) = (
            rng.below(n as u32 + 1) as usize,
            rng.below(n as u32 + 2) as usize,
        );
        let planned = [
            answer::<512>(|out| calls::plan(&file, out)),
            answer(|out| fast::plan::<Counts>(&file, out)),
            answer(|out| fast::plan::<ByLine>(&file, out)),
        ];
        let priced = [
            answer::<512>(|out| calls::price(&file, &points, out)),
            answer(|out| fast::price::<Counts>(&file, &points, out)),
            answer(|out| fast::price::<ByLine>(&file, &points, out)),
        ];
        let regions = [
            answer::<72>(|out| calls::region(&file, a, b, out)),
            answer(|out| regions::region(&file, a, b, out)),
        ];
        let list = list_of(&points);
        let charged = [
            answer::<272>(|out| calls::charged_price(&file, &list, out)),
            answer(|out| charges::price(&file, &list, out)),
        ];
        let name = format!("the random file of seed {seed}");
        assert!(
            are_alike(&planned) && are_alike(&priced) && are_alike(&regions) && are_alike(&charged),
            "{name}: answers differ"
        );
    }
}

/// Holds the test of deadlines in Rust to the planner on random task sets, with refusals.
fn hold_random_sets() {
    for seed in 0..TRIED {
        let mut rng = Rng(seed);
        let (tasks, horizon) = any_set(&mut rng);
        let found = [
            answer::<16>(|out| calls::deadlines(&tasks, horizon, out)),
            answer(|out| deadlines::deadlines(&tasks, horizon, out)),
        ];
        assert!(
            are_alike(&found),
            "the random set of seed {seed}: answers differ"
        );
    }
}

/// Planning, and pricing the plans' points.
fn plan_row(name: &str, files: &[Vec<u8>]) {
    let mut plans = Vec::new();
    for file in files {
        let planned = [
            answer::<512>(|out| calls::plan(file, out)),
            answer(|out| fast::plan::<Counts>(file, out)),
            answer(|out| fast::plan::<ByLine>(file, out)),
        ];
        hold_alike(name, &planned);
        let plan = planned[0].1;
        let priced = [
            answer::<512>(|out| calls::price(file, &plan, out)),
            answer(|out| fast::price::<Counts>(file, &plan, out)),
            answer(|out| fast::price::<ByLine>(file, &plan, out)),
        ];
        hold_alike(name, &priced);
        plans.push(plan);
    }
    let points = plans.iter().map(|plan| plan[4] as u64);
    println!(
        "{name}: {}, {} points",
        blocks_of(files),
        least_to_most(points)
    );

    let mut out = [[0; 512]; 3];
    let [ours, counts, lines] = black_box(&mut out);
    let plan = medians(
        ROUNDS,
        files.len(),
        [
            &mut |i| keep(calls::plan(&files[i], ours)),
            &mut |i| keep(fast::plan::<Counts>(&files[i], counts)),
            &mut |i| keep(fast::plan::<ByLine>(&files[i], lines)),
        ],
    );
    let price = medians(
        ROUNDS,
        files.len(),
        [
            &mut |i| keep(calls::price(&files[i], &plans[i], ours)),
            &mut |i| keep(fast::price::<Counts>(&files[i], &plans[i], counts)),
            &mut |i| keep(fast::price::<ByLine>(&files[i], &plans[i], lines)),
        ],
    );
    for (call, times) in [("plan", plan), ("price", price)] {
        say(
            call,
            times[0],
            &[("plain", times[1]), ("by line", times[2])],
        );
    }
    let of_plans = [
        ("planner", plan[0]),
        ("plain", plan[1]),
        ("by line", plan[2]),
    ];
    say_checks(files, "planning", &of_plans);
}

/// Pricing the plans' points with charges, by the planner's own call.
fn charge_row(name: &str, files: &[Vec<u8>]) {
    let mut lists = Vec::new();
    let mut most = Vec::new();
    for file in files {
        let (returned, plan) = answer::<512>(|out| calls::plan(file, out));
        assert!(returned == Ok(()), "{name}: no plan");
        let list = list_of(&plan);
        let charged = [
            answer::<272>(|out| calls::charged_price(file, &list, out)),
            answer(|out| charges::price(file, &list, out)),
        ];
        hold_alike(name, &charged);
        most.push((2..34).map(|i| word(&charged[0].1, 8 * i)).max().unwrap());
        lists.push(list);
    }
    println!(
        "{name}: {}, {} points, a charge of at most {}",
        blocks_of(files),
        least_to_most(lists.iter().map(|list| list.len() as u64)),
        least_to_most(most.into_iter())
    );

    let mut out = [[0; 272]; 2];
    let [ours, plain] = black_box(&mut out);
    let charged = medians(
        ROUNDS,
        files.len(),
        [
            &mut |i| keep(calls::charged_price(&files[i], &lists[i], ours)),
            &mut |i| keep(charges::price(&files[i], &lists[i], plain)),
        ],
    );
    say("charge", charged[0], &[("plain", charged[1])]);
    say_checks(
        files,
        "a price with charges",
        &[("planner", charged[0]), ("plain", charged[1])],
    );
}

/// The loaded lines and the length of a region.
fn region_row(name: &str, files: &[Vec<u8>], a: usize, b: usize) {
    let mut sizes = Vec::new();
    for file in files {
        let found = [
            answer::<72>(|out| calls::region(file, a, b, out)),
            answer(|out| regions::region(file, a, b, out)),
        ];
        hold_alike(name, &found);
        sizes.push(
            found[0].1[..64]
                .iter()
                .map(|byte| byte.count_ones() as u64)
                .sum(),
        );
    }
    let sizes = least_to_most(sizes.into_iter());
    println!(
        "{name}: {}, region {a} {b} reloads {sizes} lines",
        blocks_of(files)
    );

    let (a, b) = (|| black_box(a), || black_box(b));
    let mut out = [[0; 72]; 2];
    let [ours, plain] = black_box(&mut out);
    let region = medians(
        ROUNDS,
        files.len(),
        [
            &mut |i| keep(calls::region(&files[i], a(), b(), ours)),
            &mut |i| keep(regions::region(&files[i], a(), b(), plain)),
        ],
    );
    say("region", region[0], &[("plain", region[1])]);
    say_checks(
        files,
        "a region",
        &[("planner", region[0]), ("plain", region[1])],
    );
}

/// One search, and U(k) by searches and by one walk.
fn search_row(name: &str, files: &[Vec<u8>], line: usize, k: usize) {
    let mut looked = Vec::new();
    let mut sizes = Vec::new();
    for file in files {
        let found = [
            answer::<24>(|out| calls::next_read(file, line, k, out)),
            answer(|out| searches::next_read(file, line, k, out)),
        ];
        hold_alike(name, &found);
        looked.push(word(&found[0].1, 16));
        let useful = [
            answer::<64>(|out| calls::useful(file, k, out)),
            answer(|out| searches::searched(file, k, out)),
            answer(|out| searches::walked(file, k, out)),
        ];
        hold_alike(name, &useful);
        sizes.push(
            useful[0]
                .1
                .iter()
                .map(|byte| byte.count_ones() as u64)
                .sum(),
        );
    }
    println!(
        "{name}: {}, line {line} after block {k}: looked {}, U({k}) has size {}",
        blocks_of(files),
        least_to_most(looked.into_iter()),
        least_to_most(sizes.into_iter())
    );

    let (line, k) = (|| black_box(line), || black_box(k));
    let mut founds = [[0; 24]; 2];
    let [ours, plain] = black_box(&mut founds);
    let search = medians(
        ROUNDS,
        files.len(),
        [
            &mut |i| keep(calls::next_read(&files[i], line(), k(), ours)),
            &mut |i| keep(searches::next_read(&files[i], line(), k(), plain)),
        ],
    );
    let mut sets = [[0; 64]; 3];
    let [ours, searched, walked] = black_box(&mut sets);
    let useful = medians(
        ROUNDS,
        files.len(),
        [
            &mut |i| keep(calls::useful(&files[i], k(), ours)),
            &mut |i| keep(searches::searched(&files[i], k(), searched)),
            &mut |i| keep(searches::walked(&files[i], k(), walked)),
        ],
    );
    say("search", search[0], &[("plain", search[1])]);
    say(
        "U(k)",
        useful[0],
        &[("plain", useful[1]), ("one walk", useful[2])],
    );
    say_checks(
        files,
        "a search",
        &[("planner", search[0]), ("plain", search[1])],
    );
}

/// Both counts of a replay.
fn replay_row(name: &str, files: &[Vec<u8>], points: &[u16]) {
    let mut misses = Vec::new();
    for file in files {
        let counts = [
            answer::<16>(|out| calls::replay(file, points, out)),
            answer(|out| replays::one_walk(file, points, out)),
            answer(|out| replays::two_caches(file, points, out)),
        ];
        hold_alike(name, &counts);
        misses.push([word(&counts[0].1, 0), word(&counts[0].1, 8)]);
    }
    println!(
        "{name}: {}, {} points: misses {} with points {}",
        blocks_of(files),
        points.len(),
        least_to_most(misses.iter().map(|m| m[0])),
        least_to_most(misses.iter().map(|m| m[1]))
    );

    let points = || black_box(points);
    let mut out = [[0; 16]; 3];
    let [ours, walked, cached] = black_box(&mut out);
    let replay = medians(
        ROUNDS,
        files.len(),
        [
            &mut |i| keep(calls::replay(&files[i], points(), ours)),
            &mut |i| keep(replays::one_walk(&files[i], points(), walked)),
            &mut |i| keep(replays::two_caches(&files[i], points(), cached)),
        ],
    );
    say(
        "replay",
        replay[0],
        &[("plain", replay[1]), ("two caches", replay[2])],
    );
    let times = [
        ("planner", replay[0]),
        ("plain", replay[1]),
        ("two caches", replay[2]),
    ];
    say_checks(files, "a replay", &times);
}

/// A file from a seed, made over the one before: the buffer is not cleared first.
fn generate_row(name: &str, n: u32, m: u32) {
    const SEEDS: usize = 8;
    let numbers = |seed: usize| [seed as u32, n, m, 512, 5000, 10];
    let mut files = [(); 2].map(|_| vec![0xFF; 512 * (1 + n + m) as usize]);
    let [ours, plain] = black_box(&mut files);
    for seed in 0..SEEDS {
        let returned = [
            calls::generate(numbers(seed), ours),
            generate::generate(numbers(seed), plain),
        ];
        hold_alike(name, &[(returned[0], &*ours), (returned[1], &*plain)]);
    }
    println!("{name} made from a seed");
    let make = medians(
        ROUNDS,
        SEEDS,
        [
            &mut |seed| keep(calls::generate(numbers(seed), ours)),
            &mut |seed| keep(generate::generate(numbers(seed), plain)),
        ],
    );
    say("make", make[0], &[("plain", make[1])]);
}

/// Two files joined, over the joined file before.
fn join_row(name: &str, first: &[Vec<u8>], second: &[Vec<u8>]) {
    let mut files = [(); 2].map(|_| vec![0xFF; first[0].len() + second[0].len() - 512]);
    let [ours, plain] = black_box(&mut files);
    for (first, second) in first.iter().zip(second) {
        let returned = [
            calls::join(first, second, ours),
            join::join(first, second, plain),
        ];
        hold_alike(name, &[(returned[0], &*ours), (returned[1], &*plain)]);
    }
    println!("{name}: {} blocks joined", ours.len() / 512);
    let join = medians(
        ROUNDS,
        first.len(),
        [
            &mut |i| keep(calls::join(&first[i], &second[i], ours)),
            &mut |i| keep(join::join(&first[i], &second[i], plain)),
        ],
    );
    say("join", join[0], &[("plain", join[1])]);
    let both: Vec<Vec<u8>> = first
        .iter()
        .zip(second)
        .map(|(f, s)| [&f[..], s].concat())
        .collect();
    say_checks(&both, "a join", &[("planner", join[0]), ("plain", join[1])]);
}

/// Traces of so many random addresses of that many bits, digits in either case, made files over the one before.
fn trace_row(name: &str, count: usize, bits: u32, g: u32) {
    const SEEDS: usize = 8;
    let line = |rng: &mut Rng, i: usize| {
        let address = (rng.below(1 << 16) << 16 | rng.below(1 << 16)) >> (32 - bits);
        match rng.below(2) {
            0 => format!("{} {address:x}\n", i % 3),
            _ => format!("{} {address:X}\n", i % 3),
        }
    };
    let text = |seed| {
        let mut rng = Rng(seed as u64);
        (0..count).map(|i| line(&mut rng, i)).collect::<String>()
    };
    let texts: Vec<String> = (0..SEEDS).map(text).collect();
    let numbers = [32, g, 3, 256, 5000, 20, 11];
    let mut files = [(); 2].map(|_| vec![0xFF; 33280]);
    let [ours, plain] = black_box(&mut files);
    for text in &texts {
        let answers = [
            calls::trace(text.as_bytes(), numbers, ours),
            trace::trace(text.as_bytes(), numbers, plain),
        ];
        assert!(answers[0].1 == answers[1].1, "{name}: lengths differ");
        hold_alike(name, &[(answers[0].0, &*ours), (answers[1].0, &*plain)]);
    }
    println!("{name}: {count} lines, {} bytes", texts[0].len());
    let traced = medians(
        ROUNDS,
        SEEDS,
        [
            &mut |i| keep(calls::trace(texts[i].as_bytes(), numbers, ours).0),
            &mut |i| keep(trace::trace(texts[i].as_bytes(), numbers, plain).0),
        ],
    );
    say("trace", traced[0], &[("plain", traced[1])]);
}

/// The texts of files, and these texts made files again.
fn text_rows(name: &str, files: &[Vec<u8>]) {
    let mut texts = [(); 2].map(|_| vec![0; 135168]);
    let mut made = [(); 2].map(|_| vec![0xFF; 49664]);
    let [ours, plain] = black_box(&mut texts);
    let [our_file, plain_file] = black_box(&mut made);
    let mut shown = Vec::new();
    for file in files {
        let answers = [calls::show(file, ours), text::show(file, plain)];
        assert!(answers[0].1 == answers[1].1, "{name}: lengths differ");
        hold_alike(name, &[(answers[0].0, &*ours), (answers[1].0, &*plain)]);
        shown.push(ours[..answers[0].1].to_vec());
        let text = shown.last().unwrap();
        let answers = [
            calls::assemble(text, our_file),
            text::assemble(text, plain_file),
        ];
        assert!(
            answers.map(|answer| answer.1) == [file.len(); 2],
            "{name}: lengths differ"
        );
        hold_alike(
            name,
            &[(answers[0].0, &*our_file), (answers[1].0, &*plain_file)],
        );
        assert!(our_file[..file.len()] == **file, "{name}: another file");
    }
    println!(
        "{name}: {}, texts of {} bytes",
        blocks_of(files),
        shown[0].len()
    );
    let show = medians(
        ROUNDS,
        files.len(),
        [&mut |i| keep(calls::show(&files[i], ours).0), &mut |i| {
            keep(text::show(&files[i], plain).0)
        }],
    );
    say("show", show[0], &[("plain", show[1])]);
    let assemble = medians(
        ROUNDS,
        files.len(),
        [
            &mut |i| keep(calls::assemble(&shown[i], our_file).0),
            &mut |i| keep(text::assemble(&shown[i], plain_file).0),
        ],
    );
    say("make", assemble[0], &[("plain", assemble[1])]);
}

/// The deadlines of a task set, up to a horizon.
fn deadlines_row(name: &str, tasks: &[TaskRecord], horizon: u32, rounds: usize) {
    let found = [
        answer::<16>(|out| calls::deadlines(tasks, horizon, out)),
        answer(|out| deadlines::deadlines(tasks, horizon, out)),
    ];
    hold_alike(name, &found);
    let said = match word(&found[0].1, 0) {
        0 => "yes".to_string(),
        _ => format!("no at {}", word(&found[0].1, 8)),
    };
    println!("{name}, up to {horizon}: {said}");

    let (tasks, horizon) = (|| black_box(tasks), || black_box(horizon));
    let mut out = [[0; 16]; 2];
    let [ours, plain] = black_box(&mut out);
    let test = medians(
        rounds,
        1,
        [
            &mut |_| keep(calls::deadlines(tasks(), horizon(), ours)),
            &mut |_| keep(deadlines::deadlines(tasks(), horizon(), plain)),
        ],
    );
    say("test", test[0], &[("plain", test[1])]);
}

/// Sets whose test is long, and one whose test is short.
fn deadlines_rows() {
    let last = MOST_TICKS;
    let worst = task_set(16, |i| match i {
        0 => [1, 1, 2, 1],
        _ => [1, 1, last, 1],
    });
    let mixed = |count| task_set(count, |i| [16 / count, 19 + 7 * i, 20 + 5 * i, 3]);
    for (name, tasks, horizon) in [
        ("16 tasks of period 1", worst, last - 1),
        (
            "16 of period 1 from 16000000 on",
            task_set(16, |_| [1, 1, 16_000_000, 1]),
            last,
        ),
        ("one of period 1", task_set(1, |_| [1, 1, 2, 1]), last),
        (
            "2 of period 2 in turns",
            task_set(2, |i| [1, 2, 2 + i, 1]),
            last,
        ),
        (
            "16 of period 16 in turns",
            task_set(16, |i| [1, 16, 16 + i, 1]),
            last,
        ),
        ("16 of other periods", mixed(16), last),
        ("5 of other periods", mixed(5), last),
    ] {
        deadlines_row(name, &tasks, horizon, LONG_ROUNDS);
    }
    let short = task_set(2, |i| [2 + 2 * i, 4 + 2 * i, 4 + 2 * i, 1]);
    deadlines_row("2 tasks", &short, 100, ROUNDS);
}

fn main() {
    hold_random();
    hold_random_sets();
    println!(
        "plain: one walk over the reads and counts, as the planner; by line: one word per line"
    );
    println!("all three hash four blocks side by side, zeros eight at a time, the planner sixteen where a block is alone; medians of {ROUNDS} rounds in turns, the files of a row in rotation");
    for (name, files) in planned() {
        plan_row(&name, &files);
    }
    let switched = Shape {
        switch: 50,
        ..LARGEST
    };
    plan_row(
        "largest file, a switch of 50 ticks",
        &rotated(|seed| drawn(&switched, seed)),
    );
    let seven = [seven()];
    let largest = rotated(|seed| drawn(&LARGEST, seed));
    println!("a price with charges; plain: the same one walk");
    charge_row("largest file", &largest);
    charge_row("File Seven", &seven);
    println!("a region; plain: one walk up to its first edge, and one over its own blocks");
    region_row("largest file, short region", &largest, 32, 33);
    region_row("largest file, long region", &largest, 1, 64);
    region_row("File Seven", &seven, 1, 3);
    println!("a search, and U(k); plain: for each line that holds something a search of the first block that reads it; one walk: no search");
    for (name, first, again) in [
        ("next read near", 1, Again::InEachBlock),
        ("next read far", 1, Again::InTheLast),
        ("no next read", 1, Again::Never),
        ("no next read, 496 lines held", 4, Again::Never),
        ("next read far, 496 lines held", 4, Again::InTheLast),
        (
            "next read at the end of its block, 496 lines held",
            4,
            Again::AtTheEnds,
        ),
    ] {
        let files = rotated(|seed| reread(&LARGEST, first, again, seed));
        search_row(name, &files, 0, first);
    }
    search_row("largest file", &largest, 0, 32);
    search_row("File Seven", &seven, 1, 1);
    println!("a replay; plain: the same one walk; two caches: H emptied by a loop at each point");
    let edges: Vec<u16> = (1..64).collect();
    let eighths: Vec<u16> = (1..8).map(|i| 8 * i).collect();
    for points in [&[][..], &eighths, &edges] {
        replay_row("largest file", &largest, points);
    }
    replay_row("File Seven", &seven, &[1, 2]);
    generate_row("largest file", 64, 32);
    generate_row("file of five blocks", 3, 1);
    let half = Shape {
        n: 32,
        m: 16,
        ..LARGEST
    };
    let other = Shape {
        limit: 4000,
        ..half
    };
    join_row(
        "two halves of the largest file",
        &rotated(|seed| drawn(&half, seed)),
        &rotated(|seed| drawn(&other, seed + 8)),
    );
    join_row("File Seven twice", &seven, &seven);
    trace_row("the largest trace", 7936, 32, 124);
    trace_row("the largest trace, short addresses", 7936, 16, 124);
    trace_row("a trace of ten lines", 10, 32, 4);
    text_rows("the text of the largest file", &largest);
    text_rows("the text of File Seven", &seven);
    println!(
        "deadlines of a task set; plain: from instant to instant, over the records as they lie"
    );
    deadlines_rows();
    println!("growth, Q without limit:");
    for (name, files) in growing() {
        plan_row(&name, &files);
    }
}
