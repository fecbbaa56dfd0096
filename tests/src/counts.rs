//! How often each answer and each shape of plan came up.

use crate::cases::deadlines::KINDS;

pub struct Counts(Vec<(String, u64)>);

const SHAPES: [&str; 156] = [
    "2 above block 0",
    "5 in a basic block",
    "5 in an interrupter",
    "7 at index 0",
    "7 above index 0",
    "8 at stretch 0",
    "8 above stretch 0",
    "plan of 0 points",
    "plan of 1 point",
    "plan of several",
    "plan of all N-1",
    "plan at price 0",
    "plan at R 0",
    "plan at price > 0",
    "price > 0, N > 12",
    "plan with ties",
    "ties with N > 12",
    "tie by beginning",
    "tie by a lower point",
    "plan, only one list",
    "plan with N > 12",
    "plan with N 64",
    "lines above 255 used",
    "last read loaded",
    "length above 2^32",
    "priced above 2^32",
    "priced lines > 255",
    "other N in the block",
    "next read at once",
    "next read further on",
    "next in later block",
    "next is number 0",
    "no next read",
    "no read after block k",
    "line of S or more",
    "line of 512 or more",
    "replay of 0 points",
    "replay of all N-1",
    "replay above Q",
    "points add misses",
    "points add no miss",
    "a read hits alone",
    "list above 63 points",
    "range of numbers",
    "range of one number",
    "empty, first above 0",
    "range up to 2^32",
    "first of the range",
    "last of the range",
    "all reads in a range",
    "strikes in a range",
    "fewer lines struck",
    "search past a range",
    "3 by the range alone",
    "range, price > 0",
    "no block armed",
    "one block armed",
    "some blocks armed",
    "all blocks armed",
    "armed, Q2 below Q",
    "armed, Q2 at Q",
    "armed, Q2 above Q",
    "6 by Q2 alone",
    "8 by Q2 alone",
    "G 0",
    "small G",
    "G above all times",
    "6 by G alone",
    "8 by G alone",
    "no points by G",
    "other plan by fit",
    "other plan by price",
    "more lines by G",
    "tie of other counts",
    "plan with G, R 0",
    "priced with G",
    "switches above 2^32",
    "region with G",
    "charged with G",
    "replay with G",
    "listed with G",
    "file of 97 blocks",
    "end-aligned file",
    "start-aligned file",
    "file at an odd place",
    "file from a seed",
    "97 blocks made",
    "10 before 9",
    "others, same lines",
    "each its own lines",
    "charged, M 0",
    "charged, M 1",
    "charged, M 32",
    "reads nothing",
    "several touch a line",
    "charged to several",
    "charged twice",
    "charge above 255",
    "charge 31",
    "Q of the first",
    "Q of the second",
    "Q2 of the first",
    "Q2 of the second",
    "armed file joined",
    "joined with G",
    "joined N 64",
    "joined M 32",
    "97 blocks joined",
    "both refused",
    "1 to 5 before 9",
    "11 by S",
    "11 by R",
    "11 by range's first",
    "11 by range's count",
    "11 by empty ranges",
    "11 by G",
    "11 before 12",
    "11 before 9",
    "12 by N",
    "12 by M",
    "12 before 9",
    "joined file planned",
    "joined file priced",
    "joined file replayed",
    "U of a part",
    "U grows by joining",
    "three files joined",
    "traced N 64",
    "7936 records",
    "short last block",
    "time at 2^32 - 1",
    "13 at line 0",
    "13 above line 0",
    "13, no line feed",
    "several malformed",
    "9 before 10",
    "10 before 13",
    "13 before 14",
    "14, no record",
    "14 above 64 g",
    "14 by a time",
    "traced file planned",
    "list at the start",
    "list further on",
    "no list fits",
    "past the last list",
    "start of 2^(N-1)",
    "start above 2^32",
    "list of N 1",
    "list of N 16",
    "last list of N 16",
    "all lists fit",
    "15 at N 17",
    "5 before 15",
    "listing to its end",
    "empty listing",
];

impl Counts {
    pub fn new() -> Counts {
        let mut all = Vec::new();
        for (call, answers) in [
            ("plan", &["0", "1", "2", "3", "4", "5", "6", "9"][..]),
            (
                "price",
                &[
                    "0", "1", "2", "3", "4", "5", "1+97", "2+97", "5+97", "7", "8", "9",
                ][..],
            ),
            ("useful", &["0", "1", "2", "3", "4", "5", "7", "9"][..]),
            ("next", &["0", "1", "2", "3", "4", "5", "7", "9"][..]),
            ("region", &["0", "1", "2", "3", "4", "5", "7", "9"][..]),
            (
                "charged",
                &["0", "1", "2", "3", "4", "5", "7", "8", "9"][..],
            ),
            (
                "charged plan",
                &["0", "1", "2", "3", "4", "5", "6", "9"][..],
            ),
            ("replay", &["0", "1", "2", "3", "4", "5", "7", "9"][..]),
            ("list", &["0", "1", "2", "3", "4", "5", "9", "15"][..]),
            ("generate", &["0", "9", "10"][..]),
            (
                "join",
                &[
                    "0", "1", "2", "3", "4", "5", "1+97", "2+97", "3+97", "4+97", "5+97", "9",
                    "11", "12",
                ][..],
            ),
            ("trace", &["0", "9", "10", "13", "14"][..]),
        ] {
            all.extend(answers.iter().map(|a| (format!("{call}: {a}"), 0)));
        }
        all.extend(SHAPES.iter().chain(&KINDS).map(|s| (s.to_string(), 0)));
        Counts(all)
    }

    pub fn add(&mut self, name: &str) {
        let row = self.0.iter_mut().find(|(n, _)| n == name);
        row.unwrap_or_else(|| panic!("no row {name}")).1 += 1;
    }

    pub fn add_if(&mut self, came: bool, name: &str) {
        if came {
            self.add(name);
        }
    }

    pub fn print(&self) {
        for row in self.0.chunks(3) {
            let cells: Vec<String> = row
                .iter()
                .map(|(name, count)| format!("{name:<20} {count:>7}"))
                .collect();
            println!("{}", cells.join("   ").trim_end());
        }
    }

    pub fn missing(&self) -> Vec<&str> {
        self.0
            .iter()
            .filter(|(_, count)| *count == 0)
            .map(|(name, _)| name.as_str())
            .collect()
    }
}
