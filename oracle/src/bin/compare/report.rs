//! What becomes of the calls: each is run on both sides and counted, or written out as a line.
use oracle::text::holds;
use oracle::{library, print, print_call, run_into, Call, Operation, Outcome, Source};
use std::io::{self, BufWriter, Stdout, Write};

/// How many differences of an operation are told.
const TOLD: u64 = 3;
/// How many characters of a line are told: all but of a file that no line holds.
const WIDTH: usize = 16_384;

#[derive(Clone, Copy, Default)]
struct Count {
    compared: u64,
    by_the_rust: u64,
    in_the_six: u64,
    differed: u64,
}

pub struct Report {
    /// Of the calls that are offered each so-manieth is taken.
    pub every: u64,
    offered: u64,
    /// Where calls are written to instead of being compared.
    lines: Option<BufWriter<Stdout>>,
    counts: [Count; Operation::COUNT],
    expected: Outcome,
    found: Outcome,
    differences: Vec<String>,
}

impl Report {
    pub fn new(every: u64, printing: bool) -> Report {
        Report {
            every,
            offered: 0,
            lines: printing.then(|| BufWriter::new(io::stdout())),
            counts: [Count::default(); Operation::COUNT],
            expected: Outcome::new(),
            found: Outcome::new(),
            differences: Vec::new(),
        }
    }

    pub fn offer(&mut self, call: &Call) {
        self.offered += 1;
        if self.offered % self.every != 0 {
            return;
        }
        match &mut self.lines {
            Some(lines) if holds(call) => {
                writeln!(lines, "{}", print_call(call)).expect("standard output takes the calls")
            }
            Some(_) => {}
            None => self.compare(call),
        }
    }

    fn compare(&mut self, call: &Call) {
        run_into(call, &mut self.expected);
        library::run(call, &mut self.found);
        let count = &mut self.counts[call.operation as usize];
        count.compared += 1;
        count.by_the_rust += (self.expected.source == Source::Rust) as u64;
        count.in_the_six += self.expected.in_the_six as u64;
        if !self.expected.agrees(&self.found) {
            count.differed += 1;
            if count.differed <= TOLD {
                self.note(call);
            }
        }
    }

    fn note(&mut self, call: &Call) {
        let lines = [print_call(call), print(&self.expected), print(&self.found)];
        let [call, expected, found] = lines.map(|line| line.chars().take(WIDTH).collect::<String>());
        let source = &self.expected.source;
        self.differences.push(format!("call:    {call}\noracle:  {expected}\t({source:?})\nlibrary: {found}"));
    }

    /// Prints the table; whether all was the same.
    pub fn close(mut self) -> bool {
        if let Some(lines) = &mut self.lines {
            lines.flush().expect("standard output takes the calls");
            return true;
        }
        println!("The oracle and {}:", library::NAME);
        println!("{:32}{:>12}{:>14}{:>12}{:>10}", "operation", "compared", "by the Rust", "in the six", "differed");
        let mut all = Count::default();
        for operation in Operation::all() {
            let count = self.counts[operation as usize];
            row(operation.name(), count);
            all.compared += count.compared;
            all.by_the_rust += count.by_the_rust;
            all.in_the_six += count.in_the_six;
            all.differed += count.differed;
        }
        row("all", all);
        self.differences.iter().for_each(|difference| println!("{difference}"));
        all.differed == 0
    }
}

fn row(name: &str, count: Count) {
    let Count { compared, by_the_rust, in_the_six, differed } = count;
    println!("{name:32}{compared:>12}{by_the_rust:>14}{in_the_six:>12}{differed:>10}");
}
