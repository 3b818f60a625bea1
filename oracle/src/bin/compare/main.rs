//! The comparison at scale: generated calls, each run on the oracle and on the library, and what differed.
mod depots;
mod exhaustive;
mod images;
mod report;

use exhaustive::Exhaustive;
use oracle::maker::Maker;
use report::Report;
use std::process::ExitCode;

const USAGE: &str = "usage: compare [--calls N] [--every K] [--seed S] [--print]
  --calls N  random calls after the exhaustive ones (10000000)
  --every K  of the exhaustive calls only each K-th (1)
  --seed S   where the random numbers start (1)
  --print    write the calls as lines of text instead of comparing them";

struct Options {
    calls: u64,
    every: u64,
    seed: u64,
    print: bool,
}

fn options() -> Option<Options> {
    let mut options = Options { calls: 10_000_000, every: 1, seed: 1, print: false };
    let mut words = std::env::args().skip(1);
    while let Some(word) = words.next() {
        let mut number = || words.next()?.parse().ok();
        match word.as_str() {
            "--calls" => options.calls = number()?,
            "--every" => options.every = number().filter(|&every| every > 0)?,
            "--seed" => options.seed = number()?,
            "--print" => options.print = true,
            _ => return None,
        }
    }
    Some(options)
}

fn main() -> ExitCode {
    let Some(options) = options() else {
        eprintln!("{USAGE}");
        return ExitCode::from(2);
    };
    let mut report = Report::new(options.every, options.print);
    let mut maker = Maker::new(options.seed);
    Exhaustive { maker: Maker::new(options.seed), report: &mut report }.all();
    report.every = 1;
    for _ in 0..options.calls {
        maker.make_any();
        report.offer(&maker.call);
    }
    if report.close() {
        ExitCode::SUCCESS
    } else {
        ExitCode::FAILURE
    }
}
