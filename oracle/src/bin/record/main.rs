//! Writes the recorded list: `stdin`, the calls, and `stdout`, the oracle's outcomes, into the folder that is named.
mod depots;
mod images;
mod list;
mod no_calls;
mod sections;

use list::List;
use oracle::maker::Maker;
use std::path::Path;
use std::process::ExitCode;
use std::{env, fs, io};

const SEED: u64 = 1276;

fn list() -> Vec<Vec<u8>> {
    let mut list = List { maker: Maker::new(SEED), lines: Vec::new() };
    let parts = [
        sections::everything,
        sections::bench,
        sections::frequencies,
        sections::powers,
        sections::modulations,
        sections::packets,
        sections::windows,
        sections::interrupts,
        sections::signals,
        sections::payloads,
        sections::bases,
        sections::lent,
        sections::orders,
        sections::links,
        sections::unlent,
        depots::all,
        sections::any,
        no_calls::all,
        sections::six,
        sections::long_buffers,
        images::all,
    ];
    parts.iter().for_each(|part| part(&mut list));
    // The last line has no LF, and is a call all the same.
    list.call(list::plain(oracle::Variant::Sx1276), oracle::Operation::DoTx, &[], oracle::maker::Image::Zero);
    list.lines
}

/// Panics of the Rust have no place in the list: they would be a difference that nobody has written down.
fn outcomes(lines: &[Vec<u8>]) -> String {
    let mut text = String::new();
    for line in lines {
        let outcome = oracle::answer(line);
        assert!(!outcome.starts_with('!'), "{}: {outcome}", String::from_utf8_lossy(line));
        text.push_str(&outcome);
        text.push('\n');
    }
    text
}

fn record(folder: &Path) -> io::Result<()> {
    let lines = list();
    fs::write(folder.join("stdin"), lines.join(&b'\n'))?;
    fs::write(folder.join("stdout"), outcomes(&lines))?;
    println!("{} lines", lines.len());
    Ok(())
}

fn main() -> ExitCode {
    let Some(folder) = env::args_os().nth(1) else {
        eprintln!("usage: record DIR");
        return ExitCode::from(2);
    };
    match record(Path::new(&folder)) {
        Ok(()) => ExitCode::SUCCESS,
        Err(error) => {
            eprintln!("record: {error}");
            ExitCode::FAILURE
        }
    }
}
