//! The oracle as a filter: each line of standard input is a call, each line of standard output its outcome.
use std::io::{self, BufRead, BufWriter, Write};

fn main() -> io::Result<()> {
    let mut input = io::stdin().lock();
    let mut output = BufWriter::new(io::stdout().lock());
    let mut line = Vec::new();
    while input.read_until(b'\n', &mut line)? > 0 {
        let call = line.strip_suffix(b"\n").unwrap_or(&line);
        writeln!(output, "{}", oracle::answer(call))?;
        line.clear();
    }
    output.flush()
}
