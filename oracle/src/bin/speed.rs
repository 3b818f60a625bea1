//! How long calls take: the Rust over its mock and the static library, on the same inputs, in turns.
//!
//! Both keep registers, FIFO and log from call to call and start each call with an empty log. The reader, a depot's airtime
//! and Intel HEX have no Rust side: the oracle's own stand there. Its reader programs its guess once by the Rust over the
//! mock.
use oracle::airtime::airtime;
use oracle::chip::{Chip, FIFO, IMAGE};
use oracle::driver::{self, Question};
use oracle::intel_hex;
use oracle::linked;
use oracle::maker::{Image, Maker};
use oracle::reader::read_link;
use oracle::{Board, Call, Operation, Outcome, Variant};
use std::cell::RefCell;
use std::hint::black_box;
use std::time::{Duration, Instant};

/// Calls of each kind that are made beforehand.
const INPUTS: usize = 64;
/// Many short rounds, so that few of them are cut into by something else that runs.
const ROUNDS: usize = 401;
/// How long a side takes in a round, about.
const ROUND: Duration = Duration::from_micros(300);

/// One input, ready for both sides.
struct Input {
    call: Call,
    chip: RefCell<Chip>,
    buffer: Vec<u8>,
    out: Outcome,
    flags: u8,
}

impl Input {
    fn new(call: &Call) -> Input {
        let image = call.image[..].try_into().unwrap_or([0; IMAGE]);
        let fifo = call.fifo[..].try_into().unwrap_or([0; FIFO]);
        let mut call = call.clone();
        call.used = 0;
        let mut out = Outcome::new();
        out.lend(&call);
        let flags = linked::flags(call.board);
        Input { chip: RefCell::new(Chip::new(image, fifo)), buffer: call.buffer.clone(), out, flags, call }
    }

    fn by_the_rust(&mut self) {
        match self.call.operation {
            Operation::ReadLink => {
                black_box(read_link(self.call.board, &self.chip.get_mut().image));
            }
            Operation::Airtime => {
                let _ = black_box(airtime(&self.buffer));
            }
            Operation::WriteHex => {
                let _ = black_box(intel_hex::write(&self.chip.get_mut().image, &mut self.buffer));
            }
            Operation::ReadHex => {
                let _ = black_box(intel_hex::read(&self.buffer));
            }
            _ => self.asked(),
        }
    }

    fn asked(&mut self) {
        self.chip.get_mut().rewind();
        let Call { board, operation, arguments, .. } = &self.call;
        let question = Question { board: *board, operation: *operation, arguments };
        black_box(driver::answer(&question, &self.chip, &mut self.buffer));
    }

    fn by_the_library(&mut self) {
        let mut results = [0; 11];
        black_box(linked::answer(&self.call, self.flags, &mut self.out, &mut results));
        black_box(&results);
    }
}

/// Accepted calls of an operation on all boards that have it; a receive is of so many bytes, if that is said.
fn inputs(maker: &mut Maker, operation: Operation, length: Option<u8>) -> Vec<Input> {
    let has = |board: &Board| operation != Operation::SetTxContinuousWaveMode || board.variant == Variant::Sx1276;
    let boards: Vec<Board> = Board::all().into_iter().filter(has).collect();
    let made = boards.iter().cycle().take(INPUTS).map(|board| {
        let arguments = maker.accepted_arguments(board.variant, operation);
        maker.make(*board, operation, &arguments, Image::Linked);
        if let Some(length) = length {
            maker.call.image[0x13] = length;
            maker.lend_buffer(length as usize);
        }
        Input::new(&maker.call)
    });
    made.collect()
}

/// Nanoseconds a call, over so many turns of all inputs.
fn timed(inputs: &mut [Input], turns: usize, side: fn(&mut Input)) -> f64 {
    let start = Instant::now();
    for _ in 0..turns {
        inputs.iter_mut().for_each(|input| side(black_box(input)));
    }
    start.elapsed().as_secs_f64() * 1e9 / (turns * inputs.len()) as f64
}

fn turns(inputs: &mut [Input], side: fn(&mut Input)) -> usize {
    timed(inputs, 20, side);
    let turn = timed(inputs, 20, side) * inputs.len() as f64;
    (ROUND.as_nanos() as f64 / turn).ceil() as usize
}

fn median(mut times: Vec<f64>) -> f64 {
    times.sort_by(f64::total_cmp);
    times[times.len() / 2]
}

fn row(name: &str, mut inputs: Vec<Input>) {
    let rust_turns = turns(&mut inputs, Input::by_the_rust);
    let library_turns = turns(&mut inputs, Input::by_the_library);
    let (mut rust, mut library) = (Vec::new(), Vec::new());
    for _ in 0..ROUNDS {
        rust.push(timed(&mut inputs, rust_turns, Input::by_the_rust));
        library.push(timed(&mut inputs, library_turns, Input::by_the_library));
    }
    let (rust, library) = (median(rust), median(library));
    println!("{name:32}{rust:>10.1}{library:>10.1}{:>10.2}", library / rust);
}

fn main() {
    println!("{:32}{:>10}{:>10}{:>10}", "nanoseconds a call", "Rust", "library", "ratio");
    let mut maker = Maker::new(1);
    for operation in Operation::all() {
        let name = match operation {
            Operation::ReadLink => "read_link (the oracle's reader)",
            Operation::Airtime => "airtime (the oracle's sums)",
            Operation::WriteHex => "write_hex (the oracle's text)",
            Operation::ReadHex => "read_hex (the oracle's lines)",
            _ => operation.name(),
        };
        let calls = inputs(&mut maker, operation, None);
        row(name, calls);
    }
    for (name, operation) in
        [("255 bytes sent", Operation::SetPayload), ("255 bytes received", Operation::GetRxPayload)]
    {
        let calls = inputs(&mut maker, operation, Some(255));
        row(name, calls);
    }
}
