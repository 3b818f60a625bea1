//! A call's outcome: our own refusals, where the Rust has none, and for all the rest the Rust over the mock, amended by the
//! sheet where document 02 says so.
use crate::airtime::airtime;
use crate::call::{Call, Numbers, Operation, Outcome, Source};
use crate::chip::{Chip, FIFO, IMAGE};
use crate::driver::{Answer, Question};
use crate::intel_hex;
use crate::reader::{pair, read_link};
use crate::rules::{after_the_rust, before_the_rust, Refusal};
use crate::sheet::{ask, is_in_the_six, SIX};
use std::cell::RefCell;

pub fn run(call: &Call) -> Outcome {
    let mut outcome = Outcome::new();
    run_into(call, &mut outcome);
    outcome
}

/// As `run`, in the room of an earlier outcome.
pub fn run_into(call: &Call, outcome: &mut Outcome) {
    outcome.lend(call);
    if let Some(refusal) = before_the_rust(call) {
        return refuse(outcome, refusal);
    }
    match call.operation {
        Operation::ReadLink => read_into(call, outcome),
        Operation::Airtime => add_up_into(call, outcome),
        Operation::WriteHex => write_hex_into(call, outcome),
        Operation::ReadHex => read_hex_into(call, outcome),
        _ => ask_into(call, outcome),
    }
}

fn ask_into(call: &Call, outcome: &mut Outcome) {
    let chip = RefCell::new(lent_chip(call));
    let question = Question { board: call.board, operation: call.operation, arguments: &call.arguments };
    match ask(&question, &chip, &mut outcome.buffer) {
        Err(panic) => outcome.source = Source::Panic(panic),
        Ok(answer) => settle(call, answer, &chip.into_inner(), outcome),
    }
}

/// The Rust has run aside: its answer and effects count, unless 23 or 24 comes before them.
fn settle(call: &Call, answer: Answer, chip: &Chip, outcome: &mut Outcome) {
    // 13 and 20 are told by what was read; every other error refuses the arguments, and comes before 23 and 24.
    let refused_arguments = !matches!(answer.number, 0 | 13 | 20);
    match after_the_rust(call) {
        Some(refusal) if !refused_arguments => {
            outcome.buffer.copy_from_slice(&call.buffer);
            refuse(outcome, refusal);
        }
        _ => take_over(call, answer, chip, outcome),
    }
}

fn take_over(call: &Call, answer: Answer, chip: &Chip, outcome: &mut Outcome) {
    let new = chip.log();
    outcome.source = Source::Rust;
    outcome.number = answer.number;
    outcome.values = answer.values;
    outcome.in_the_six = answer.number == 0 && is_in_the_six(call.operation, &call.arguments);
    if call.operation.is_lent_an_image() {
        outcome.image.copy_from_slice(&chip.image);
    }
    if call.operation.is_lent_a_fifo() {
        outcome.fifo.copy_from_slice(&chip.fifo);
    }
    if new.is_empty() {
        return;
    }
    match outcome.log.get_mut(call.used..call.used + new.len()) {
        Some(room) => {
            room.copy_from_slice(new);
            outcome.used += new.len();
        }
        None => outcome.source = Source::Panic(format!("{} bytes of records, more than document 01 says", new.len())),
    }
}

fn refuse(outcome: &mut Outcome, refusal: Refusal) {
    outcome.number = refusal.number;
    outcome.values = refusal.values;
}

fn read_into(call: &Call, outcome: &mut Outcome) {
    let image = lent_image(call);
    outcome.in_the_six = pair(call.board.variant, image).is_some_and(|pair| SIX.contains(&pair));
    match read_link(call.board, image) {
        Some(link) => outcome.values = link,
        None => refuse(outcome, plain(27)),
    }
}

fn add_up_into(call: &Call, outcome: &mut Outcome) {
    match airtime(&call.buffer) {
        Ok(totals) => (outcome.values, outcome.in_the_six) = (totals.microseconds, totals.in_the_six),
        Err(bad) => refuse(outcome, Refusal { number: bad.refusal, values: Numbers::of(&[bad.line]) }),
    }
}

fn write_hex_into(call: &Call, outcome: &mut Outcome) {
    match intel_hex::write(lent_image(call), &mut outcome.buffer) {
        Ok(length) => outcome.values = Numbers::of(&[length as i128]),
        Err(refusal) => refuse(outcome, plain(refusal)),
    }
}

fn read_hex_into(call: &Call, outcome: &mut Outcome) {
    match intel_hex::read(&call.buffer) {
        Ok(image) => outcome.image.copy_from_slice(&image),
        Err(refusal) => refuse(outcome, plain(refusal)),
    }
}

/// A refusal that has no values.
fn plain(number: u8) -> Refusal {
    Refusal { number, values: Numbers::NONE }
}

fn lent_image(call: &Call) -> &[u8; IMAGE] {
    call.image[..].try_into().expect("26 was asked before")
}

/// A chip as it is lent. An operation that is lent no image or FIFO does not come to see what stands here for it.
fn lent_chip(call: &Call) -> Chip {
    let image = call.image[..].try_into().unwrap_or([0; IMAGE]);
    let fifo = call.fifo[..].try_into().unwrap_or([0; FIFO]);
    Chip::new(image, fifo)
}
