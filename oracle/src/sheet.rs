//! Where this driver goes by the sheet and no more by the Rust, as document 02 asks: the Rust is run as it is, and of what
//! it says and leaves the parts that differ, and nothing else, are put as the sheet has them.
use crate::call::{Operation, Variant};
use crate::chip::{Chip, KIND_WRITE};
use crate::driver::{self, hertz, Answer, Question};
use std::cell::RefCell;
use std::ops::BitOr;

/// Request [2]: spreading factors and bandwidths whose symbols last 16.4 ms, of which the Rust's two
/// divisions make 16: SF7 at 7.8 kHz, SF8 at 15.6, SF9 at 31.25, SF10 at 62.5, SF11 at 125, SF12 at 250.
pub const SIX: [(i128, i128); 6] = [(7, 0), (8, 2), (9, 4), (10, 6), (11, 7), (12, 8)];

/// Low data rate optimize: on exactly where a symbol lasts longer than 16 ms.
pub fn optimize(sf: i128, bw: i128) -> i128 {
    (1_000 * (1 << sf) > 16 * hertz(bw)) as i128
}

/// Those of the six whose bandwidth a variant has.
pub fn six_of(variant: Variant) -> impl Iterator<Item = (i128, i128)> {
    SIX.into_iter().filter(move |pair| variant == Variant::Sx1276 || pair.1 >= 7)
}

/// Whether the Rust would work out the flag of one of the six pairs.
pub fn is_in_the_six(operation: Operation, arguments: &[i128]) -> bool {
    let pair = match operation {
        Operation::CreateModulationParams => &arguments[..2],
        Operation::Program => &arguments[1..3],
        _ => return false,
    };
    SIX.contains(&(pair[0], pair[1]))
}

/// As `driver::ask`, but for the optimize flag of the six pairs.
pub fn ask(question: &Question, chip: &RefCell<Chip>, buffer: &mut [u8]) -> Result<Answer, String> {
    let mut answer = driver::ask(question, chip, buffer)?;
    if answer.number != 0 || !is_in_the_six(question.operation, question.arguments) {
        return Ok(answer);
    }
    match question.operation {
        Operation::CreateModulationParams => turn_on(&mut answer.values[3], 1)?,
        _ => turn_on_in(&mut chip.borrow_mut(), question.board.variant)?,
    }
    Ok(answer)
}

/// LowDataRateOptimize: its register, and its bit there.
pub fn flag(variant: Variant) -> (u8, u8) {
    match variant {
        Variant::Sx1272 => (0x1d, 0x01),
        Variant::Sx1276 => (0x26, 0x08),
    }
}

/// Puts 1 where the Rust has put the flag's 0: into the register, and into each record that shows it from its write on.
fn turn_on_in(chip: &mut Chip, variant: Variant) -> Result<(), String> {
    let (address, bit) = flag(variant);
    let shows = chip.records_mut().filter(|record| record[1] == address);
    for record in shows.skip_while(|record| record[0] != KIND_WRITE) {
        turn_on(&mut record[2], bit)?;
    }
    turn_on(&mut chip.image[address as usize], bit)
}

fn turn_on<T: Copy + BitOr<Output = T> + PartialEq>(held: &mut T, bit: T) -> Result<(), String> {
    let turned = *held | bit;
    if *held == turned {
        return Err("the Rust has the optimize flag on where the sheet's rule is to differ".to_string());
    }
    *held = turned;
    Ok(())
}
