//! The link reader, which has no Rust side: the registers are taken apart, and what they say is then programmed by the
//! Rust, with the sheet's optimize flag, over the very image. It is a link exactly when the Rust takes it and every byte
//! is left as it is.
use crate::call::{Board, Numbers, Operation, Variant};
use crate::chip::{Chip, FIFO, IMAGE};
use crate::driver::Question;
use crate::sheet::ask;
use std::cell::RefCell;
use std::ops::RangeInclusive;

/// The link with the lowest frequency of its step and the clamped power; none is 27.
pub fn read_link(board: Board, image: &[u8; IMAGE]) -> Option<Numbers> {
    let mut link = decoded(board.variant, image)?;
    let power =
        powers(board).find(|&power| changes_nothing(board, Operation::SetTxPowerAndRampTime, &[power, 0], image))?;
    link.push(power);
    changes_nothing(board, Operation::Program, &link, image).then_some(link)
}

/// Whether the Rust does it and the image is left as it is.
fn changes_nothing(board: Board, operation: Operation, arguments: &[i128], image: &[u8; IMAGE]) -> bool {
    let chip = RefCell::new(Chip::new(*image, [0; FIFO]));
    let answer = ask(&Question { board, operation, arguments }, &chip, &mut []);
    let answer = answer.expect("no operation of whole programming panics");
    answer.number == 0 && chip.into_inner().image == *image
}

/// The powers that a board sets, after clamping.
fn powers(board: Board) -> RangeInclusive<i128> {
    match (board.tx_boost, board.variant) {
        (true, _) => 2..=20,
        (false, Variant::Sx1276) => -4..=14,
        (false, Variant::Sx1272) => -1..=14,
    }
}

/// The spreading factor and the bandwidth that the registers name.
pub fn pair(variant: Variant, image: &[u8; IMAGE]) -> Option<(i128, i128)> {
    decoded(variant, image).map(|link| (link[1], link[2]))
}

/// All of a link but its power, as far as the registers name codes: public sf bw cr hz preamble implicit crc iq.
fn decoded(variant: Variant, image: &[u8; IMAGE]) -> Option<Numbers> {
    let public = one_of(image[0x39], 0x12, 0x34)?;
    let iq = one_of(image[0x33], 0x27, 0x66)?;
    let sf = image[0x1e] >> 4;
    let config = image[0x1d];
    let (bw, cr, implicit, crc) = match variant {
        Variant::Sx1276 => (config >> 4, config >> 1 & 7, config & 1, image[0x1e] >> 2 & 1),
        Variant::Sx1272 => ((config >> 6) + 7, config >> 3 & 7, config >> 2 & 1, config >> 1 & 1),
    };
    if !(5..=12).contains(&sf) || bw > 9 || !(1..=4).contains(&cr) {
        return None;
    }
    let hz = lowest_frequency(u32::from_be_bytes([0, image[0x06], image[0x07], image[0x08]]));
    let preamble = u16::from_be_bytes([image[0x20], image[0x21]]);
    let (sf, bw, cr, hz, preamble) = (sf as i128, bw as i128, cr as i128, hz as i128, preamble as i128);
    Some(Numbers::of(&[public, sf, bw, cr, hz, preamble, implicit as i128, crc as i128, iq]))
}

/// 0 or 1 for the two values that a register may have.
fn one_of(value: u8, off: u8, on: u8) -> Option<i128> {
    [off, on].iter().position(|&known| known == value).map(|place| place as i128)
}

/// The least f with floor(256 f / 15625) = steps.
pub fn lowest_frequency(steps: u32) -> u32 {
    (steps as u64 * 15_625).div_ceil(256) as u32
}
