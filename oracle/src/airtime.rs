//! Airtime per depot, document 02's request [1], which has no Rust side: a file of sent packets is taken apart line by
//! line and added up in numbers that are wide enough for any of them.
use crate::call::Numbers;
use crate::driver::hertz;
use crate::sheet::{optimize, SIX};
use std::array;

/// A line's numbers: pack id, spreading factor, bandwidth, coding rate, preamble, length, implicit header, CRC.
pub type Line = [i128; 8];

/// A file has no more lines than these.
pub const LINES: i128 = 50_000;
pub const BANDWIDTHS: usize = 10;

/// The first bad line's number, from 1, and its refusal's.
#[derive(Clone, Copy, Debug, PartialEq)]
pub struct BadLine {
    pub line: i128,
    pub refusal: u8,
}

const BAD_LINE: u8 = 28;

pub struct Totals {
    /// Of each bandwidth.
    pub microseconds: Numbers,
    /// Whether a packet is of one of the six pairs.
    pub in_the_six: bool,
}

/// The totals of a file, or its first bad line.
pub fn airtime(text: &[u8]) -> Result<Totals, BadLine> {
    // Of each bandwidth the quarter symbols × 2^SF, so that nothing is rounded before the end.
    let mut sums = [0; BANDWIDTHS];
    let mut in_the_six = false;
    for (at, bytes) in (1..).zip(text.split_inclusive(|&byte| byte == b'\n')) {
        let line = accepted(at, bytes).map_err(|refusal| BadLine { line: at, refusal })?;
        sums[line[2] as usize] += quarter_symbols(&line) << line[1];
        in_the_six |= SIX.contains(&(line[1], line[2]));
    }
    let totals = array::from_fn::<i128, BANDWIDTHS, _>(|bw| ceil(250_000 * sums[bw], hertz(bw as i128)));
    Ok(Totals { microseconds: Numbers::of(&totals), in_the_six })
}

/// The sheet's symbols of an accepted line's packet, four times as many: preamble and 4.25, then 8 and the payload's.
pub fn quarter_symbols(line: &Line) -> i128 {
    let [_, sf, bw, cr, preamble, length, implicit, crc] = *line;
    let bits = 8 * length - 4 * sf + 28 + 16 * crc - 20 * implicit;
    let payload = ceil(bits, 4 * (sf - 2 * optimize(sf, bw))) * (cr + 4);
    (4 * preamble + 17) + 4 * (8 + payload.max(0))
}

/// The least whole number at or above n / d, also below zero.
fn ceil(n: i128, d: i128) -> i128 {
    let whole = n / d;
    // Rust cuts off toward zero: below zero that is the ceil already.
    if whole * d < n {
        whole + 1
    } else {
        whole
    }
}

/// The numbers of the line with this number, or its refusal's.
fn accepted(at: i128, bytes: &[u8]) -> Result<Line, u8> {
    if at > LINES {
        return Err(BAD_LINE);
    }
    let line = numbers(bytes).ok_or(BAD_LINE)?;
    let [id, sf, bw, cr, preamble, length, implicit, crc] = line;
    if id > u32::MAX as i128 || preamble > 65_535 || length > 255 {
        return Err(BAD_LINE);
    }
    if !(5..=12).contains(&sf) || bw > 9 || !(1..=4).contains(&cr) || implicit > 1 || crc > 1 {
        return Err(8);
    }
    match (sf, implicit) {
        (5, _) => Err(14),
        (6, 0) => Err(17),
        _ => Ok(line),
    }
}

/// Eight numbers parted by single tabs, and an LF.
fn numbers(bytes: &[u8]) -> Option<Line> {
    let mut fields = bytes.strip_suffix(b"\n")?.split(|&byte| byte == b'\t');
    let mut line = [0; 8];
    for number in &mut line {
        *number = decimal(fields.next()?)?;
    }
    fields.next().is_none().then_some(line)
}

/// Digits, the first of them no 0 unless it is the only one.
fn decimal(field: &[u8]) -> Option<i128> {
    let led_by_zero = field.len() > 1 && field[0] == b'0';
    if field.is_empty() || led_by_zero || !field.iter().all(u8::is_ascii_digit) {
        return None;
    }
    // What is past every range stays there: the rest of the digits need not fit.
    Some(field.iter().fold(0, |number, digit| (number * 10 + (digit - b'0') as i128).min(1 << 64)))
}
