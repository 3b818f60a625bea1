//! Makes depots' files: lines of which `airtime` accepts each, and what may be wrong with one.
use crate::airtime::Line;
use crate::maker::PREAMBLES;
use crate::random::Random;
use std::fmt::Display;
use std::io::Write;

/// The sheet's worked example, 161 quarter symbols at 125 kHz.
pub const EXAMPLE: Line = [1, 7, 7, 1, 8, 10, 0, 1];

/// The longest packet that there is, but for its bandwidth.
pub const LONGEST: Line = [4_294_967_295, 12, 7, 4, 65_535, 255, 0, 1];

/// What a field may be without being a number in the right form.
pub const MALFORMED: [&[u8]; 22] = [
    b"", b"00", b"01", b"07", b"007", b"+7", b"-7", b"-0", b" 7", b"7 ", b"7 7", b"7\r", b"7\0", b"\x007", b"7.0",
    b"7,0", b"0x7", b"1e1", b"x", b"/", b":", b"\xb7",
];

/// Numbers at which a field's range or a count of bits ends, and their neighbours.
pub const EDGES: [i128; 27] = [
    0, 1, 2, 3, 4, 5, 6, 7, 9, 10, 12, 13, 15, 254, 255, 256, 261, 263, 65_535, 65_536, 65_543, 4_294_967_295,
    4_294_967_296, 4_294_967_303, 18_446_744_073_709_551_615, 18_446_744_073_709_551_616, 18_446_744_073_709_551_623,
];

/// Bytes of a file, and such as may stand there by mistake.
pub const BYTES: [u8; 24] = *b"01256789\t\t\n\n\r \0+-./:,ax\xff";

pub fn put(text: &mut Vec<u8>, line: &Line) {
    let [id, sf, bw, cr, preamble, length, implicit, crc] = line;
    writeln!(text, "{id}\t{sf}\t{bw}\t{cr}\t{preamble}\t{length}\t{implicit}\t{crc}").expect("a vector takes all");
}

pub fn file(lines: &[Line]) -> Vec<u8> {
    let mut text = Vec::new();
    lines.iter().for_each(|line| put(&mut text, line));
    text
}

/// A line's fields, as they would stand in a file.
pub fn fields(line: &Line) -> [Vec<u8>; 8] {
    line.map(digits)
}

pub fn digits(number: impl Display) -> Vec<u8> {
    number.to_string().into_bytes()
}

pub fn joined(fields: &[Vec<u8>]) -> Vec<u8> {
    let mut text = fields.join(&b'\t');
    text.push(b'\n');
    text
}

/// A line, one field of which (from 0) is put otherwise.
pub fn with(line: &Line, field: usize, content: &[u8]) -> Vec<u8> {
    let mut fields = fields(line);
    fields[field] = content.to_vec();
    joined(&fields)
}

/// A line that no refusal meets.
pub fn accepted_line(random: &mut Random) -> Line {
    let ids = random.pick(&[9, 255, u32::MAX as i128]);
    let id = random.within(0, ids);
    let sf = random.within(6, 12);
    let implicit = if sf == 6 { 1 } else { random.within(0, 1) };
    let (bw, cr, crc) = (random.within(0, 9), random.within(1, 4), random.within(0, 1));
    let preamble = if random.one_in(2) { random.pick(&PREAMBLES) } else { random.within(0, 65_535) };
    [id, sf, bw, cr, preamble, random.within(0, 255), implicit, crc]
}

/// A line with numbers in it that may be out of range or name no case.
pub fn any_line(random: &mut Random) -> Line {
    let mut line = accepted_line(random);
    for number in &mut line {
        if random.one_in(6) {
            *number = random.pick(&EDGES);
        }
    }
    line
}

/// A byte put otherwise, left out, put in, or the last that there is; a new one is one of these.
pub fn spoil(random: &mut Random, text: &mut Vec<u8>, bytes: &[u8]) {
    let place = random.below(text.len() as u64 + 1) as usize;
    let byte = random.pick(bytes);
    match random.below(4) {
        0 if place < text.len() => text[place] = byte,
        1 if place < text.len() => drop(text.remove(place)),
        2 => text.insert(place, byte),
        _ => text.truncate(place),
    }
}
