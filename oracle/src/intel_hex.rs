//! Register images as Intel HEX, document 02's request [3], which has no Rust side: a text is cut into its lines, each line
//! is turned into bytes, and only then is it asked what they say.
use crate::chip::IMAGE;
use std::ops::Range;

/// The bytes of an image's text.
pub const TEXT: usize = 364;

pub const BAD_HEX: u8 = 29;
pub const BAD_SUM: u8 = 30;
pub const WRONG_PLACE: u8 = 31;
pub const INCOMPLETE: u8 = 32;
pub const TEXT_FULL: u8 = 41;

const DATA: u8 = 0;
const END: u8 = 1;
/// The bytes of each record that is written.
const ROW: usize = 16;

/// Puts an image's text at the start of the room; how many bytes that are, or the refusal's number.
pub fn write(image: &[u8; IMAGE], room: &mut [u8]) -> Result<usize, u8> {
    let text = written(image);
    let start = room.get_mut(..text.len()).ok_or(TEXT_FULL)?;
    start.copy_from_slice(text.as_bytes());
    Ok(text.len())
}

fn written(image: &[u8; IMAGE]) -> String {
    let mut text = String::new();
    for (row, bytes) in image.chunks(ROW).enumerate() {
        let head = [ROW as u8, 0, (ROW * row) as u8, DATA];
        text += &line(&[&head, bytes].concat());
    }
    text + &line(&[0, 0, 0, END])
}

/// A record's line, its sum put behind its bytes.
fn line(bytes: &[u8]) -> String {
    let digit = |value: u8| char::from_digit(value as u32, 16).expect("half a byte").to_ascii_uppercase();
    let sum = total(bytes).wrapping_neg();
    let digits: String = bytes.iter().chain([&sum]).flat_map(|byte| [digit(byte >> 4), digit(byte & 15)]).collect();
    format!(":{digits}\n")
}

fn total(bytes: &[u8]) -> u8 {
    bytes.iter().fold(0, |total, byte| total.wrapping_add(*byte))
}

/// The image that a text sets, or the refusal's number.
pub fn read(text: &[u8]) -> Result<[u8; IMAGE], u8> {
    let lines: Vec<&[u8]> = text.split_inclusive(|&byte| byte == b'\n').collect();
    let mut records: Vec<Record> = Vec::new();
    for (at, line) in lines.iter().enumerate() {
        let record = Record::of(line).ok_or(BAD_HEX)?;
        let is_followed = at + 1 < lines.len();
        match record.fault(is_followed, &records) {
            Some(refusal) => return Err(refusal),
            None => records.push(record),
        }
    }
    joined(records).ok_or(INCOMPLETE)
}

/// A line of good form.
struct Record {
    kind: u8,
    address: u16,
    data: Vec<u8>,
    /// Of all its bytes, the sum among them: 0 where that is right.
    total: u8,
}

impl Record {
    /// A colon, digits in pairs that are as many bytes as the first of them says, and LF or CR LF.
    fn of(line: &[u8]) -> Option<Record> {
        let line = line.strip_suffix(b"\n")?;
        let line = line.strip_suffix(b"\r").unwrap_or(line);
        let bytes = bytes(line.strip_prefix(b":")?)?;
        let [count, high, low, kind, data @ .., _] = &bytes[..] else { return None };
        let address = u16::from_be_bytes([*high, *low]);
        let is_whole = data.len() == *count as usize;
        is_whole.then(|| Record { kind: *kind, address, data: data.to_vec(), total: total(&bytes) })
    }

    /// What is wrong with it after these records, which are in order.
    fn fault(&self, is_followed: bool, earlier: &[Record]) -> Option<u8> {
        if !self.is_known(is_followed) {
            return Some(BAD_HEX);
        }
        if self.total != 0 {
            return Some(BAD_SUM);
        }
        (!self.is_in_place(earlier)).then_some(WRONG_PLACE)
    }

    fn is_known(&self, is_followed: bool) -> bool {
        match self.kind {
            DATA => true,
            END => self.data.is_empty() && self.address == 0 && !is_followed,
            _ => false,
        }
    }

    fn is_in_place(&self, earlier: &[Record]) -> bool {
        let places = self.places();
        places.is_empty() || (places.end <= IMAGE && !earlier.iter().any(|other| meet(&places, &other.places())))
    }

    /// The addresses of its bytes. A record that runs past 0xffff is outside already, wherever it would go on.
    fn places(&self) -> Range<usize> {
        let start = self.address as usize;
        start..start + self.data.len()
    }
}

fn meet(one: &Range<usize>, other: &Range<usize>) -> bool {
    one.start.max(other.start) < one.end.min(other.end)
}

/// Digits of either case, two a byte.
fn bytes(digits: &[u8]) -> Option<Vec<u8>> {
    let value = |digit: u8| char::from(digit).to_digit(16);
    let byte = |pair: &[u8]| match pair {
        [high, low] => Some((value(*high)? << 4 | value(*low)?) as u8),
        _ => None,
    };
    digits.chunks(2).map(byte).collect()
}

/// The image of records that are closed by an end record. None is outside and no two meet, so that they set each address
/// exactly where they have an image's bytes.
fn joined(mut records: Vec<Record>) -> Option<[u8; IMAGE]> {
    records.pop().filter(|last| last.kind == END)?;
    records.sort_by_key(|record| record.address);
    let bytes: Vec<u8> = records.into_iter().flat_map(|record| record.data).collect();
    bytes.try_into().ok()
}
