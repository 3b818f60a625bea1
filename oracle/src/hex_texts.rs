//! Makes Intel HEX texts: records of any kind, texts that set each address once, and what may be wrong with one.
use crate::chip::IMAGE;
use crate::random::Random;
use std::ops::Range;

pub const DATA: u8 = 0;
pub const END: u8 = 1;

/// The end record.
pub const CLOSE: &[u8] = b":00000001FF\n";

/// Bytes of a text, and such as may stand there by mistake: the neighbours of digits and letters, blanks, other line ends.
pub const BYTES: [u8; 45] = *b"0123456789ABCDEFabcdef::\n\n\r\r\0\t\x0b\x0c\x1a +-/@G`gxZ\x80\xff";

/// What ends a line otherwise than by LF or CR LF.
pub const WRONG_ENDS: [&[u8]; 17] = [
    b"", b"\r", b"\n\r", b"\r\r\n", b"\n\n", b"\r\n\n", b"\n\r\n", b"\r\n\r\n", b" \n", b"\n ", b" \r\n", b"\r \n",
    b"\t\n", b"\0\n", b"\x0b", b"\x0c\n", b"\x1a",
];

/// Addresses about which places begin and end, and where a count of bits would wrap around into an image.
pub const ADDRESSES: [u16; 20] = [
    0, 1, 0x6f, 0x70, 0x7e, 0x7f, 0x80, 0x81, 0xff, 0x100, 0x17f, 0x180, 0x7fff, 0x8000, 0xff00, 0xff7f, 0xff80,
    0xff81, 0xfffe, 0xffff,
];

/// A line of these bytes, as they are: nothing is made right.
pub fn line(bytes: &[u8]) -> Vec<u8> {
    const DIGITS: &[u8; 16] = b"0123456789ABCDEF";
    let digits = bytes.iter().flat_map(|byte| [byte >> 4, byte & 15]).map(|digit| DIGITS[digit as usize]);
    [b':'].into_iter().chain(digits).chain([b'\n']).collect()
}

/// A record with the right count and the right sum.
pub fn record(kind: u8, address: u16, data: &[u8]) -> Vec<u8> {
    summed(kind, address, data, 0)
}

/// A record whose sum is so much more than the right one.
pub fn summed(kind: u8, address: u16, data: &[u8], error: u8) -> Vec<u8> {
    let [high, low] = address.to_be_bytes();
    let mut bytes = [&[data.len() as u8, high, low, kind], data].concat();
    let total = bytes.iter().fold(0, |total: u8, byte| total.wrapping_add(*byte));
    bytes.push(error.wrapping_sub(total));
    line(&bytes)
}

/// Data records of so many bytes, by rising address, and the end record. An image's text has 16.
pub fn rows(image: &[u8], size: usize) -> Vec<Vec<u8>> {
    let row = |(n, data)| record(DATA, (n * size) as u16, data);
    image.chunks(size).enumerate().map(row).chain([CLOSE.to_vec()]).collect()
}

/// The text of these lines with one more, before the one that has this place, or behind them all.
pub fn with(lines: &[Vec<u8>], place: usize, line: &[u8]) -> Vec<u8> {
    [&lines[..place].concat(), line, &lines[place..].concat()].concat()
}

/// The text of these lines, the one that has this place put otherwise.
pub fn instead(lines: &[Vec<u8>], place: usize, line: &[u8]) -> Vec<u8> {
    [&lines[..place].concat(), line, &lines[place + 1..].concat()].concat()
}

/// Lines of records at these places, whatever they are, then of those that set what is left, and the end record.
pub fn completed(image: &[u8], places: &[Range<usize>]) -> Vec<Vec<u8>> {
    let at = |places: &Range<usize>| {
        let data: Vec<u8> = places.clone().map(|address| image[address % IMAGE]).collect();
        record(DATA, places.start as u16, &data)
    };
    let mut lines: Vec<Vec<u8>> = places.iter().map(at).collect();
    let is_left = |address: &usize| !places.iter().any(|places| places.contains(address));
    let left: Vec<usize> = (0..IMAGE).filter(is_left).collect();
    for run in left.chunk_by(|one, next| one + 1 == *next) {
        lines.push(at(&(run[0]..run[0] + run.len())));
    }
    lines.push(CLOSE.to_vec());
    lines
}

pub fn lower(text: &[u8]) -> Vec<u8> {
    text.to_ascii_lowercase()
}

pub fn cr_lf(text: &[u8]) -> Vec<u8> {
    text.split_inclusive(|&byte| byte == b'\n').flat_map(|line| ended(line, b"\r\n")).collect()
}

/// A line with another end.
pub fn ended(line: &[u8], end: &[u8]) -> Vec<u8> {
    [line.strip_suffix(b"\n").unwrap_or(line), end].concat()
}

/// Each letter in any case, and each line with either end.
pub fn mixed(random: &mut Random, text: &[u8]) -> Vec<u8> {
    let mut made = Vec::new();
    for byte in text {
        match random.below(2) {
            0 if *byte == b'\n' => made.extend(b"\r\n"),
            0 => made.push(byte.to_ascii_lowercase()),
            _ => made.push(*byte),
        }
    }
    made
}

/// Lines that set each address once: records of any lengths and in any order, empty ones among them, and the end record.
pub fn any_lines(random: &mut Random, image: &[u8]) -> Vec<Vec<u8>> {
    let most = random.pick(&[1, 3, 16, 16, 40, 128]);
    let mut lines = Vec::new();
    let mut at = 0;
    while at < image.len() {
        let next = (at + random.within(1, most) as usize).min(image.len());
        lines.push(record(DATA, at as u16, &image[at..next]));
        if random.one_in(16) {
            lines.push(record(DATA, random.number() as u16, &[]));
        }
        at = next;
    }
    if random.one_in(2) {
        shuffle(random, &mut lines);
    }
    lines.push(CLOSE.to_vec());
    lines
}

fn shuffle(random: &mut Random, lines: &mut [Vec<u8>]) {
    for place in (1..lines.len()).rev() {
        lines.swap(place, random.below(place as u64 + 1) as usize);
    }
}

/// Lines of every kind, in order and bad in every way: where one stands, its text's first fault may be.
pub fn kinds() -> Vec<Vec<u8>> {
    let mut kinds = malformed();
    for error in [0, 1] {
        kinds.extend([2, 3, 4, 5, 0x10, 0xff].map(|kind| summed(kind, 0, &[], error)));
        kinds.extend([
            summed(2, 0, &[0x10, 0], error),
            summed(END, 0, &[], error),
            summed(END, 0, &[0], error),
            summed(END, 1, &[], error),
            summed(END, 0x100, &[], error),
            summed(DATA, 0, &[], error),
            summed(DATA, 0xffff, &[], error),
            summed(DATA, 0, &[1], error),
            summed(DATA, 0x7f, &[2], error),
            summed(DATA, 0x80, &[3], error),
            summed(DATA, 0x70, &[4; 17], error),
            summed(DATA, 0xff80, &[5; 255], error),
            summed(DATA, 0xffff, &[6, 7], error),
        ]);
    }
    kinds
}

/// Lines that are no record, whatever their type, sum and places would be.
pub fn malformed() -> Vec<Vec<u8>> {
    let lines: [&[u8]; 20] = [
        b"\n", b"\r\n", b":\n", b":0\n", b":00\n", b"::00000001FF\n", b" :00000001FF\n", b":00000001FF \n",
        b"00000001FF\n", b";00000001FF\n", b":0000000\n", b":00000000\n", b":000000000\n", b":0000000000F\n",
        b":000000000000\n", b":0100000000\n", b":0000000G00\n", b":00 00000000\n", b":0000000\r000\n", b"\x1a\n",
    ];
    lines.map(<[u8]>::to_vec).to_vec()
}
