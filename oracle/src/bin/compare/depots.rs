//! Depots' files, for `airtime`: every setting of a packet, every byte of a file put otherwise, files of any length.
use crate::exhaustive::{each_short, Exhaustive};
use oracle::airtime::{Line, LINES};
use oracle::maker::{Image, PREAMBLES};
use oracle::texts::{accepted_line, any_line, digits, fields, file, joined, put, with, EXAMPLE, LONGEST, MALFORMED};
use oracle::{Operation, Variant};

/// For each field what is in order, what is out of range or names no case, and what is no number.
const CONTENTS: [&[&[u8]]; 8] = [
    &[b"1", b"4294967296", b"x"],
    &[b"5", b"6", b"7", b"13", b""],
    &[b"9", b"10", b"00"],
    &[b"4", b"5", b"+1"],
    &[b"65535", b"65536", b"-"],
    &[b"255", b"256", b" "],
    &[b"0", b"1", b"2", b"1\r"],
    &[b"1", b"2", b"01"],
];

/// How many digits a number has that is longer than any field wants.
const DIGITS: [usize; 14] = [2, 3, 5, 6, 10, 11, 18, 19, 20, 21, 39, 40, 1_000, 100_000];

impl Exhaustive<'_> {
    pub fn depots(&mut self) {
        self.maker.make(Self::of_variant(Variant::Sx1276), Operation::Airtime, &[], Image::Zero);
        self.settings();
        self.numbers();
        self.contents();
        self.bytes();
        self.files();
        self.long_numbers();
        self.longest_files();
        self.bad_line_of_many();
    }

    fn text(&mut self, text: &[u8]) {
        self.maker.call.buffer.clear();
        self.maker.call.buffer.extend_from_slice(text);
        self.offer();
    }

    fn line(&mut self, line: &Line) {
        self.maker.call.buffer.clear();
        put(&mut self.maker.call.buffer, line);
        self.offer();
    }

    /// Every spreading factor, bandwidth, coding rate, header and CRC with every length, and every preamble.
    fn settings(&mut self) {
        for n in 0..8 * 10 * 4 * 4 {
            let (sf, bw, cr, implicit, crc) = (5 + n / 160, n / 16 % 10, 1 + n / 4 % 4, n >> 1 & 1, n & 1);
            for length in 0..=255 {
                let preamble = PREAMBLES[(n + length) as usize % PREAMBLES.len()];
                self.line(&[n, sf, bw, cr, preamble, length, implicit, crc]);
            }
            for (preamble, length) in PREAMBLES.into_iter().flat_map(|preamble| [0, 10, 255].map(|l| (preamble, l))) {
                self.line(&[n, sf, bw, cr, preamble, length, implicit, crc]);
            }
        }
        for (_, preamble) in each_short(Variant::Sx1276) {
            let mut line = accepted_line(&mut self.maker.random);
            line[4] = preamble;
            self.line(&line);
        }
    }

    /// Each field with small numbers and with those beside a power of two, of itself and from where it would wrap to.
    fn numbers(&mut self) {
        for field in 0..8 {
            let mut numbers: Vec<i128> = (0..=300).collect();
            for power in (8..=126).map(|bits| 1i128 << bits) {
                numbers.extend([power - 1, power, power + 1, power + EXAMPLE[field]]);
            }
            for number in numbers {
                let mut line = EXAMPLE;
                line[field] = number;
                self.line(&line);
            }
            for content in MALFORMED {
                self.text(&with(&EXAMPLE, field, content));
            }
        }
    }

    /// Every line of which each field is one of its contents.
    fn contents(&mut self) {
        let count: usize = CONTENTS.iter().map(|contents| contents.len()).product();
        for n in 0..count {
            let mut left = n;
            let line = CONTENTS.map(|contents| {
                let content = contents[left % contents.len()];
                left /= contents.len();
                content.to_vec()
            });
            self.text(&joined(&line));
        }
    }

    /// Files of three lines: every byte replaced by every value, every value put in before it, a byte left out, two in
    /// the other order, and every first part.
    fn bytes(&mut self) {
        for _ in 0..6 {
            let lines: [Line; 3] = std::array::from_fn(|_| accepted_line(&mut self.maker.random));
            let text = file(&lines);
            for place in 0..text.len() {
                let (before, after) = (&text[..place], &text[place + 1..]);
                for value in 0..=255 {
                    self.text(&[before, &[value], after].concat());
                    self.text(&[before, &[value], &text[place..]].concat());
                }
                self.text(before);
                self.text(&[before, after].concat());
                if let [second, rest @ ..] = after {
                    self.text(&[before, &[*second, text[place]], rest].concat());
                }
            }
        }
    }

    /// Files of some lines, all accepted, and with one among them that may be refused.
    fn files(&mut self) {
        for count in 0..=64 {
            for place in 0..=64 {
                let mut lines: Vec<Line> = (0..count).map(|_| accepted_line(&mut self.maker.random)).collect();
                self.text(&file(&lines));
                if place < count {
                    lines[place] = any_line(&mut self.maker.random);
                    self.text(&file(&lines));
                }
            }
        }
    }

    /// Each field with numbers of many digits, the line last and before another.
    fn long_numbers(&mut self) {
        for (field, count) in (0..8).flat_map(|field| DIGITS.map(|count| (field, count))) {
            for number in ["9".repeat(count), format!("1{}", "0".repeat(count - 1)), "0".repeat(count)] {
                let line = with(&EXAMPLE, field, number.as_bytes());
                self.text(&line);
                self.text(&[&line[..], b"x\n"].concat());
            }
        }
    }

    /// As many lines as there may be, one less and more, cut off and not: each bandwidth's longest packet, and any.
    fn longest_files(&mut self) {
        for bw in 0..=10 {
            let mut text = Vec::new();
            let mut ends = Vec::new();
            for _ in 0..=LINES {
                let [id, sf, _, cr, preamble, length, implicit, crc] = LONGEST;
                let longest = [id, sf, bw, cr, preamble, length, implicit, crc];
                put(&mut text, &if bw == 10 { accepted_line(&mut self.maker.random) } else { longest });
                ends.push(text.len());
            }
            let [less, just, more] = [ends.len() - 3, ends.len() - 2, ends.len() - 1].map(|place| ends[place]);
            for length in [less, just - 1, just, just + 1, more - 1, more] {
                self.text(&text[..length]);
            }
            text[just] = b'x';
            self.text(&text);
        }
    }

    /// A bad line of each kind far down, and another behind it.
    fn bad_line_of_many(&mut self) {
        let good = file(&[EXAMPLE]);
        let bad = [(0, 4_294_967_296u64), (1, 13), (1, 5), (1, 6)];
        let bad = bad.map(|(field, number)| with(&EXAMPLE, field, &digits(number)));
        let malformed = joined(&fields(&EXAMPLE)[..7]);
        for line in bad.iter().chain([&malformed]) {
            for before in [254, 255, 256, 9_999, 24_999, 49_998, 49_999, 50_000] {
                self.text(&[&good.repeat(before), &line[..], &malformed, &good].concat());
            }
        }
    }
}
