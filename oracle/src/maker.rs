//! Makes calls: what `record` and `compare` share of their arguments, images, logs and buffers.
use crate::call::{Argument, Board, Call, Numbers, Operation, Variant};
use crate::chip::{Chip, FIFO, IMAGE};
use crate::driver::{Answer, Question};
use crate::hex_texts::{any_lines, kinds, mixed, rows};
use crate::intel_hex::TEXT;
use crate::random::Random;
use crate::rules::records;
use crate::texts::{accepted_line, any_line, put, spoil};
use crate::{hex_texts, sheet, texts};
use std::cell::RefCell;

/// The frequencies at which document 01 changes something, and their neighbours.
pub const FREQUENCIES: [i128; 24] = [
    0, 1, 61, 62, 122, 123, 15_624, 15_625, 399_999_939, 399_999_999, 400_000_000, 400_000_001, 525_000_000,
    525_000_061, 525_000_062, 868_099_975, 868_099_976, 868_100_000, 1_023_999_938, 1_023_999_999, 1_024_000_000,
    1_024_000_061, 2_048_000_000, 4_294_967_295,
];
pub const PREAMBLES: [i128; 7] = [0, 1, 8, 255, 256, 257, 65_535];
pub const SYMBOLS: [i128; 13] = [0, 1, 3, 4, 5, 255, 256, 257, 1_022, 1_023, 1_024, 1_025, 65_535];
pub const BASES: [i128; 10] =
    [0, 1, 128, 255, 256, 257, 65_536, 4_294_967_296, 9_223_372_036_854_775_808, 18_446_744_073_709_551_615];
/// Addresses that the reader looks at on one variant or the other, with the TCXO registers.
pub const READER: [usize; 22] = [
    0x06, 0x07, 0x08, 0x09, 0x0a, 0x0b, 0x0e, 0x0f, 0x1d, 0x1e, 0x26, 0x20, 0x21, 0x31, 0x33, 0x37, 0x39, 0x3b, 0x4d,
    0x4b, 0x5a, 0x58,
];
const BAD_IMAGES: [usize; 6] = [0, 1, 127, 129, 256, 1_024];
const PAYLOADS: [usize; 8] = [0, 1, 2, 254, 255, 256, 257, 1_024];
const ROOMS: [usize; 8] = [0, 1, 12, 352, TEXT - 1, TEXT, 1_024, 4_096];

/// What an image is before a call.
#[derive(Clone, Copy, Debug, PartialEq, Eq)]
pub enum Image {
    Zero,
    /// The sheets' values after a reset.
    Reset,
    Random,
    /// Left by an accepted link.
    Linked,
}

pub const IMAGES: [Image; 4] = [Image::Zero, Image::Reset, Image::Random, Image::Linked];

/// Registers that are not 0 after a reset, as the LoRa page shows them: address and value in one number.
const RESET_BOTH: [u16; 21] = [
    0x0109, 0x021a, 0x030b, 0x0552, 0x066c, 0x0780, 0x0b2b, 0x0c20, 0x0e80, 0x1f64, 0x2108, 0x2201, 0x23ff, 0x31c3,
    0x3327, 0x3603, 0x370a, 0x3912, 0x3b1d, 0x442d, 0x6119,
];
const RESET_SX1276: [u16; 8] = [0x094f, 0x0a09, 0x1d72, 0x1e70, 0x2604, 0x4212, 0x4b09, 0x4d84];
const RESET_SX1272: [u16; 7] = [0x090f, 0x0a19, 0x1d08, 0x1e74, 0x4222, 0x5809, 0x5a84];

fn reset_image(variant: Variant) -> [u8; IMAGE] {
    let own: &[u16] = match variant {
        Variant::Sx1276 => &RESET_SX1276,
        Variant::Sx1272 => &RESET_SX1272,
    };
    let mut image = [0; IMAGE];
    for [address, value] in RESET_BOTH.iter().chain(own).map(|register| register.to_be_bytes()) {
        image[address as usize] = value;
    }
    image
}

type Ask = fn(&Question, &RefCell<Chip>, &mut [u8]) -> Result<Answer, String>;

/// What whole programming of an accepted link leaves: of the Rust by itself (`driver::ask`), or as it is to be (`sheet::ask`).
pub fn programmed(ask: Ask, board: Board, link: &[i128], start: [u8; IMAGE]) -> [u8; IMAGE] {
    let chip = RefCell::new(Chip::new(start, [0; FIFO]));
    let question = Question { board, operation: Operation::Program, arguments: link };
    let answer = ask(&question, &chip, &mut []).expect("an accepted link is programmed");
    assert_eq!(answer.number, 0, "an accepted link is refused: {link:?}");
    chip.into_inner().image
}

/// A call in the making, which is used again for the next one.
pub struct Maker {
    pub random: Random,
    pub call: Call,
}

impl Maker {
    pub fn new(seed: u64) -> Maker {
        let call = Call::new(Board::all()[0], Operation::Reset, &[]);
        Maker { random: Random::new(seed), call }
    }

    /// A call that is lent what it wants: good lengths, and a log with room for its records or a little more.
    pub fn make(&mut self, board: Board, operation: Operation, arguments: &[i128], image: Image) {
        self.call.board = board;
        self.call.operation = operation;
        self.call.arguments = Numbers::of(arguments);
        self.lend_image(image);
        self.lend_fifo();
        let spare = 3 * self.random.below(2) as usize;
        let used = 3 * self.random.below(3) as usize;
        self.lend_log(used, self.needed() + spare);
    }

    /// The bytes that the call's records take.
    pub fn needed(&self) -> usize {
        3 * records(self.call.board, self.call.operation, &self.call.arguments)
    }

    /// A log with so much room behind the used bytes, and none for a call that is lent none.
    pub fn lend_log(&mut self, used: usize, room: usize) {
        let length = if self.call.operation.is_lent_a_log() { used + room } else { 0 };
        self.call.used = used.min(length);
        self.call.log.resize(length, 0);
        self.random.fill(&mut self.call.log);
    }

    pub fn lend_image(&mut self, kind: Image) {
        self.call.image.clear();
        if !self.call.operation.is_lent_an_image() {
            return;
        }
        let board = self.call.board;
        let image = match kind {
            Image::Zero => [0; IMAGE],
            Image::Reset => reset_image(board.variant),
            Image::Random => self.random_image(),
            Image::Linked => self.linked_image(board),
        };
        self.call.image.extend_from_slice(&image);
    }

    fn lend_fifo(&mut self) {
        self.call.fifo.clear();
        self.call.buffer.clear();
        if self.call.operation.is_lent_a_fifo() {
            self.call.fifo.resize(FIFO, 0);
            self.random.fill(&mut self.call.fifo);
            let received = self.call.image[0x13] as usize;
            self.lend_buffer(if self.call.operation == Operation::GetRxPayload { received } else { 16 });
        }
        match self.call.operation {
            Operation::Airtime => self.add_lines(),
            Operation::WriteHex => self.lend_buffer(TEXT),
            Operation::ReadHex => {
                let image = self.random_image();
                self.call.buffer = rows(&image, 16).concat();
            }
            _ => {}
        }
    }

    /// A few lines more of a depot's file, all accepted.
    fn add_lines(&mut self) {
        for _ in 0..self.random.below(8) {
            put(&mut self.call.buffer, &accepted_line(&mut self.random));
        }
    }

    pub fn lend_buffer(&mut self, length: usize) {
        self.call.buffer.resize(length, 0);
        self.random.fill(&mut self.call.buffer);
    }

    /// A FIFO, and a buffer, for a call that is lent none: they come back as they are.
    pub fn put_unlent(&mut self) {
        let (fifo, buffer) = (self.random.below(5) as usize, self.random.below(5) as usize);
        self.call.fifo.resize(fifo, 0xf1);
        if !self.call.operation.is_lent_a_buffer() {
            self.call.buffer.resize(buffer, 0xb0);
        }
    }

    fn random_image(&mut self) -> [u8; IMAGE] {
        let mut image = [0; IMAGE];
        self.random.fill(&mut image);
        image
    }

    /// What an accepted link leaves, from a random start.
    fn linked_image(&mut self, board: Board) -> [u8; IMAGE] {
        let start = self.random_image();
        let link = self.accepted_link(board.variant);
        programmed(sheet::ask, board, &link, start)
    }

    /// An accepted link of one of the six pairs.
    pub fn accepted_link_of(&mut self, variant: Variant, (sf, bw): (i128, i128)) -> Numbers {
        let mut link = self.accepted_link(variant);
        (link[1], link[2], link[4]) = (sf, bw, link[4].max(400_000_000));
        link
    }

    /// Arguments of `program` that no refusal meets.
    pub fn accepted_link(&mut self, variant: Variant) -> Numbers {
        let random = &mut self.random;
        let sf = random.within(6, 12);
        let bw = random.within(if variant == Variant::Sx1272 { 7 } else { 0 }, 9);
        let hz = random.within(if bw >= 8 { 400_000_000 } else { 0 }, 1_023_999_999);
        let header = if sf == 6 { 1 } else { random.within(0, 1) };
        let (public, crc, iq) = (random.within(0, 1), random.within(0, 1), random.within(0, 1));
        let (cr, preamble, power) = (random.within(1, 4), random.within(0, 65_535), random.within(-6, 22));
        Numbers::of(&[public, sf, bw, cr, hz, preamble, header, crc, iq, power])
    }

    /// Arguments that no refusal meets, if the variant has the operation.
    pub fn accepted_arguments(&mut self, variant: Variant, operation: Operation) -> Numbers {
        let link = self.accepted_link(variant);
        let mut made = Numbers::NONE;
        for argument in operation.arguments() {
            let place = Operation::Program.arguments().iter().position(|of_link| of_link.name == argument.name);
            made.push(match (place, argument.name) {
                (Some(place), _) => link[place],
                (None, "mode") => self.random.pick(&[0, 1, 3, 4, 5]),
                (None, "rxmode") => self.random.within(0, 1),
                (None, "tx" | "rx") => self.random.within(0, 255),
                _ => self.named(argument),
            });
        }
        made
    }

    /// Arguments whose codes all name cases.
    pub fn named_arguments(&mut self, operation: Operation) -> Numbers {
        let mut made = Numbers::NONE;
        for argument in operation.arguments() {
            made.push(self.named(argument));
        }
        made
    }

    fn named(&mut self, argument: &Argument) -> i128 {
        let random = &mut self.random;
        match argument.name {
            "sf" => random.within(5, 12),
            "bw" => random.within(0, 9),
            "cr" => random.within(1, 4),
            "mode" => random.within(0, 5),
            "rxmode" => random.within(0, 2),
            "hz" if random.one_in(4) => random.pick(&FREQUENCIES),
            "hz" => random.within(0, 1_100_000_000),
            "n" if random.one_in(2) => random.pick(&SYMBOLS),
            "preamble" if random.one_in(2) => random.pick(&PREAMBLES),
            "power" => random.within(-8, 24),
            "tx" | "rx" if random.one_in(4) => random.pick(&BASES),
            "tx" | "rx" => random.within(0, 255),
            "n" | "preamble" | "payload_length" => random.within(argument.least, argument.most),
            _ => random.within(0, 1),
        }
    }

    /// Any call: mostly one that is done, now and then with something wrong.
    pub fn make_any(&mut self) {
        let operation = Operation::all().nth(self.random.below(Operation::COUNT as u64) as usize).unwrap();
        self.make_any_of(operation);
    }

    pub fn make_any_of(&mut self, operation: Operation) {
        let board = self.random.pick(&Board::all());
        let mut arguments = self.accepted_arguments(board.variant, operation);
        if self.random.one_in(4) {
            arguments = self.named_arguments(operation);
        }
        for (number, argument) in arguments.iter_mut().zip(operation.arguments()) {
            if self.random.one_in(64) {
                *number = self.random.number() as i128 % (argument.most + 1 - argument.least) + argument.least;
            }
        }
        let image = self.random.pick(&IMAGES);
        self.make(board, operation, &arguments, image);
        self.vary_image();
        self.vary_log();
        self.vary_buffer();
    }

    /// Mostly as it is; else some bytes are changed, or the length is wrong.
    fn vary_image(&mut self) {
        if self.call.image.is_empty() {
            return;
        }
        if self.random.one_in(4) {
            let (address, value) = (self.random.below(IMAGE as u64) as usize, self.random.number() as u8);
            self.call.image[address] = value;
        }
        if self.random.one_in(64) {
            let length = self.random.pick(&BAD_IMAGES);
            self.call.image.resize(length, 0);
        }
    }

    fn vary_log(&mut self) {
        if !self.call.operation.is_lent_a_log() || !self.random.one_in(8) {
            return;
        }
        let needed = self.needed();
        let used = 3 * self.random.below(8) as usize;
        match self.random.below(6) {
            0 => self.lend_log(used, needed.saturating_sub(3)),
            1 => self.lend_log(used, 0),
            2 => self.lend_log(used, needed + 1),
            3 => self.lend_log(used + 1, needed + 2),
            4 => self.lend_log(1_023 - needed, needed),
            _ => self.call.used = self.random.pick(&[self.call.log.len() + 3, usize::MAX, usize::MAX / 3 * 3]),
        }
    }

    fn vary_buffer(&mut self) {
        match self.call.operation {
            Operation::SetPayload => {
                let length = self.random.below(256) as usize;
                let length = if self.random.one_in(4) { self.random.pick(&PAYLOADS) } else { length };
                self.lend_buffer(length);
            }
            Operation::GetRxPayload if self.call.image.len() == IMAGE => {
                let length = self.call.image[0x13] as usize;
                let length = (length + self.random.below(4) as usize).saturating_sub(1);
                self.lend_buffer(length);
            }
            Operation::Airtime if self.random.one_in(2) => self.vary_text(),
            Operation::WriteHex => self.vary_room(),
            Operation::ReadHex => self.vary_hex(),
            _ if self.random.one_in(32) => self.put_unlent(),
            _ => {}
        }
        if self.call.operation.is_lent_a_fifo() && self.random.one_in(64) {
            let length = self.random.pick(&[0, 255, 257, 512]);
            self.call.fifo.resize(length, 0);
        }
    }

    /// A line that may be refused among the others, or a byte that does not belong.
    fn vary_text(&mut self) {
        if self.random.one_in(2) {
            put(&mut self.call.buffer, &any_line(&mut self.random));
            self.add_lines();
        } else {
            spoil(&mut self.random, &mut self.call.buffer, &texts::BYTES);
        }
    }

    fn vary_room(&mut self) {
        let length = TEXT + self.random.below(40) as usize;
        let length = if self.random.one_in(4) { self.random.pick(&ROOMS) } else { length };
        self.lend_buffer(length);
    }

    /// A text of any layout, which may have a line of another kind among the others, or a byte that does not belong.
    fn vary_hex(&mut self) {
        let image = self.random_image();
        let mut lines = any_lines(&mut self.random, &image);
        if self.random.one_in(4) {
            let kinds = kinds();
            let kind = kinds[self.random.below(kinds.len() as u64) as usize].clone();
            lines.insert(self.random.below(lines.len() as u64 + 1) as usize, kind);
        }
        self.call.buffer = mixed(&mut self.random, &lines.concat());
        if self.random.one_in(4) {
            spoil(&mut self.random, &mut self.call.buffer, &hex_texts::BYTES);
        }
    }
}
