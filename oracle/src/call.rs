//! A call and its outcome, as numbers and bytes.
use std::fmt;
use std::ops::{Deref, DerefMut};

#[derive(Clone, Copy, Debug, PartialEq, Eq)]
pub enum Variant {
    Sx1272,
    Sx1276,
}

#[derive(Clone, Copy, Debug, PartialEq, Eq)]
pub struct Board {
    pub variant: Variant,
    pub tcxo_used: bool,
    pub tx_boost: bool,
    pub rx_boost: bool,
}

impl Board {
    /// All 16: both variants with all settings of the three flags.
    pub fn all() -> [Board; 16] {
        std::array::from_fn(|n| Board {
            variant: if n < 8 { Variant::Sx1272 } else { Variant::Sx1276 },
            tcxo_used: n & 1 != 0,
            tx_boost: n & 2 != 0,
            rx_boost: n & 4 != 0,
        })
    }
}

/// An argument's name in the text, and the range of its type.
#[derive(Clone, Copy, Debug, PartialEq, Eq)]
pub struct Argument {
    pub name: &'static str,
    pub least: i128,
    pub most: i128,
}

const fn byte(name: &'static str) -> Argument {
    Argument { name, least: 0, most: u8::MAX as i128 }
}

const fn short(name: &'static str) -> Argument {
    Argument { name, least: 0, most: u16::MAX as i128 }
}

const fn size(name: &'static str) -> Argument {
    Argument { name, least: 0, most: u64::MAX as i128 }
}

const HZ: Argument = Argument { name: "hz", least: 0, most: u32::MAX as i128 };
const POWER: Argument = Argument { name: "power", least: i32::MIN as i128, most: i32::MAX as i128 };
const PUBLIC: Argument = byte("public");
const SF: Argument = byte("sf");
const BW: Argument = byte("bw");
const CR: Argument = byte("cr");
const PREAMBLE: Argument = short("preamble");
const IMPLICIT: Argument = byte("implicit");
const LENGTH: Argument = byte("payload_length");
const CRC: Argument = byte("crc");
const IQ: Argument = byte("iq");
const MODE: Argument = byte("mode");
const RXMODE: Argument = byte("rxmode");

/// The public calls: the Rust's operations, whole programming, the reader, a depot's airtime and images as Intel HEX.
#[derive(Clone, Copy, Debug, PartialEq, Eq)]
pub enum Operation {
    InitLora,
    CreateModulationParams,
    CreatePacketParams,
    Reset,
    SetStandby,
    SetSleep,
    SetTxRxBufferBaseAddress,
    SetTxPowerAndRampTime,
    SetModulationParams,
    SetPacketParams,
    SetChannel,
    SetPayload,
    DoTx,
    DoRx,
    GetRxPayload,
    GetRxPacketStatus,
    DoCad,
    SetIrqParams,
    ProcessIrqEvent,
    SetTxContinuousWaveMode,
    Program,
    ReadLink,
    Airtime,
    WriteHex,
    ReadHex,
}

type Entry = (Operation, &'static str, &'static [Argument]);

/// In the order in which the enum declares them.
const TABLE: [Entry; Operation::COUNT] = [
    (Operation::InitLora, "init_lora", &[PUBLIC]),
    (Operation::CreateModulationParams, "create_modulation_params", &[SF, BW, CR, HZ]),
    (Operation::CreatePacketParams, "create_packet_params", &[PREAMBLE, IMPLICIT, LENGTH, CRC, IQ, SF]),
    (Operation::Reset, "reset", &[]),
    (Operation::SetStandby, "set_standby", &[]),
    (Operation::SetSleep, "set_sleep", &[]),
    (Operation::SetTxRxBufferBaseAddress, "set_tx_rx_buffer_base_address", &[size("tx"), size("rx")]),
    (Operation::SetTxPowerAndRampTime, "set_tx_power_and_ramp_time", &[POWER, byte("is_tx_prep")]),
    (Operation::SetModulationParams, "set_modulation_params", &[SF, BW, CR, byte("optimize")]),
    (Operation::SetPacketParams, "set_packet_params", &[PREAMBLE, IMPLICIT, LENGTH, CRC, IQ]),
    (Operation::SetChannel, "set_channel", &[HZ]),
    (Operation::SetPayload, "set_payload", &[]),
    (Operation::DoTx, "do_tx", &[]),
    (Operation::DoRx, "do_rx", &[RXMODE, short("n")]),
    (Operation::GetRxPayload, "get_rx_payload", &[]),
    (Operation::GetRxPacketStatus, "get_rx_packet_status", &[]),
    (Operation::DoCad, "do_cad", &[]),
    (Operation::SetIrqParams, "set_irq_params", &[MODE, RXMODE]),
    (Operation::ProcessIrqEvent, "process_irq_event", &[MODE, RXMODE, byte("clear")]),
    (Operation::SetTxContinuousWaveMode, "set_tx_continuous_wave_mode", &[]),
    (Operation::Program, "program", &[PUBLIC, SF, BW, CR, HZ, PREAMBLE, IMPLICIT, CRC, IQ, POWER]),
    (Operation::ReadLink, "read_link", &[]),
    (Operation::Airtime, "airtime", &[]),
    (Operation::WriteHex, "write_hex", &[]),
    (Operation::ReadHex, "read_hex", &[]),
];

impl Operation {
    pub const COUNT: usize = 25;

    pub fn all() -> impl Iterator<Item = Operation> {
        TABLE.iter().map(|entry| entry.0)
    }

    pub fn name(self) -> &'static str {
        TABLE[self as usize].1
    }

    pub fn arguments(self) -> &'static [Argument] {
        TABLE[self as usize].2
    }

    pub fn named(name: &[u8]) -> Option<Operation> {
        Operation::all().find(|operation| operation.name().as_bytes() == name)
    }

    /// `create_` calls look at their arguments alone, `airtime` at a text.
    pub fn is_lent_an_image(self) -> bool {
        !matches!(self, Operation::CreateModulationParams | Operation::CreatePacketParams | Operation::Airtime)
    }

    /// An image is read or written as Intel HEX.
    pub fn is_of_hex(self) -> bool {
        matches!(self, Operation::WriteHex | Operation::ReadHex)
    }

    /// All that are lent an image append to a log, but for the reader and those of Intel HEX.
    pub fn is_lent_a_log(self) -> bool {
        self.is_lent_an_image() && self != Operation::ReadLink && !self.is_of_hex()
    }

    pub fn is_lent_a_fifo(self) -> bool {
        matches!(self, Operation::SetPayload | Operation::GetRxPayload)
    }

    /// A payload, a receive buffer, the text of a depot's file, an Intel HEX text or the room for one.
    pub fn is_lent_a_buffer(self) -> bool {
        self.is_lent_a_fifo() || self == Operation::Airtime || self.is_of_hex()
    }
}

/// Up to ten numbers, kept in place: a call's arguments, or the values of an answer.
///
/// They are wider than any argument, since `usize` has values that no `i64` holds.
#[derive(Clone, Copy)]
pub struct Numbers {
    count: usize,
    list: [i128; 10],
}

impl Numbers {
    pub const NONE: Numbers = Numbers { count: 0, list: [0; 10] };

    pub fn of(numbers: &[i128]) -> Numbers {
        let mut made = Numbers::NONE;
        numbers.iter().for_each(|number| made.push(*number));
        made
    }

    pub fn push(&mut self, number: i128) {
        self.list[self.count] = number;
        self.count += 1;
    }
}

impl Deref for Numbers {
    type Target = [i128];

    fn deref(&self) -> &[i128] {
        &self.list[..self.count]
    }
}

impl DerefMut for Numbers {
    fn deref_mut(&mut self) -> &mut [i128] {
        &mut self.list[..self.count]
    }
}

impl PartialEq for Numbers {
    fn eq(&self, other: &Numbers) -> bool {
        self[..] == other[..]
    }
}

impl fmt::Debug for Numbers {
    fn fmt(&self, f: &mut fmt::Formatter<'_>) -> fmt::Result {
        self[..].fmt(f)
    }
}

/// What is asked, and what is lent for it. Each argument is within the range of its type.
#[derive(Clone, Debug, PartialEq)]
pub struct Call {
    pub board: Board,
    pub operation: Operation,
    pub arguments: Numbers,
    pub image: Vec<u8>,
    pub fifo: Vec<u8>,
    pub buffer: Vec<u8>,
    pub log: Vec<u8>,
    pub used: usize,
}

impl Call {
    /// A call that is lent nothing.
    pub fn new(board: Board, operation: Operation, arguments: &[i128]) -> Call {
        Call {
            board,
            operation,
            arguments: Numbers::of(arguments),
            image: Vec::new(),
            fifo: Vec::new(),
            buffer: Vec::new(),
            log: Vec::new(),
            used: 0,
        }
    }
}

/// Whose answer an outcome is.
#[derive(Clone, Debug, PartialEq)]
pub enum Source {
    /// The unchanged Rust's, over the mock.
    Rust,
    /// Ours: a refusal that the Rust has not, or the reader, a depot's airtime or Intel HEX, which have no Rust side.
    Ours,
    /// The Rust panicked where document 01 has an answer, or the mock met what it does not know; and how.
    Panic(String),
}

/// The answer, and what was lent as it is afterwards.
#[derive(Clone, Debug)]
pub struct Outcome {
    /// 0, or the refusal's number.
    pub number: u8,
    pub values: Numbers,
    pub image: Vec<u8>,
    pub fifo: Vec<u8>,
    pub buffer: Vec<u8>,
    pub log: Vec<u8>,
    pub used: usize,
    pub source: Source,
    /// Whether it holds the optimize flag of one of the six pairs, which is the sheet's and not the Rust's.
    pub in_the_six: bool,
}

fn fill(to: &mut Vec<u8>, from: &[u8]) {
    to.clear();
    to.extend_from_slice(from);
}

impl Outcome {
    pub fn new() -> Outcome {
        Outcome {
            number: 0,
            values: Numbers::NONE,
            image: Vec::new(),
            fifo: Vec::new(),
            buffer: Vec::new(),
            log: Vec::new(),
            used: 0,
            source: Source::Ours,
            in_the_six: false,
        }
    }

    /// Takes in what a call lends, as it is before the call; the room of an earlier outcome is used again.
    pub fn lend(&mut self, call: &Call) {
        self.number = 0;
        self.values = Numbers::NONE;
        fill(&mut self.image, &call.image);
        fill(&mut self.fifo, &call.fifo);
        fill(&mut self.buffer, &call.buffer);
        fill(&mut self.log, &call.log);
        self.used = call.used;
        self.source = Source::Ours;
        self.in_the_six = false;
    }

    /// Whether all is the same that a caller sees; a panic is never the same as anything.
    pub fn agrees(&self, other: &Outcome) -> bool {
        let answered = |outcome: &Outcome| !matches!(outcome.source, Source::Panic(_));
        answered(self)
            && answered(other)
            && self.number == other.number
            && self.values == other.values
            && self.image == other.image
            && self.fifo == other.fifo
            && self.buffer == other.buffer
            && self.log == other.log
            && self.used == other.used
    }
}

impl Default for Outcome {
    fn default() -> Outcome {
        Outcome::new()
    }
}
