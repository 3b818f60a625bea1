//! The static library, called by the crate `sx127x` on what a call lends.
use crate::call::{Board, Call, Numbers, Operation, Outcome, Source, Variant};

/// The bytes used, and up to ten values.
pub type Results = [u64; 11];

/// What a place of the results has that nothing was put into: a number that no call here tells.
pub const UNTOLD: u64 = 0xdead_beef_0bad_f00d;

pub fn run(call: &Call, out: &mut Outcome) {
    let mut results = [UNTOLD; 11];
    out.lend(call);
    let number = answer(call, flags(call.board), out, &mut results);
    out.source = Source::Rust;
    out.number = number as u8;
    // A call that is lent no log tells 0: what it was told is as it was.
    out.used = match call.operation.is_lent_a_log() {
        true => results[0] as usize,
        false => call.used.wrapping_add(results[0] as usize),
    };
    for (place, word) in results[1..].iter().take_while(|word| **word != UNTOLD).enumerate() {
        out.values.push(value(call.operation, number, place, *word));
    }
}

/// A board's flags, as the header has them.
pub fn flags(board: Board) -> u8 {
    let Board { variant, tcxo_used, tx_boost, rx_boost } = board;
    (variant == Variant::Sx1276) as u8 | (tcxo_used as u8) << 1 | (tx_boost as u8) << 2 | (rx_boost as u8) << 3
}

/// A packet's signal and a link's power can be below zero; sizes can be beyond an `i64`.
fn value(operation: Operation, number: i32, place: usize, word: u64) -> i128 {
    match (operation, number, place) {
        (Operation::GetRxPacketStatus, 0, _) | (Operation::ReadLink, 0, 9) => word as i64 as i128,
        _ => word as i128,
    }
}

/// Calls the library on what `out` was lent.
pub fn answer(call: &Call, board: u8, out: &mut Outcome, results: &mut [u64]) -> i32 {
    let Outcome { image, fifo, buffer, log, .. } = out;
    let (used, arguments) = (call.used, &call.arguments);
    let byte = |place: usize| arguments[place] as u8;
    match call.operation {
        Operation::InitLora => sx127x::init_lora(image, log, used, board, byte(0), results),
        Operation::CreateModulationParams => created_modulation(arguments, board, results),
        Operation::CreatePacketParams => created_packet(arguments, results),
        Operation::Reset => sx127x::reset(image, log, used, results),
        Operation::SetStandby => sx127x::set_standby(image, log, used, results),
        Operation::SetSleep => sx127x::set_sleep(image, log, used, results),
        Operation::SetTxRxBufferBaseAddress => {
            let (tx, rx) = (arguments[0] as usize, arguments[1] as usize);
            sx127x::set_tx_rx_buffer_base_address(image, log, used, tx, rx, results)
        }
        Operation::SetTxPowerAndRampTime => {
            sx127x::set_tx_power_and_ramp_time(image, log, used, board, arguments[0] as i32, byte(1), results)
        }
        Operation::SetModulationParams => {
            sx127x::set_modulation_params(image, log, used, board, byte(0), byte(1), byte(2), byte(3), results)
        }
        Operation::SetPacketParams => {
            let (preamble, header, length, crc, iq) = (arguments[0] as u16, byte(1), byte(2), byte(3), byte(4));
            sx127x::set_packet_params(image, log, used, board, preamble, header, length, crc, iq, results)
        }
        Operation::SetChannel => sx127x::set_channel(image, log, used, arguments[0] as u32, results),
        Operation::SetPayload => sx127x::set_payload(image, fifo, log, used, buffer, results),
        Operation::DoTx => sx127x::do_tx(image, log, used, results),
        Operation::DoRx => sx127x::do_rx(image, log, used, board, byte(0), arguments[1] as u16, results),
        Operation::GetRxPayload => sx127x::get_rx_payload(image, fifo, log, used, buffer, results),
        Operation::GetRxPacketStatus => sx127x::get_rx_packet_status(image, log, used, board, results),
        Operation::DoCad => sx127x::do_cad(image, log, used, board, results),
        Operation::SetIrqParams => sx127x::set_irq_params(image, log, used, byte(0), byte(1), results),
        Operation::ProcessIrqEvent => sx127x::process_irq_event(image, log, used, byte(0), byte(1), byte(2), results),
        Operation::SetTxContinuousWaveMode => sx127x::set_tx_continuous_wave_mode(image, log, used, board, results),
        Operation::Program => programmed(image, log, used, board, arguments, results),
        Operation::ReadLink => sx127x::read_link(image, board, results),
        Operation::Airtime => sx127x::airtime(buffer, results),
        Operation::WriteHex => sx127x::write_hex(image, buffer, results),
        Operation::ReadHex => sx127x::read_hex(buffer, image, results),
    }
}

fn created_modulation(a: &Numbers, board: u8, results: &mut [u64]) -> i32 {
    sx127x::create_modulation_params(board, a[0] as u8, a[1] as u8, a[2] as u8, a[3] as u32, results)
}

fn created_packet(a: &Numbers, results: &mut [u64]) -> i32 {
    let (preamble, header, length) = (a[0] as u16, a[1] as u8, a[2] as u8);
    sx127x::create_packet_params(preamble, header, length, a[3] as u8, a[4] as u8, a[5] as u8, results)
}

fn programmed(image: &mut [u8], log: &mut [u8], used: usize, board: u8, a: &Numbers, results: &mut [u64]) -> i32 {
    let (public, sf, bw, cr, hz) = (a[0] as u8, a[1] as u8, a[2] as u8, a[3] as u8, a[4] as u32);
    let (preamble, header, crc, iq, power) = (a[5] as u16, a[6] as u8, a[7] as u8, a[8] as u8, a[9] as i32);
    sx127x::program(image, log, used, board, public, sf, bw, cr, hz, preamble, header, crc, iq, power, results)
}
