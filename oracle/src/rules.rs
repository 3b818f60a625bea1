//! The refusals that the Rust has not, and how many records an operation makes: document 01 read a second time, apart
//! from the driver under test.
use crate::call::{Board, Call, Numbers, Operation, Variant};
use crate::chip::{FIFO, IMAGE};

#[derive(Clone, Copy, Debug, PartialEq)]
pub struct Refusal {
    pub number: u8,
    pub values: Numbers,
}

fn refusal(number: u8) -> Option<Refusal> {
    Some(Refusal { number, values: Numbers::NONE })
}

/// 26, 8, 9, 12 and 25: where the Rust could not be asked, or would panic. In this order; in no call can two of the
/// last three meet, nor one of them and a refusal of the Rust's own that comes before it.
pub fn before_the_rust(call: &Call) -> Option<Refusal> {
    if bad_image(call) {
        return refusal(26);
    }
    if !codes_named(call) {
        return refusal(8);
    }
    let a = &call.arguments;
    match call.operation {
        Operation::ProcessIrqEvent if a[0] == 2 || (a[0] == 4 && a[1] == 2) => refusal(9),
        Operation::SetPayload if call.buffer.len() > 255 => {
            Some(Refusal { number: 12, values: Numbers::of(&[call.buffer.len() as i128]) })
        }
        Operation::SetTxContinuousWaveMode if call.board.variant == Variant::Sx1272 => refusal(25),
        _ => None,
    }
}

/// 23 and 24: asked once the Rust has not refused the arguments.
pub fn after_the_rust(call: &Call) -> Option<Refusal> {
    if call.operation == Operation::Program && call.arguments[4] >= 1_024_000_000 {
        return refusal(23);
    }
    let room = call.log.len().saturating_sub(call.used);
    let needed = 3 * records(call.board, call.operation, &call.arguments);
    if call.operation.is_lent_a_log() && room < needed {
        return refusal(24);
    }
    None
}

/// Only what a call is lent counts.
fn bad_image(call: &Call) -> bool {
    let operation = call.operation;
    let image = operation.is_lent_an_image() && call.image.len() != IMAGE;
    let fifo = operation.is_lent_a_fifo() && call.fifo.len() != FIFO;
    let parted = call.log.len() % 3 != 0 || call.used % 3 != 0 || call.used > call.log.len();
    image || fifo || (operation.is_lent_a_log() && parted)
}

/// Whether each code among the arguments names a case.
fn codes_named(call: &Call) -> bool {
    let takes = call.operation.arguments();
    let receive = takes.first().is_some_and(|first| first.name == "mode") && call.arguments[0] == 4;
    takes.iter().zip(call.arguments.iter()).all(|(argument, &code)| match argument.name {
        "sf" => (5..=12).contains(&code),
        "bw" => code <= 9,
        "cr" => (1..=4).contains(&code),
        "mode" if call.operation == Operation::SetIrqParams => code <= 6,
        "mode" => code <= 5,
        // A receive mode counts where it is listened by, and beside a mode only if that is Receive.
        "rxmode" => code <= 2 || (call.operation != Operation::DoRx && !receive),
        "public" | "implicit" | "crc" | "iq" | "optimize" | "is_tx_prep" | "clear" => code <= 1,
        _ => true,
    })
}

/// Document 01's table of records.
pub fn records(board: Board, operation: Operation, arguments: &[i128]) -> usize {
    let of = |sx1276: usize, sx1272: usize| match board.variant {
        Variant::Sx1276 => sx1276,
        Variant::Sx1272 => sx1272,
    };
    match operation {
        Operation::InitLora => 3 + board.tcxo_used as usize,
        Operation::SetChannel => 3,
        Operation::SetModulationParams => of(11, 7),
        Operation::SetPacketParams => of(8, 6),
        Operation::SetTxPowerAndRampTime => of(4, 3),
        Operation::SetPayload => 4,
        Operation::DoTx | Operation::SetStandby | Operation::SetSleep => 2,
        Operation::Reset | Operation::DoCad => 3,
        Operation::DoRx => 8,
        Operation::GetRxPayload => 5,
        Operation::GetRxPacketStatus => of(5, 2),
        Operation::SetIrqParams => 4,
        Operation::ProcessIrqEvent => 1 + (arguments[2] != 0) as usize,
        Operation::SetTxContinuousWaveMode => 6,
        Operation::Program => of(29, 22) + board.tcxo_used as usize,
        Operation::SetTxRxBufferBaseAddress => 2,
        Operation::CreateModulationParams | Operation::CreatePacketParams => 0,
        Operation::ReadLink | Operation::Airtime | Operation::WriteHex | Operation::ReadHex => 0,
    }
}
