//! The unchanged Rust, called as its own users would call it, over the mock.
use crate::call::{Board, Numbers, Operation, Variant};
use crate::chip::{Chip, NoDelay, Pins, Spi};
use lora_phy::mod_params::*;
use lora_phy::mod_traits::{IrqState, RadioKind};
use lora_phy::sx127x::{Config, Sx1272, Sx1276, Sx127x};
use std::any::Any;
use std::cell::{Cell, RefCell};
use std::future::Future;
use std::panic::{self, AssertUnwindSafe};
use std::pin::pin;
use std::sync::Once;
use std::task::{Context, Poll, Waker};

/// The Rust's answer: 0 and the values, or its error's number and values.
#[derive(Clone, Copy, Debug, PartialEq)]
pub struct Answer {
    pub number: u8,
    pub values: Numbers,
}

/// What the Rust is asked: arguments whose codes name cases.
pub struct Question<'a> {
    pub board: Board,
    pub operation: Operation,
    pub arguments: &'a [i128],
}

/// Asks the Rust; an error is the message of its panic.
pub fn ask(question: &Question, chip: &RefCell<Chip>, buffer: &mut [u8]) -> Result<Answer, String> {
    caught(|| answer(question, chip, buffer))
}

/// As `ask`, where the Rust does not panic.
pub fn answer(question: &Question, chip: &RefCell<Chip>, buffer: &mut [u8]) -> Answer {
    let Board { variant, tcxo_used, tx_boost, rx_boost } = question.board;
    let (spi, pins) = (Spi(chip), Pins(chip));
    let result = match variant {
        Variant::Sx1272 => {
            let mut radio = Sx127x::new(spi, pins, Config { chip: Sx1272, tcxo_used, tx_boost, rx_boost });
            block_on(perform(&mut radio, question, buffer))
        }
        Variant::Sx1276 => {
            let mut radio = Sx127x::new(spi, pins, Config { chip: Sx1276, tcxo_used, tx_boost, rx_boost });
            block_on(perform(&mut radio, question, buffer))
        }
    };
    match result {
        Ok(values) => Answer { number: 0, values },
        Err(error) => told(error),
    }
}

async fn perform(
    radio: &mut impl RadioKind,
    question: &Question<'_>,
    buffer: &mut [u8],
) -> Result<Numbers, RadioError> {
    let a = question.arguments;
    match question.operation {
        Operation::CreateModulationParams => created_modulation(radio, a).map(modulation_values),
        Operation::CreatePacketParams => created_packet(radio, a).map(packet_values),
        Operation::SetPayload => radio.set_payload(buffer).await.map(nothing),
        Operation::GetRxPayload => {
            let length = radio.get_rx_payload(&some_packet(), buffer).await?;
            Ok(Numbers::of(&[length as i128]))
        }
        Operation::GetRxPacketStatus => {
            let status = radio.get_rx_packet_status().await?;
            Ok(Numbers::of(&[status.rssi as i128, status.snr as i128]))
        }
        Operation::ProcessIrqEvent => event(radio, a).await,
        Operation::Program => program(radio, a).await.map(nothing),
        _ => command(radio, question.operation, a).await.map(nothing),
    }
}

/// The operations that answer nothing but that they are done.
async fn command(radio: &mut impl RadioKind, operation: Operation, a: &[i128]) -> Result<(), RadioError> {
    match operation {
        Operation::InitLora => radio.init_lora(flag(a[0])).await,
        Operation::Reset => radio.reset(&mut NoDelay).await,
        Operation::SetStandby => radio.set_standby().await,
        Operation::SetSleep => radio.set_sleep(false, &mut NoDelay).await,
        Operation::SetTxRxBufferBaseAddress => radio.set_tx_rx_buffer_base_address(a[0] as usize, a[1] as usize).await,
        Operation::SetTxPowerAndRampTime => radio.set_tx_power_and_ramp_time(a[0] as i32, None, flag(a[1])).await,
        Operation::SetModulationParams => {
            let (sf, bw, cr) = (spreading_factor(a[0]), bandwidth(a[1]), coding_rate(a[2]));
            radio.set_modulation_params(&ModulationParams::as_given(sf, bw, cr, a[3] as u8, 0)).await
        }
        Operation::SetPacketParams => {
            let packet = PacketParams::as_given(a[0] as u16, flag(a[1]), a[2] as u8, flag(a[3]), flag(a[4]));
            radio.set_packet_params(&packet).await
        }
        Operation::SetChannel => radio.set_channel(a[0] as u32).await,
        Operation::DoTx => radio.do_tx().await,
        Operation::DoRx => radio.do_rx(rx_mode(a[0], a[1] as u16)).await,
        Operation::DoCad => radio.do_cad(&some_modulation(SpreadingFactor::_7)).await,
        Operation::SetIrqParams => radio.set_irq_params(radio_mode(a[0], a[1])).await,
        Operation::SetTxContinuousWaveMode => radio.set_tx_continuous_wave_mode().await,
        other => panic!("{other:?} is no operation of the Rust that answers nothing"),
    }
}

/// Whole programming: the `create_` calls, then the operations in document 01's order.
async fn program(radio: &mut impl RadioKind, a: &[i128]) -> Result<(), RadioError> {
    let (hz, preamble, header, crc, iq, power) = (a[4], a[5], a[6], a[7], a[8], a[9]);
    let modulation = created_modulation(radio, &a[1..5])?;
    // The length of the payload reaches no register here.
    let packet = created_packet(radio, &[preamble, header, 0, crc, iq, a[1]])?;
    radio.init_lora(flag(a[0])).await?;
    radio.set_channel(hz as u32).await?;
    radio.set_modulation_params(&modulation).await?;
    radio.set_packet_params(&packet).await?;
    radio.set_tx_power_and_ramp_time(power as i32, Some(&modulation), false).await
}

fn created_modulation(radio: &impl RadioKind, a: &[i128]) -> Result<ModulationParams, RadioError> {
    radio.create_modulation_params(spreading_factor(a[0]), bandwidth(a[1]), coding_rate(a[2]), a[3] as u32)
}

fn created_packet(radio: &impl RadioKind, a: &[i128]) -> Result<PacketParams, RadioError> {
    let modulation = some_modulation(spreading_factor(a[5]));
    radio.create_packet_params(a[0] as u16, flag(a[1]), a[2] as u8, flag(a[3]), flag(a[4]), &modulation)
}

async fn event(radio: &mut impl RadioKind, a: &[i128]) -> Result<Numbers, RadioError> {
    let mode = radio_mode(a[0], a[1]).expect("an event has a mode");
    let mut detected = false;
    let state = radio.process_irq_event(mode, Some(&mut detected), flag(a[2])).await?;
    Ok(match state {
        None => Numbers::of(&[0]),
        Some(IrqState::PreambleReceived) => Numbers::of(&[1]),
        Some(IrqState::Done) if mode == RadioMode::ChannelActivityDetection => Numbers::of(&[2, detected as i128]),
        Some(IrqState::Done) => Numbers::of(&[2]),
    })
}

fn nothing(_: ()) -> Numbers {
    Numbers::NONE
}

fn modulation_values(params: ModulationParams) -> Numbers {
    let (sf, bw, cr, optimize, hz) = params.fields();
    Numbers::of(&[sf as i128 + 5, bw as i128, cr as i128 + 1, optimize as i128, hz as i128])
}

fn packet_values(params: PacketParams) -> Numbers {
    let (preamble, implicit, length, crc, iq) = params.fields();
    Numbers::of(&[preamble as i128, implicit as i128, length as i128, crc as i128, iq as i128])
}

/// For calls that are handed a modulation and look at its spreading factor at most.
fn some_modulation(sf: SpreadingFactor) -> ModulationParams {
    ModulationParams::as_given(sf, Bandwidth::_125KHz, CodingRate::_4_5, 0, 0)
}

/// For `get_rx_payload`, which is handed a packet and does not look at it.
fn some_packet() -> PacketParams {
    PacketParams::as_given(8, false, 0, true, false)
}

fn flag(code: i128) -> bool {
    code != 0
}

fn spreading_factor(code: i128) -> SpreadingFactor {
    use SpreadingFactor::*;
    [_5, _6, _7, _8, _9, _10, _11, _12][code as usize - 5]
}

fn bandwidth(code: i128) -> Bandwidth {
    use Bandwidth::*;
    [_7KHz, _10KHz, _15KHz, _20KHz, _31KHz, _41KHz, _62KHz, _125KHz, _250KHz, _500KHz][code as usize]
}

/// A bandwidth in hertz.
pub fn hertz(code: i128) -> i128 {
    u32::from(bandwidth(code)) as i128
}

fn coding_rate(code: i128) -> CodingRate {
    use CodingRate::*;
    [_4_5, _4_6, _4_7, _4_8][code as usize - 1]
}

fn rx_mode(code: i128, symbols: u16) -> RxMode {
    match code {
        0 => RxMode::Single(symbols),
        1 => RxMode::Continuous,
        2 => RxMode::DutyCycle(DutyCycleParams { rx_time: 0, sleep_time: 0 }),
        _ => panic!("{code} names no receive mode"),
    }
}

fn radio_mode(code: i128, rx_code: i128) -> Option<RadioMode> {
    Some(match code {
        0 => RadioMode::Sleep,
        1 => RadioMode::Standby,
        2 => RadioMode::FrequencySynthesis,
        3 => RadioMode::Transmit,
        4 => RadioMode::Receive(rx_mode(rx_code, 0)),
        5 => RadioMode::ChannelActivityDetection,
        6 => return None,
        _ => panic!("{code} names no mode"),
    })
}

/// An error's number is its place in `RadioError`, from 1.
fn told(error: RadioError) -> Answer {
    let (number, values) = match error {
        RadioError::SPI => (1, Numbers::NONE),
        RadioError::Reset => (2, Numbers::NONE),
        RadioError::RfSwitchRx => (3, Numbers::NONE),
        RadioError::RfSwitchTx => (4, Numbers::NONE),
        RadioError::Busy => (5, Numbers::NONE),
        RadioError::Irq => (6, Numbers::NONE),
        RadioError::DIO1 => (7, Numbers::NONE),
        RadioError::InvalidConfiguration => (8, Numbers::NONE),
        RadioError::InvalidRadioMode => (9, Numbers::NONE),
        RadioError::OpError(code) => (10, Numbers::of(&[code as i128])),
        RadioError::InvalidBaseAddress(tx, rx) => (11, Numbers::of(&[tx as i128, rx as i128])),
        RadioError::PayloadSizeUnexpected(length) => (12, Numbers::of(&[length as i128])),
        RadioError::PayloadSizeMismatch(length, room) => (13, Numbers::of(&[length as i128, room as i128])),
        RadioError::UnavailableSpreadingFactor => (14, Numbers::NONE),
        RadioError::UnavailableBandwidth => (15, Numbers::NONE),
        RadioError::InvalidBandwidthForFrequency => (16, Numbers::NONE),
        RadioError::InvalidSF6ExplicitHeaderRequest => (17, Numbers::NONE),
        RadioError::InvalidOutputPowerForFrequency => (18, Numbers::NONE),
        RadioError::TransmitTimeout => (19, Numbers::NONE),
        RadioError::ReceiveTimeout => (20, Numbers::NONE),
        RadioError::DutyCycleUnsupported => (21, Numbers::NONE),
        RadioError::RngUnsupported => (22, Numbers::NONE),
    };
    Answer { number, values }
}

/// The mock never makes the driver wait, so that one poll is all a future takes.
fn block_on<F: Future>(future: F) -> F::Output {
    let mut future = pin!(future);
    match future.as_mut().poll(&mut Context::from_waker(Waker::noop())) {
        Poll::Ready(output) => output,
        Poll::Pending => panic!("mock: the driver waits for something"),
    }
}

thread_local! {
    static ASKING: Cell<bool> = const { Cell::new(false) };
}

static QUIET: Once = Once::new();

/// Runs what may panic; its message comes back instead of being printed.
fn caught<T>(work: impl FnOnce() -> T) -> Result<T, String> {
    QUIET.call_once(|| {
        let usual = panic::take_hook();
        panic::set_hook(Box::new(move |info| {
            if !ASKING.get() {
                usual(info);
            }
        }));
    });
    ASKING.set(true);
    let result = panic::catch_unwind(AssertUnwindSafe(work));
    ASKING.set(false);
    result.map_err(message)
}

fn message(panic: Box<dyn Any + Send>) -> String {
    match (panic.downcast_ref::<&str>(), panic.downcast_ref::<String>()) {
        (Some(text), _) => text.to_string(),
        (_, Some(text)) => text.clone(),
        _ => "a panic without a message".to_string(),
    }
}
