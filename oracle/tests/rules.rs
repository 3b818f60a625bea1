//! Our own rules, held against the Rust where it can be asked, and the order of refusals.
use lora_phy::mod_params::{PacketParams, RadioError};
use oracle::chip::Chip;
use oracle::driver::{ask, Question};
use oracle::maker::{Image, Maker};
use oracle::rules::records;
use oracle::{run, Board, Call, Operation, Source, Variant};
use std::cell::RefCell;

const BOARD: Board = Board { variant: Variant::Sx1276, tcxo_used: false, tx_boost: false, rx_boost: false };

fn call(board: Board, operation: Operation, arguments: &[i128]) -> Call {
    let mut maker = Maker::new(3);
    maker.make(board, operation, arguments, Image::Reset);
    maker.call
}

/// Any calls: none panics, what the Rust does makes document 01's records, and a refusal changes nothing.
#[test]
fn any_calls() {
    let mut maker = Maker::new(5);
    for _ in 0..20_000 {
        maker.make_any();
        let (call, outcome) = (&maker.call, run(&maker.call));
        assert!(!matches!(outcome.source, Source::Panic(_)), "{call:?}: {outcome:?}");
        let made = outcome.used - call.used;
        match outcome.number {
            0 => assert_eq!(made, 3 * records(call.board, call.operation, &call.arguments), "{call:?}"),
            13 => assert_eq!(made, 3),
            20 => assert_eq!(made, 3 * (1 + call.arguments[2] as usize)),
            _ => assert_eq!((&outcome.image, &outcome.fifo, &outcome.buffer), (&call.image, &call.fifo, &call.buffer)),
        }
        assert_eq!(outcome.log[..call.used.min(call.log.len())], call.log[..call.used.min(call.log.len())]);
        assert_eq!(outcome.log.get(outcome.used..), call.log.get(outcome.used..));
    }
}

/// What the calls are made of: arguments that are called accepted are, on every board.
#[test]
fn accepted_arguments_are_done() {
    let mut maker = Maker::new(9);
    for (board, operation) in Board::all().into_iter().flat_map(|board| Operation::all().map(move |o| (board, o))) {
        for _ in 0..20 {
            let arguments = maker.accepted_arguments(board.variant, operation);
            maker.make(board, operation, &arguments, Image::Linked);
            let carrier = operation == Operation::SetTxContinuousWaveMode && board.variant == Variant::Sx1272;
            let timeout =
                operation == Operation::ProcessIrqEvent && arguments[0] == 4 && maker.call.image[0x12] >= 0x80;
            let number = run(&maker.call).number;
            assert!(number == 0 || (carrier && number == 25) || (timeout && number == 20), "{:?}", maker.call);
        }
    }
}

/// 9 and 25 stand where the Rust panics, after it has read and cleared the flags.
#[test]
fn the_rust_panics_where_9_and_25_stand() {
    let panics = |board, operation, arguments: &[i128], log: &[u8]| {
        let chip = RefCell::new(Chip::new([0x40; 128], [0; 256]));
        let answer = ask(&Question { board, operation, arguments }, &chip, &mut []);
        assert_eq!(answer, Err("not yet implemented".to_string()));
        assert_eq!(chip.into_inner().log(), log);
        assert_ne!(run(&call(board, operation, arguments)).number, 0);
    };
    for mode in [[2, 0, 0], [4, 2, 0]] {
        panics(BOARD, Operation::ProcessIrqEvent, &mode, &[0, 0x12, 0x40]);
    }
    panics(BOARD, Operation::ProcessIrqEvent, &[2, 0, 1], &[0, 0x12, 0x40, 1, 0x12, 0xff]);
    let sx1272 = Board { variant: Variant::Sx1272, ..BOARD };
    panics(sx1272, Operation::SetTxContinuousWaveMode, &[], &[]);
}

/// 12 is what the Rust's `set_payload_length` says.
#[test]
fn payload_lengths() {
    let mut call = call(BOARD, Operation::SetPayload, &[]);
    for length in 0..=1_024 {
        call.buffer.resize(length, 1);
        let outcome = run(&call);
        match PacketParams::check_payload_length(length) {
            Ok(()) => assert_eq!((outcome.number, &outcome.values[..]), (0, &[][..])),
            Err(RadioError::PayloadSizeUnexpected(told)) => {
                assert_eq!((outcome.number, &outcome.values[..]), (12, &[told as i128][..]))
            }
            Err(other) => panic!("{other:?}"),
        }
    }
}

/// Arguments that are refused, in document 01's order; each also with no room, and then with a bad image.
#[test]
fn order_of_refusals() {
    let asked: [(Operation, &[i128], u8); 12] = [
        (Operation::Program, &[2, 5, 8, 1, 0, 8, 0, 0, 0, 0], 8),
        (Operation::Program, &[0, 5, 8, 1, 0, 8, 0, 0, 0, 0], 14),
        (Operation::Program, &[0, 6, 8, 1, 0, 8, 0, 0, 0, 0], 16),
        (Operation::Program, &[0, 6, 8, 1, 2_000_000_000, 8, 0, 0, 0, 0], 17),
        (Operation::Program, &[0, 7, 8, 1, 2_000_000_000, 8, 0, 0, 0, 0], 23),
        (Operation::SetTxRxBufferBaseAddress, &[0, 256], 11),
        (Operation::SetModulationParams, &[5, 0, 1, 0], 14),
        (Operation::DoRx, &[2, 0], 21),
        (Operation::DoRx, &[3, 0], 8),
        (Operation::ProcessIrqEvent, &[2, 0, 2], 8),
        (Operation::ProcessIrqEvent, &[4, 2, 1], 9),
        (Operation::SetIrqParams, &[7, 0], 8),
    ];
    for (operation, arguments, number) in asked {
        let mut call = call(BOARD, operation, arguments);
        assert_eq!(run(&call).number, number);
        call.log.clear();
        call.used = 0;
        assert_eq!(run(&call).number, number);
        call.image.pop();
        assert_eq!(run(&call).number, 26);
    }
    let sx1272 = Board { variant: Variant::Sx1272, ..BOARD };
    assert_eq!(run(&call(sx1272, Operation::Program, &[0, 6, 0, 1, 2_000_000_000, 8, 0, 0, 0, 0])).number, 15);
}

/// 24 is asked for all the records, before 13 and 20.
#[test]
fn room_for_all_records() {
    let mut payload = call(BOARD, Operation::GetRxPayload, &[]);
    payload.image[0x13] = 17;
    let mut event = call(BOARD, Operation::ProcessIrqEvent, &[4, 0, 1]);
    event.image[0x12] = 0x80;
    for (mut call, number, needed, made) in [(payload, 13, 15, 3), (event, 20, 6, 6)] {
        (call.used, call.log) = (3, vec![0xee; 3 + needed]);
        let outcome = run(&call);
        assert_eq!((outcome.number, outcome.used, outcome.source), (number, 3 + made, Source::Rust));
        call.log.truncate(needed);
        let outcome = run(&call);
        assert_eq!((outcome.number, outcome.used, outcome.source), (24, 3, Source::Ours));
        assert_eq!((outcome.image, outcome.log, outcome.buffer), (call.image, call.log, call.buffer));
    }
}

/// What an accepted link leaves is read back, with the power clamped; and an image is refused that no link leaves.
#[test]
fn reader() {
    let mut maker = Maker::new(7);
    for board in Board::all() {
        let lowest = if board.tx_boost {
            2
        } else if board.variant == Variant::Sx1276 {
            -4
        } else {
            -1
        };
        let highest = if board.tx_boost { 20 } else { 14 };
        for _ in 0..50 {
            let mut link = maker.accepted_link(board.variant);
            maker.make(board, Operation::Program, &link, Image::Random);
            let mut read = Call::new(board, Operation::ReadLink, &[]);
            read.image = run(&maker.call).image;
            let found = run(&read);
            assert!((0..62).contains(&(link[4] - found.values[4])));
            (link[4], link[9]) = (found.values[4], link[9].clamp(lowest, highest));
            assert_eq!((found.number, &found.values[..]), (0, &link[..]));
            read.image[0x0e] = 1;
            assert_eq!(run(&read).number, 27);
        }
    }
}
