//! Document 01's bench figures, as the oracle answers them.
use oracle::{run, Board, Call, Operation, Outcome, Variant};

const SX1272: Board = Board { variant: Variant::Sx1272, tcxo_used: false, tx_boost: false, rx_boost: false };
const SX1276: Board = Board { variant: Variant::Sx1276, ..SX1272 };

/// The outcome over a zero image in which some registers hold these values.
fn over(board: Board, operation: Operation, arguments: &[i128], held: &[(usize, u8)]) -> Outcome {
    let mut call = Call::new(board, operation, arguments);
    call.image = vec![0; 128];
    call.log = vec![0; 120];
    held.iter().for_each(|&(address, value)| call.image[address] = value);
    run(&call)
}

fn zero(board: Board, operation: Operation, arguments: &[i128]) -> Outcome {
    over(board, operation, arguments, &[])
}

fn link(hz: i128) -> [i128; 10] {
    [1, 7, 7, 1, hz, 8, 0, 1, 0, 14]
}

fn status(board: Board, held: &[(usize, u8)]) -> Vec<i128> {
    over(board, Operation::GetRxPacketStatus, &[], held).values.to_vec()
}

#[test]
fn frequencies() {
    for (hz, frf) in [
        (0, [0x00, 0x00, 0x00]),
        (868_100_000, [0xd9, 0x06, 0x66]),
        (1_023_999_999, [0xff, 0xff, 0xff]),
        (1_024_000_000, [0x00, 0x00, 0x00]),
        (525_000_061, [0x83, 0x40, 0x00]),
        (525_000_062, [0x83, 0x40, 0x01]),
    ] {
        assert_eq!(zero(SX1276, Operation::SetChannel, &[hz]).image[0x06..0x09], frf, "{hz} Hz");
    }
    assert_eq!(zero(SX1276, Operation::Program, &link(1_023_999_999)).number, 0);
    assert_eq!(zero(SX1276, Operation::Program, &link(1_024_000_000)).number, 23);
}

#[test]
fn the_reader_returns_the_lowest_frequency_of_a_step() {
    let mut call = Call::new(SX1276, Operation::ReadLink, &[]);
    call.image = zero(SX1276, Operation::Program, &link(868_100_000)).image;
    assert_eq!(run(&call).values[..], link(868_099_976));
    call.image[0x06..0x09].copy_from_slice(&[0, 0, 1]);
    assert_eq!(run(&call).values[4], 62);
}

#[test]
fn bandwidth_by_frequency() {
    for (hz, number) in [(399_999_999, 16), (400_000_000, 0)] {
        assert_eq!(zero(SX1276, Operation::CreateModulationParams, &[7, 8, 1, hz]).number, number);
        assert_eq!(zero(SX1272, Operation::CreateModulationParams, &[7, 9, 1, hz]).number, number);
    }
}

#[test]
fn signals() {
    assert_eq!(status(SX1276, &[(0x06, 0x83), (0x07, 0x40)]), [-164, 0]);
    assert_eq!(status(SX1276, &[(0x06, 0x83), (0x07, 0x40), (0x08, 0x01)]), [-157, 0]);
    for (raw, snr) in [(0xff, 0), (0xfc, -1), (0x80, -32)] {
        assert_eq!(status(SX1272, &[(0x19, raw)])[1], snr);
    }
    for (raw, rssi) in [(14, -125), (15, -123), (255, 133)] {
        assert_eq!(status(SX1272, &[(0x1a, raw)]), [rssi, 0]);
    }
    assert_eq!(status(SX1272, &[(0x19, 0xfc), (0x1a, 15)]), [-125, -1]);
}

#[test]
fn receive_windows() {
    for (asked, set) in [(0, 4), (1_023, 1_023), (1_024, 1_023)] {
        let image = zero(SX1276, Operation::DoRx, &[0, asked]).image;
        assert_eq!((image[0x1e] as u32 & 3) << 8 | image[0x1f] as u32, set);
    }
}

#[test]
fn powers() {
    let set = |variant, tx_boost, power| {
        let board = Board { variant, tx_boost, ..SX1272 };
        zero(board, Operation::SetTxPowerAndRampTime, &[power, 0]).image
    };
    for (power, expected) in [(17, [0x84, 0x2b, 0x8f]), (18, [0x87, 0x3b, 0x90])] {
        let image = set(Variant::Sx1276, true, power);
        assert_eq!([image[0x4d], image[0x0b], image[0x09]], expected);
    }
    assert_eq!(set(Variant::Sx1276, false, -1)[0x09], 0xff);
    assert_eq!(set(Variant::Sx1276, false, 0)[0x09], 0x70);
    for (power, expected) in [(17, [0x8f, 0x84]), (18, [0x8d, 0x87])] {
        let image = set(Variant::Sx1272, true, power);
        assert_eq!([image[0x09], image[0x5a]], expected);
    }
}

#[test]
fn the_log_of_a_channel() {
    let outcome = zero(SX1276, Operation::SetChannel, &[868_100_000]);
    assert_eq!(outcome.log[..outcome.used], [1, 0x06, 0xd9, 1, 0x07, 0x06, 1, 0x08, 0x66]);
}

/// The bandwidths of the stand-in and the sheet's 16 ms, by hand.
#[test]
fn low_data_rate_optimize() {
    let optimize = |sf, bw| zero(SX1276, Operation::CreateModulationParams, &[sf, bw, 1, 868_100_000]).values[3];
    // From which spreading factor on it is on, for each bandwidth.
    for (bw, from) in [(0, 7), (1, 8), (2, 8), (3, 9), (4, 9), (5, 10), (6, 10), (7, 11), (8, 12), (9, 13)] {
        for sf in 6..=12 {
            assert_eq!(optimize(sf, bw), (sf >= from) as i128, "SF{sf}, bandwidth {bw}");
        }
    }
}
