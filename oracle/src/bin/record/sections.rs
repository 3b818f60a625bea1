//! The calls of the list: every operation on every board, every boundary that document 01 names, every refusal.
use crate::list::{board, pairs, plain, List, VARIANTS};
use oracle::driver::ask;
use oracle::maker::{programmed, Image, BASES, FREQUENCIES, PREAMBLES, READER, SYMBOLS};
use oracle::sheet::{six_of, SIX};
use oracle::texts::file;
use oracle::{Board, Operation, Variant};

/// All but `airtime` and those of Intel HEX, which look at no board and are parts of their own.
fn of_a_radio() -> Vec<Operation> {
    Operation::all().filter(|operation| *operation != Operation::Airtime && !operation.is_of_hex()).collect()
}

/// Those of Intel HEX came later, and have a part at the end, so that the lines before it stay as they are.
fn but_hex() -> Vec<Operation> {
    Operation::all().filter(|operation| !operation.is_of_hex()).collect()
}

pub fn everything(list: &mut List) {
    for (operation, board) in pairs(&of_a_radio(), &Board::all()) {
        for image in [Image::Zero, Image::Reset, Image::Random] {
            let image = if operation == Operation::ReadLink && image == Image::Random { Image::Linked } else { image };
            let arguments = list.maker.accepted_arguments(board.variant, operation);
            list.call(board, operation, &arguments, image);
        }
    }
}

/// Document 01's bench figures.
pub fn bench(list: &mut List) {
    use Operation::*;
    let (sx1272, sx1276) = (plain(Variant::Sx1272), plain(Variant::Sx1276));
    for hz in [0, 868_100_000, 1_023_999_999, 1_024_000_000, 525_000_061, 525_000_062] {
        list.call(sx1276, SetChannel, &[hz], Image::Zero);
        list.call(sx1276, Program, &[1, 7, 7, 1, hz, 8, 0, 1, 0, 14], Image::Zero);
    }
    for (lsb, hz) in [(0x00, 399_999_999), (0x01, 400_000_000)] {
        list.over(sx1276, GetRxPacketStatus, &[], &[(0x06, 0x83), (0x07, 0x40), (0x08, lsb)]);
        list.call(sx1276, CreateModulationParams, &[7, 8, 1, hz], Image::Zero);
    }
    for (snr, rssi) in [(0xff, 0), (0xfc, 0), (0x80, 0), (0, 14), (0, 15), (0, 255), (0xfc, 15)] {
        list.over(sx1272, GetRxPacketStatus, &[], &[(0x19, snr), (0x1a, rssi)]);
    }
    for symbols in [0, 1_023, 1_024] {
        list.call(sx1276, DoRx, &[0, symbols], Image::Zero);
    }
    for (variant, boosted, power) in [
        (Variant::Sx1276, true, 17),
        (Variant::Sx1276, true, 18),
        (Variant::Sx1276, false, -1),
        (Variant::Sx1276, false, 0),
        (Variant::Sx1272, true, 17),
        (Variant::Sx1272, true, 18),
    ] {
        list.call(board(variant, [false, boosted, false]), SetTxPowerAndRampTime, &[power, 0], Image::Zero);
    }
}

pub fn frequencies(list: &mut List) {
    for hz in FREQUENCIES {
        list.call(plain(Variant::Sx1276), Operation::SetChannel, &[hz], Image::Random);
        for (variant, bw) in pairs(&VARIANTS, &[6, 7, 8, 9]) {
            list.call(plain(variant), Operation::CreateModulationParams, &[9, bw, 2, hz], Image::Zero);
        }
        for (variant, bw) in pairs(&VARIANTS, &[7, 8]) {
            list.call(plain(variant), Operation::Program, &[0, 9, bw, 3, hz, 12, 1, 0, 1, 10], Image::Random);
        }
    }
}

pub fn powers(list: &mut List) {
    let far = [i32::MIN as i128, -129, -100, -7, 25, 100, 256, 273, i32::MAX as i128];
    for power in (-6..=22).chain(far) {
        for (variant, (boosted, is_tx_prep)) in pairs(&VARIANTS, &pairs(&[false, true], &[0, 1])) {
            let board = board(variant, [false, boosted, false]);
            list.call(board, Operation::SetTxPowerAndRampTime, &[power, is_tx_prep], Image::Random);
        }
    }
}

pub fn modulations(list: &mut List) {
    for (n, (sf, bw)) in
        pairs(&[4, 5, 6, 7, 8, 9, 10, 11, 12, 13], &[0, 1, 2, 3, 4, 5, 6, 7, 8, 9, 10]).into_iter().enumerate()
    {
        let (cr, optimize) = (1 + n as i128 % 4, n as i128 / 2 % 2);
        for variant in VARIANTS {
            list.call(plain(variant), Operation::CreateModulationParams, &[sf, bw, cr, 868_100_000], Image::Zero);
            list.call(plain(variant), Operation::SetModulationParams, &[sf, bw, cr, optimize], Image::Random);
        }
    }
    for (variant, (cr, optimize)) in pairs(&VARIANTS, &pairs(&[0, 1, 2, 3, 4, 5, 255], &[0, 1, 2])) {
        list.call(plain(variant), Operation::SetModulationParams, &[12, 7, cr, optimize], Image::Reset);
        list.call(plain(variant), Operation::CreateModulationParams, &[6, 9, cr, 900_000_000], Image::Zero);
    }
}

pub fn packets(list: &mut List) {
    for n in 0..8 {
        let (header, crc, iq) = (n & 1, n >> 1 & 1, n >> 2 & 1);
        for sf in 4..=13 {
            let arguments = [8, header, 16, crc, iq, sf];
            list.call(plain(Variant::Sx1276), Operation::CreatePacketParams, &arguments, Image::Zero);
        }
        for (variant, preamble) in pairs(&VARIANTS, &PREAMBLES) {
            list.call(plain(variant), Operation::SetPacketParams, &[preamble, header, 255, crc, iq], Image::Random);
        }
    }
    for (place, flag) in pairs(&[1, 3, 4], &[2, 255]) {
        let mut arguments = [8, 1, 0, 1, 1, 7];
        arguments[place] = flag;
        list.call(plain(Variant::Sx1272), Operation::CreatePacketParams, &arguments, Image::Zero);
        list.call(plain(Variant::Sx1272), Operation::SetPacketParams, &arguments[..5], Image::Reset);
    }
}

pub fn windows(list: &mut List) {
    for (variant, (boosted, symbols)) in pairs(&VARIANTS, &pairs(&[false, true], &SYMBOLS)) {
        let board = board(variant, [false, false, boosted]);
        list.call(board, Operation::DoRx, &[0, symbols], Image::Random);
    }
    for (rx_mode, symbols) in pairs(&[1, 2, 3, 255], &[0, 100, 65_535]) {
        list.call(plain(Variant::Sx1276), Operation::DoRx, &[rx_mode, symbols], Image::Random);
    }
}

pub fn interrupts(list: &mut List) {
    for (mode, rx_mode) in pairs(&[0, 1, 2, 3, 4, 5, 6, 7, 255], &[0, 1, 2, 3, 255]) {
        for flags in [0x00, 0xff] {
            let held = [(0x12, flags), (0x40, !flags)];
            list.over(plain(Variant::Sx1276), Operation::SetIrqParams, &[mode, rx_mode], &held);
        }
    }
    let modes = [(0, 0), (1, 3), (2, 0), (3, 9), (4, 0), (4, 1), (4, 2), (4, 3), (5, 2), (6, 0), (7, 0)];
    let flags = [0x00, 0x01, 0x02, 0x04, 0x05, 0x08, 0x10, 0x20, 0x40, 0x80, 0x90, 0xc0, 0xd0, 0xff];
    for ((mode, rx_mode), (flags, clear)) in pairs(&modes, &pairs(&flags, &[0, 1])) {
        list.over(plain(Variant::Sx1272), Operation::ProcessIrqEvent, &[mode, rx_mode, clear], &[(0x12, flags)]);
    }
    for (mode, rx_mode) in modes {
        list.over(plain(Variant::Sx1276), Operation::ProcessIrqEvent, &[mode, rx_mode, 2], &[(0x12, 0x40)]);
    }
}

pub fn signals(list: &mut List) {
    let snrs = [0x00, 0x01, 0x03, 0x04, 0x7f, 0x80, 0x81, 0xfb, 0xfc, 0xfd, 0xfe, 0xff];
    for (snr, rssi) in pairs(&snrs, &[0, 1, 14, 15, 127, 128, 254, 255]) {
        for (variant, lsb) in [(Variant::Sx1272, 0), (Variant::Sx1276, 0), (Variant::Sx1276, 1)] {
            let held = [(0x06, 0x83), (0x07, 0x40), (0x08, lsb), (0x19, snr), (0x1a, rssi)];
            list.over(plain(variant), Operation::GetRxPacketStatus, &[], &held);
        }
    }
    for frf in [0x00_00_00u32, 0x83_3f_ff, 0x83_41_00, 0x84_00_00, 0x6c_80_00, 0xff_ff_ff] {
        let [_, msb, mid, lsb] = frf.to_be_bytes();
        list.over(plain(Variant::Sx1276), Operation::GetRxPacketStatus, &[], &[(0x06, msb), (0x07, mid), (0x08, lsb)]);
    }
}

pub fn payloads(list: &mut List) {
    for (length, place) in pairs(&[0, 1, 2, 16, 100, 254, 255], &[0x00, 0x01, 0x80, 0xfe, 0xff]) {
        for room in (length as usize).saturating_sub(1)..=length as usize + 1 {
            list.maker.make(plain(Variant::Sx1276), Operation::GetRxPayload, &[], Image::Random);
            list.maker.call.image[0x10] = place;
            list.maker.call.image[0x13] = length;
            list.maker.lend_buffer(room);
            list.add();
        }
    }
    for (length, image) in pairs(&[0, 1, 2, 64, 254, 255, 256, 257, 512, 1_024], &[Image::Zero, Image::Random]) {
        list.maker.make(plain(Variant::Sx1272), Operation::SetPayload, &[], image);
        list.maker.lend_buffer(length);
        list.add();
    }
    for (operation, length) in pairs(&[Operation::SetPayload, Operation::GetRxPayload], &[0, 1, 255, 257, 1_024]) {
        list.maker.make(plain(Variant::Sx1276), operation, &[], Image::Zero);
        list.maker.call.fifo.resize(length, 0);
        list.add();
    }
}

pub fn bases(list: &mut List) {
    for (tx, rx) in pairs(&BASES, &BASES) {
        list.call(plain(Variant::Sx1272), Operation::SetTxRxBufferBaseAddress, &[tx, rx], Image::Random);
    }
}

/// Each operation with just enough room, one record less, none; with lengths that are no whole records; and with
/// images of a wrong length.
pub fn lent(list: &mut List) {
    let boards = pairs(&VARIANTS, &[false, true]).into_iter().map(|(variant, tcxo)| board(variant, [tcxo, true, true]));
    for (board, operation) in pairs(&boards.collect::<Vec<_>>(), &of_a_radio()) {
        let arguments = list.maker.accepted_arguments(board.variant, operation);
        list.maker.make(board, operation, &arguments, Image::Random);
        let needed = list.maker.needed();
        for (used, room) in [(3, needed), (3, needed.saturating_sub(3)), (0, 0), (3, needed + 1), (1, needed + 2)] {
            list.maker.lend_log(used, room);
            list.add();
        }
        for beyond in [3, usize::MAX / 3 * 3] {
            list.maker.lend_log(0, needed);
            list.maker.call.used = beyond.max(list.maker.call.log.len() + 3);
            list.add();
        }
        for length in [0, 127, 129] {
            list.maker.make(board, operation, &arguments, Image::Random);
            list.maker.call.image.resize(length, 0);
            list.add();
        }
    }
}

/// Arguments that more than one refusal meets, on one variant or the other.
const DOUBLY_REFUSED: [(Operation, &[i128]); 20] = [
    (Operation::InitLora, &[2]),
    (Operation::SetTxRxBufferBaseAddress, &[256, 0]),
    (Operation::SetTxPowerAndRampTime, &[0, 2]),
    (Operation::SetModulationParams, &[5, 0, 1, 2]),
    (Operation::SetModulationParams, &[5, 0, 1, 0]),
    (Operation::SetModulationParams, &[7, 0, 1, 0]),
    (Operation::SetPacketParams, &[8, 0, 0, 0, 2]),
    (Operation::DoRx, &[2, 0]),
    (Operation::DoRx, &[3, 0]),
    (Operation::SetIrqParams, &[4, 3]),
    (Operation::ProcessIrqEvent, &[2, 0, 2]),
    (Operation::ProcessIrqEvent, &[2, 0, 1]),
    (Operation::ProcessIrqEvent, &[4, 2, 1]),
    (Operation::SetTxContinuousWaveMode, &[]),
    (Operation::Program, &[0, 5, 8, 5, 0, 8, 0, 0, 0, 0]),
    (Operation::Program, &[0, 5, 6, 1, 2_000_000_000, 8, 0, 0, 0, 0]),
    (Operation::Program, &[0, 6, 6, 1, 2_000_000_000, 8, 0, 0, 0, 0]),
    (Operation::Program, &[0, 6, 8, 1, 399_999_999, 8, 0, 0, 0, 0]),
    (Operation::Program, &[0, 6, 8, 1, 2_000_000_000, 8, 0, 0, 0, 0]),
    (Operation::Program, &[0, 7, 8, 1, 2_000_000_000, 8, 0, 0, 0, 0]),
];

/// Where two refusals meet, the first of document 01's order is given.
pub fn orders(list: &mut List) {
    for ((operation, arguments), variant) in pairs(&DOUBLY_REFUSED, &VARIANTS) {
        for (image, room) in [(128, 0), (128, 300), (127, 300)] {
            list.maker.make(plain(variant), operation, arguments, Image::Zero);
            list.maker.call.image.resize(image, 0);
            list.maker.lend_log(0, room);
            list.add();
        }
    }
    late_refusals(list);
}

/// 12, 13 and 20 against 24 and 26.
fn late_refusals(list: &mut List) {
    let board = plain(Variant::Sx1276);
    for (operation, arguments, room) in [
        (Operation::SetPayload, &[][..], 256),
        (Operation::GetRxPayload, &[], 0),
        (Operation::ProcessIrqEvent, &[4, 0, 0], 0),
        (Operation::ProcessIrqEvent, &[4, 1, 1], 0),
    ] {
        for (log, fifo) in [(0, 256), (3, 256), (12, 256), (15, 256), (15, 255), (16, 256)] {
            list.maker.make(board, operation, arguments, Image::Zero);
            list.maker.call.image[0x12] = 0x90;
            list.maker.call.image[0x13] = 1;
            list.maker.call.fifo.resize(fifo, 0);
            list.maker.call.buffer.resize(room, 0xbb);
            list.maker.lend_log(0, log);
            list.add();
        }
    }
}

/// Links programmed and read; then each register that the reader looks at with one bit turned.
pub fn links(list: &mut List) {
    for board in Board::all() {
        for _ in 0..10 {
            let link = list.maker.accepted_link(board.variant);
            list.call(board, Operation::Program, &link, Image::Random);
            let image = oracle::run(&list.maker.call).image;
            list.maker.make(board, Operation::ReadLink, &[], Image::Zero);
            list.maker.call.image.copy_from_slice(&image);
            list.add();
        }
        for address in READER {
            list.maker.make(board, Operation::ReadLink, &[], Image::Linked);
            list.maker.call.image[address] ^= 1 << list.maker.random.below(8);
            list.add();
        }
    }
}

/// The six pairs whose optimize flag is the sheet's: made, programmed and read; and what the Rust by itself leaves of
/// them, which is no link.
pub fn six(list: &mut List) {
    for (variant, (sf, bw)) in pairs(&VARIANTS, &SIX) {
        list.call(plain(variant), Operation::CreateModulationParams, &[sf, bw, 1, 868_100_000], Image::Zero);
        for optimize in [0, 1] {
            list.call(plain(variant), Operation::SetModulationParams, &[sf, bw, 1, optimize], Image::Reset);
        }
    }
    for board in Board::all() {
        let six: Vec<_> = six_of(board.variant).collect();
        for (pair, image) in pairs(&six, &[Image::Zero, Image::Random]) {
            let link = list.maker.accepted_link_of(board.variant, pair);
            list.call(board, Operation::Program, &link, image);
            let start = list.maker.call.image[..].try_into().expect("whole programming is lent an image");
            let left = [oracle::run(&list.maker.call).image, programmed(ask, board, &link, start).to_vec()];
            for image in left {
                list.maker.make(board, Operation::ReadLink, &[], Image::Zero);
                list.maker.call.image = image;
                list.add();
            }
        }
    }
}

/// Buffers that are longer than anything else that is lent: payloads, receive buffers, and a depot's file of 256 lines.
pub fn long_buffers(list: &mut List) {
    let board = plain(Variant::Sx1276);
    for (operation, length) in pairs(&[Operation::SetPayload, Operation::GetRxPayload], &[1_025, 4_095, 4_096]) {
        list.maker.make(board, operation, &[], Image::Random);
        list.maker.lend_buffer(length);
        list.add();
    }
    let lines = file(&[[1, 7, 7, 1, 8, 9, 0, 1]; 256]);
    for length in [1_040, 4_095, 4_096] {
        list.maker.make(board, Operation::Airtime, &[], Image::Zero);
        list.maker.call.buffer = lines[..length].to_vec();
        list.add();
    }
}

/// What a call is not lent is not looked at and comes back as it was.
pub fn unlent(list: &mut List) {
    for (operation, variant) in pairs(&but_hex(), &VARIANTS) {
        let arguments = list.maker.named_arguments(operation);
        list.maker.make(plain(variant), operation, &arguments, Image::Reset);
        if !operation.is_lent_a_fifo() {
            list.maker.put_unlent();
        }
        if !operation.is_lent_an_image() {
            list.maker.call.image.resize(3, 0x1a);
        }
        if !operation.is_lent_a_log() {
            list.maker.call.log.resize(4, 0x10);
            list.maker.call.used = 7;
        }
        list.add();
    }
}

pub fn any(list: &mut List) {
    for _ in 0..560 {
        let operation = list.maker.random.pick(&but_hex());
        list.maker.make_any_of(operation);
        list.add();
    }
}
