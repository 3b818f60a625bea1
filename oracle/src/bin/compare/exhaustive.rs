//! The calls that are made one and all, part by part.
use crate::report::Report;
use oracle::chip::IMAGE;
use oracle::driver::ask;
use oracle::maker::{programmed, Image, Maker, BASES, FREQUENCIES, IMAGES, PREAMBLES, READER};
use oracle::reader::lowest_frequency;
use oracle::sheet::{flag, six_of};
use oracle::{Board, Operation, Variant};

const CODES: std::ops::RangeInclusive<i128> = 0..=255;

pub struct Exhaustive<'a> {
    pub maker: Maker,
    pub report: &'a mut Report,
}

impl Exhaustive<'_> {
    pub fn all(&mut self) {
        self.read_backs();
        self.signals();
        self.powers();
        self.links();
        self.modulations();
        self.packets();
        self.preambles();
        self.codes();
        self.modes();
        self.events();
        self.windows();
        self.bases();
        self.frequencies();
        self.received();
        self.sent();
        self.logs();
        self.lengths();
        self.commands();
        self.reader();
        self.the_rusts_images();
        self.depots();
        self.images();
    }

    pub fn offer(&mut self) {
        self.report.offer(&self.maker.call);
    }

    fn take(&mut self, board: Board, operation: Operation, arguments: &[i128], image: Image) {
        self.maker.make(board, operation, arguments, image);
        self.offer();
    }

    pub fn of_variant(variant: Variant) -> Board {
        Board { variant, tcxo_used: false, tx_boost: false, rx_boost: false }
    }

    /// Every content of RegFrf, with SNR and RSSI going round beside it.
    fn read_backs(&mut self) {
        let board = Self::of_variant(Variant::Sx1276);
        self.maker.make(board, Operation::GetRxPacketStatus, &[], Image::Random);
        for steps in 0..1u32 << 24 {
            let image = &mut self.maker.call.image;
            image[0x06..0x09].copy_from_slice(&steps.to_be_bytes()[1..]);
            image[0x19] = (steps >> 4) as u8;
            image[0x1a] = (steps * 7) as u8;
            self.offer();
        }
    }

    /// Every pair of SNR and RSSI, on both ports of the SX1276.
    fn signals(&mut self) {
        let ports = [(Variant::Sx1272, 0), (Variant::Sx1276, 0x83_40_00u32), (Variant::Sx1276, 0x83_40_01)];
        for (variant, steps) in ports {
            self.maker.make(Self::of_variant(variant), Operation::GetRxPacketStatus, &[], Image::Random);
            self.maker.call.image[0x06..0x09].copy_from_slice(&steps.to_be_bytes()[1..]);
            for pair in 0..=u16::MAX {
                self.maker.call.image[0x19..0x1b].copy_from_slice(&pair.to_be_bytes());
                self.offer();
            }
        }
    }

    fn powers(&mut self) {
        let (least, most) = (i32::MIN as i128, i32::MAX as i128);
        let far = [least, least + 1, -32_769, -257, -256, 255, 256, 257, 32_768, 65_538, most - 1, most];
        for board in Board::all() {
            for power in (-200..=200).chain(far) {
                for (is_tx_prep, image) in [(0, Image::Zero), (0, Image::Random), (1, Image::Random), (2, Image::Reset)]
                {
                    self.take(board, Operation::SetTxPowerAndRampTime, &[power, is_tx_prep], image);
                }
            }
        }
    }

    /// Every spreading factor, bandwidth, coding rate, header, CRC and IQ.
    fn links(&mut self) {
        let frequencies = [0, 399_999_999, 400_000_000, 868_100_000, 1_023_999_999, 1_024_000_000];
        for board in Board::all() {
            for (image, hz) in IMAGES.into_iter().flat_map(|image| frequencies.map(|hz| (image, hz))) {
                for n in 0..8 * 10 * 4 * 8 {
                    let (sf, bw, cr) = (5 + n / 320, n / 32 % 10, 1 + n / 8 % 4);
                    let (header, crc, iq) = (n & 1, n >> 1 & 1, n >> 2 & 1);
                    let random = &mut self.maker.random;
                    let (public, power) = (random.within(0, 1), random.within(-6, 22));
                    let preamble = random.within(0, 65_535);
                    let link = [public, sf, bw, cr, hz, preamble, header, crc, iq, power];
                    self.take(board, Operation::Program, &link, image);
                }
            }
        }
    }

    fn modulations(&mut self) {
        for board in Board::all() {
            for n in 0..8 * 10 * 4 {
                let (sf, bw, cr) = (5 + n / 40, n / 4 % 10, 1 + n % 4);
                for hz in FREQUENCIES {
                    self.take(board, Operation::CreateModulationParams, &[sf, bw, cr, hz], Image::Zero);
                }
                for (image, optimize) in IMAGES.into_iter().flat_map(|image| [(image, 0), (image, 1)]) {
                    self.take(board, Operation::SetModulationParams, &[sf, bw, cr, optimize], image);
                }
            }
        }
    }

    fn packets(&mut self) {
        for board in Board::all() {
            for (n, preamble) in (0..8).flat_map(|n| PREAMBLES.map(|preamble| (n, preamble))) {
                let (header, crc, iq) = (n & 1, n >> 1 & 1, n >> 2 & 1);
                let length = self.maker.random.within(0, 255);
                for sf in 5..=12 {
                    let arguments = [preamble, header, length, crc, iq, sf];
                    self.take(board, Operation::CreatePacketParams, &arguments, Image::Zero);
                }
                for image in IMAGES {
                    self.take(board, Operation::SetPacketParams, &[preamble, header, length, crc, iq], image);
                }
            }
        }
    }

    fn preambles(&mut self) {
        for (variant, preamble) in [Variant::Sx1272, Variant::Sx1276].into_iter().flat_map(each_short) {
            let mut arguments = self.maker.named_arguments(Operation::SetPacketParams);
            arguments[0] = preamble;
            self.take(Self::of_variant(variant), Operation::SetPacketParams, &arguments, Image::Random);
        }
    }

    /// Every value of every code, one at a time.
    fn codes(&mut self) {
        for (board, operation) in each_operation() {
            for (place, argument) in operation.arguments().iter().enumerate() {
                for code in CODES.filter(|_| argument.most == 255) {
                    let mut arguments = self.maker.named_arguments(operation);
                    arguments[place] = code;
                    self.take(board, operation, &arguments, Image::Random);
                }
            }
        }
    }

    /// Every pair of a mode and a receive mode.
    fn modes(&mut self) {
        for (mode, rx_mode) in CODES.flat_map(|mode| CODES.map(move |rx_mode| (mode, rx_mode))) {
            let board = self.maker.random.pick(&Board::all());
            self.take(board, Operation::SetIrqParams, &[mode, rx_mode], Image::Random);
            let clear = self.maker.random.within(0, 2);
            self.take(board, Operation::ProcessIrqEvent, &[mode, rx_mode, clear], Image::Random);
        }
    }

    /// Every content of the flags in every mode.
    fn events(&mut self) {
        let modes = (0..=7).flat_map(|mode| (0..=3).map(move |rx_mode| (mode, rx_mode)));
        for ((mode, rx_mode), clear) in modes.flat_map(|modes| [0, 1, 2].map(|clear| (modes, clear))) {
            for variant in [Variant::Sx1272, Variant::Sx1276] {
                let board = Self::of_variant(variant);
                self.maker.make(board, Operation::ProcessIrqEvent, &[mode, rx_mode, clear], Image::Random);
                for flags in 0..=255 {
                    self.maker.call.image[0x12] = flags;
                    self.offer();
                }
            }
        }
    }

    /// Every receive window.
    fn windows(&mut self) {
        for (variant, symbols) in [Variant::Sx1272, Variant::Sx1276].into_iter().flat_map(each_short) {
            let board = Board { rx_boost: symbols % 2 == 0, ..Self::of_variant(variant) };
            let rx_mode = if symbols % 16 == 0 { self.maker.random.within(1, 3) } else { 0 };
            self.take(board, Operation::DoRx, &[rx_mode, symbols], Image::Random);
        }
    }

    fn bases(&mut self) {
        for board in Board::all() {
            for (tx, rx) in BASES.into_iter().flat_map(|tx| BASES.map(|rx| (tx, rx))) {
                self.take(board, Operation::SetTxRxBufferBaseAddress, &[tx, rx], Image::Random);
            }
            for (tx, rx) in (0..=300).flat_map(|tx| [0, 255, 256].map(|rx| (tx, rx))) {
                self.take(board, Operation::SetTxRxBufferBaseAddress, &[tx, rx], Image::Zero);
                self.take(board, Operation::SetTxRxBufferBaseAddress, &[rx, tx], Image::Zero);
            }
        }
    }

    /// The edges of steps, where the count goes up by one.
    fn frequencies(&mut self) {
        let board = Self::of_variant(Variant::Sx1276);
        self.maker.make(board, Operation::SetChannel, &[0], Image::Random);
        let known = [0, 1, 255, 256, 0x61_a8_00, 0x83_40_00, 0x83_40_01, 0xd9_06_66, 0xff_ff_ff];
        for n in 0..200_000 {
            let steps = known.get(n).copied().unwrap_or(self.maker.random.below(1 << 24) as u32);
            let lowest = lowest_frequency(steps) as i128;
            for hz in [lowest - 1, lowest, lowest + 1].map(|hz| hz.max(0)) {
                self.maker.call.arguments[0] = hz;
                self.offer();
            }
        }
        for hz in FREQUENCIES.into_iter().flat_map(|hz| [hz.saturating_sub(1).max(0), hz]) {
            self.take(board, Operation::SetChannel, &[hz], Image::Zero);
        }
    }

    /// Every length from every place of the FIFO, into a buffer that is one short, just right and one longer.
    fn received(&mut self) {
        let board = Self::of_variant(Variant::Sx1276);
        for length in 0..=255 {
            self.maker.make(board, Operation::GetRxPayload, &[], Image::Random);
            for room in (length as usize).saturating_sub(1)..=length as usize + 1 {
                self.maker.lend_buffer(room);
                for place in 0..=255 {
                    self.maker.call.image[0x10] = place;
                    self.maker.call.image[0x13] = length;
                    self.offer();
                }
            }
        }
    }

    fn sent(&mut self) {
        for variant in [Variant::Sx1272, Variant::Sx1276] {
            for length in (0..=300).chain([511, 512, 1_023, 1_024]) {
                for image in IMAGES {
                    self.maker.make(Self::of_variant(variant), Operation::SetPayload, &[], image);
                    self.maker.lend_buffer(length);
                    self.offer();
                }
            }
        }
    }

    /// Every room from none to one record more than is needed, and used bytes that are no whole records.
    fn logs(&mut self) {
        for (board, operation) in each_operation().filter(|(_, operation)| operation.is_lent_a_log()) {
            let arguments = self.maker.accepted_arguments(board.variant, operation);
            self.maker.make(board, operation, &arguments, Image::Random);
            for room in 0..=self.maker.needed() + 4 {
                for used in [0, 1, 2, 3, 6, 300] {
                    self.maker.lend_log(used, room);
                    self.offer();
                }
                for used in [room + 1, room + 3, usize::MAX, usize::MAX / 3 * 3] {
                    self.maker.lend_log(0, room);
                    self.maker.call.used = used;
                    self.offer();
                }
            }
        }
    }

    /// Images, FIFOs and, where they are not looked at, anything at all.
    fn lengths(&mut self) {
        for (board, operation) in each_operation() {
            let arguments = self.maker.accepted_arguments(board.variant, operation);
            for length in (0..=IMAGE + 3).chain([255, 256, 257, 1_024]) {
                self.maker.make(board, operation, &arguments, Image::Random);
                self.maker.call.image.resize(length, 0x5a);
                self.offer();
            }
            for length in [0, 1, 128, 255, 257, 512, 1_024] {
                self.maker.make(board, operation, &arguments, Image::Random);
                self.maker.call.fifo.resize(length, 0xa5);
                self.offer();
            }
        }
    }

    /// The operations with few arguments or none, on every board and image.
    fn commands(&mut self) {
        for (board, operation) in each_operation() {
            for image in IMAGES.into_iter().cycle().take(64) {
                let arguments = self.maker.accepted_arguments(board.variant, operation);
                self.take(board, operation, &arguments, image);
            }
        }
    }

    /// What the Rust by itself leaves of the six pairs, and the same with the optimize flag, on every kind of image.
    fn the_rusts_images(&mut self) {
        for board in Board::all() {
            let (address, bit) = flag(board.variant);
            let images = || IMAGES.into_iter().cycle().take(64);
            for (pair, image) in six_of(board.variant).flat_map(|pair| images().map(move |image| (pair, image))) {
                self.maker.make(board, Operation::ReadLink, &[], image);
                let link = self.maker.accepted_link_of(board.variant, pair);
                let start = self.maker.call.image[..].try_into().expect("the reader is lent an image");
                self.maker.call.image.copy_from_slice(&programmed(ask, board, &link, start));
                self.offer();
                self.maker.call.image[address as usize] |= bit;
                self.offer();
            }
        }
    }

    /// Images that links leave, with every register that the reader looks at set to every value; and any image.
    fn reader(&mut self) {
        for board in Board::all() {
            for _ in 0..8 {
                self.take(board, Operation::ReadLink, &[], Image::Linked);
                for address in READER {
                    let held = self.maker.call.image[address];
                    for value in 0..=255 {
                        self.maker.call.image[address] = value;
                        self.offer();
                    }
                    self.maker.call.image[address] = held;
                }
            }
            for image in [Image::Linked, Image::Random].into_iter().cycle().take(20_000) {
                self.take(board, Operation::ReadLink, &[], image);
            }
        }
    }
}

pub fn each_short(variant: Variant) -> impl Iterator<Item = (Variant, i128)> {
    (0..=u16::MAX).map(move |number| (variant, number as i128))
}

fn each_operation() -> impl Iterator<Item = (Board, Operation)> {
    Board::all().into_iter().flat_map(|board| Operation::all().map(move |operation| (board, operation)))
}
