//! The optimize flag by the sheet: where it is not the Rust's, and that nothing else is put otherwise there.
use oracle::chip::{Chip, FIFO, IMAGE};
use oracle::driver::{self, Question};
use oracle::maker::{programmed, Image, Maker, IMAGES};
use oracle::sheet::{flag, is_in_the_six, optimize, six_of, SIX};
use oracle::{run, Board, Call, Operation, Source, Variant};
use std::cell::RefCell;

const BOARD: Board = Board { variant: Variant::Sx1276, tcxo_used: false, tx_boost: false, rx_boost: false };

/// The Rust by itself, over a chip that goes on.
fn the_rust(board: Board, operation: Operation, arguments: &[i128], chip: &RefCell<Chip>) -> driver::Answer {
    driver::ask(&Question { board, operation, arguments }, chip, &mut []).expect("it does not panic")
}

/// Links of the six pairs on every board that has them, with images of every kind.
fn each_of_the_six(mut look: impl FnMut(Board, &[i128], [u8; IMAGE])) {
    let mut maker = Maker::new(11);
    for board in Board::all() {
        for pair in six_of(board.variant) {
            for image in IMAGES {
                let link = maker.accepted_link_of(board.variant, pair);
                maker.make(board, Operation::ReadLink, &[], image);
                look(board, &link, maker.call.image[..].try_into().unwrap());
            }
        }
    }
}

fn outcome(board: Board, operation: Operation, arguments: &[i128], image: [u8; IMAGE]) -> oracle::Outcome {
    let mut call = Call::new(board, operation, arguments);
    (call.image, call.log) = (image.to_vec(), vec![0; 90]);
    run(&call)
}

#[test]
fn the_rust_differs_at_the_six_and_nowhere_else() {
    let chip = RefCell::new(Chip::new([0; IMAGE], [0; FIFO]));
    for (sf, bw) in (6..=12).flat_map(|sf| (0..=9).map(move |bw| (sf, bw))) {
        let arguments = [sf, bw, 1, 868_100_000];
        let rusts = the_rust(BOARD, Operation::CreateModulationParams, &arguments, &chip).values[3];
        let six = is_in_the_six(Operation::CreateModulationParams, &arguments);
        assert_eq!((rusts, optimize(sf, bw)), if six { (0, 1) } else { (rusts, rusts) }, "SF{sf}, bandwidth {bw}");
        let made = run(&Call::new(BOARD, Operation::CreateModulationParams, &arguments));
        assert_eq!((made.values[3], made.in_the_six), (optimize(sf, bw), six));
    }
    assert_eq!(six_of(Variant::Sx1276).collect::<Vec<_>>(), SIX);
    assert_eq!(six_of(Variant::Sx1272).collect::<Vec<_>>(), [(11, 7), (12, 8)]);
}

/// What is compared in the six: the Rust's very log and image, but for the flag's bit.
#[test]
fn nothing_but_the_flag_is_put_otherwise() {
    each_of_the_six(|board, link, start| {
        let chip = RefCell::new(Chip::new(start, [0; FIFO]));
        the_rust(board, Operation::Program, link, &chip);
        let chip = chip.into_inner();
        let amended = outcome(board, Operation::Program, link, start);
        assert_eq!((amended.number, &amended.source, amended.in_the_six), (0, &Source::Rust, true));
        let (address, bit) = flag(board.variant);
        let mut image = amended.image.clone();
        assert_eq!((image[address as usize] ^ chip.image[address as usize], image[address as usize] & bit), (bit, bit));
        image[address as usize] ^= bit;
        assert_eq!(image, chip.image);
        assert_eq!(amended.used, chip.log().len());
        for (ours, rusts) in amended.log.chunks(3).zip(chip.log().chunks(3)) {
            let allowed = if ours[1] == address { bit } else { 0 };
            assert_eq!((&ours[..2], ours[2] & !allowed), (&rusts[..2], rusts[2] & !allowed));
        }
    });
}

/// The Rust, handed the flag, does the same by itself.
#[test]
fn the_rust_with_the_flag_given() {
    each_of_the_six(|board, link, start| {
        let [public, sf, bw, cr, hz, preamble, header, crc, iq, power] = link[..] else {
            panic!("a link has ten numbers")
        };
        let chip = RefCell::new(Chip::new(start, [0; FIFO]));
        the_rust(board, Operation::InitLora, &[public], &chip);
        the_rust(board, Operation::SetChannel, &[hz], &chip);
        the_rust(board, Operation::SetModulationParams, &[sf, bw, cr, 1], &chip);
        the_rust(board, Operation::SetPacketParams, &[preamble, header, 0, crc, iq], &chip);
        the_rust(board, Operation::SetTxPowerAndRampTime, &[power, 0], &chip);
        let (chip, amended) = (chip.into_inner(), outcome(board, Operation::Program, link, start));
        assert_eq!((&amended.image[..], &amended.log[..amended.used]), (&chip.image[..], chip.log()));
    });
}

/// What the Rust leaves of the six by itself is no link any more; with the flag it is.
#[test]
fn the_rusts_images_are_no_links() {
    each_of_the_six(|board, link, start| {
        let mut image = programmed(driver::ask, board, link, start);
        assert_eq!(outcome(board, Operation::ReadLink, &[], image).number, 27);
        let (address, bit) = flag(board.variant);
        image[address as usize] |= bit;
        let read = outcome(board, Operation::ReadLink, &[], image);
        assert_eq!((read.number, &read.values[1..3], read.in_the_six), (0, &link[1..3], true));
    });
}

/// Calls that do not work the flag out, and calls that are refused, do not count as in the six.
#[test]
fn what_counts_as_in_the_six() {
    let mut maker = Maker::new(12);
    maker.make(BOARD, Operation::SetModulationParams, &[11, 7, 1, 0], Image::Zero);
    let set = run(&maker.call);
    assert_eq!((set.number, set.image[0x26] & 0x08, set.in_the_six), (0, 0, false));
    let link = [1, 11, 7, 1, 868_100_000, 8, 0, 1, 0, 14];
    maker.make(BOARD, Operation::Program, &link, Image::Zero);
    assert!(run(&maker.call).in_the_six);
    maker.lend_log(0, 84);
    let refused = run(&maker.call);
    assert_eq!((refused.number, refused.in_the_six), (24, false));
    maker.make(BOARD, Operation::Airtime, &[], Image::Zero);
    for (text, six) in [("1\t11\t7\t1\t8\t10\t0\t1\n", true), ("1\t10\t7\t1\t8\t10\t0\t1\n", false)] {
        maker.call.buffer = text.as_bytes().to_vec();
        assert_eq!(run(&maker.call).in_the_six, six);
    }
}
