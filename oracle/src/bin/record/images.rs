//! Images as Intel HEX, for `write_hex` and `read_hex`: rooms, layouts, every way in which a record is bad, and the order
//! of refusals.
use crate::list::{pairs, List};
use oracle::chip::IMAGE;
use oracle::hex_texts::{
    any_lines, completed, cr_lf, ended, instead, line, lower, malformed, mixed, record, rows, summed, with, ADDRESSES,
    CLOSE, DATA, END, WRONG_ENDS,
};
use oracle::intel_hex::TEXT;
use oracle::maker::{Image, IMAGES};
use oracle::{Board, Operation};

pub fn all(list: &mut List) {
    rooms(list);
    lengths(list);
    read_back(list);
    layouts(list);
    first_bad_records(list);
    orders(list);
    closings(list);
    line_ends(list);
    cuts(list);
    forms(list);
    types(list);
    empty_records(list);
    places(list);
    overlaps(list);
    incomplete(list);
    long_texts(list);
    beside(list);
    any(list);
}

/// A call that is lent what it wants, on one board after the other: none is looked at.
fn make(list: &mut List, operation: Operation, image: Image) {
    let board = Board::all()[list.lines.len() % 16];
    list.maker.make(board, operation, &[], image);
}

/// A text, to be read into any image.
fn add(list: &mut List, text: &[u8]) {
    make(list, Operation::ReadHex, Image::Random);
    list.maker.call.buffer = text.to_vec();
    list.add();
}

fn add_write(list: &mut List, image: &[u8], room: usize) {
    make(list, Operation::WriteHex, Image::Zero);
    list.maker.call.image = image.to_vec();
    list.maker.lend_buffer(room);
    list.add();
}

/// An image that tells each address.
fn counted() -> [u8; IMAGE] {
    std::array::from_fn(|address| address as u8)
}

/// The lines of its text.
fn ours() -> Vec<Vec<u8>> {
    rows(&counted(), 16)
}

/// Images of every kind, and every room that something ends at.
fn rooms(list: &mut List) {
    for image in IMAGES {
        make(list, Operation::WriteHex, image);
        list.add();
    }
    for image in [[0; IMAGE], [0xff; IMAGE], [0x9a; IMAGE], counted()] {
        add_write(list, &image, TEXT);
    }
    for room in [0, 1, 11, 12, 43, 44, 352, TEXT - 1, TEXT + 1, 400, 1_023, 1_024, 1_025, 4_096] {
        add_write(list, &counted(), room);
    }
}

/// 26 comes before 41 and before whatever is wrong with a text.
fn lengths(list: &mut List) {
    let good = ours().concat();
    let texts: [&[u8]; 3] = [&good, b"", b"\n"];
    for length in [0, 1, 127, 128, 129, 256] {
        for room in [0, TEXT - 1, TEXT] {
            add_write(list, &vec![0x5a; length], room);
        }
        for text in texts {
            make(list, Operation::ReadHex, Image::Zero);
            list.maker.call.image.resize(length, 0x5a);
            list.maker.call.buffer = text.to_vec();
            list.add();
        }
    }
}

/// What was written, and the same in each style.
fn read_back(list: &mut List) {
    for kind in IMAGES {
        make(list, Operation::WriteHex, kind);
        let text = oracle::run(&list.maker.call).buffer;
        let mixed = mixed(&mut list.maker.random, &text);
        for text in [&text, &lower(&text), &cr_lf(&text), &mixed] {
            add(list, text);
        }
    }
}

/// Records of other lengths and in another order.
fn layouts(list: &mut List) {
    for size in [1, 2, 3, 5, 7, 8, 15, 17, 32, 33, 64, 100, 127, 128] {
        add(list, &rows(&counted(), size).concat());
    }
    for size in [4, 16, 64] {
        let lines = rows(&counted(), size);
        let (end, data) = lines.split_last().expect("an end record");
        let reversed: Vec<Vec<u8>> = data.iter().rev().chain([end]).cloned().collect();
        add(list, &reversed.concat());
    }
    for _ in 0..8 {
        let lines = any_lines(&mut list.maker.random, &counted());
        let text = mixed(&mut list.maker.random, &lines.concat());
        add(list, &text);
    }
}

/// Records that are bad, one for each reason.
fn bad_records() -> [Vec<u8>; 7] {
    [
        b"\n".to_vec(),
        record(2, 0, &[0x10, 0]),
        record(END, 0, &[0]),
        record(END, 1, &[]),
        summed(DATA, 0x10, &[1], 1),
        record(DATA, 0x80, &[1]),
        record(DATA, 0, &[0]),
    ]
}

/// Reading 1: of several bad records the first decides, and an unset address never comes before them.
fn first_bad_records(list: &mut List) {
    let lines = ours();
    let bad = bad_records();
    for (first, second) in bad.iter().flat_map(|first| bad.iter().map(move |second| (first, second))) {
        add(list, &[&lines[0], &first[..], second, CLOSE].concat());
    }
    for (bad, place) in bad.iter().flat_map(|bad| [1, 8].map(|place| (bad, place))) {
        add(list, &with(&lines, place, bad));
    }
}

/// Reading 1: one record that is bad in two ways or more.
fn orders(list: &mut List) {
    let lines = ours();
    for (kind, address, data) in [
        (2, 0x80, &[1][..]),
        (END, 0, &[1]),
        (END, 1, &[]),
        (END, 0x80, &[1]),
        (0xff, 0xffff, &[]),
        (DATA, 0x80, &[1]),
        (DATA, 0, &[1]),
        (DATA, 0x70, &[0; 17]),
        (DATA, 0xffff, &[1, 2]),
    ] {
        for error in [0, 1] {
            add(list, &[&lines[0][..], &summed(kind, address, data, error), CLOSE].concat());
        }
    }
}

/// Reading 2: text after the end record, whose sum is right or wrong, behind a whole image and behind nothing; and end
/// records that are bad by themselves.
fn closings(list: &mut List) {
    let lines = ours();
    let after: [&[u8]; 11] =
        [CLOSE, b"\n", b"\r\n", b"\r", b" ", b"\0", b"\x1a", b":", b":0000000000\n", b":01008000007F\n", b"x\n"];
    for (end, after) in pairs(&[CLOSE, b":00000001FE\n"], &after) {
        add(list, &[end, after].concat());
    }
    for after in [CLOSE, b"\n", b"\x1a"] {
        add(list, &with(&lines, 9, after));
    }
    for end in [":00000001ff\n", ":00000001FE\n", ":0000000100\n", ":00000001FF\r\n", ":0000000000\n"] {
        add(list, &instead(&lines, 8, end.as_bytes()));
    }
    for ((address, data), error) in pairs(&[(0, &[0][..]), (1, &[]), (0x100, &[])], &[0, 1]) {
        add(list, &instead(&lines, 8, &summed(END, address, data, error)));
    }
    for (place, end) in pairs(&[0, 4, 8], &[CLOSE, b":0000000100\n"]) {
        add(list, &with(&lines, place, end));
    }
}

/// Reading 3: LF and CR LF as they come; every other end, blank lines, and what stands before a colon.
fn line_ends(list: &mut List) {
    let lines = ours();
    for choice in [0b000000001, 0b100000000, 0b010101010, 0b111101111] {
        let end = |place: usize| if choice >> place & 1 == 0 { &b"\n"[..] } else { b"\r\n" };
        let ends = lines.iter().enumerate().map(|(place, line)| ended(line, end(place)));
        add(list, &ends.collect::<Vec<_>>().concat());
    }
    for end in WRONG_ENDS {
        add(list, &[ended(&lines[0], end), CLOSE.to_vec()].concat());
        add(list, &ended(CLOSE, end));
    }
    add(list, &instead(&lines, 8, &ended(CLOSE, b"")));
    for (place, blank) in pairs(&[0, 5, 9], &[&b"\n"[..], b"\r\n"]) {
        add(list, &with(&lines, place, blank));
    }
    for before in [&b" "[..], b"\t", b"\0", b"x", b":", b"\r", b"\xef\xbb\xbf"] {
        add(list, &[before, &lines[0], CLOSE].concat());
    }
}

/// Every first part of a line and the end record, which is 29 within a line and 32 behind it.
fn cuts(list: &mut List) {
    let text = [record(DATA, 0x10, &[0xab]), cr_lf(CLOSE)].concat();
    for length in 0..=text.len() {
        add(list, &text[..length]);
    }
}

/// Reading 4: lines that are no record; digits, and what stands beside them in the code; byte counts.
fn forms(list: &mut List) {
    let lines = ours();
    for line in malformed() {
        add(list, &[&line[..], CLOSE].concat());
    }
    let text = [record(DATA, 0x10, &[0xab]), CLOSE.to_vec()].concat();
    for (place, byte) in pairs(&[9, 10], b"/:@G`gAaB") {
        let mut text = text.clone();
        text[place] = byte;
        add(list, &text);
    }
    for (count, length) in [(0, 1), (1, 0), (1, 2), (15, 16), (17, 16), (255, 254), (255, 255), (0, 256), (1, 257)] {
        let mut bytes = vec![count, 0, 0, DATA];
        bytes.resize(4 + length, 0);
        bytes.push(count.wrapping_neg());
        add(list, &with(&lines, 8, &line(&bytes)));
    }
}

/// Reading 4: every type beside 00 and 01 that the format has, and others.
fn types(list: &mut List) {
    for kind in [2, 3, 4, 5, 0x10, 0xff] {
        for error in [0, 1] {
            add(list, &[summed(kind, 0, &[], error), CLOSE.to_vec()].concat());
        }
    }
}

/// Reading 5: empty records at any address and place, their sums right and wrong; and many of them.
fn empty_records(list: &mut List) {
    let lines = ours();
    for (n, address) in ADDRESSES.into_iter().enumerate() {
        add(list, &with(&lines, n % 10, &record(DATA, address, &[])));
    }
    for (address, error) in pairs(&[0, 0xffff], &[1, 0x80, 0xff]) {
        add(list, &[&summed(DATA, address, &[], error), CLOSE].concat());
    }
    for count in [2, 60] {
        add(list, &with(&lines, 3, &record(DATA, 0x1234, &[]).repeat(count)));
    }
}

/// Reading 6: bytes outside an image, by one and by far, and records that run past the last address.
fn places(list: &mut List) {
    for (address, length) in pairs(&ADDRESSES, &[1, 17]) {
        add(list, &[record(DATA, address, &vec![address as u8; length]), CLOSE.to_vec()].concat());
    }
    for (address, length) in [(0, 128), (0, 129), (0, 255), (1, 127), (1, 128), (0x7f, 2), (0xff80, 255), (0xffff, 129)]
    {
        add(list, &[record(DATA, address, &vec![0xda; length]), CLOSE.to_vec()].concat());
    }
    add(list, &instead(&ours(), 7, &record(DATA, 0x70, &[0; 17])));
}

/// Reading 6: addresses that an earlier record has set, be it to the same value.
fn overlaps(list: &mut List) {
    let image = counted();
    for places in [
        [0..64, 64..128],
        [64..128, 0..64],
        [0..64, 63..128],
        [0..65, 64..128],
        [10..20, 0..11],
        [10..20, 0..10],
        [10..20, 19..30],
        [10..20, 12..15],
        [12..15, 10..20],
        [10..20, 10..20],
        [10..20, 15..15],
        [0..128, 127..128],
    ] {
        add(list, &completed(&image, &places).concat());
    }
}

/// Reading 7: no end record, or an address that nothing sets.
fn incomplete(list: &mut List) {
    let lines = ours();
    add(list, b"");
    add(list, CLOSE);
    add(list, &lines[..8].concat());
    add(list, &cr_lf(&lines[..8].concat()));
    for place in 0..8 {
        add(list, &instead(&lines, place, b""));
    }
    for (address, length) in [(0, 127), (1, 127), (0, 1), (127, 1)] {
        add(list, &[record(DATA, address, &vec![1; length]), CLOSE.to_vec()].concat());
    }
}

/// Texts of 4,096 bytes: records of one byte, with empty ones so that nothing is left over.
fn long_texts(list: &mut List) {
    let mut lines = rows(&counted(), 1);
    lines.splice(0..0, (0..180).map(|n| record(DATA, 0x0101 * n, &[])));
    let lines: Vec<Vec<u8>> =
        lines.iter().enumerate().map(|(n, line)| if n < 177 { line.clone() } else { cr_lf(line) }).collect();
    let text = lines.concat();
    assert_eq!(text.len(), 4_096);
    add(list, &text);
    add(list, &lower(&text));
    add(list, &text[..4_095]);
    add(list, &instead(&lines, lines.len() - 1, b":00000001FE\r\n"));
    add(list, &instead(&lines, lines.len() - 2, b":01007E007F02\r\n"));
    add(list, &[&text[..4_083], &[b'\n'; 13]].concat());
    add(list, &[b':'; 4_096]);
    add(list, &[b'0'; 4_096]);
}

/// What else is lent, in any lengths, is not looked at.
fn beside(list: &mut List) {
    for (n, (operation, log)) in
        pairs(&[Operation::WriteHex, Operation::ReadHex], &[0, 1, 3, 90, 1_024]).into_iter().enumerate()
    {
        make(list, operation, Image::Random);
        list.maker.put_unlent();
        list.maker.call.log.resize(log, 0x10);
        list.maker.call.used = [0, 1, log, usize::MAX][n % 4];
        list.add();
    }
}

fn any(list: &mut List) {
    for operation in [Operation::WriteHex, Operation::ReadHex, Operation::ReadHex, Operation::ReadHex].repeat(6) {
        list.maker.make_any_of(operation);
        list.add();
    }
}
