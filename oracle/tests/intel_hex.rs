//! Register images as Intel HEX: each sentence of request [3], and each reading of it.
use oracle::hex_texts::{
    self, any_lines, completed, cr_lf, ended, kinds, line, lower, malformed, mixed, record, rows, summed, ADDRESSES,
    CLOSE, DATA, END, WRONG_ENDS,
};
use oracle::intel_hex::{read, write, TEXT};
use oracle::random::Random;
use oracle::{run, Board, Call, Operation, Outcome, Source};
use std::slice;

type Image = [u8; 128];

fn counted() -> Image {
    std::array::from_fn(|address| address as u8)
}

fn random_image(random: &mut Random) -> Image {
    let mut image = [0; 128];
    random.fill(&mut image);
    image
}

fn written(image: &Image) -> Vec<u8> {
    let mut room = vec![0; TEXT];
    assert_eq!(write(image, &mut room), Ok(TEXT));
    room
}

/// The lines of the counted image's text.
fn ours() -> Vec<Vec<u8>> {
    rows(&counted(), 16)
}

/// Our text with these lines before the one that has this place, from 0 to 8; at 9 they are behind the end record.
fn with(place: usize, put_in: &[&[u8]]) -> Vec<u8> {
    hex_texts::with(&ours(), place, &put_in.concat())
}

/// Our text with one line put otherwise.
fn instead(place: usize, line: &[u8]) -> Vec<u8> {
    hex_texts::instead(&ours(), place, line)
}

/// Eight data records of 16 bytes from address 0 and an end record, in upper case, each line ended by LF.
#[test]
fn the_written_text() {
    let text = ":10000000000102030405060708090A0B0C0D0E0F78\n:10001000101112131415161718191A1B1C1D1E1F68\n\
                :10002000202122232425262728292A2B2C2D2E2F58\n:10003000303132333435363738393A3B3C3D3E3F48\n\
                :10004000404142434445464748494A4B4C4D4E4F38\n:10005000505152535455565758595A5B5C5D5E5F28\n\
                :10006000606162636465666768696A6B6C6D6E6F18\n:10007000707172737475767778797A7B7C7D7E7F08\n:00000001FF\n";
    assert_eq!(String::from_utf8(written(&counted())).unwrap(), text);
    assert_eq!(text.len(), TEXT);
    assert_eq!(written(&[0xff; 128])[..44], *b":10000000FFFFFFFFFFFFFFFFFFFFFFFFFFFFFFFF00\n");
    assert_eq!(written(&[0; 128])[44..88], *b":1000100000000000000000000000000000000000E0\n");
}

/// Reading what we wrote gives the image back; writing what we read gives our layout.
#[test]
fn there_and_back() {
    let mut random = Random::new(3);
    for _ in 0..1_000 {
        let image = random_image(&mut random);
        assert_eq!(read(&written(&image)), Ok(image));
        let lines = any_lines(&mut random, &image);
        let text = mixed(&mut random, &lines.concat());
        assert_eq!(read(&text).map(|image| written(&image)), Ok(written(&image)));
    }
}

/// A room below 364 bytes is 41; what a room has behind the text stays.
#[test]
fn rooms() {
    for length in 0..=2 * TEXT {
        let mut room = vec![0xbb; length];
        if length < TEXT {
            assert_eq!(write(&counted(), &mut room), Err(41));
            assert_eq!(room, vec![0xbb; length]);
        } else {
            assert_eq!(write(&counted(), &mut room), Ok(TEXT));
            assert_eq!(room[..TEXT], written(&counted()));
            assert_eq!(room[TEXT..], vec![0xbb; length - TEXT]);
        }
    }
}

/// Data records of any lengths, in any order, in either case and with either line end.
#[test]
fn layouts() {
    let image = counted();
    for size in 1..=128 {
        let mut lines = rows(&image, size);
        let text = lines.concat();
        for text in [&text, &lower(&text), &cr_lf(&text), &lower(&cr_lf(&text))] {
            assert_eq!(read(text), Ok(image), "{size} bytes");
        }
        let end = lines.pop().unwrap();
        lines.reverse();
        assert_eq!(read(&[lines.concat(), end].concat()), Ok(image), "{size} bytes, from behind");
    }
    for (start, end) in (0..=128).flat_map(|start| (start..=128).map(move |end| (start, end))) {
        let first = start..end;
        assert_eq!(read(&completed(&image, slice::from_ref(&first)).concat()), Ok(image), "{first:?} first");
    }
}

/// Reading 1: the first record with 29, 30 or 31 decides, whatever is wrong with a later one.
#[test]
fn the_first_bad_record() {
    let bad: [(Vec<u8>, u8); 9] = [
        (b"\n".to_vec(), 29),
        (b":0\n".to_vec(), 29),
        (record(2, 0, &[]), 29),
        (record(END, 0, &[0]), 29),
        (record(END, 1, &[]), 29),
        (summed(DATA, 0x10, &[1], 1), 30),
        (summed(DATA, 0, &[], 0xff), 30),
        (record(DATA, 0x80, &[1]), 31),
        (record(DATA, 0, &[1]), 31),
    ];
    for ((first, number), (second, _)) in bad.iter().flat_map(|first| bad.iter().map(move |second| (first, second))) {
        for place in 1..=8 {
            assert_eq!(read(&with(place, &[first, second])), Err(*number), "{first:?} and {second:?} at {place}");
            assert_eq!(read(&[&with(place, &[first, second])[..], b"x"].concat()), Err(*number));
        }
    }
}

/// Reading 1: at one record 29 comes before 30, and 30 before 31.
#[test]
fn the_order_at_a_record() {
    for (kind, address, data) in [(2, 0x80, &[1][..]), (END, 0, &[1]), (END, 1, &[]), (0xff, 0, &[])] {
        assert_eq!(read(&with(1, &[&summed(kind, address, data, 1)])), Err(29));
    }
    for (address, data) in [(0x80, &[1][..]), (0, &[1]), (0xffff, &[1, 2]), (0x70, &[0; 17])] {
        assert_eq!(read(&with(1, &[&summed(DATA, address, data, 1)])), Err(30));
        assert_eq!(read(&with(8, &[&summed(DATA, address, data, 0)])), Err(31));
    }
}

/// Reading 1: 32 only where no record is bad, be it the last.
#[test]
fn incomplete_comes_last() {
    for place in 0..8 {
        let gap = instead(place, b"");
        assert_eq!(read(&gap), Err(32), "row {place}");
        let unclosed = gap.strip_suffix(CLOSE).unwrap();
        assert_eq!(read(unclosed), Err(32), "row {place}");
        for (line, number) in [
            (&b"\n"[..], 29),
            (b":", 29),
            (b":00000001FF", 29),
            (b":0000000200\n", 29),
            (b":00000001FE\n", 30),
            (b":010080000000\n", 30),
            (b":01008000007F\n", 31),
        ] {
            assert_eq!(read(&[unclosed, line].concat()), Err(number), "row {place}, {line:?}");
        }
    }
}

/// Reading 2: text after the end record is the end record's own fault, and comes before its sum.
#[test]
fn text_after_the_end_record() {
    let after: [&[u8]; 12] = [
        CLOSE, b"\n", b"\r\n", b"\r", b" ", b"\0", b"\x1a", b"\x1a\n", b":", b":0000000000\n", b":01008000007F\n", b"x",
    ];
    for text in after {
        assert_eq!(read(&with(9, &[text])), Err(29), "{text:?}");
        assert_eq!(read(&[&instead(8, b":00000001FE\n"), text].concat()), Err(29), "{text:?}");
        assert_eq!(read(&[CLOSE, text].concat()), Err(29), "{text:?}");
    }
    assert_eq!(read(&instead(8, b":00000001FE\n")), Err(30));
    // In the midst of the rows, an end record has the others after it.
    for place in 0..8 {
        assert_eq!(read(&with(place, &[CLOSE])), Err(29));
        assert_eq!(read(&with(place, &[b":0000000100\n"])), Err(29));
    }
}

/// Reading 3: each line may end by LF or CR LF, as they come.
#[test]
fn line_ends() {
    for choice in 0..512 {
        let end = |place: usize| if choice >> place & 1 == 0 { &b"\n"[..] } else { b"\r\n" };
        let lines = ours().iter().enumerate().flat_map(|(place, line)| ended(line, end(place))).collect::<Vec<u8>>();
        assert_eq!(read(&lines), Ok(counted()), "{choice:09b}");
    }
}

/// Reading 3: a line that ends otherwise, or in nothing, is of bad form; so are blank lines and what is not digits.
#[test]
fn other_line_ends() {
    for (place, end) in (0..9).flat_map(|place| WRONG_ENDS.map(|end| (place, end))) {
        assert_eq!(read(&instead(place, &ended(&ours()[place], end))), Err(29), "line {place}, {end:?}");
    }
    for (place, blank) in (0..=9).flat_map(|place| [&b"\n"[..], b"\r\n", b" \n", b"\r", b"\r\r\n"].map(|b| (place, b)))
    {
        assert_eq!(read(&with(place, &[blank])), Err(29), "line {place}, {blank:?}");
    }
    for before in [&b" "[..], b"\t", b"\0", b"x", b"0", b":", b"\xef\xbb\xbf", b"\r"] {
        for place in 0..9 {
            assert_eq!(read(&instead(place, &[before, &ours()[place]].concat())), Err(29), "line {place}, {before:?}");
        }
    }
}

/// Reading 3: a text that stops within a line is of bad form there; reading 7: one that stops behind a line is incomplete.
#[test]
fn cut_texts() {
    for text in [ours().concat(), cr_lf(&ours().concat()), rows(&counted(), 1).concat(), rows(&counted(), 128).concat()]
    {
        for length in 0..text.len() {
            let is_whole = length == 0 || text[length - 1] == b'\n';
            assert_eq!(read(&text[..length]), Err(if is_whole { 32 } else { 29 }), "{length} bytes");
        }
        assert_eq!(read(&text), Ok(counted()));
    }
    // What is bad before the cut comes first.
    let text = instead(2, &summed(DATA, 0x20, &[0x20; 16], 1));
    for length in 3 * 44..text.len() {
        assert_eq!(read(&text[..length]), Err(30), "{length} bytes");
    }
}

/// Reading 4: a line has as many digits as its byte count says.
#[test]
fn byte_counts() {
    for (count, length) in (0..=255).flat_map(|count: u8| [0, 1, 16, 254, 255, 256, 257, 512].map(|l| (count, l))) {
        let mut bytes = vec![count, 0, 0x80, 0];
        bytes.resize(4 + length, 0);
        bytes.push((0x80 - count as i32) as u8);
        let expected = match length {
            _ if count as usize != length => 29,
            0 => 32,
            _ => 31,
        };
        assert_eq!(read(&line(&bytes)), Err(expected), "{count} of {length}");
    }
    let row = &ours()[3];
    for digit in 1..row.len() - 1 {
        assert_eq!(read(&instead(3, &[&row[..digit], &row[digit + 1..]].concat())), Err(29));
        assert_eq!(read(&instead(3, &[&row[..digit], b"0", &row[digit..]].concat())), Err(29));
        assert_eq!(read(&instead(3, &[&row[..digit], b"00", &row[digit..]].concat())), Err(29));
    }
    for line in malformed() {
        assert_eq!(read(&with(4, &[&line])), Err(29), "{line:?}");
    }
}

/// Reading 4: types other than 00 and 01 are 29, whatever they hold.
#[test]
fn types() {
    for kind in 2..=255 {
        for error in [0, 1] {
            for (address, data) in [(0, &[][..]), (0, &[0x10, 0]), (0x20, &[7; 16]), (0xffff, &[1, 2])] {
                assert_eq!(read(&with(2, &[&summed(kind, address, data, error)])), Err(29), "type {kind}");
            }
        }
    }
}

/// Reading 4: digits in either case, mixed; every other byte in the place of one is 29.
#[test]
fn digits() {
    let image = [0xab; 128];
    let text = rows(&image, 128).concat();
    let place = 9;
    for value in 0..=255 {
        let mut text = text.clone();
        text[place] = value;
        let expected = match value {
            b'a' | b'A' => Ok(image),
            _ if value.is_ascii_hexdigit() => Err(30),
            _ => Err(29),
        };
        assert_eq!(read(&text), expected, "{value:#04x}");
    }
    let mut random = Random::new(5);
    for _ in 0..1_000 {
        let image = random_image(&mut random);
        assert_eq!(read(&mixed(&mut random, &rows(&image, 16).concat())), Ok(image));
    }
}

/// A sum is right where all bytes of the record come to 0 in eight bits.
#[test]
fn sums() {
    for (place, error) in (0..9).flat_map(|place| (0..=255).map(move |error| (place, error))) {
        let (kind, address, data) = match place {
            8 => (END, 0, Vec::new()),
            _ => (DATA, 16 * place as u16, counted()[16 * place..16 * place + 16].to_vec()),
        };
        let expected = if error == 0 { Ok(counted()) } else { Err(30) };
        assert_eq!(read(&instead(place, &summed(kind, address, &data, error))), expected, "line {place}, {error} more");
    }
}

/// Reading 5: an empty data record may stand anywhere before the end; its sum is looked at, its address is not.
#[test]
fn empty_records() {
    for address in (0..=u16::MAX).step_by(17).chain(ADDRESSES) {
        let place = address as usize % 9;
        assert_eq!(read(&with(place, &[&record(DATA, address, &[])])), Ok(counted()), "{address:#06x}");
        assert_eq!(read(&with(place, &[&summed(DATA, address, &[], 1)])), Err(30), "{address:#06x}");
    }
    assert_eq!(read(&with(9, &[b":0000000000\n"])), Err(29));
    assert_eq!(read(b":0000000000\n"), Err(32));
    assert_eq!(read(&[b":0000000000\n", CLOSE].concat()), Err(32));
}

/// Reading 5: any number of records.
#[test]
fn many_records() {
    for count in [1, 100, 10_000, 100_000] {
        let empty = record(DATA, 0x1234, &[]).repeat(count);
        assert_eq!(read(&with(5, &[&empty])), Ok(counted()), "{count} empty records");
        assert_eq!(read(&with(5, &[&empty, b":0012340000\n"])), Err(30));
        assert_eq!(read(&with(5, &[&empty, b":0100000000FF\n"])), Err(31));
    }
}

/// Reading 5: lengths from 0 to 255.
#[test]
fn lengths() {
    for length in 0..=255 {
        let data = [0x5a; 255];
        let text = [record(DATA, 0, &data[..length]), CLOSE.to_vec()].concat();
        let expected = match length {
            128 => Ok([0x5a; 128]),
            0..=127 => Err(32),
            _ => Err(31),
        };
        assert_eq!(read(&text), expected, "{length} bytes");
    }
}

/// Reading 6: 31 where a byte's address is outside 0 to 127.
#[test]
fn outside() {
    for (address, length) in
        ADDRESSES.into_iter().flat_map(|address| [1, 2, 16, 17, 128, 129, 255].map(|l| (address, l)))
    {
        let alone = [record(DATA, address, &vec![1; length]), CLOSE.to_vec()].concat();
        let expected = match address as usize + length {
            128 if length == 128 => Ok([1; 128]),
            0..=128 => Err(32),
            _ => Err(31),
        };
        assert_eq!(read(&alone), expected, "{length} bytes at {address:#06x}");
    }
    assert_eq!(read(&instead(7, &record(DATA, 0x70, &[0; 17]))), Err(31));
    for address in 128..=u16::MAX {
        assert_eq!(read(&record(DATA, address, &[0])), Err(31), "{address:#06x}");
    }
}

/// Reading 6: 31 where an earlier record has set a byte's address, be it to the same value.
#[test]
fn set_twice() {
    let image = counted();
    let ranges: Vec<_> =
        (0..=128).step_by(8).flat_map(|start| (start..=128).step_by(8).map(move |end| start..end)).collect();
    for (one, other) in ranges.iter().flat_map(|one| ranges.iter().map(move |other| (one, other))) {
        let is_met = one.clone().any(|address| other.contains(&address));
        let expected = if is_met { Err(31) } else { Ok(image) };
        assert_eq!(read(&completed(&image, &[one.clone(), other.clone()]).concat()), expected, "{one:?}, {other:?}");
    }
    for address in 0..128 {
        let again = record(DATA, address, &[address as u8]);
        assert_eq!(read(&with(8, &[&again])), Err(31));
        // The later record is the bad one: what is wrong between the two comes first.
        assert_eq!(read(&with(8, &[b"\n", &again])), Err(29));
        assert_eq!(read(&with(8, &[&summed(DATA, 0, &[], 1), &again])), Err(30));
    }
}

/// Reading 6: a record that runs past 0xffff has a byte there.
#[test]
fn past_the_last_address() {
    for address in 0xff01..=0xffff {
        // The bytes that would come around to 0 are not set by it.
        assert_eq!(read(&with(0, &[&record(DATA, address, &[0; 255])])), Err(31), "{address:#06x}");
    }
    let around = record(DATA, 0xffff, &[0; 129]);
    assert_eq!(read(&[around, CLOSE.to_vec()].concat()), Err(31));
}

/// Reading 7: the empty text, and a text that stops behind a line without an end record.
#[test]
fn no_end_record() {
    assert_eq!(read(b""), Err(32));
    let lines = ours();
    for count in 1..=8 {
        assert_eq!(read(&lines[..count].concat()), Err(32));
        assert_eq!(read(&cr_lf(&lines[..count].concat())), Err(32));
    }
    assert_eq!(read(CLOSE), Err(32));
}

/// 32 where an address is not set, be it one alone.
#[test]
fn an_address_not_set() {
    for (start, end) in (0..128).flat_map(|start| (start + 1..=128).map(move |end| (start, end))) {
        let first = start..end;
        let lines = completed(&counted(), slice::from_ref(&first));
        assert_eq!(read(&lines[1..].concat()), Err(32), "{first:?}");
    }
}

/// A call that is lent an image and a buffer, and beside them what is not looked at.
fn asked(operation: Operation, board: Board, image: &[u8], buffer: &[u8]) -> (Call, Outcome) {
    let mut call = Call::new(board, operation, &[]);
    (call.image, call.buffer) = (image.to_vec(), buffer.to_vec());
    (call.fifo, call.log, call.used) = (vec![1; 5], vec![2; 7], 77);
    let outcome = run(&call);
    assert_eq!((&outcome.fifo, &outcome.log, outcome.used), (&call.fifo, &call.log, call.used));
    assert_eq!((&outcome.source, outcome.in_the_six), (&Source::Ours, false));
    (call, outcome)
}

/// 26 where the image lent is not 128 bytes, then 41 or the text's own refusal; a refusal leaves image and buffer.
#[test]
fn refused_calls() {
    let rooms = [0, 1, TEXT - 1, TEXT, 2 * TEXT].map(|room| (vec![0xbb; room], if room < TEXT { 41 } else { 0 }));
    let texts = [ours().concat(), Vec::new()].into_iter().chain(kinds());
    let texts = texts.map(|text| (text.clone(), read(&text).err().unwrap_or(0)));
    for (operation, buffers) in [(Operation::WriteHex, rooms.to_vec()), (Operation::ReadHex, texts.collect())] {
        for (n, (length, (buffer, number))) in
            [0, 1, 127, 128, 129, 256].iter().flat_map(|length| buffers.iter().map(move |of| (*length, of))).enumerate()
        {
            let number = if length == 128 { *number } else { 26 };
            let (call, outcome) = asked(operation, Board::all()[n % 16], &vec![0x1a; length], buffer);
            assert_eq!(outcome.number, number, "{operation:?}, {length} bytes");
            if number != 0 {
                assert!(outcome.values.is_empty());
                assert_eq!((outcome.image, outcome.buffer), (call.image, call.buffer));
            }
        }
    }
}

/// `write_hex` tells the text's bytes and leaves the image; `read_hex` tells nothing and leaves the text.
#[test]
fn done_calls() {
    for board in Board::all() {
        let (call, outcome) = asked(Operation::WriteHex, board, &counted(), &[0xbb; 400]);
        assert_eq!((outcome.number, &outcome.values[..]), (0, &[364][..]));
        assert_eq!((outcome.image, outcome.buffer), (call.image, [ours().concat(), vec![0xbb; 36]].concat()));
        let (call, outcome) = asked(Operation::ReadHex, board, &[0x1a; 128], &ours().concat());
        assert_eq!((outcome.number, &outcome.values[..]), (0, &[][..]));
        assert_eq!((outcome.image, outcome.buffer), (counted().to_vec(), call.buffer));
    }
}
