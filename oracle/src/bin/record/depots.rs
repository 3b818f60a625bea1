//! Depots' files, for `airtime`: packets of every setting, every way in which a line is bad, and the order of refusals.
use crate::list::{pairs, List};
use oracle::airtime::Line;
use oracle::maker::{Image, PREAMBLES};
use oracle::texts::{accepted_line, digits, fields, file, joined, with, EDGES, EXAMPLE, LONGEST, MALFORMED};
use oracle::{Board, Operation};

pub fn all(list: &mut List) {
    settings(list);
    payloads(list);
    files(list);
    malformed(list);
    counts(list);
    ends(list);
    ranges(list);
    long_numbers(list);
    orders(list);
    first_bad_lines(list);
    beside(list);
}

/// A file, handed over on one board after the other: none is looked at.
fn add(list: &mut List, text: &[u8]) {
    let board = Board::all()[list.lines.len() % 16];
    list.maker.make(board, Operation::Airtime, &[], Image::Zero);
    list.maker.call.buffer.clear();
    list.maker.call.buffer.extend_from_slice(text);
    list.add();
}

fn add_lines(list: &mut List, lines: &[Line]) {
    add(list, &file(lines));
}

/// Every spreading factor at every bandwidth, for both sides of the optimize flag; the other fields go round.
fn settings(list: &mut List) {
    add_lines(list, &[EXAMPLE]);
    for (sf, bw) in pairs(&[5, 6, 7, 8, 9, 10, 11, 12], &[0, 1, 2, 3, 4, 5, 6, 7, 8, 9]) {
        let [id, _, _, cr, preamble, length, implicit, crc] = accepted_line(&mut list.maker.random);
        add_lines(list, &[[id, sf, bw, cr, preamble, length, if sf == 6 { 1 } else { implicit }, crc]]);
    }
    for bw in 0..10 {
        let [id, sf, _, cr, preamble, length, implicit, crc] = LONGEST;
        add_lines(list, &[[id, sf, bw, cr, preamble, length, implicit, crc]]);
    }
}

/// Lengths from where the payload has no symbols, also for a numerator below zero, to the longest.
fn payloads(list: &mut List) {
    for n in 0..16 {
        let (cr, implicit, crc) = (1 + n / 4, n >> 1 & 1, n & 1);
        for length in [0, 1, 2, 5, 10, 255] {
            add_lines(list, &[[7, 12 - n % 6, 7, cr, 8, length, implicit, crc]]);
        }
    }
    for length in 0..=24 {
        add_lines(list, &[[7, 12, 0, 4, 0, length, 1, 0]]);
        add_lines(list, &[[7, 6, 9, 1, 0, length, 1, 0]]);
    }
    for preamble in PREAMBLES {
        add_lines(list, &[[7, 9, 8, 2, preamble, 20, 0, 1]]);
    }
}

/// No line, a line for each bandwidth, and sums that differ from those of totals rounded line by line.
fn files(list: &mut List) {
    add(list, b"");
    let each: Vec<Line> = (0..10).map(|bw| [bw, 7, bw, 1, 8, 10, 0, 1]).collect();
    add_lines(list, &each);
    add_lines(list, &each.iter().rev().copied().collect::<Vec<_>>());
    for bw in 0..10 {
        add_lines(list, &[[1, 7, bw, 1, 8, 10, 0, 1]; 40]);
        add_lines(list, &[[1, 6, bw, 1, 1, 1, 1, 0], [2, 7, bw, 2, 3, 3, 0, 1]]);
    }
    // 1,024 bytes are 64 lines of the shortest kind, and 32 of the longest.
    add_lines(list, &[[1, 7, 7, 1, 8, 9, 0, 1]; 64]);
    add_lines(list, &[[4_294_967_295, 12, 0, 4, 65_535, 255, 0, 1]; 32]);
    for lines in 2..12 {
        let lines: Vec<Line> = (0..lines).map(|_| accepted_line(&mut list.maker.random)).collect();
        add_lines(list, &lines);
    }
}

/// Each field in each wrong form; in the last of three lines as well.
fn malformed(list: &mut List) {
    for field in 0..8 {
        for content in MALFORMED {
            add(list, &with(&EXAMPLE, field, content));
        }
        add(list, &[file(&[EXAMPLE; 2]), with(&EXAMPLE, field, b"01")].concat());
    }
}

/// Fields too few and too many, and tabs that are none.
fn counts(list: &mut List) {
    let good = fields(&EXAMPLE);
    for count in 0..8 {
        add(list, &joined(&good[..count]));
    }
    for extra in [&b""[..], b"0", b"1", b"x"] {
        add(list, &joined(&[&good[..], &[extra.to_vec()]].concat()));
        add(list, &joined(&[&[extra.to_vec()], &good[..]].concat()));
    }
    let line = file(&[EXAMPLE]);
    let tabs: Vec<usize> = (0..line.len()).filter(|&place| line[place] == b'\t').collect();
    for (&tab, parting) in tabs.iter().flat_map(|tab| [&b" "[..], b"\t\t", b"\t ", b"\n"].map(|parting| (tab, parting)))
    {
        add(list, &[&line[..tab], parting, &line[tab + 1..]].concat());
    }
}

/// Every first part of two lines; lines that end otherwise than by one LF; lines of nothing.
fn ends(list: &mut List) {
    let two = file(&[EXAMPLE, [12, 10, 3, 4, 12, 34, 1, 0]]);
    for length in 0..two.len() {
        add(list, &two[..length]);
    }
    let line = two.split(|&byte| byte == b'\n').next().expect("a line");
    for end in [&b"\r\n"[..], b"\r", b"\n\r", b"\n\n", b"\t\n", b" \n", b"\0\n", b"\n\0", b"\x0b", b"\x0c\n", b"\n "] {
        add(list, &[line, end].concat());
    }
    for text in [&b"\n"[..], b"\n\n", b"\t\n", b"\t\t\t\t\t\t\t\n", b"\t\t\t\t\t\t\t", b"\r\n", b"\0", b" ", b"-", b"0"]
    {
        add(list, text);
    }
    add(list, &[&b"\n"[..], line, b"\n"].concat());
    add(list, &[&b"\xef\xbb\xbf"[..], line, b"\n"].concat());
    add(list, &[b'\n'; 1_024]);
}

/// Each field at the ends of its range and past them, and where a count of bits would wrap around into it.
fn ranges(list: &mut List) {
    for (field, number) in pairs(&[0, 1, 2, 3, 4, 5, 6, 7], &EDGES) {
        add(list, &with(&EXAMPLE, field, &digits(number)));
    }
    for (field, beyond) in pairs(&[0, 1, 2, 3, 4, 5, 6, 7], &[1 << 8, 1 << 16, 1 << 32, 1 << 64, 1 << 126]) {
        add(list, &with(&EXAMPLE, field, &digits(EXAMPLE[field] + beyond)));
    }
}

/// Numbers of many digits: a code that names no case, and not a line of bad form.
fn long_numbers(list: &mut List) {
    for (field, count) in pairs(&[0, 1, 2, 3, 4, 5, 6, 7], &[10, 11, 19, 20, 21, 38, 39, 40, 1_000]) {
        add(list, &with(&EXAMPLE, field, "9".repeat(count).as_bytes()));
        add(list, &with(&EXAMPLE, field, format!("1{}", "0".repeat(count - 1)).as_bytes()));
    }
    for field in 0..8 {
        add(list, &with(&EXAMPLE, field, "0".repeat(1_000).as_bytes()));
    }
}

/// Faults of one line: each with each.
fn orders(list: &mut List) {
    let faults: [(usize, &[u8]); 18] = [
        (0, b"x"),
        (0, b"4294967296"),
        (1, b"5"),
        (1, b"6"),
        (1, b"13"),
        (1, b""),
        (2, b"10"),
        (2, b"00"),
        (3, b"0"),
        (3, b"5"),
        (4, b"65536"),
        (4, b"-1"),
        (5, b"256"),
        (5, b" "),
        (6, b"1"),
        (6, b"2"),
        (7, b"2"),
        (7, b"01"),
    ];
    for (one, other) in pairs(&faults, &faults) {
        if one.0 < other.0 {
            let mut fields = fields(&EXAMPLE);
            fields[one.0] = one.1.to_vec();
            fields[other.0] = other.1.to_vec();
            add(list, &joined(&fields));
        }
    }
    // The line is taken whole before its codes are: also one that is cut off behind them, or has one field more.
    for codes in ["1\t13\t7\t1", "1\t5\t7\t1", "1\t6\t7\t1"] {
        for rest in ["", "\n", "\t8\t10\t0\t1", "\t8\t10\t0\t1\t1\n", "\t8\t10\t0\n"] {
            add(list, format!("{codes}{rest}").as_bytes());
        }
    }
}

/// Of several bad lines the first is told, whatever the refusals; and its number, however far it is down.
fn first_bad_lines(list: &mut List) {
    let lines: [&[u8]; 6] = [
        b"1\t7\t7\t1\t8\t10\t0\t1\n", b"1\t7\t7\t1\t8\t10\t0\n", b"1\t7\t7\t1\t8\t256\t0\t1\n",
        b"1\t7\t10\t1\t8\t10\t0\t1\n", b"1\t5\t7\t1\t8\t10\t0\t1\n", b"1\t6\t7\t1\t8\t10\t0\t1\n",
    ];
    for (first, second) in pairs(&lines, &lines) {
        add(list, &[first, second].concat());
        add(list, &[first, second.strip_suffix(b"\n").expect("an LF")].concat());
    }
    for (bad, before) in pairs(&lines[1..], &[1, 8, 9, 10, 40]) {
        add(list, &[lines[0].repeat(before), bad.to_vec(), lines[0].to_vec()].concat());
    }
}

/// What else is lent, in any lengths, is not looked at.
fn beside(list: &mut List) {
    for (n, (image, log)) in pairs(&[0, 1, 127, 128, 129], &[0, 1, 3, 90]).into_iter().enumerate() {
        let board = Board::all()[n % 16];
        list.maker.make(board, Operation::Airtime, &[], Image::Zero);
        list.maker.put_unlent();
        list.maker.call.image.resize(image, 0x1a);
        list.maker.call.log.resize(log, 0x10);
        list.maker.call.used = [0, 1, log, usize::MAX][n % 4];
        list.add();
    }
}
