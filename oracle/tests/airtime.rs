//! A depot's airtime: the sheet's example, and each reading of request [1].
use oracle::airtime::{airtime, quarter_symbols, Line, LINES};
use oracle::texts::{file, with, EXAMPLE, LONGEST, MALFORMED};
use oracle::{run, Board, Call, Operation, Source};

/// The number of the answer, then the totals or the bad line.
fn told(text: &[u8]) -> Vec<i128> {
    match airtime(text) {
        Ok(totals) => [&[0], &totals.microseconds[..]].concat(),
        Err(bad) => vec![bad.refusal as i128, bad.line],
    }
}

fn of(lines: &[Line]) -> Vec<i128> {
    told(&file(lines))
}

/// A total at one bandwidth and none at the others.
fn at(bw: usize, total: i128) -> Vec<i128> {
    let mut told = vec![0; 11];
    told[1 + bw] = total;
    told
}

#[test]
fn the_sheets_example() {
    assert_eq!(quarter_symbols(&EXAMPLE), 161);
    // A symbol of SF7 at 125 kHz lasts 1,024 microseconds.
    assert_eq!(of(&[EXAMPLE]), at(7, 161 * 1_024 / 4));
}

/// Reading 1: what follows the last LF is a line of bad form; a file without a byte has no line.
#[test]
fn lines() {
    assert_eq!(told(b""), vec![0; 11]);
    let two = file(&[EXAMPLE; 2]);
    assert_eq!(told(&two), at(7, 2 * 41_216));
    for length in 1..two.len() {
        let whole = two[..length].ends_with(b"\n");
        let bad = if length < two.len() / 2 { [28, 1] } else { [28, 2] };
        assert_eq!(told(&two[..length]), if whole { at(7, 41_216) } else { bad.to_vec() }, "{length} bytes");
    }
    for (text, line) in [(&b"\n"[..], 1), (b"x", 1), (b"\0\n", 1), (b"\n\n", 1)] {
        assert_eq!(told(text), [28, line]);
    }
}

/// Reading 2: eight fields parted by single tabs, each of them digits without a 0 before others.
#[test]
fn form() {
    for (field, content) in (0..8).flat_map(|field| MALFORMED.map(|content| (field, content))) {
        assert_eq!(told(&with(&EXAMPLE, field, content)), [28, 1], "field {field}: {content:?}");
    }
    for (field, number) in [(0, "0"), (2, "0"), (4, "0"), (5, "0"), (6, "0"), (7, "0")] {
        assert_eq!(told(&with(&EXAMPLE, field, number.as_bytes()))[0], 0, "field {field}");
    }
    for line in [
        "1\t7\t7\t1\t8\t10\t0\n", "1\t7\t7\t1\t8\t10\t0\t1\t1\n", "1\t7\t7\t1\t8\t10\t0\t1\t\n",
        "\t1\t7\t7\t1\t8\t10\t0\t1\n", "1\t\t7\t7\t1\t8\t10\t0\t1\n", "1 7 7 1 8 10 0 1\n",
        "1\t7\t7\t1\t8\t10\t0\t1\r\n", "1\t7\t7\t1\t8\t10\t0\t1 \n",
    ] {
        assert_eq!(told(line.as_bytes()), [28, 1], "{line:?}");
    }
}

/// Reading 3: numbers of any length; the form and the three ranges before any code.
#[test]
fn ranges() {
    let thousand = "9".repeat(1_000);
    for (field, last, past) in
        [(0, "4294967295", "4294967296"), (4, "65535", "65536"), (5, "255", "256"), (0, "0", &thousand[..])]
    {
        assert_eq!(told(&with(&EXAMPLE, field, last.as_bytes()))[0], 0);
        assert_eq!(told(&with(&EXAMPLE, field, past.as_bytes())), [28, 1]);
    }
    for field in [1, 2, 3, 6, 7] {
        // As long as one likes, and what a count of 64 or 128 bits would make good numbers of.
        for number in [&thousand[..], "18446744073709551623", "340282366920938463463374607431768211457"] {
            assert_eq!(told(&with(&EXAMPLE, field, number.as_bytes())), [8, 1], "field {field}: {number}");
        }
    }
    for line in ["4294967296\t13", "x\t13", "1\t13"] {
        for rest in ["\t99\t9\t65536\t10\t0\t1\n", "\t99\t9\t8\t256\t0\t1\n", "\t99\t9\t8\t10\t2\t01\n"] {
            assert_eq!(told(format!("{line}{rest}").as_bytes()), [28, 1]);
        }
    }
    assert_eq!(told(b"1\t13\t99\t9\t8\t10\t2\t3\n"), [8, 1]);
}

/// Reading 4: line 50,001, whatever it holds, unless a line before it is bad.
#[test]
fn a_line_too_many() {
    let full = file(&[EXAMPLE]).repeat(50_000);
    assert_eq!(told(&full), at(7, 50_000 * 41_216));
    for more in [&b"\n"[..], b"1", b"\0", b"1\t13\t7\t1\t8\t10\t0\t1\n", b"1\t7\t7\t1\t8\t10\t0\t1\n"] {
        assert_eq!(told(&[&full, more].concat()), [28, 50_001]);
    }
    assert_eq!(told(&full[..full.len() - 1]), [28, 50_000]);
    let sf5 = with(&EXAMPLE, 1, b"5");
    for place in [1, 2, 49_999, 50_000] {
        let before = file(&[EXAMPLE]).repeat(place - 1);
        assert_eq!(told(&[before, sf5.clone(), full.clone()].concat()), [14, place as i128]);
    }
}

/// Reading 5: 8, then 14, then 17; no other refusal, since there is no board and no frequency.
#[test]
fn codes() {
    for (field, named) in [(1, 6..=12), (2, 0..=9), (3, 1..=4), (6, 0..=1), (7, 0..=1)] {
        for code in 0..=300 {
            let mut line = EXAMPLE;
            (line[6], line[field]) = (1, code);
            let expected = if (field, code) == (1, 5) { 14 } else { 8 };
            assert_eq!(of(&[line])[0], if named.contains(&code) { 0 } else { expected }, "field {field}: {code}");
        }
    }
    assert_eq!(of(&[[1, 5, 7, 1, 8, 10, 0, 1]]), [14, 1]);
    assert_eq!(of(&[[1, 6, 7, 1, 8, 10, 0, 1]]), [17, 1]);
    assert_eq!(of(&[[1, 6, 7, 1, 8, 10, 1, 1]])[0], 0);
    for (sf, number) in [(5, 14), (6, 17)] {
        for (field, code) in [(2, 10), (3, 0), (3, 5), (7, 2)] {
            let mut line = [1, sf, 7, 1, 8, 10, 0, 1];
            assert_eq!(of(&[line]), [number, 1]);
            line[field] = code;
            assert_eq!(of(&[line]), [8, 1]);
        }
    }
    assert_eq!(of(&[[1, 6, 7, 1, 8, 10, 2, 1]]), [8, 1]);
}

/// Reading 6: below zero the ceil goes up too, and then 0 is greater.
#[test]
fn few_bytes() {
    // 8 × 0 - 48 + 28 - 20 = -40, which is -1 of 40; with CRC -24, whose ceil is 0; with 5 bytes 0 of 40, with 6 one.
    for (length, crc, payload) in [(0, 0, 0), (0, 1, 0), (4, 0, 0), (5, 0, 0), (6, 0, 1), (10, 0, 1), (11, 0, 2)] {
        assert_eq!(quarter_symbols(&[1, 12, 7, 4, 0, length, 1, crc]), 17 + 32 + 32 * payload, "{length} bytes");
    }
}

/// The divisor is 4 × SF, less 8 where the optimize flag is on.
#[test]
fn optimized() {
    // 255 bytes, explicit, CRC, 4/5.
    for (sf, bw, payload) in
        [(11, 7, 57), (11, 8, 47), (12, 8, 51), (12, 9, 43), (7, 0, 103), (7, 1, 74), (8, 2, 86), (8, 3, 65)]
    {
        assert_eq!(quarter_symbols(&[1, sf, bw, 1, 8, 255, 0, 1]), 49 + 32 + 20 * payload, "SF{sf} at {bw}");
    }
}

/// Reading 7: nothing is rounded but each total, once, and up.
#[test]
fn totals() {
    // At 7.8 kHz it is optimized, and 181 quarter symbols: 181 × 128 × 250,000 / 7,810 = 741,613.31..
    assert_eq!(of(&[[1, 7, 0, 1, 8, 10, 0, 1]]), at(0, 741_614));
    assert_eq!(of(&[[1, 7, 0, 1, 8, 10, 0, 1]; 10]), at(0, 7_416_134));
    let each: Vec<Line> = (0..10).map(|bw| [1, 7, bw, 1, 8, 10, 0, 1]).collect();
    let totals = [741_614, 494_434, 329_623, 247_336, 164_864, 123_639, 82_432, 41_216, 20_608, 10_304];
    assert_eq!(of(&each), [&[0], &totals[..]].concat());
    let reversed: Vec<Line> = each.into_iter().rev().collect();
    assert_eq!(of(&reversed), [&[0], &totals[..]].concat());
}

#[test]
fn the_worst_case() {
    let sum: i128 = 54_030_540_800_000;
    assert_eq!((quarter_symbols(&LONGEST) << 12) * LINES, sum);
    assert!(250_000 * sum > i64::MAX as i128 && 250_000 * sum < u64::MAX as i128 && 1_000_000 * sum > u64::MAX as i128);
    let total = |bw: i128| {
        let mut line = LONGEST;
        line[2] = bw;
        told(&file(&[line]).repeat(LINES as usize))
    };
    assert_eq!(total(0), at(0, (250_000 * sum + 7_809) / 7_810));
    assert_eq!(total(7), at(7, 2 * sum));
    assert_eq!(told(&file(&[LONGEST]).repeat(LINES as usize + 1)), [28, 50_001]);
}

/// A call's answer; what is lent beside the text, of any length, comes back as it was.
#[test]
fn as_a_call() {
    for (n, board) in Board::all().into_iter().enumerate() {
        let mut call = Call::new(board, Operation::Airtime, &[]);
        (call.image, call.fifo, call.log, call.used) = (vec![1; n], vec![2; 2 * n], vec![3; 3 * n + 1], usize::MAX - n);
        call.buffer = if n % 2 == 0 { file(&[EXAMPLE]) } else { b"1\t5\t7\t1\t8\t10\t0\t1\n".to_vec() };
        let outcome = run(&call);
        let (number, values) = if n % 2 == 0 { (0, at(7, 41_216)[1..].to_vec()) } else { (14, vec![1]) };
        assert_eq!((outcome.number, &outcome.values[..], &outcome.source), (number, &values[..], &Source::Ours));
        assert_eq!((outcome.image, outcome.fifo, outcome.buffer), (call.image, call.fifo, call.buffer));
        assert_eq!((outcome.log, outcome.used), (call.log, call.used));
    }
}
