//! The text of calls and outcomes.
use oracle::maker::Maker;
use oracle::{answer, parse, print_call, run};

const GOOD: [&str; 11] = ["1276", "0", "1", "0", "set_irq_params", "4 1", "00ff", "-", "-", "-", "0"];

fn with(field: usize, content: &str) -> String {
    let mut fields = GOOD;
    fields[field - 1] = content;
    answer(fields.join("\t").as_bytes())
}

#[test]
fn calls_are_read_as_they_are_printed() {
    let mut maker = Maker::new(11);
    for _ in 0..2_000 {
        maker.make_any();
        let line = print_call(&maker.call);
        assert_eq!(parse(line.as_bytes()).as_ref(), Ok(&maker.call));
        assert_eq!(answer(line.as_bytes()), oracle::print(&run(&maker.call)));
    }
}

#[test]
fn outcomes() {
    let (image, log) = ("00".repeat(128), "ee".repeat(9));
    let line = format!("1276\t0\t0\t0\tset_channel\t868100000\t{image}\t-\tab\t{log}\t0");
    let after = format!("000000000000d90666{}", "00".repeat(119));
    assert_eq!(answer(line.as_bytes()), format!("0\t{after}\t-\tab\t0106d9010706010866\t9"));
    let line = "1272\t0\t0\t0\tcreate_modulation_params\t12 7 4 868100000\t-\t-\t-\t-\t5";
    assert_eq!(answer(line.as_bytes()), "0 12 7 4 1 868100000\t-\t-\t-\t-\t5");
    assert_eq!(with(6, "4 1"), "26\t00ff\t-\t-\t-\t0");
}

/// A depot's file is the buffer; nothing else is looked at.
#[test]
fn depots() {
    let asked = |text: &str| answer(format!("1272\t1\t0\t1\tairtime\t-\t00ff\tf0\t{text}\te0e1\t77").as_bytes());
    let line = "310937093709310938093130093009310a";
    assert_eq!(asked(line), format!("0 0 0 0 0 0 0 0 41216 0 0\t00ff\tf0\t{line}\te0e1\t77"));
    assert_eq!(asked("-"), "0 0 0 0 0 0 0 0 0 0 0\t00ff\tf0\t-\te0e1\t77");
    assert_eq!(asked(&format!("{line}0a")), format!("28 2\t00ff\tf0\t{line}0a\te0e1\t77"));
    assert_eq!(asked(""), "?\tfield 9: expected lower-case hex of up to 4096 bytes");
    assert_eq!(with(5, "airtime"), "?\tfield 6: expected arguments: -");
}

/// An Intel HEX text is the buffer, and so is the room for one.
#[test]
fn images() {
    let asked = |operation: &str, image: &str, buffer: &str| {
        answer(format!("1276\t0\t1\t0\t{operation}\t-\t{image}\tf0\t{buffer}\te0e1\t77").as_bytes())
    };
    let (image, room) = ("5a".repeat(128), "bb".repeat(370));
    let row = |place: usize| {
        format!(":10{:04X}00{}{:02X}\n", 16 * place, "5A".repeat(16), 0x50u8.wrapping_sub(16 * place as u8))
    };
    let text = (0..8).map(row).collect::<String>() + ":00000001FF\n";
    let text: String = text.bytes().map(|byte| format!("{byte:02x}")).collect();
    let written = format!("{text}{}", "bb".repeat(6));
    assert_eq!(asked("write_hex", &image, &room), format!("0 364\t{image}\tf0\t{written}\te0e1\t77"));
    assert_eq!(asked("write_hex", &image, &room[14..]), format!("41\t{image}\tf0\t{}\te0e1\t77", &room[14..]));
    assert_eq!(asked("write_hex", "5a", "-"), "26\t5a\tf0\t-\te0e1\t77");
    let present = "1a".repeat(128);
    assert_eq!(asked("read_hex", &present, &text), format!("0\t{image}\tf0\t{text}\te0e1\t77"));
    assert_eq!(asked("read_hex", &present, &text[2..]), format!("29\t{present}\tf0\t{}\te0e1\t77", &text[2..]));
    assert_eq!(asked("read_hex", &present, "-"), format!("32\t{present}\tf0\t-\te0e1\t77"));
    assert_eq!(asked("read_hex", "1a1a", &text), format!("26\t1a1a\tf0\t{text}\te0e1\t77"));
    for operation in ["write_hex", "read_hex"] {
        assert_eq!(with(5, operation), "?\tfield 6: expected arguments: -");
    }
}

#[test]
fn bad_fields() {
    assert_eq!(answer(b""), "?\texpected 11 fields");
    assert_eq!(answer(GOOD[..10].join("\t").as_bytes()), "?\texpected 11 fields");
    assert_eq!(answer([&GOOD[..], &[""]].concat().join("\t").as_bytes()), "?\texpected 11 fields");
    assert_eq!(with(1, "1278"), "?\tfield 1: expected 1272 or 1276");
    for field in 2..=4 {
        assert_eq!(with(field, "2"), format!("?\tfield {field}: expected 0 or 1"));
    }
    assert_eq!(with(5, "set_irq"), "?\tfield 5: unknown operation");
    for arguments in ["", "-", "4", "4 1 0", "4  1", " 4 1", "4 1 ", "4 -1", "256 1", "4 1a"] {
        assert_eq!(with(6, arguments), "?\tfield 6: expected arguments: mode rxmode");
    }
    assert_eq!(with(5, "do_tx"), "?\tfield 6: expected arguments: -");
    for (field, hex) in (7..=10).flat_map(|field| ["", "0", "0g", "AB", "- "].map(|hex| (field, hex))) {
        let longest = if field == 9 { 4_096 } else { 1_024 };
        assert_eq!(with(field, hex), format!("?\tfield {field}: expected lower-case hex of up to {longest} bytes"));
    }
    for used in ["", "-", "-1", "+1", "1 ", "18446744073709551616"] {
        assert_eq!(with(11, used), "?\tfield 11: expected a decimal number");
    }
}

#[test]
fn edges() {
    for (field, longest) in [(7, 1_024), (8, 1_024), (9, 4_096), (10, 1_024)] {
        let more = 2 * longest - GOOD[field - 1].len();
        assert_eq!(with(field, &"ab".repeat(longest)).len(), "26\t00ff\t-\t-\t-\t0".len() + more);
        let bad = format!("?\tfield {field}: expected lower-case hex of up to {longest} bytes");
        assert_eq!(with(field, &"ab".repeat(longest + 1)), bad);
    }
    let rest = with(11, "18446744073709551615");
    assert_eq!(rest, "26\t00ff\t-\t-\t-\t18446744073709551615");
    let short = GOOD.join("\t").len() - 1;
    assert_eq!(with(11, &"0".repeat(16_384 - short)), "26\t00ff\t-\t-\t-\t0");
    assert_eq!(with(11, &"0".repeat(16_385 - short)), "?\tline over 16384 bytes");
    assert_eq!(answer(b"\xff\0\r"), "?\texpected 11 fields");
    let power = |word| {
        let line = format!("1276\t0\t0\t0\tset_tx_power_and_ramp_time\t{word} 0\t-\t-\t-\t-\t0");
        parse(line.as_bytes()).map(|call| call.arguments[0])
    };
    assert_eq!(power("-2147483648"), Ok(i32::MIN as i128));
    assert_eq!(power("-000"), Ok(0));
    for word in ["-2147483649", "2147483648", "-", "--1", "+1"] {
        assert_eq!(power(word), Err("field 6: expected arguments: power is_tx_prep".to_string()));
    }
}
