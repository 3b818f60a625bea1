//! Lines that are no call, and calls at the edge of being none.
use crate::list::List;

const FIELDS: usize = 11;

/// A call of `operation` that is done, with `arguments`, as fields.
fn fields(operation: &str, arguments: &str) -> Vec<String> {
    let image = "00".repeat(128);
    let log = "ee".repeat(90);
    ["1276", "0", "0", "0", operation, arguments, &image, "-", "-", &log, "0"].map(String::from).to_vec()
}

fn good() -> Vec<String> {
    fields("set_channel", "868100000")
}

fn add(list: &mut List, fields: &[String]) {
    list.lines.push(fields.join("\t").into_bytes());
}

/// The good call with one field put otherwise.
fn with(list: &mut List, field: usize, content: &str) {
    let mut fields = good();
    fields[field - 1] = content.to_string();
    add(list, &fields);
}

pub fn all(list: &mut List) {
    counts(list);
    plain_fields(list);
    arguments(list);
    slices(list);
    numbers(list);
    several(list);
    long(list);
    bytes(list);
}

/// Fields too few and too many; a call comes in between, so that the next line is seen to go on.
fn counts(list: &mut List) {
    for count in [0, 1, 2, 10] {
        add(list, &good()[..count]);
    }
    add(list, &good());
    for extra in ["", "-", "0"] {
        let mut fields = good();
        fields.push(extra.to_string());
        add(list, &fields);
    }
    list.lines.push("\t".repeat(FIELDS - 1).into_bytes());
    list.lines.push("\t".repeat(FIELDS).into_bytes());
    list.lines.push(good().join(" ").into_bytes());
}

fn plain_fields(list: &mut List) {
    for variant in ["", "1273", "01276", "1276 ", " 1276", "sx1276", "-"] {
        with(list, 1, variant);
    }
    for field in [2, 3, 4] {
        for flag in ["", "2", "00", "01", "-", "true", " 0"] {
            with(list, field, flag);
        }
    }
    for operation in ["", "-", "Set_channel", "set_channel ", "set_channels", "await_irq", "ensure_ready"] {
        with(list, 5, operation);
    }
}

/// Each operation with too few numbers and too many; numbers at the ends of their types and past them.
fn arguments(list: &mut List) {
    for operation in oracle::Operation::all() {
        let count = operation.arguments().len();
        let some = |count: usize| vec!["1"; count].join(" ");
        add(list, &fields(operation.name(), &some(count + 1)));
        add(list, &fields(operation.name(), ""));
        if count > 0 {
            add(list, &fields(operation.name(), "-"));
            add(list, &fields(operation.name(), &some(count - 1)));
        }
    }
    for numbers in ["4294967295", "4294967296", "-1", "+1", "0x10", "1 ", " 1", "", "1,000", "1.0", "0000000000000017"]
    {
        with(list, 6, numbers);
    }
    for numbers in ["2147483647 0", "2147483648 0", "-2147483648 1", "-2147483649 1", "-0 0", "- 0", "--1 0", "-017 0"]
    {
        add(list, &fields("set_tx_power_and_ramp_time", numbers));
    }
    for numbers in ["5 255", "5 256", "255 0", "256 0", "5  0", "5\u{a0}0", "5 -1", "5 0 "] {
        add(list, &fields("set_irq_params", numbers));
    }
    for numbers in ["0 65535", "0 65536", "0 99999999999999999999999999999999999999999"] {
        add(list, &fields("do_rx", numbers));
    }
    for numbers in ["18446744073709551615 0", "18446744073709551616 0", "0 18446744073709551615", "0 -1"] {
        add(list, &fields("set_tx_rx_buffer_base_address", numbers));
    }
    for numbers in ["-", "0", "- ", " -", "--", "7 7 1"] {
        add(list, &fields("airtime", numbers));
    }
}

fn slices(list: &mut List) {
    for field in [7, 8, 9, 10] {
        for hex in ["", "0", "000", "0g", "AB", "aB", "--", "- ", " 00", "00 ", "0x00"] {
            with(list, field, hex);
        }
        with(list, field, &"5a".repeat(1_024));
        with(list, field, &"5a".repeat(1_025));
        with(list, field, &"5a".repeat(1_024)[1..]);
        // The buffer alone may have so many.
        with(list, field, &"5a".repeat(4_096));
        with(list, field, &"5a".repeat(4_097));
        with(list, field, &"5a".repeat(4_096)[1..]);
    }
    // All at their longest make no line too long.
    let mut fields = fields("get_rx_payload", "-");
    for (field, length) in [(7, 1_024), (8, 1_024), (9, 4_096), (10, 1_024)] {
        fields[field - 1] = "a5".repeat(length);
    }
    add(list, &fields);
}

fn numbers(list: &mut List) {
    for used in ["", "-", "-0", "+0", "00", "3", "003", "0x3", "3 ", "18446744073709551615", "18446744073709551616"] {
        with(list, 11, used);
    }
}

/// Of several bad fields the first is told.
fn several(list: &mut List) {
    for first in 1..=FIELDS {
        let mut fields = good();
        for field in &mut fields[first - 1..] {
            *field = "?".to_string();
        }
        add(list, &fields);
    }
    for (field, content) in [(6, "1"), (6, "-"), (7, ""), (11, "x")] {
        let mut fields = fields("get_rx_payload", "-");
        fields[field - 1] = content.to_string();
        fields[9] = "0".to_string();
        add(list, &fields);
    }
}

/// Leading zeros make a call as long as one likes: just a line, and a byte more than a line.
fn long(list: &mut List) {
    let rest = good().join("\t").len() - 1;
    for length in [16_383, 16_384, 16_385, 20_000] {
        with(list, 11, &"0".repeat(length - rest));
    }
    list.lines.push(vec![b'x'; 16_384]);
    list.lines.push(vec![b'x'; 16_385]);
    list.lines.push(vec![b'\t'; 16_385]);
    add(list, &good());
}

/// Bytes that stand in no call: a carriage return at the end, a zero, what is no text at all.
fn bytes(list: &mut List) {
    let good = good().join("\t").into_bytes();
    for extra in [&b"\r"[..], b"\0", b"\xff", b"\xc3\x28"] {
        list.lines.push([&good[..], extra].concat());
        list.lines.push([extra, &good[..]].concat());
        list.lines.push(extra.to_vec());
    }
}
