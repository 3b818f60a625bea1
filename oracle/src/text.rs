//! The text: a line for each call, a line for each outcome. oracle/README.md is its description.
use crate::call::{Argument, Board, Call, Numbers, Operation, Outcome, Source, Variant};
use crate::run::run;
use std::fmt::Write;

const LONGEST_LINE: usize = 16_384;
const LONGEST_SLICE: usize = 1_024;
/// The buffer may be a text of short records, which takes more than anything else that is lent.
const LONGEST_BUFFER: usize = 4_096;

/// The line that answers a line.
pub fn answer(line: &[u8]) -> String {
    match parse(line) {
        Ok(call) => print(&run(&call)),
        Err(why) => format!("?\t{why}"),
    }
}

/// The call that a line (without its LF) is, or what is wrong with it.
pub fn parse(line: &[u8]) -> Result<Call, String> {
    if line.len() > LONGEST_LINE {
        return Err(format!("line over {LONGEST_LINE} bytes"));
    }
    let fields: Vec<&[u8]> = line.split(|&byte| byte == b'\t').collect();
    let fields: [&[u8]; 11] = fields.try_into().map_err(|_| "expected 11 fields".to_string())?;
    let flag = |n: usize| parse_flag(fields[n - 1]).ok_or_else(|| bad(n, "expected 0 or 1"));
    let bytes = |n: usize| {
        let longest = if n == 9 { LONGEST_BUFFER } else { LONGEST_SLICE };
        let expected = || bad(n, &format!("expected lower-case hex of up to {longest} bytes"));
        parse_bytes(fields[n - 1], longest).ok_or_else(expected)
    };
    let variant = parse_variant(fields[0]).ok_or_else(|| bad(1, "expected 1272 or 1276"))?;
    let board = Board { variant, tcxo_used: flag(2)?, tx_boost: flag(3)?, rx_boost: flag(4)? };
    let operation = Operation::named(fields[4]).ok_or_else(|| bad(5, "unknown operation"))?;
    let arguments = parse_arguments(operation, fields[5]).ok_or_else(|| bad(6, &expected_arguments(operation)))?;
    let (image, fifo, buffer, log) = (bytes(7)?, bytes(8)?, bytes(9)?, bytes(10)?);
    let used = parse_number(fields[10], &USED).ok_or_else(|| bad(11, "expected a decimal number"))?;
    Ok(Call { board, operation, arguments, image, fifo, buffer, log, used: used as usize })
}

fn bad(field: usize, what: &str) -> String {
    format!("field {field}: {what}")
}

fn parse_variant(field: &[u8]) -> Option<Variant> {
    match field {
        b"1272" => Some(Variant::Sx1272),
        b"1276" => Some(Variant::Sx1276),
        _ => None,
    }
}

fn parse_flag(field: &[u8]) -> Option<bool> {
    match field {
        b"0" => Some(false),
        b"1" => Some(true),
        _ => None,
    }
}

fn expected_arguments(operation: Operation) -> String {
    let names: Vec<&str> = operation.arguments().iter().map(|argument| argument.name).collect();
    let names = if names.is_empty() { "-".to_string() } else { names.join(" ") };
    format!("expected arguments: {names}")
}

fn parse_arguments(operation: Operation, field: &[u8]) -> Option<Numbers> {
    let takes = operation.arguments();
    if takes.is_empty() {
        return (field == b"-").then_some(Numbers::NONE);
    }
    let words: Vec<&[u8]> = field.split(|&byte| byte == b' ').collect();
    if words.len() != takes.len() {
        return None;
    }
    let mut numbers = Numbers::NONE;
    for (word, argument) in words.iter().zip(takes) {
        numbers.push(parse_number(word, argument)?);
    }
    Some(numbers)
}

const USED: Argument = Argument { name: "used", least: 0, most: u64::MAX as i128 };

/// Decimal digits, after a minus sign where the type has negative numbers; leading zeros count for nothing.
fn parse_number(word: &[u8], argument: &Argument) -> Option<i128> {
    let (sign, digits) = match word {
        [b'-', digits @ ..] if argument.least < 0 => (-1, digits),
        digits => (1, digits),
    };
    if digits.is_empty() {
        return None;
    }
    let mut number: i128 = 0;
    for digit in digits {
        if !digit.is_ascii_digit() {
            return None;
        }
        // What is past every type stays there: the rest of the digits need not fit.
        number = (number * 10 + (digit - b'0') as i128).min(1 << 64);
    }
    let number = sign * number;
    (argument.least..=argument.most).contains(&number).then_some(number)
}

fn parse_bytes(field: &[u8], longest: usize) -> Option<Vec<u8>> {
    if field == b"-" {
        return Some(Vec::new());
    }
    if field.is_empty() || field.len() % 2 != 0 || field.len() > 2 * longest {
        return None;
    }
    field.chunks(2).map(|pair| Some(digit(pair[0])? << 4 | digit(pair[1])?)).collect()
}

fn digit(character: u8) -> Option<u8> {
    match character {
        b'0'..=b'9' => Some(character - b'0'),
        b'a'..=b'f' => Some(character - b'a' + 10),
        _ => None,
    }
}

/// An outcome's line, without its LF. A panic is a line that no program answers.
pub fn print(outcome: &Outcome) -> String {
    if let Source::Panic(message) = &outcome.source {
        return format!("!\t{}", message.replace(['\n', '\t'], " "));
    }
    let mut line = outcome.number.to_string();
    for value in outcome.values.iter() {
        write!(line, " {value}").unwrap();
    }
    for bytes in [&outcome.image, &outcome.fifo, &outcome.buffer, &outcome.log] {
        line.push('\t');
        print_bytes(&mut line, bytes);
    }
    write!(line, "\t{}", outcome.used).unwrap();
    line
}

/// Whether a line can hold the call.
pub fn holds(call: &Call) -> bool {
    let others = [&call.image, &call.fifo, &call.log];
    call.buffer.len() <= LONGEST_BUFFER && others.iter().all(|bytes| bytes.len() <= LONGEST_SLICE)
}

/// A call's line, without its LF.
pub fn print_call(call: &Call) -> String {
    let Board { variant, tcxo_used, tx_boost, rx_boost } = call.board;
    let variant = match variant {
        Variant::Sx1272 => "1272",
        Variant::Sx1276 => "1276",
    };
    let numbers: Vec<String> = call.arguments.iter().map(i128::to_string).collect();
    let numbers = if numbers.is_empty() { "-".to_string() } else { numbers.join(" ") };
    let flags = [tcxo_used, tx_boost, rx_boost].map(u8::from);
    let name = call.operation.name();
    let mut line = format!("{variant}\t{}\t{}\t{}\t{name}\t{numbers}", flags[0], flags[1], flags[2]);
    for bytes in [&call.image, &call.fifo, &call.buffer, &call.log] {
        line.push('\t');
        print_bytes(&mut line, bytes);
    }
    write!(line, "\t{}", call.used).unwrap();
    line
}

fn print_bytes(line: &mut String, bytes: &[u8]) {
    if bytes.is_empty() {
        line.push('-');
    }
    for byte in bytes {
        write!(line, "{byte:02x}").unwrap();
    }
}
