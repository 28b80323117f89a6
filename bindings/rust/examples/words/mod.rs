//! The words of the lines that the examples read. They stand between spaces, and a word of no parts is `-`.

use witcall::Value;

/// The stored calls are made without a limit.
pub const NO_LIMIT: u64 = u64::MAX;

/// The parts of a word, which stand between commas.
pub fn parts(word: &str) -> impl Iterator<Item = &str> {
    word.split(',').filter(|part| !matches!(*part, "-" | ""))
}

/// Bytes of their hexadecimal digits.
pub fn bytes_of(word: &str) -> Vec<u8> {
    let digits = if word == "-" { "" } else { word };
    let byte = |at: usize| u8::from_str_radix(&digits[at..at + 2], 16).expect("two hexadecimal digits");
    (0..digits.len()).step_by(2).map(byte).collect()
}

/// The hexadecimal digits of bytes.
pub fn digits_of(bytes: &[u8]) -> String {
    bytes.iter().map(|byte| format!("{byte:02x}")).collect()
}

/// Core values, as `i32:7,i64:8`.
pub fn values_of(word: &str) -> Vec<Value> {
    let value = |part: &str| {
        let (kind, number) = part.split_once(':').expect("a kind and a number");
        let bits = number.parse::<u64>().or_else(|_| number.parse::<i64>().map(|it| it as u64)).expect("a number");
        if kind == "i32" {
            Value::I32(bits as u32)
        } else {
            Value::I64(bits)
        }
    };
    parts(word).map(value).collect()
}
