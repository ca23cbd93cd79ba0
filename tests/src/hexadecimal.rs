//! Bytes in hexadecimal.

/// Bytes in hexadecimal capitals.
pub fn hexadecimal(bytes: &[u8]) -> String {
    bytes.iter().map(|byte| format!("{byte:02X}")).collect()
}

/// The bytes that hexadecimal digits stand for.
pub fn bytes_of(digits: &str) -> Vec<u8> {
    let pairs = (0..digits.len()).step_by(2);
    pairs
        .map(|k| u8::from_str_radix(&digits[k..k + 2], 16).expect("hexadecimal digits"))
        .collect()
}
