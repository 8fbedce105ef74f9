//! Bytes, ints and numbers as text.

/// Two lowercase digits for each byte; `-` for no bytes.
pub fn hex(bytes: &[u8]) -> String {
    if bytes.is_empty() {
        return "-".to_string();
    }
    bytes.iter().map(|byte| format!("{byte:02x}")).collect()
}

/// [`hex`], cut if it gets long.
pub fn hex_short(bytes: &[u8]) -> String {
    const MOST: usize = 400;
    match bytes.len() {
        0..=MOST => hex(bytes),
        len => format!("{}.. ({len} bytes)", hex(&bytes[..MOST])),
    }
}

/// Ints as a list, cut if it gets long.
pub fn ints_short(ints: &[i32]) -> String {
    const MOST: usize = 60;
    match ints.len() {
        0..=MOST => format!("{ints:?}"),
        len => format!("{:?}.. ({len} ints)", &ints[..MOST]),
    }
}

/// A number with a comma before every three digits.
pub fn thousands(number: u64) -> String {
    let digits = number.to_string();
    let mut text = String::new();
    for (i, digit) in digits.chars().enumerate() {
        if i > 0 && (digits.len() - i) % 3 == 0 {
            text.push(',');
        }
        text.push(digit);
    }
    text
}
