//! Packed integers with a padding bit set. The Rust warns of one and uses its
//! value; the port refuses it (52). So the Rust is not asked about such bytes
//! as they are, and the port is held against models, which start from the
//! format line:
//!
//!     ESDD_DDDD EDDD_DDDD EDDD_DDDD EDDD_DDDD PPPP_DDDD

/// Whether the integer at the front of some bytes has a padding bit set.
pub fn is_padded(bytes: &[u8]) -> bool {
    match bytes.get(..5) {
        Some([first @ .., fifth]) => first.iter().all(extends) && *fifth >= 0x10,
        _ => false,
    }
}

fn extends(byte: &u8) -> bool {
    *byte >= 0x80
}

/// How many bytes the integer at the front of some bytes takes, or would take.
fn length(bytes: &[u8]) -> usize {
    1 + bytes
        .iter()
        .take(4)
        .take_while(|byte| extends(byte))
        .count()
}

/// The place where the first integer with a padding bit set begins.
pub fn padded_at(bytes: &[u8]) -> Option<usize> {
    let mut at = 0;
    while at < bytes.len() {
        if is_padded(&bytes[at..]) {
            return Some(at);
        }
        at += length(&bytes[at..]);
    }
    None
}

/// Bytes with a padded integer, cut before the fifth byte of the first one.
pub fn cut_inside(bytes: &[u8]) -> Option<&[u8]> {
    padded_at(bytes).map(|at| &bytes[..at + 4])
}

/// Clears the padding bits of all integers.
pub fn clear(bytes: &mut [u8]) {
    let mut at = 0;
    while let Some(next) = padded_at(&bytes[at..]) {
        at += next;
        bytes[at + 4] &= 0x0f;
    }
}
