//! Bytes and errors as text.
#![allow(dead_code)] // each program uses a part of it

use tpm2_protocol::TpmError;

#[must_use]
pub fn hex(bytes: &[u8]) -> String {
    const DIGITS: &[u8; 16] = b"0123456789abcdef";
    bytes.iter().flat_map(|b| [DIGITS[usize::from(b >> 4)] as char, DIGITS[usize::from(b & 15)] as char]).collect()
}

#[must_use]
pub fn unhex(text: &str) -> Option<Vec<u8>> {
    let nibble = |c: u8| (c as char).to_digit(16);
    let digits = text.as_bytes();
    if digits.len() % 2 != 0 {
        return None;
    }
    digits.chunks(2).map(|pair| Some((nibble(pair[0])? * 16 + nibble(pair[1])?) as u8)).collect()
}

/// An error in parts.
pub struct Parts {
    /// Who made it: `text` or `rebuilt`.
    pub who: &'static str,
    /// Its name or fault.
    pub name: String,
    pub offset: usize,
    /// What our refusal has as value.
    pub value: u64,
    /// `available` of what ends too early, as our Short has it; else 0.
    pub had: usize,
}

#[must_use]
pub fn parts(error: TpmError) -> Parts {
    let (name, offset, value) = match error {
        TpmError::BufferOverflow { offset, needed, .. } => ("BufferOverflow", offset, needed as u64),
        TpmError::IntegerTooLarge { offset, value } => ("IntegerTooLarge", offset, value),
        TpmError::TooManyItems { offset, actual, .. } => ("TooManyItems", offset, actual as u64),
        TpmError::TrailingData { offset, actual } => ("TrailingData", offset, actual as u64),
        TpmError::UnexpectedEnd { offset, needed, available } => {
            return Parts { who: "text", name: "UnexpectedEnd".to_string(), offset, value: needed as u64, had: available };
        }
        TpmError::VariantNotAvailable { offset, value } => ("VariantNotAvailable", offset, value),
        TpmError::Rebuilt { fault, offset, value, available } => {
            return Parts { who: "rebuilt", name: format!("{fault:?}"), offset, value, had: available };
        }
    };
    Parts { who: "text", name: name.to_string(), offset, value, had: 0 }
}

/// The number that docs/FORMAT.md gives to such a refusal; 0 if it has none.
#[must_use]
pub fn number_of(name: &str) -> u64 {
    match name {
        "UnexpectedEnd" | "End" => 1,
        "Code" => 2,
        "VariantNotAvailable" => 3,
        "Length" => 4,
        "TooManyItems" => 5,
        "Value" => 6,
        "TrailingData" => 11,
        _ => 0,
    }
}

/// `WHO NAME OFFSET VALUE HAD`, of a record that is not read.
#[must_use]
pub fn refusal(error: TpmError) -> String {
    let Parts { who, name, offset, value, had } = parts(error);
    format!("{who} {name} {offset} {value} {had}")
}
