//! Bytes as hex text by hex, as the proved sources call it: with the allocator, and an error for want of memory.
#![no_std]
#![forbid(unsafe_code)]

pub use hex::FromHex;
use rattle_std::alloc::{AllocError, Global};
use rattle_std::{String, Vec};

/// Why a text is no bytes in hex.
#[derive(Clone, Copy, Debug, PartialEq)]
pub enum FromHexError {
    /// There was no memory.
    OutOfMemory,
    /// This character, at this place, is no hex digit.
    InvalidHexCharacter { c: char, index: usize },
    /// The digits are no pairs.
    OddLength,
    /// There are not twice as many digits as bytes.
    InvalidStringLength,
}

impl From<AllocError> for FromHexError {
    fn from(_: AllocError) -> FromHexError {
        FromHexError::OutOfMemory
    }
}

impl From<hex::FromHexError> for FromHexError {
    fn from(error: hex::FromHexError) -> FromHexError {
        match error {
            hex::FromHexError::InvalidHexCharacter { c, index } => FromHexError::InvalidHexCharacter { c, index },
            hex::FromHexError::OddLength => FromHexError::OddLength,
            hex::FromHexError::InvalidStringLength => FromHexError::InvalidStringLength,
        }
    }
}

/// The hex digits of some bytes, in lower case.
pub fn encode<B: AsRef<[u8]>>(alloc: Global, bytes: B) -> Result<String, AllocError> {
    let bytes = bytes.as_ref();
    let mut digits = Vec::new(alloc);
    digits.resize(2 * bytes.len(), 0)?;
    let mut text = String::new(alloc);
    if hex::encode_to_slice(bytes, &mut digits).is_ok()
        && let Ok(digits) = core::str::from_utf8(&digits)
    {
        text.push_str(digits)?;
    }
    Ok(text)
}

/// The bytes that hex digits spell, of either case.
pub fn decode<D: AsRef<[u8]>>(alloc: Global, digits: D) -> Result<Vec<u8>, FromHexError> {
    let digits = digits.as_ref();
    let mut bytes = Vec::new(alloc);
    bytes.resize(digits.len() / 2, 0)?;
    match hex::decode_to_slice(digits, &mut bytes) {
        Ok(()) => Ok(bytes),
        Err(error) => Err(error.into()),
    }
}
