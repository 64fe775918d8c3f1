//! JSON by serde_json, as the proved sources call it: with the allocator, and an error for want of memory.
#![no_std]
#![forbid(unsafe_code)]

use rattle_std::alloc::Global;
pub use serde_json::{Map, Number, Value};

/// Why a text is no JSON.
#[derive(Debug)]
pub struct Error(serde_json::Error);

impl Error {
    /// Whether there was no memory: Rust's own allocation does not answer so.
    pub fn is_memory(&self) -> bool {
        false
    }
}

impl core::fmt::Display for Error {
    fn fmt(&self, f: &mut core::fmt::Formatter<'_>) -> core::fmt::Result {
        self.0.fmt(f)
    }
}

/// How a value is read with the allocator.
pub trait Reading: Sized {
    /// The value that bytes are in JSON.
    fn from_slice(alloc: Global, bytes: &[u8]) -> Result<Self, Error>;

    /// The value that a text is in JSON.
    fn from_str(alloc: Global, text: &str) -> Result<Self, Error>;
}

impl Reading for Value {
    fn from_slice(_: Global, bytes: &[u8]) -> Result<Value, Error> {
        serde_json::from_slice(bytes).map_err(Error)
    }

    fn from_str(_: Global, text: &str) -> Result<Value, Error> {
        serde_json::from_str(text).map_err(Error)
    }
}
