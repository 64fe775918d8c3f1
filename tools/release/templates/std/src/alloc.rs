//! Allocation that can fail.

use core::error::Error;
use core::fmt;

/// The allocator: Rust's global one.
#[derive(Clone, Copy, Debug, Default)]
pub struct Global;

/// There was no memory.
#[derive(Clone, Copy, Debug, PartialEq, Eq)]
pub struct AllocError;

impl fmt::Display for AllocError {
    fn fmt(&self, f: &mut fmt::Formatter<'_>) -> fmt::Result {
        f.write_str("out of memory")
    }
}

impl Error for AllocError {}

impl From<memory::collections::TryReserveError> for AllocError {
    fn from(_: memory::collections::TryReserveError) -> AllocError {
        AllocError
    }
}

/// There was no memory for this value, which is handed back.
pub struct AllocFailed<T>(pub T);

impl<T> fmt::Debug for AllocFailed<T> {
    fn fmt(&self, f: &mut fmt::Formatter<'_>) -> fmt::Result {
        f.write_str("AllocFailed")
    }
}

impl<T> From<AllocFailed<T>> for AllocError {
    fn from(_: AllocFailed<T>) -> AllocError {
        AllocError
    }
}

#[cfg(feature = "std")]
impl From<AllocError> for rust::io::Error {
    fn from(_: AllocError) -> rust::io::Error {
        rust::io::ErrorKind::OutOfMemory.into()
    }
}

#[cfg(feature = "std")]
impl<T> From<AllocFailed<T>> for rust::io::Error {
    fn from(_: AllocFailed<T>) -> rust::io::Error {
        rust::io::ErrorKind::OutOfMemory.into()
    }
}
