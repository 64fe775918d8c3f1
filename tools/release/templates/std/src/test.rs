//! Why a test failed.

use crate::HostRuntime;
use core::fmt::Debug;
use rust::string::String;

/// Why a test failed: what any error says of itself.
pub struct Fail(String);

impl<E: Debug> From<E> for Fail {
    fn from(error: E) -> Fail {
        Fail(rust::format!("{error:?}"))
    }
}

/// Runs a test, and stops where it fails.
pub fn passes(test: impl FnOnce(HostRuntime) -> Result<(), Fail>) {
    if let Err(Fail(reason)) = test(HostRuntime) {
        panic!("{reason}");
    }
}
