//! How the program ends.

use crate::HostRuntime;
pub use rust::process::{ExitCode, Termination};

/// A handle that may end the program.
pub trait Abort {}

impl Abort for HostRuntime {}
