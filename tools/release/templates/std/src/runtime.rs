//! What is outside the program.

use crate::alloc::Global;
use crate::io::Reader;
use rust::io::stdin;

/// The handle for what is outside the program: the allocator, the standard streams, the words of the command line.
#[derive(Clone, Copy, Debug, Default)]
pub struct HostRuntime;

impl HostRuntime {
    /// The allocator.
    pub fn alloc(&self) -> Global {
        Global
    }

    /// Standard input.
    pub fn reader(&self) -> Reader {
        Reader(stdin())
    }
}
