//! What the proved sources ask of their standard library beyond Rust's own. There each call that takes memory is given the
//! allocator and can fail, and what is outside the program is reached by a handle. Here the allocator is Rust's global one, a
//! marker represents it, and a failure is what `try_reserve` says.
#![no_std]
#![forbid(unsafe_code)]

extern crate alloc as memory;
#[cfg(feature = "std")]
extern crate std as rust;

#[cfg(feature = "std")]
#[doc(hidden)]
pub mod print;
mod string;
mod vec;

pub mod alloc;
pub mod collections;
#[cfg(feature = "std")]
pub mod env;
#[cfg(feature = "std")]
pub mod io;
pub mod net;
#[cfg(feature = "std")]
pub mod process;
#[cfg(feature = "std")]
mod runtime;
#[cfg(feature = "std")]
pub mod test;

pub use core::{array, cmp, convert, fmt, iter, marker, mem, num, ops, option, result, slice, str};
#[cfg(feature = "std")]
pub use runtime::HostRuntime;
pub use string::String;
pub use vec::Vec;
