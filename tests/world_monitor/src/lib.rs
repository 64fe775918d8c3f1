//! A monitor over the worlds of both ends: what a frame is by its octets alone, what both ends report, and the laws after each
//! move, by code that shares nothing with the definitions of the laws.
#![forbid(unsafe_code)]

mod kind;
mod law;
mod places;
mod schedule;
mod told;
mod watch;

pub use both_ends::{Fresh, Net, fresh_world};
pub use kind::Kind;
pub use law::Law;
pub use places::PlaceTally;
pub use schedule::{Choice, Schedule};
pub use told::{Outputs, Told};
pub use watch::{Tally, Watched};
