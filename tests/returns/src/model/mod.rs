//! A model of a device, of the controllers that follow one another, and of the network between them. Frames are what they mean, with numbers
//! and values and no octets. It is made from the rules of the standard and of the documents, and uses nothing of the product.
//!
//! It knows all timers, the answers that a device keeps, cyclic data, both kinds of alarms, the settings, and losses of power. Two things it
//! takes from the product and only judges: which call of a flash an armed fault strikes, and which of two addresses is found after it.
mod alarms;
mod controller;
mod cyclic;
mod device;
mod said;
mod world;

pub use controller::Controller;
pub use device::{Device, Phase};
pub use world::{Made, World};

/// A second, in units of 31.25 microseconds: after it a request, and ApplicationReady, is sent again, and a controller that ended is started.
pub const SECOND: u32 = 32_000;

/// For how long a device waits for the next call before data is exchanged.
pub const ACTIVITY: u32 = 600 * 3_200;

/// Nothing is due.
pub const NEVER: u32 = u32::MAX;

/// After this number of units both ends should exchange data again.
pub const LIMIT: u64 = 6_000_000;

/// Relations of strangers are numbered from here on: those of a station that only talks, and those of one that asks for them.
pub const TALKER: u32 = 0x6000_0000;
/// See above.
pub const RIVAL: u32 = 0x7000_0000;

/// The station that is there.
#[derive(Clone, Copy, Debug, PartialEq, Eq)]
pub enum Plant {
    /// That of the plan.
    Planned,
    /// Another module is plugged.
    Wrong,
    /// Another device, of another type, has the name too, and answers first.
    Taken,
    /// It has another name.
    Renamed,
}

/// What a model has to know of a schedule.
#[derive(Clone, Debug)]
pub struct Setting {
    /// The records of each Write of a start-up.
    pub writes: Vec<Vec<Record>>,
    /// The units of an interval of cyclic frames.
    pub interval: u32,
    /// The data hold time.
    pub hold: u32,
    /// For how long a state of a controller lasts at most, except the wait for ApplicationReady.
    pub patience: u32,
    /// For how long that wait lasts at most.
    pub waiting_patience: u32,
    /// Whether the application of the device says when it is ready, and its inputs begin bad.
    pub by_application: bool,
    /// Whether records that are written while data is exchanged are passed on, and not kept.
    pub passes_on: bool,
    /// Whether frames of an earlier relation may come after the next one began.
    pub is_late: bool,
    /// Whether each relation has numbers of its own, by which late frames are refused.
    pub is_numbered: bool,
    /// The station that is there.
    pub plant: Plant,
}

impl Setting {
    /// Within how many units both ends exchange data from a start (N), and from anywhere (N').
    pub fn limits(&self) -> (u64, u64) {
        let start = 5 + self.writes.len() as u64;
        let waits = SECOND + 4 * self.patience + self.waiting_patience + 2 * SECOND;
        (start, u64::from(waits + ACTIVITY + 2 * self.hold) + start + 14)
    }
}

/// A record: its index and its octets.
pub type Record = (u16, Vec<u8>);

/// The address of the plan, that of an engineering tool, and none.
pub const PLANNED: [u8; 4] = [192, 168, 0, 2];
/// See above.
pub const OTHER: [u8; 4] = [192, 168, 0, 77];
/// See above.
pub const NONE: [u8; 4] = [0; 4];
