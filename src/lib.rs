//! A PROFINET IO device whose settings survive a loss of power, the services that a station has beside it, a controller, and a
//! configurator that makes the controller's plan.
//!
//! The Rust of this crate is made from proved sources, which carry contracts. `docs/PROVED.md` of the repository says what they
//! guarantee, and under which conditions. The translation into Rust and the Rust compiler are not proved. The device never ran on a
//! real chip, met no controller of another maker, and is not certified.
//!
//! It has no interrupt, no timer and no network card of its own: a program hands events in and sends the frames that come out.
//!
//! # A whole program
//!
//! It makes a station over a chip in memory. A tool gives the station a name, its power fails, and the name is still there.
//!
#![doc = concat!("```\n", include_str!("../examples/rust/first.rs"), "```")]
//!
//! `examples/rust/device.rs` in the repository is a device on a network interface of Linux, with its settings
//! in a file.
//!
//! # What a program supplies
//!
//! | | |
//! |---|---|
//! | its identity and its modules | [`Identity`], [`Real`] |
//! | a flash of two sectors, whose calls may fail | [`Flash`]; [`MemoryFlash`] for tests |
//! | each frame that comes, each unit of time, and what its application says | [`Event`], [`IoStation::step`], [`IoStation::elapse`] |
//! | a network: it sends what an event leaves in the outbox, in order | [`StationOutbox`] |
//! | what it does with outputs | [`Device::output`] |
//!
//! # Features
//!
//! Without a feature the crate is a device and its services. It is `no_std` and allocates no memory.
//!
//! - `controller`: the module [`controller`](#modules), which starts a device of a plan and exchanges data with it.
//! - `configurator`: the module `configurator`, which makes that plan from a catalogue in JSON. It takes `alloc`.
//! - `std`: the streams and the command line of the program `pnscript`; no program of your own needs it.
//!
//! # The modules
//!
//! Each module is one of the crates that were proved. The items that a host of a device needs are at the top; the modules have the
//! layers below, for a program that builds on one of them alone. Contracts are left out of the Rust, and functions that are laws, which
//! would return nothing, out of its documentation. What was proved of each function, and each law, is in the module `clauses`, which
//! only the documentation has; the page `docs/PROVED.md` of the repository says it in short.
#![no_std]
#![forbid(unsafe_code)]

#[cfg(feature = "configurator")]
extern crate alloc as memory;
#[cfg(feature = "std")]
extern crate std as rust;

include!(concat!(env!("OUT_DIR"), "/modules/modules.rs"));

pub use arrayvec::ArrayVec;
pub use uuid::Uuid;

#[doc(inline)]
pub use self::asked_records::{AskedRecord, AskedRecords, NamedRecords, RecordName, Wanted};
#[doc(inline)]
pub use self::device_core::{Device, Event, Local, Note, Octets, Sink};
#[doc(inline)]
pub use self::device_station::{IoStation, StationOutbox};
#[doc(inline)]
pub use self::diagnosis::Diagnosis;
#[doc(inline)]
pub use self::flash_model::{Flash, FlashFault, MemoryFlash, Order, Sector};
#[doc(inline)]
pub use self::frame_codec::Frame;
#[doc(inline)]
pub use self::lldp::{Link, Neighbour};
#[doc(inline)]
pub use self::pn_values::{
    Identity, IpSuite, Mac, ParameterRecord, Real, RealModule, RealSubmodule, Settings, StationName,
};
#[doc(inline)]
pub use self::records::TakenRecord;
#[doc(inline)]
pub use self::relations::{DeviceOptions, Phase, ProviderStatus, ReceivedValue};
#[doc(inline)]
pub use self::settings_journal::BootFault;

/// A controller of one device: it looks for the station, starts it as a plan says, exchanges data with it, and reports its alarms.
///
/// A [`Plan`](controller::Plan) is made by the module `configurator` (feature `configurator`), or field by field.
#[cfg(feature = "controller")]
pub mod controller {
    #[doc(inline)]
    pub use crate::controller_core::{
        Cause, Controller, ControllerOptions, Event, PlaceState, RefusedRecord, State,
    };
    #[doc(inline)]
    pub use crate::controller_station::{ServedController, ServedOutbox};
    #[doc(inline)]
    pub use crate::frame_codec::Bytes;
    #[doc(inline)]
    pub use crate::plans::{ControllerIdentity, Layouts, Plan, PlanRecord};
}

/// The allocator that the configurator is handed, which is Rust's global one, and its want of memory.
#[cfg(feature = "configurator")]
#[doc(inline)]
pub use self::kit::std::alloc::{AllocError, Global};
