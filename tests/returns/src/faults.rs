//! Ends that are wrong: between an end and the world a fault changes what comes, what is sent, or the time. Each must show.
use crate::ends::{End, World};
use crate::tokens::{long, number, token, type_at};
use controller_core::Event as ControllerEvent;
use std::collections::HashSet;

/// What is wrong.
#[derive(Clone, Copy, Debug, PartialEq, Eq)]
pub enum Fault {
    /// A device keeps a silent relation: for a hundred seconds before data is exchanged, and for a quarter of an hour after that.
    SilentRelationIsKept,
    /// A device refuses every second Connect.
    EverySecondConnectIsRefused,
    /// A device sends ApplicationReady once.
    ReadyIsSentOnce,
    /// A device shows the last outputs of the relation before.
    LateOutputsAreShown,
    /// A device serves a repeated Write again.
    RepeatedWriteIsServed,
    /// A device loses its stored settings with its power.
    SettingsAreLost,
    /// A device misses a unit in a long time.
    UnitIsMissed,
    /// An ARP of a stranger ends the relation at the device.
    ArpEndsRelation,
    /// A controller waits for ApplicationReady for ever.
    ControllerWaitsForEver,
    /// A controller looks for ever for a station that answers.
    ControllerLooksForEver,
    /// A controller sends each request once.
    RequestIsSentOnce,
    /// An ARP of a stranger ends a controller.
    ArpEndsController,
}

/// All of them.
pub const FAULTS: [Fault; 12] = [
    Fault::SilentRelationIsKept,
    Fault::EverySecondConnectIsRefused,
    Fault::ReadyIsSentOnce,
    Fault::LateOutputsAreShown,
    Fault::RepeatedWriteIsServed,
    Fault::SettingsAreLost,
    Fault::UnitIsMissed,
    Fault::ArpEndsRelation,
    Fault::ControllerWaitsForEver,
    Fault::ControllerLooksForEver,
    Fault::RequestIsSentOnce,
    Fault::ArpEndsController,
];

/// What a fault has to remember.
#[derive(Default)]
pub struct Memory {
    /// Frames that were sent, or calls that came.
    seen: HashSet<String>,
    connects: u32,
    /// The last outputs, and of whose relation they were.
    outputs: Option<(u32, Vec<u8>)>,
}

/// Puts octets into a call, which has no checksum then.
fn put(octets: &mut [u8], at: usize, new: &[u8]) {
    if at + new.len() <= octets.len() {
        octets[at..at + new.len()].copy_from_slice(new);
        octets[40..42].copy_from_slice(&[0, 0]);
    }
}

/// A Connect that asks for the longest times: CMInitiatorActivityTimeoutFactor 1,000, and DataHoldFactor 7,680 of each IOCRBlockReq.
fn with_long_times(octets: &mut [u8]) {
    put(octets, 194, &1_000_u16.to_be_bytes());
    let mut at = 142;
    while at + 36 <= octets.len() {
        if number(octets, at) == 0x0102 {
            put(octets, at + 32, &7_680_u16.to_be_bytes());
            put(octets, at + 34, &7_680_u16.to_be_bytes());
        }
        at += 4 + usize::from(number(octets, at + 2));
    }
}

impl World {
    /// A frame comes to an end: what its fault makes of it, or none.
    pub fn bend(&mut self, end: End, octets: &[u8]) -> Option<Vec<u8>> {
        let Some(fault) = self.fault() else {
            return Some(octets.to_vec());
        };
        let from = if end == End::Device { End::Controller } else { End::Device };
        let said = token(octets, from);
        let is_arp = number(octets, type_at(octets)) == 0x0806;
        let mut octets = octets.to_vec();
        match (fault, end) {
            (Fault::SilentRelationIsKept, End::Device) if said.starts_with("connect#") => with_long_times(&mut octets),
            (Fault::EverySecondConnectIsRefused, End::Device) if said.starts_with("connect#") && self.is_second_connect(&said) => {
                put(&mut octets, 148, &[0, 0x10]);
            }
            (Fault::LateOutputsAreShown, End::Device) if said.starts_with("out:") => self.hear_late_outputs(&octets),
            (Fault::RepeatedWriteIsServed, End::Device) if said.starts_with("write#") && !self.memory().seen.insert(said.clone()) => {
                let other = long(&octets, 94) | 0x5000_0000;
                put(&mut octets, 94, &other.to_be_bytes());
            }
            (Fault::ArpEndsRelation, End::Device) if is_arp => {
                self.power_off();
                self.power_on();
            }
            (Fault::ControllerLooksForEver, End::Controller) if said.starts_with("found:") => return None,
            (Fault::ArpEndsController, End::Controller) if is_arp => self.at_controller(&ControllerEvent::Stop),
            _ => {}
        }
        Some(octets)
    }

    /// Whether a Connect is the first of its controller, and the second, fourth and so on of these.
    fn is_second_connect(&mut self, said: &str) -> bool {
        let memory = self.memory();
        memory.connects += u32::from(memory.seen.insert(String::from(said)));
        memory.connects.is_multiple_of(2)
    }

    fn hear_late_outputs(&mut self, octets: &[u8]) {
        let owner = self.owner();
        let before = self.memory().outputs.replace((owner, octets.to_vec()));
        if let Some((last, outputs)) = before
            && last != owner
        {
            self.hear_at_device(&outputs);
        }
    }

    /// Whether a frame of this end is dropped by a fault.
    pub fn is_dropped(&mut self, from: End, octets: &[u8]) -> bool {
        let said = token(octets, from);
        match (self.fault(), from) {
            (Some(Fault::ReadyIsSentOnce), End::Device) if said.starts_with("ready#") => !self.memory().seen.insert(said),
            (Some(Fault::RequestIsSentOnce), End::Controller) => {
                let is_request = number(octets, type_at(octets)) == 0x0800 || said == "identify" || said == "set";
                let said = format!("{} {said}", self.turn);
                is_request && !said.contains("confirm") && !self.memory().seen.insert(said)
            }
            _ => false,
        }
    }
}
