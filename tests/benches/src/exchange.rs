//! A device in an exchange: it takes the events of lines one after another, and what it sends is counted.
use arrayvec::ArrayVec;
use pn_values::{Real, RealModule, RealSubmodule, demo_identity};
use device_core::{Device, Event, Note, Octets};
use flash_model::MemoryFlash;
use frame_codec::{Bytes, Outbox};
use rattle_std::alloc::Global;

/// A device over the smallest flash.
type Station = Device<MemoryFlash<768>, 768>;

/// Slot and ident number of each module: an access point, an input and an output. Its one submodule has the same ident number.
const MODULES: [(u16, u32); 3] = [(0, 1), (1, 16), (2, 32)];

fn real() -> Real {
    let mut modules = ArrayVec::new();
    for (slot, ident) in MODULES {
        let mut submodules = ArrayVec::new();
        submodules.push(RealSubmodule {
            subslot: 1,
            ident,
            ..RealSubmodule::default()
        });
        modules.push(RealModule {
            slot,
            ident,
            submodules,
        });
    }
    Real { modules }
}

/// What was done and sent.
#[derive(Debug, Default, PartialEq, Eq)]
pub struct Tally {
    /// Events that were done.
    pub done: usize,
    /// Frames that were sent.
    pub frames: usize,
    /// Octets of these frames.
    pub octets: usize,
    /// The sum of these octets, each times its place in its frame, from 1 on.
    pub sum: u64,
}

/// A device that was never set, and what it did and sent.
pub struct Turns {
    device: Station,
    outbox: Outbox,
    pub tally: Tally,
}

impl Turns {
    /// A device with blank flash. `None` if it does not start.
    pub fn new() -> Option<Turns> {
        Some(Turns {
            device: Device::boot(demo_identity(), real(), MemoryFlash::blank()).ok()?,
            outbox: Outbox::new(),
            tally: Tally::default(),
        })
    }

    /// Takes the events of a line. `None` if the line has another form.
    pub fn take_line(&mut self, line: &str) -> Option<()> {
        let (word, rest) = line.split_once(' ')?;
        match word {
            "frame" => self.take_frame(&octets(rest)?),
            "tick" => {
                for _ in 0..rest.parse::<u16>().ok()? {
                    self.take(&Event::Tick);
                }
            }
            "input" => {
                let (slot, value) = rest.split_once(' ')?;
                self.take(&Event::input(slot.parse().ok()?, 1, &octets(value)?));
            }
            "alarm" => {
                let (slot, value) = rest.split_once(' ')?;
                self.take(&Event::alarm(slot.parse().ok()?, 1, &octets(value)?));
            }
            _ => return None,
        }
        Some(())
    }

    /// Takes a frame. After a frame that is neither cyclic nor an alarm (their EtherType follows a VLAN tag) the count begins again.
    fn take_frame(&mut self, bytes: &[u8]) {
        let is_tagged = bytes.get(12) == Some(&0x81);
        self.take(&Event::Frame(Octets::of(bytes)));
        if !is_tagged {
            self.tally = Tally::default();
        }
    }

    /// Takes an event.
    fn take(&mut self, event: &Event<'_>) {
        if turn(&mut self.device, event, &mut self.outbox) == Note::Done {
            self.tally.done += 1;
        }
        for frame in self.outbox.as_slice() {
            self.tally.frames += 1;
            self.tally.octets += frame.len();
            self.tally.sum += sum_of(frame.as_slice());
        }
    }
}

/// One step. It is not inlined, so that its instructions can be counted.
#[inline(never)]
fn turn(device: &mut Station, event: &Event<'_>, outbox: &mut Outbox) -> Note {
    device.step(event, outbox)
}

/// The octets, each times its place, from 1 on.
fn sum_of(octets: &[u8]) -> u64 {
    (1..)
        .zip(octets)
        .map(|(place, &octet)| place * u64::from(octet))
        .sum()
}

/// The octets of hex digits. `None` if these are no hex digits, or more than an event holds.
fn octets(digits: &str) -> Option<Bytes> {
    let decoded = hex::decode(Global, digits).ok()?;
    let mut bytes = Bytes::new();
    bytes.try_extend_from_slice(decoded.as_slice()).ok()?;
    Some(bytes)
}

#[cfg(test)]
mod tests {
    use super::*;

    // A relation with cyclic frames and alarms both ways. The frames and octets were counted by bench/figures/exchange.rs too.
    #[test]
    fn an_exchange_sends_these_frames() {
        let mut turns = Turns::new().expect("a device");
        for line in include_str!("../exchange/stdin").lines() {
            turns.take_line(line).expect(line);
        }
        let wanted = Tally {
            done: 233,
            frames: 11,
            octets: 748,
            sum: 1_063_422,
        };
        assert_eq!(turns.tally, wanted);
    }
}
