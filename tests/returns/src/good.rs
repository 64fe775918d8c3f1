//! Time in which nothing is lost: each frame comes before the next unit, and what the controller then sends before the one that follows.
//! The application of the device is ready at once, and the host makes a new controller a second after the end of one.
use crate::ends::{End, PAUSE, World};
use crate::seen::spelled;
use device_core::Event as DeviceEvent;

/// After this number of units both ends should exchange data again, from any world. It is more than any formula says here.
const LIMIT: u64 = 6_000_000;

/// The first frame that is under way to an end, of those with a number below `before`, comes. Returns whether there was one.
fn take_one(world: &mut World, end: End, before: usize) -> bool {
    let Some(place) = world.flight.iter().position(|sent| sent.to == end && sent.number < before) else {
        return false;
    };
    let sent = world.flight.remove(place);
    world.come(end, &sent.octets);
    if world.is_preparing() {
        world.at_device(&DeviceEvent::ready());
    }
    true
}

/// What happens before a unit: the host looks at its controller, all frames that are under way to the device come, and then all that are
/// under way to the controller, with the device's answers.
fn settle(world: &mut World) {
    if world.is_ended() && world.rest >= PAUSE {
        world.make_controller();
    }
    if world.is_preparing() {
        world.at_device(&DeviceEvent::ready());
    }
    let sent = world.count;
    while take_one(world, End::Device, sent) {}
    while take_one(world, End::Controller, usize::MAX) {}
}

/// The number of units that pass at once: up to the next one with which anything happens, and at most `most`.
fn until_next(world: &World, most: u64) -> u32 {
    if !world.flight.is_empty() {
        return 1;
    }
    let mut units = most.min(1_000_000) as u32;
    if world.is_ended() {
        units = units.min(PAUSE.saturating_sub(world.rest).max(1));
    }
    units.min(world.due()).max(1)
}

/// Units pass at both ends, with only the last of which anything may happen.
fn pass(world: &mut World, units: u32) {
    world.pass_at_device(units, true);
    world.pass_at_controller(units, true);
}

/// A number of units.
pub fn run(world: &mut World, units: u32) {
    let mut left = u64::from(units);
    while left > 0 {
        settle(world);
        let some = until_next(world, left);
        pass(world, some);
        left -= u64::from(some);
        world.passed += u64::from(some);
    }
    settle(world);
    world.passed = 0;
}

/// Power comes back, the flash does not fail any more, and nothing is lost from here on: the number of units until both ends exchange data
/// in one relation, or `never`. The line also says with which address the device began, how many frames were sent meanwhile, and how many
/// controllers there were.
pub fn come_back(world: &mut World) -> String {
    world.power_on();
    world.disarm();
    let address = spelled(&world.address());
    world.is_told = false;
    let (before, mut units) = (world.count, 0);
    let told = loop {
        settle(world);
        if world.are_exchanging() {
            break units.to_string();
        }
        if units >= LIMIT {
            break String::from("never");
        }
        let some = until_next(world, LIMIT - units);
        pass(world, some);
        units += u64::from(some);
    };
    world.is_told = true;
    format!("{address} {told} {} {}", world.count - before, world.turn)
}
