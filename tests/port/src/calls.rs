//! Calls of a port, each by the number of what came of it: 0 where it was carried out. None has a contract, so that what a port
//! promises of a call is read in one function, and not again in each test.
use device_station::{Port, Refusal};
use flash_model::Sector;

fn number<T>(outcome: Result<T, Refusal>) -> u32 {
    match outcome {
        Ok(_) => 0,
        Err(refusal) => refusal.number(),
    }
}

pub(crate) fn fill(port: &mut Port, sector: Sector, octets: &[u8]) -> u32 {
    number(port.fill(sector, octets))
}

pub(crate) fn boot(port: &mut Port) -> u32 {
    number(port.boot())
}

pub(crate) fn frame(port: &mut Port, octets: &[u8]) -> u32 {
    port.frame(octets).map_or(0, number)
}

pub(crate) fn tick(port: &mut Port, units: u32) -> u32 {
    number(port.tick(units))
}

pub(crate) fn input(port: &mut Port, slot: u16, subslot: u16, octets: &[u8]) -> u32 {
    port.input(slot, subslot, octets).map_or(0, number)
}

pub(crate) fn alarm(port: &mut Port, slot: u16, subslot: u16, octets: &[u8]) -> u32 {
    number(port.alarm(slot, subslot, octets))
}

pub(crate) fn lose(port: &mut Port) -> u32 {
    number(port.lose())
}

pub(crate) fn work(port: &Port) -> u32 {
    number(port.work())
}

pub(crate) fn running(port: &Port) -> u32 {
    number(port.running())
}

pub(crate) fn stored(port: &Port) -> u32 {
    number(port.stored())
}

pub(crate) fn phase(port: &Port) -> u32 {
    number(port.phase())
}

pub(crate) fn lamp(port: &Port) -> u32 {
    number(port.lamp())
}

pub(crate) fn taken(port: &Port) -> u32 {
    number(port.taken())
}

pub(crate) fn output(port: &Port, slot: u16, subslot: u16) -> u32 {
    number(port.output(slot, subslot))
}

/// How many units are left of these where time goes by, up to the first that sends something.
pub(crate) fn left(port: &mut Port, units: u32) -> Option<u32> {
    port.tick(units).ok().map(|passed| passed.left)
}
