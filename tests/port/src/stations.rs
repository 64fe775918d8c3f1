//! The ports that are tried.
use asked_records::NamedRecords;
use crate::calls;
use device_station::{Port, Recorded, Work};
use pn_values::{Real, demo_identity};
use relations::DeviceOptions;
use flash_model::Sector;
use test_stations::{SET, plugged};

/// Sets how many octets of input and output the first submodule of a module has.
fn sized(real: &mut Real, place: usize, input: u16, output: u16) {
    if let Some(plugged) = real.modules.as_mut_slice().get_mut(place) {
        if let Some(first) = plugged.submodules.as_mut_slice().get_mut(0) {
            first.input = input;
            first.output = output;
        }
    }
}

/// What the demo station has: two octets of input in slot 1, and two of output in slot 2.
pub(crate) fn demo() -> Real {
    let mut real = plugged();
    sized(&mut real, 1, 2, 0);
    sized(&mut real, 2, 0, 2);
    real
}

/// A port that did not start.
pub(crate) fn made() -> Port {
    Port::new(demo_identity(), demo(), DeviceOptions::default(), NamedRecords::new(), false)
}

/// One that started from a chip that was never written.
pub(crate) fn booted() -> Port {
    let mut port = made();
    let _ = calls::fill(&mut port, Sector::First, &[0xFF; 4096]);
    let _ = calls::fill(&mut port, Sector::Second, &[0xFF; 4096]);
    let _ = calls::boot(&mut port);
    port
}

/// One that was given the name "pump-1", of which nothing is carried out yet.
pub(crate) fn busy() -> Port {
    let mut port = booted();
    let _ = calls::frame(&mut port, &SET);
    port
}

/// One of which a call failed as it was carried out.
pub(crate) fn lost() -> Port {
    let mut port = busy();
    let _ = calls::lose(&mut port);
    port
}

/// What kind of work is next: 1 is a program call, 2 an erase, 3 a frame, and 0 nothing.
pub(crate) fn kind(port: &Port) -> u32 {
    match port.work() {
        Ok(Work::Carry(Recorded::Program { .. })) => 1,
        Ok(Work::Carry(Recorded::Erase { .. })) => 2,
        Ok(Work::Send(_)) => 3,
        Ok(Work::Nothing) | Err(_) => 0,
    }
}
