//! The station, over the smallest flash, and frames that were worked out by hand.
use arrayvec::ArrayVec;
use device_core::{Device, Event, Note, Octets};
use flash_model::{Flash, FlashFault, MemoryFlash, Sector};
use frame_codec::{Bytes, Outbox};
use pn_values::{Real, RealModule, RealSubmodule, demo_identity};

/// A device over the smallest flash.
pub type Station = Device<MemoryFlash<768>, 768>;

/// An Identify request of all stations.
pub const IDENTIFY: [u8; 30] =
    *b"\x01\x0e\xcf\x00\x00\x00\x02\x00\x00\x00\x00\x02\x88\x92\xfe\xfe\x05\x00\x00\x00\x00\x01\x00\x01\x00\x04\xff\xff\x00\x00";

/// The answer of a station without a name.
pub const UNNAMED: [u8; 120] =
    *b"\x02\x00\x00\x00\x00\x02\x02\x00\x00\x00\x00\x01\x88\x92\xfe\xff\x05\x01\x00\x00\x00\x01\x00\x00\x00\x5e\
    \x02\x01\x00\x09\x00\x00pn-demo\x00\x02\x02\x00\x02\x00\x00\x02\x03\x00\x06\x00\x00\x01\x23\x04\x56\x02\x04\x00\x04\x00\x00\x01\x00\
    \x02\x05\x00\x1a\x00\x00\x01\x01\x01\x02\x02\x01\x02\x02\x02\x03\x02\x04\x02\x05\x02\x07\x05\x03\x05\x04\x05\x05\x05\x06\
    \x02\x07\x00\x04\x00\x00\x00\x01\x01\x02\x00\x0e\x00\x00\x00\x00\x00\x00\x00\x00\x00\x00\x00\x00\x00\x00";

/// The same answer by the station "pump-1".
pub const PUMP_1: [u8; 126] =
    *b"\x02\x00\x00\x00\x00\x02\x02\x00\x00\x00\x00\x01\x88\x92\xfe\xff\x05\x01\x00\x00\x00\x01\x00\x00\x00\x64\
    \x02\x01\x00\x09\x00\x00pn-demo\x00\x02\x02\x00\x08\x00\x00pump-1\x02\x03\x00\x06\x00\x00\x01\x23\x04\x56\x02\x04\x00\x04\x00\x00\x01\x00\
    \x02\x05\x00\x1a\x00\x00\x01\x01\x01\x02\x02\x01\x02\x02\x02\x03\x02\x04\x02\x05\x02\x07\x05\x03\x05\x04\x05\x05\x05\x06\
    \x02\x07\x00\x04\x00\x00\x00\x01\x01\x02\x00\x0e\x00\x00\x00\x00\x00\x00\x00\x00\x00\x00\x00\x00\x00\x00";

/// A Set of the name "pump-1", to be kept.
pub const SET: [u8; 38] =
    *b"\x02\x00\x00\x00\x00\x01\x02\x00\x00\x00\x00\x02\x88\x92\xfe\xfd\x04\x00\x00\x00\x00\x02\x00\x00\x00\x0c\
    \x02\x02\x00\x08\x00\x01pump-1";

/// Its answer 'done', which is filled up to 60 octets.
pub const DONE: [u8; 34] =
    *b"\x02\x00\x00\x00\x00\x02\x02\x00\x00\x00\x00\x01\x88\x92\xfe\xfd\x04\x01\x00\x00\x00\x02\x00\x00\x00\x08\
    \x05\x04\x00\x03\x02\x02\x00\x00";

const SET_ADDRESS: [u8; 44] =
    *b"\x02\x00\x00\x00\x00\x01\x02\x00\x00\x00\x00\x02\x88\x92\xfe\xfd\x04\x00\x00\x00\x00\x02\x00\x00\x00\x12\
    \x01\x02\x00\x0e\x00\x01\xc0\xa8\x00\x02\xff\xff\xff\x00\x00\x00\x00\x00";

/// No module is plugged.
pub fn no_modules() -> Real {
    Real {
        modules: ArrayVec::new(),
    }
}

/// A module with these submodules, by subslot and ident number.
fn module(slot: u16, ident: u32, plugged: &[(u16, u32)]) -> RealModule {
    let mut module = RealModule {
        slot,
        ident,
        ..RealModule::default()
    };
    for (subslot, number) in plugged {
        let _ = module.submodules.try_push(RealSubmodule {
            subslot: *subslot,
            ident: *number,
            ..RealSubmodule::default()
        });
    }
    module
}

/// What is plugged in: an access point with two ports, and a module in each of the slots 1 and 2.
pub fn plugged() -> Real {
    let mut real = no_modules();
    let _ = real
        .modules
        .try_push(module(0, 1, &[(1, 1), (0x8000, 2), (0x8001, 3)]));
    let _ = real.modules.try_push(module(1, 16, &[(1, 16)]));
    let _ = real.modules.try_push(module(2, 32, &[(1, 32)]));
    real
}

/// A station with an address. These modules are plugged in it.
pub fn station(real: Real, flash: MemoryFlash<768>) -> Option<Station> {
    let mut device = Device::boot(demo_identity(), real, flash).ok()?;
    let _ = device.step(&set_address(), &mut Outbox::new());
    Some(device)
}

/// A station without modules, started from what this flash keeps.
pub fn start(flash: MemoryFlash<768>) -> Option<Station> {
    Device::boot(demo_identity(), no_modules(), flash).ok()
}

/// A station with an address, in which one submodule is plugged, in slot 0.
pub fn addressed() -> Option<Station> {
    let mut real = no_modules();
    let _ = real.modules.try_push(module(0, 0, &[(1, 1)]));
    station(real, MemoryFlash::blank())
}

/// A Set of the suite 192.168.0.2, 255.255.255.0, to be kept.
pub fn set_address() -> Event<'static> {
    frame(&SET_ADDRESS)
}

/// Power comes back to the station.
pub fn restart(device: Station) -> Option<Station> {
    let mut flash = device.into_flash();
    flash.power_up();
    start(flash)
}

/// The first of these octets, as many as there is room for.
pub fn octets(bytes: &[u8]) -> Bytes {
    let mut octets = Bytes::new();
    let _ = octets.try_extend_from_slice(bytes);
    octets
}

/// A frame of these octets comes.
pub fn frame(bytes: &[u8]) -> Event<'_> {
    Event::Frame(Octets::of(bytes))
}

/// The Set with another last digit of the name.
pub fn set_pump(digit: u8) -> [u8; 38] {
    let mut bytes = SET;
    bytes[37] = digit;
    bytes
}

/// A frame is these bytes, filled up with zeros to at least 60.
pub fn is_filled(sent: &[u8], bytes: &[u8]) -> bool {
    sent.starts_with(bytes)
        && sent.len() == bytes.len().max(60)
        && sent.iter().skip(bytes.len()).all(|x| *x == 0)
}

/// The outbox has one frame: these bytes, filled up in the same way.
pub fn is_padded(outbox: &Outbox, bytes: &[u8]) -> bool {
    match outbox.as_slice() {
        [sent] => is_filled(sent.as_slice(), bytes),
        _ => false,
    }
}

/// Writes the last generation into the first sector, in a version of the layout: a base with the name "pump-1" and an IP suite, and one
/// open slot with a reset of the texts.
pub fn write_last(
    flash: &mut MemoryFlash<768>,
    version: u8,
    suite: [u8; 12],
) -> Result<(), FlashFault> {
    let mut base = [0; 437];
    base[..13].copy_from_slice(b"PNJ\x02\x00\x00\x06pump-1");
    base[3] = version;
    base[247..259].copy_from_slice(&suite);
    flash.program(Sector::First, 0, &base)?;
    flash.program(Sector::First, 511, &[0])?;
    flash.program(Sector::First, 512, &[8, 0])?;
    flash.program(Sector::First, 767, &[0])
}

/// What a station makes of an event.
pub fn step(device: &mut Station, event: &Event<'_>, outbox: &mut Outbox) -> Note {
    device.step(event, outbox)
}
