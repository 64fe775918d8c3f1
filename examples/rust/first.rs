// A station over a chip in memory. A tool gives it a name, its power fails, and the name is still there: `cargo run --example first`.

use nandutable::{
    Device, Event, Identity, IoStation, Mac, MemoryFlash, Octets, Real, RealModule, RealSubmodule,
    StationOutbox,
};

/// A chip of two sectors, of 4,096 octets each.
type Chip = MemoryFlash<4096>;
type Station = IoStation<Chip, 4096>;

const DEVICE: [u8; 6] = [0x02, 0, 0, 0, 0, 0x01];
const TOOL: [u8; 6] = [0x02, 0, 0, 0, 0, 0x02];

/// Who the device is, as its GSDML file says.
fn identity() -> Identity {
    Identity {
        mac: Mac { octets: DEVICE },
        station_type: b"my-device".iter().copied().collect(),
        vendor_id: 0x0123,
        device_id: 0x0456,
        instance: 1,
        order_id: *b"ORDER-1             ",
        serial_number: *b"42              ",
        hardware_revision: 1,
        software_revision: *b"V\x01\x00\x00",
        profile_id: 0,
        profile_specific_type: 0,
    }
}

/// A submodule with this many octets of inputs and outputs.
fn submodule(subslot: u16, ident: u32, input: u16, output: u16) -> RealSubmodule {
    RealSubmodule {
        subslot,
        ident,
        input,
        output,
        ..RealSubmodule::default()
    }
}

fn module<const N: usize>(slot: u16, ident: u32, submodules: [RealSubmodule; N]) -> RealModule {
    RealModule {
        slot,
        ident,
        submodules: submodules.into_iter().collect(),
    }
}

/// What is plugged: the access point with its interface and a port, two octets of inputs, and two of outputs.
fn modules() -> Real {
    let interface = submodule(0x8000, 2, 0, 0);
    let port = submodule(0x8001, 3, 0, 0);
    let modules = [
        module(0, 1, [submodule(1, 1, 0, 0), interface, port]),
        module(1, 16, [submodule(1, 16, 2, 0)]),
        module(2, 32, [submodule(1, 32, 0, 2)]),
    ];
    Real {
        modules: modules.into_iter().collect(),
    }
}

fn start(chip: Chip) -> Result<Station, &'static str> {
    match Device::boot(identity(), modules(), chip) {
        Ok(device) => Ok(IoStation::new(device)),
        Err(_) => Err("the chip fails, or no device wrote it"),
    }
}

/// A DCP Set of the name, to be kept (IEC 61158-6-10, 4.3.1). Here its length is even; an odd one is followed by a zero.
fn set_name(name: &[u8]) -> Vec<u8> {
    let length = name.len() as u8;
    let header = [0xFE, 0xFD, 4, 0, 0, 0, 0, 7, 0, 0, 0, length + 6];
    let block = [2, 2, 0, length + 2, 0, 1];
    [&DEVICE[..], &TOOL, &[0x88, 0x92], &header, &block, name].concat()
}

fn main() -> Result<(), &'static str> {
    let mut station = start(Chip::blank())?;
    let mut outbox = StationOutbox::new();
    let frame = set_name(b"pump-1");
    let _ = station.step(&Event::Frame(Octets::of(&frame)), &mut outbox);
    for frame in outbox.device() {
        println!("the device sends {} octets", frame.len());
    }
    // A millisecond passes: 32 units of 31.25 microseconds.
    for _ in 0..32 {
        let _ = station.step(&Event::Tick, &mut outbox);
    }
    // The power fails. The chip keeps what it has.
    let chip = station.into_device().into_flash();
    let station = start(chip)?;
    let name = station.device().running().name.as_bytes();
    println!("after it the name is {}", String::from_utf8_lossy(name));
    assert_eq!(name, b"pump-1");
    Ok(())
}
