//! A PROFINET IO device on a network interface of Linux, with its settings in the file `device.flash`. What a controller gives to the
//! outputs of slot 2 comes back in the inputs of slot 1.
//!
//! ```sh
//! cargo build --example device && sudo target/debug/examples/device eth0
//! ```
//!
//! The interface has no IP address of its own: the device answers for the address that it is given.

use nandutable::{
    Device, Event, Flash, FlashFault, Identity, IoStation, Mac, Octets, Order, Real, RealModule,
    RealSubmodule, Sector, StationOutbox,
};
use std::ffi::{CString, c_char, c_int, c_uint, c_void};
use std::fs::{File, OpenOptions};
use std::io;
use std::net::UdpSocket;
use std::os::fd::{FromRawFd, OwnedFd};
use std::os::unix::fs::FileExt;
use std::time::{Duration, Instant};

/// The octets of a sector: 512, and 256 for each of 14 slots.
const SECTOR: usize = 4096;

/// A flash of two sectors in a file.
struct FileFlash {
    file: File,
    failures: u64,
}

impl FileFlash {
    fn open(path: &str) -> io::Result<FileFlash> {
        let file = OpenOptions::new()
            .read(true)
            .write(true)
            .create(true)
            .truncate(false)
            .open(path)?;
        if file.metadata()?.len() == 0 {
            file.write_all_at(&[0xFF; 2 * SECTOR], 0)?;
        }
        Ok(FileFlash { file, failures: 0 })
    }

    /// Says how a call ended, and counts those that failed.
    fn ended(&mut self, done: io::Result<()>) -> Result<(), FlashFault> {
        done.map_err(|_| {
            self.failures += 1;
            FlashFault
        })
    }
}

fn place_of(sector: Sector, place: usize) -> u64 {
    match sector {
        Sector::First => place as u64,
        Sector::Second => (SECTOR + place) as u64,
    }
}

impl Flash<SECTOR> for FileFlash {
    fn read(&mut self, sector: Sector, place: usize, buffer: &mut [u8]) -> Result<(), FlashFault> {
        let done = self.file.read_exact_at(buffer, place_of(sector, place));
        self.ended(done)
    }

    /// A flash clears bits and sets none.
    fn program(&mut self, sector: Sector, place: usize, bytes: &[u8]) -> Result<(), FlashFault> {
        let mut octets = vec![0; bytes.len()];
        self.read(sector, place, &mut octets)?;
        octets
            .iter_mut()
            .zip(bytes)
            .for_each(|(octet, byte)| *octet &= byte);
        let done = self
            .file
            .write_all_at(&octets, place_of(sector, place))
            .and_then(|()| self.file.sync_data());
        self.ended(done)
    }

    fn erase(&mut self, sector: Sector) -> Result<(), FlashFault> {
        let done = self
            .file
            .write_all_at(&[0xFF; SECTOR], place_of(sector, 0))
            .and_then(|()| self.file.sync_data());
        self.ended(done)
    }

    fn failures(&self) -> u64 {
        self.failures
    }

    /// A process that writes a file does not notice a loss of power.
    fn is_lost(&self) -> bool {
        false
    }

    /// For tests of the device alone.
    fn arm(&mut self, _: Order) {}
}

/// An address of Linux for packets (packet(7)).
#[repr(C)]
struct PacketAddress {
    family: u16,
    protocol: u16,
    interface: c_int,
    rest: [u8; 12],
}

unsafe extern "C" {
    fn socket(domain: c_int, kind: c_int, protocol: c_int) -> c_int;
    fn bind(socket: c_int, address: *const c_void, length: c_uint) -> c_int;
    fn if_nametoindex(name: *const c_char) -> c_uint;
}

/// A socket for whole Ethernet frames on this interface. It waits for a millisecond at most.
fn ethernet(interface: &str) -> io::Result<UdpSocket> {
    const PACKETS: c_int = 17;
    const RAW: c_int = 3;
    let every_protocol = 3u16.to_be();
    let name = CString::new(interface)?;
    // SAFETY: each call is given what its manual page asks for, and the socket is owned from here on.
    let link = unsafe {
        let made = socket(PACKETS, RAW, c_int::from(every_protocol));
        if made < 0 {
            return Err(io::Error::last_os_error());
        }
        let link = UdpSocket::from(OwnedFd::from_raw_fd(made));
        let address = PacketAddress {
            family: PACKETS as u16,
            protocol: every_protocol,
            interface: if_nametoindex(name.as_ptr()) as c_int,
            rest: [0; 12],
        };
        if bind(
            made,
            (&raw const address).cast(),
            size_of::<PacketAddress>() as c_uint,
        ) != 0
        {
            return Err(io::Error::last_os_error());
        }
        link
    };
    link.set_read_timeout(Some(Duration::from_millis(1)))?;
    Ok(link)
}

/// The MAC address of this interface.
fn mac_of(interface: &str) -> io::Result<Mac> {
    let text = std::fs::read_to_string(format!("/sys/class/net/{interface}/address"))?;
    let mut octets = [0; 6];
    for (octet, digits) in octets.iter_mut().zip(text.trim().split(':')) {
        *octet = u8::from_str_radix(digits, 16).map_err(io::Error::other)?;
    }
    Ok(Mac { octets })
}

fn identity(mac: Mac) -> Identity {
    Identity {
        mac,
        station_type: b"my-device".iter().copied().collect(),
        vendor_id: 0x0123,
        device_id: 0x0456,
        instance: 1,
        order_id: *b"ORDER-1             ",
        serial_number: *b"42              ",
        hardware_revision: 1,
        software_revision: *b"V\x01\x00\x00",
        profile_id: 0,
        profile_specific_type: 0,
    }
}

fn submodule(subslot: u16, ident: u32, input: u16, output: u16) -> RealSubmodule {
    RealSubmodule {
        subslot,
        ident,
        input,
        output,
        ..RealSubmodule::default()
    }
}

fn module<const N: usize>(slot: u16, ident: u32, submodules: [RealSubmodule; N]) -> RealModule {
    RealModule {
        slot,
        ident,
        submodules: submodules.into_iter().collect(),
    }
}

/// The access point with its interface and a port, two octets of inputs in slot 1, and two of outputs in slot 2.
fn modules() -> Real {
    let access_point = [
        submodule(1, 1, 0, 0),
        submodule(0x8000, 2, 0, 0),
        submodule(0x8001, 3, 0, 0),
    ];
    let modules = [
        module(0, 1, access_point),
        module(1, 16, [submodule(1, 16, 2, 0)]),
        module(2, 32, [submodule(1, 32, 0, 2)]),
    ];
    Real {
        modules: modules.into_iter().collect(),
    }
}

/// Sends what an event left: the frames of the device, then those of the services. A frame that cannot be sent is lost, as on a wire.
fn send(link: &UdpSocket, outbox: &StationOutbox) {
    for frame in outbox.device().iter().chain(outbox.services()) {
        let _ = link.send(frame.as_slice());
    }
}

fn main() -> io::Result<()> {
    let Some(interface) = std::env::args().nth(1) else {
        return Err(io::Error::other("usage: device INTERFACE"));
    };
    let link = ethernet(&interface)?;
    let flash = FileFlash::open("device.flash")?;
    let Ok(device) = Device::boot(identity(mac_of(&interface)?), modules(), flash) else {
        return Err(io::Error::other(
            "device.flash cannot be read, or no device wrote it",
        ));
    };
    println!(
        "the name is '{}'",
        String::from_utf8_lossy(device.running().name.as_bytes())
    );
    let mut station = Box::new(IoStation::new(device));
    let mut outbox = StationOutbox::new();
    let mut room = [0; 1519];
    let (begin, mut passed) = (Instant::now(), 0);
    loop {
        // Time: units of 31.25 microseconds, as many at once as bring nothing before the last of them.
        // After a stall all but two milliseconds are dropped.
        let units = begin.elapsed().as_nanos() / 31_250;
        passed = passed.max(units.saturating_sub(64));
        while passed < units {
            let some = u32::try_from(units - passed)
                .unwrap_or(u32::MAX)
                .min(station.due());
            let _ = station.elapse(some, &mut outbox);
            send(&link, &outbox);
            passed += u128::from(some);
        }
        // A frame, if one comes within a millisecond.
        if let Ok(length) = link.recv(&mut room) {
            let _ = station.step(&Event::Frame(Octets::of(&room[..length])), &mut outbox);
            send(&link, &outbox);
        }
        // The application: an output is an input.
        let output = station
            .device()
            .output(2, 1)
            .and_then(|octets| <[u8; 2]>::try_from(octets).ok());
        if let Some(value) = output {
            let _ = station.step(&Event::input(1, 1, &value), &mut outbox);
            send(&link, &outbox);
        }
    }
}
