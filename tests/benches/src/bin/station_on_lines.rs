//! `station_on_lines` is the demo station, with the services beside it, over a flash in memory, driven by lines. Each is answered at once,
//! so a program that has a packet socket can put the station on a wire (`tests/interoperation/lldpd.py`):
//!
//! ```text
//! frame OCTETS       a frame comes
//! tick UNITS         this many units of time go by
//! ```
//!
//! Octets are in hex. It prints `out OCTETS` for each frame that is sent, and then `done`.
use device_core::{Device, Event, Octets};
use device_station::{IoStation, StationOutbox};
use flash_model::MemoryFlash;
use pn_values::{demo_identity, demo_modules};
use std::io::{self, BufRead, ErrorKind, Write};

/// Octets of a sector of its flash.
const SECTOR: usize = 4096;

/// What a line asks for.
enum Turn {
    Frame(Vec<u8>),
    Units(u32),
}

/// Octets in hex.
fn octets_of(digits: &str) -> Option<Vec<u8>> {
    let pairs = (0..digits.len()).step_by(2);
    pairs.map(|at| u8::from_str_radix(digits.get(at..at + 2)?, 16).ok()).collect()
}

/// The meaning of a line.
fn turn_of(line: &str) -> Option<Turn> {
    match line.split_once(' ')? {
        ("frame", digits) => octets_of(digits).map(Turn::Frame),
        ("tick", units) => units.parse().ok().map(Turn::Units),
        _ => None,
    }
}

/// Prints the frames of a step.
fn print(outbox: &StationOutbox, out: &mut impl Write) -> io::Result<()> {
    for frame in outbox.device().iter().chain(outbox.services()) {
        let digits: String = frame.as_slice().iter().map(|octet| format!("{octet:02x}")).collect();
        writeln!(out, "out {digits}")?;
    }
    Ok(())
}

fn main() -> io::Result<()> {
    let flash = MemoryFlash::<SECTOR>::blank();
    let Ok(device) = Device::boot(demo_identity(), demo_modules(), flash) else {
        return Err(ErrorKind::Other.into());
    };
    let mut station = Box::new(IoStation::new(device));
    let mut outbox = StationOutbox::new();
    let mut out = io::stdout().lock();
    for line in io::stdin().lock().lines() {
        match turn_of(&line?).ok_or(ErrorKind::InvalidData)? {
            Turn::Frame(octets) => {
                station.step(&Event::Frame(Octets::of(&octets)), &mut outbox);
                print(&outbox, &mut out)?;
            }
            Turn::Units(mut units) => {
                while units > 0 {
                    let leap = units.min(station.due());
                    station.elapse(leap, &mut outbox);
                    print(&outbox, &mut out)?;
                    units -= leap;
                }
            }
        }
        writeln!(out, "done")?;
        out.flush()?;
    }
    Ok(())
}
