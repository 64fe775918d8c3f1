//! Plays a script (docs/SCRIPTS.md) over the crate nandutable, and prints what `pnscript run` prints: the demo
//! station over a chip in memory. It is also an example of a host in Rust: it boots the device, hands events in, sends the frames in
//! the box, and reads outputs.

use nandutable::device_core::{Device, Event, Note, Octets};
use nandutable::flash_model::{MemoryFlash, Order};
use nandutable::frame_codec::Outbox;
use nandutable::pn_values::{
    Identity, IpSuite, Mac, Real, RealModule, RealSubmodule, Settings, StationName,
};
use nandutable::relations::Phase;
use nandutable::settings_journal::BootFault;
use std::io::{self, BufRead, Write};
use std::process::ExitCode;

type Chip = MemoryFlash<4096>;

/// The station, or the reason why it did not start from its chip.
enum Power {
    On(Box<Device<Chip, 4096>>),
    Off(Box<Chip>),
}

/// A run: the station, and the frames of one step.
struct Player {
    power: Option<Power>,
    outbox: Outbox,
}

fn identity() -> Identity {
    Identity {
        mac: Mac {
            octets: [2, 0, 0, 0, 0, 1],
        },
        station_type: b"pn-demo".iter().copied().collect(),
        vendor_id: 0x0123,
        device_id: 0x0456,
        instance: 1,
        order_id: [b' '; 20],
        serial_number: [b' '; 16],
        hardware_revision: 0,
        software_revision: *b"V\0\0\0",
        profile_id: 0,
        profile_specific_type: 0,
    }
}

/// A module, and its submodules by subslot, ident number, and octets of input and output.
fn module(slot: u16, ident: u32, submodules: &[(u16, u32, u16, u16)]) -> RealModule {
    let plugged = submodules
        .iter()
        .map(|&(subslot, ident, input, output)| RealSubmodule {
            subslot,
            ident,
            input,
            output,
            ..RealSubmodule::default()
        });
    RealModule {
        slot,
        ident,
        submodules: plugged.collect(),
    }
}

fn real() -> Real {
    let access_point = module(0, 1, &[(1, 1, 0, 0), (0x8000, 2, 0, 0), (0x8001, 3, 0, 0)]);
    let modules = [
        access_point,
        module(1, 16, &[(1, 16, 2, 0)]),
        module(2, 32, &[(1, 32, 0, 2)]),
    ];
    Real {
        modules: modules.into_iter().collect(),
    }
}

fn hex(octets: &[u8]) -> String {
    octets.iter().map(|octet| format!("{octet:02x}")).collect()
}

/// Octets in hex; `None` if the text is not hex.
fn octets_of(text: &str) -> Option<Vec<u8>> {
    let is_hex = text.bytes().all(|digit| digit.is_ascii_hexdigit());
    if !is_hex || text.is_empty() || !text.len().is_multiple_of(2) {
        return None;
    }
    (0..text.len())
        .step_by(2)
        .map(|at| u8::from_str_radix(&text[at..at + 2], 16).ok())
        .collect()
}

fn number<T: std::str::FromStr>(text: &str) -> Option<T> {
    text.bytes()
        .all(|digit| digit.is_ascii_digit())
        .then(|| text.parse().ok())?
}

fn note_of(note: Note) -> &'static str {
    match note {
        Note::Done => "done",
        Note::NotMine => "not-mine",
        Note::Fault => "fault",
        Note::Filter => "filter",
        Note::OldCall => "old-call",
        Note::NoRelation => "no-relation",
        Note::StaleCycle => "stale-cycle",
        Note::Refused => "refused",
    }
}

fn name_of(name: &StationName) -> String {
    let text = String::from_utf8_lossy(name.as_bytes()).into_owned();
    if text.is_empty() { "-".into() } else { text }
}

fn suite_of(suite: &IpSuite) -> String {
    let parts = [suite.address(), suite.mask(), suite.gateway()];
    parts
        .map(|octets| octets.map(|octet| octet.to_string()).join("."))
        .join(" ")
}

/// The order of a line `cut K MASK` or `fault K MASK`.
fn order_of(word: &str, after: &str, mask: &str) -> Option<Order> {
    let (after, short) = (number(after)?, octets_of(mask)?);
    if ![1, 2, 4, 8].contains(&short.len()) {
        return None;
    }
    let mask = std::array::from_fn(|at| short[at % short.len()]);
    Some(if word == "cut" {
        Order::Cut { after, mask }
    } else {
        Order::Fault { after, mask }
    })
}

impl Player {
    fn boot(&mut self, chip: Chip, out: &mut impl Write) -> io::Result<()> {
        let (power, told) = match Device::boot(identity(), real(), chip) {
            Ok(device) => (Power::On(Box::new(device)), "ok"),
            Err((BootFault::FlashFault, chip)) => (Power::Off(Box::new(chip)), "flash-fault"),
            Err((BootFault::Foreign, chip)) => (Power::Off(Box::new(chip)), "foreign"),
        };
        self.power = Some(power);
        writeln!(out, "boot {told}")
    }

    fn restart(&mut self, out: &mut impl Write) -> io::Result<()> {
        let mut chip = match self.power.take() {
            Some(Power::On(device)) => device.into_flash(),
            Some(Power::Off(chip)) => *chip,
            None => Chip::blank(),
        };
        chip.power_up();
        self.boot(chip, out)
    }

    /// The station, while it has power.
    fn device(&mut self) -> Option<&mut Device<Chip, 4096>> {
        match &mut self.power {
            Some(Power::On(device)) if !device.is_lost() => Some(device),
            _ => None,
        }
    }

    /// Hands in this many equal events, and prints the frames sent. If power is lost, prints only that.
    fn step(&mut self, event: &Event<'_>, times: u32, out: &mut impl Write) -> io::Result<()> {
        let mut sent = Vec::new();
        let mut note = Note::Done;
        for _ in 0..times {
            let Some(Power::On(device)) = &mut self.power else {
                return Ok(());
            };
            note = device.step(event, &mut self.outbox);
            if device.is_lost() {
                return writeln!(out, "power lost");
            }
            for frame in self.outbox.as_slice() {
                writeln!(sent, "out {}", hex(frame.as_slice()))?;
            }
        }
        out.write_all(&sent)?;
        writeln!(out, "note {}", note_of(note))
    }

    fn show(&mut self, out: &mut impl Write) -> io::Result<()> {
        let Some(device) = self.device() else {
            return Ok(());
        };
        let (running, stored): (&Settings, &Settings) = (device.running(), device.stored());
        writeln!(
            out,
            "name {}\nip {}",
            name_of(&running.name),
            suite_of(&running.suite)
        )?;
        writeln!(
            out,
            "stored-name {}\nstored-ip {}",
            name_of(&stored.name),
            suite_of(&stored.suite)
        )?;
        let texts = [
            running.im1.as_bytes(),
            running.im2.as_bytes(),
            running.im3.as_bytes(),
            running.im4.as_bytes(),
        ];
        for (number, text) in (1..).zip(texts) {
            writeln!(out, "im{number} {}", hex(text))?;
        }
        let phase = match device.phase() {
            None => "none",
            Some(Phase::Started) => "started",
            Some(Phase::Preparing | Phase::Awaiting) => "awaiting",
            Some(Phase::Exchanging) => "exchanging",
        };
        writeln!(out, "phase {phase}\nlamp {}", device.lamp())?;
        for plugged in &device.real().modules {
            for submodule in plugged
                .submodules
                .iter()
                .filter(|submodule| submodule.output != 0)
            {
                let value = device
                    .output(plugged.slot, submodule.subslot)
                    .unwrap_or(&[]);
                writeln!(
                    out,
                    "output {} {} {}",
                    plugged.slot,
                    submodule.subslot,
                    hex(value)
                )?;
            }
        }
        Ok(())
    }

    /// Plays a line that is not empty. Returns whether it is a valid script line.
    fn play(&mut self, line: &str, out: &mut impl Write) -> io::Result<bool> {
        let words: Vec<&str> = line.split(' ').collect();
        if words == ["restart"] {
            self.restart(out)?;
            return Ok(true);
        }
        let Some(device) = self.device() else {
            writeln!(out, "off")?;
            return Ok(true);
        };
        // What the last word says in hex. The event borrows it.
        let octets = words.last().and_then(|text| octets_of(text));
        let event = match words.as_slice() {
            ["show"] => {
                self.show(out)?;
                return Ok(true);
            }
            [word @ ("cut" | "fault"), after, mask] => {
                let order = order_of(word, after, mask);
                let is_order = order.is_some();
                if let Some(order) = order {
                    device.arm(order);
                }
                return Ok(is_order);
            }
            ["tick", units] => match number::<u32>(units) {
                Some(units @ 1..=1_000_000) => {
                    return self.step(&Event::Tick, units, out).map(|()| true);
                }
                _ => None,
            },
            ["frame", _] => octets
                .as_deref()
                .map(|octets| Event::Frame(Octets::of(octets))),
            [word @ ("input" | "alarm"), slot, subslot, _] => {
                match (number(slot), number(subslot), &octets) {
                    (Some(slot), Some(subslot), Some(octets)) if *word == "input" => {
                        Some(Event::input(slot, subslot, octets))
                    }
                    (Some(slot), Some(subslot), Some(octets)) => {
                        Some(Event::alarm(slot, subslot, octets))
                    }
                    _ => None,
                }
            }
            _ => None,
        };
        match event {
            Some(event) => self.step(&event, 1, out).map(|()| true),
            None => Ok(false),
        }
    }
}

fn main() -> io::Result<ExitCode> {
    let mut player = Player {
        power: None,
        outbox: Outbox::new(),
    };
    let mut out = io::BufWriter::new(io::stdout().lock());
    player.boot(Chip::blank(), &mut out)?;
    for (number, line) in io::stdin().lock().lines().enumerate() {
        let line = line?;
        let line = line.strip_suffix('\r').unwrap_or(&line);
        if line.is_empty() || line.starts_with('#') {
            continue;
        }
        if !player.play(line, &mut out)? {
            out.flush()?;
            eprintln!("player: line {}", number + 1);
            return Ok(ExitCode::from(3));
        }
    }
    out.flush()?;
    Ok(ExitCode::SUCCESS)
}
