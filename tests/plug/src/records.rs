//! Which records of a relation are forgotten, over all scripts: those of the places of a pull or a plug, as its alarm is first sent,
//! and no others.

use crate::{SCRIPTS, each};
use device_core::{Device, Event, Note, Octets};
use flash_model::MemoryFlash;
use frame_codec::{Bytes, Outbox};
use pn_values::{ParameterRecord, RealSubmodule, demo_identity, demo_modules};
use relations::DeviceOptions;

/// The demo device.
type Demo = Device<MemoryFlash<4096>, 4096>;

/// A record: slot, subslot, index and octets.
type Record = (u16, u16, u16, Vec<u8>);

/// The octets of hex digits.
fn octets(digits: &str) -> Bytes {
    (0..digits.len()).step_by(2).map(|place| u8::from_str_radix(&digits[place..place + 2], 16).expect("hex")).collect()
}

/// The submodule of a line `plug`.
fn submodule(numbers: &[u32]) -> RealSubmodule {
    let mut part = RealSubmodule {
        subslot: numbers[1] as u16,
        ident: numbers[3],
        input: numbers[4] as u16,
        output: numbers[5] as u16,
        ..RealSubmodule::default()
    };
    for record in numbers[6..].chunks(2) {
        part.parameters.push(ParameterRecord {
            index: record[0] as u16,
            length: record[1] as u16,
        });
    }
    part
}

/// The octets that the words of a line spell, if it has some.
fn spelled<'a>(words: &[&'a str]) -> Option<&'a str> {
    match words[0] {
        "frame" => Some(words[1]),
        "input" | "alarm" => Some(words[3]),
        _ => None,
    }
}

/// The event of a line, if it is one of the device. `room` holds the octets that the line spells.
fn event<'a>(line: &str, room: &'a mut Bytes) -> Option<Event<'a>> {
    let words: Vec<&str> = line.split(' ').collect();
    let number = |place: usize| words[place].parse::<u32>().expect("a number");
    let short = |place: usize| number(place) as u16;
    if let Some(digits) = spelled(&words) {
        *room = octets(digits);
    }
    Some(match (words[0], words.len()) {
        ("frame", _) => Event::Frame(Octets::of(room)),
        ("input", _) => Event::input(short(1), short(2), room),
        ("alarm", _) => Event::alarm(short(1), short(2), room),
        ("status", _) => Event::status(short(1), short(2), words[3] == "good"),
        ("diagnosis", _) => Event::diagnosis(short(1), short(2), short(3), short(4), words[5] == "appears"),
        ("pull", 2) => Event::pull_module(short(1)),
        ("pull", _) => Event::pull(short(1), short(2)),
        ("plug", _) => {
            let numbers: Vec<u32> = (1..words.len()).map(number).collect();
            Event::plug(numbers[0] as u16, numbers[2], submodule(&numbers))
        }
        ("ready", 1) => Event::ready(),
        ("ready", _) => Event::ready_at(short(1), short(2)),
        _ => return None,
    })
}

/// The options after a line `option`.
fn options_after(options: DeviceOptions, line: &str) -> DeviceOptions {
    let words: Vec<&str> = line.split(' ').collect();
    match words[1] {
        "inputs-bad" => DeviceOptions {
            inputs_begin_bad: words[2] == "on",
            ..options
        },
        "ready" => DeviceOptions {
            ready_by_application: words[2] == "on",
            ..options
        },
        _ => DeviceOptions {
            smallest_interval: words[2].parse().expect("a number"),
            ..options
        },
    }
}

/// A demo device over this flash.
fn started(options: DeviceOptions, flash: MemoryFlash<4096>) -> Demo {
    match Device::boot_with(demo_identity(), demo_modules(), options, flash) {
        Ok(device) => device,
        Err(_) => panic!("it starts"),
    }
}

/// The records that a device has taken.
fn taken(device: &Demo) -> Vec<Record> {
    device.taken().iter().map(|record| (record.slot, record.subslot, record.index, record.value.to_vec())).collect()
}

/// Slot and subslot of the alarm of a pull or a plug in a frame, if it is one.
fn alarm_in(frame: &[u8]) -> Option<(u16, u16)> {
    let at = |place: usize| u16::from_be_bytes([frame[place], frame[place + 1]]);
    // Ethernet with a tag, FrameID, the PDU of 12 octets, and the block.
    let is_data = frame.len() >= 60 && at(16) == 0x8892 && at(18) == 0xFE01 && frame[24] == 0x11;
    if !is_data || at(32) != 0x0002 || ![0x0003, 0x0004, 0x000A, 0x001F].contains(&at(38)) {
        return None;
    }
    Some((at(44), at(46)))
}

/// Whether a place has been pulled or plugged by an alarm.
fn is_hit(alarm: (u16, u16), record: &Record) -> bool {
    alarm.0 == record.0 && (alarm.1 == 0 || alarm.1 == record.1)
}

/// One event that is no unit of time. Returns how many records were forgotten by an alarm.
fn step(device: &mut Demo, event: &Event<'_>, place: &str) -> usize {
    let (before, relation) = (taken(device), device.ar().copied());
    let mut outbox = Outbox::new();
    let note = device.step(event, &mut outbox);
    let after = taken(device);
    if device.ar().copied() != relation {
        return 0;
    }
    // An alarm that is sent in the step of an event which is no unit of time is sent for the first time.
    let alarms: Vec<(u16, u16)> = outbox.as_slice().iter().filter_map(|frame| alarm_in(frame.as_slice())).collect();
    let kept: Vec<Record> = before.iter().filter(|record| !alarms.iter().any(|alarm| is_hit(*alarm, record))).cloned().collect();
    assert!(after.starts_with(&kept), "{place}: other records are gone");
    assert!(after.len() <= kept.len() + 16, "{place}: more than one Write");
    if note != Note::Done {
        assert_eq!(before, after, "{place}: a refused event changes nothing");
    }
    before.len() - kept.len()
}

#[test]
fn records_are_forgotten_as_the_alarm_is_first_sent_and_not_before() {
    let mut forgotten = 0;
    for (name, lines) in each(SCRIPTS) {
        let mut options = DeviceOptions::default();
        let mut device = started(options, MemoryFlash::blank());
        for (number, line) in lines.lines().enumerate() {
            let place = format!("{name}, line {}", number + 1);
            if line.starts_with("option ") {
                options = options_after(options, line);
            } else if line == "restart" {
                device = started(options, device.into_flash());
            } else if let Some(units) = line.strip_prefix("tick ").or(line.strip_prefix("elapse ")) {
                let (before, relation) = (taken(&device), device.ar().copied());
                let mut outbox = Outbox::new();
                for _ in 0..units.parse::<u32>().expect("a number") {
                    let _ = device.step(&Event::Tick, &mut outbox);
                }
                if device.ar().copied() == relation {
                    assert_eq!(before, taken(&device), "{place}: units forget nothing");
                }
            } else if let Some(event) = event(line, &mut Bytes::new()) {
                forgotten += step(&mut device, &event, &place);
            }
        }
    }
    // The scripts show it.
    assert!(forgotten > 10, "{forgotten} records were forgotten");
}
