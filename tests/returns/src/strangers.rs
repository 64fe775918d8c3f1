//! Frames of other stations. Those of PROFINET are what another device and other controllers of the same make send in a start-up of their
//! own; the others are put together here.
use crate::draws::Draws;
use crate::ends::{End, controller_of, modules_of, numbered, station_of};
use crate::tokens::{entries, is_datagram, number, tagged, token, type_at};
use controller_core::{ControllerOptions, Event as ControllerEvent};
use device_core::{Event as DeviceEvent, Octets};
use frame_codec::{Outbox, ones_sum};
use pn_values::{Identity, Mac, demo_identity};
use relations::DeviceOptions;
use std::collections::HashMap;
use test_stations::{IDENTIFY, octets};

/// The MAC address of the device, and that of its controller.
const DEVICE: [u8; 6] = [2, 0, 0, 0, 0, 1];
const CONTROLLER: [u8; 6] = [2, 0, 0, 0, 0, 2];

/// A frame of another station.
pub struct Stranger {
    /// What it is. Of a call that the device may answer it is the kind of call and its activity.
    pub name: String,
    pub octets: Vec<u8>,
}

/// The frames that other stations sent, by what they say.
type Frames = HashMap<String, Vec<Vec<u8>>>;

/// The frames of strangers in a world with this plan.
#[derive(Clone)]
pub struct Strangers {
    /// Of another controller that asks for a relation of its own, to this device.
    rival: Frames,
    /// Of another controller that only talks to this device.
    talker: Frames,
    /// Of another device, to this controller.
    other: Frames,
    /// Of this device and of this controller, before their FrameID or their endpoint is changed.
    own: Frames,
    /// The number of the last relation that the rival asked for.
    last: u32,
    /// How many frames of its start the rival sent after that.
    steps: usize,
    /// The counter of its last outputs.
    counter: u16,
}

/// Relations of the rival are numbered from here on.
const RIVAL: u32 = 0x7000_0000;

/// The identity of another device of the same type.
fn other_identity() -> Identity {
    Identity { mac: Mac { octets: [2, 0, 0, 0, 0, 8] }, ..demo_identity() }
}

/// The plan with another controller.
fn with_controller(plan: &str, last: u8) -> String {
    plan.replace("\"02-00-00-00-00-02\"", &format!("\"02-00-00-00-00-{last:02X}\""))
        .replace("\"192.168.0.1\"", &format!("\"192.168.0.{last}\""))
}

/// The plan with the other station.
fn with_station(plan: &str) -> String {
    plan.replace("\"pump-1\"", "\"pump-2\"").replace("\"192.168.0.2\"", "\"192.168.0.8\"")
}

/// Keeps frames by the first word of what they say.
fn keep(frames: &mut Frames, from: End, outbox: &Outbox) -> Vec<Vec<u8>> {
    let sent: Vec<Vec<u8>> = outbox.as_slice().iter().map(|sent| sent.as_slice().to_vec()).collect();
    for octets in &sent {
        let said = token(octets, from);
        let word = said.split([':', '#']).next().unwrap_or("");
        frames.entry(format!("{from:?} {word}")).or_default().push(octets.clone());
    }
    sent
}

/// All frames of a start-up of these two, of an exchange with an alarm and a diagnosis, and of the Release.
fn scene(identity: fn() -> Identity, name: &str, plan: &str) -> Frames {
    let mut device = station_of(identity, modules_of(plan), name, DeviceOptions::default());
    let mut controller = controller_of(plan, numbered(0xC0, 0), numbered(0xD0, 0), ControllerOptions::default());
    let (mut frames, mut outbox) = (Frames::new(), Outbox::new());
    controller.send_opening(&mut outbox);
    let mut waiting = to_other(End::Controller, keep(&mut frames, End::Controller, &outbox));
    for unit in 0..100_000 {
        while !waiting.is_empty() {
            let (end, heard) = waiting.remove(0);
            match end {
                End::Device => {
                    let _ = device.step(&DeviceEvent::Frame(Octets::of(&heard)), &mut outbox);
                }
                End::Controller => controller.step(&ControllerEvent::Frame(octets(&heard)), &mut outbox),
            }
            waiting.extend(to_other(end, keep(&mut frames, end, &outbox)));
        }
        let event = match unit {
            50_000 => DeviceEvent::alarm(1, 1, b"xy"),
            50_010 => DeviceEvent::diagnosis(1, 1, 7, 1, true),
            _ => DeviceEvent::Tick,
        };
        let _ = device.step(&event, &mut outbox);
        waiting.extend(to_other(End::Device, keep(&mut frames, End::Device, &outbox)));
        let event = if unit == 99_990 { ControllerEvent::Stop } else { ControllerEvent::Tick };
        controller.step(&event, &mut outbox);
        waiting.extend(to_other(End::Controller, keep(&mut frames, End::Controller, &outbox)));
    }
    for end in ["Device", "Controller"] {
        let errors = frames[&format!("{end} ackh")].iter().map(|ack| as_error(ack)).collect();
        frames.insert(format!("{end} err"), errors);
    }
    frames
}

/// The ERR (data hold) of the end that sent this ACK.
fn as_error(ack: &[u8]) -> Vec<u8> {
    let mut error = ack.to_vec();
    let at = type_at(ack) + 2;
    put(&mut error, at, &[0xFE, 0x01]);
    put(&mut error, at + 6, &[ack[at + 6] & 0xF0 | 4]);
    put(&mut error, at + 12, &[0, 4, 0xCF, 0x81, 0xFD, 5]);
    error
}

/// What an end sent, for the other one.
fn to_other(from: End, sent: Vec<Vec<u8>>) -> Vec<(End, Vec<u8>)> {
    let end = if from == End::Device { End::Controller } else { End::Device };
    sent.into_iter().map(|octets| (end, octets)).collect()
}

/// One of the frames of this kind.
fn pick(draws: &mut Draws, frames: &Frames, kind: &str) -> Option<Vec<u8>> {
    let list = frames.get(kind)?;
    Some(list[draws.below(list.len())].clone())
}

/// Puts octets at an offset.
fn put(octets: &mut [u8], at: usize, new: &[u8]) {
    if let Some(there) = octets.get_mut(at..at + new.len()) {
        there.copy_from_slice(new);
    }
}

/// A call of another controller with another activity and ARUUID, which end with this number.
fn numbered_call(mut call: Vec<u8>, whose: u32) -> Vec<u8> {
    put(&mut call, 94, &whose.to_be_bytes());
    put(&mut call, 162, &whose.to_be_bytes());
    put(&mut call, 40, &[0, 0]);
    for entry in entries(&call) {
        put(&mut call, entry + 20, &whose.to_be_bytes());
    }
    call
}

/// A frame from another station: its source is changed.
fn from_elsewhere(mut frame: Vec<u8>) -> Vec<u8> {
    put(&mut frame, 6, &[2, 0, 0, 0, 0, 0x0B]);
    frame
}

/// An IPv4 packet to an address, with this protocol and flags.
fn packet(to: [u8; 6], address: [u8; 4], protocol: u8, flags: [u8; 2], body: &[u8]) -> Vec<u8> {
    let mut frame = to.to_vec();
    frame.extend_from_slice(&[2, 0, 0, 0, 0, 0x0A, 0x08, 0x00, 0x45, 0]);
    frame.extend_from_slice(&((20 + body.len()) as u16).to_be_bytes());
    frame.extend_from_slice(&[0, 7, flags[0], flags[1], 64, protocol, 0, 0, 192, 168, 0, 10]);
    frame.extend_from_slice(&address);
    let sum = !ones_sum(&frame[14..34]);
    put(&mut frame, 24, &sum.to_be_bytes());
    frame.extend_from_slice(body);
    frame
}

fn arp(to: [u8; 6], operation: u8, address: [u8; 4]) -> Vec<u8> {
    let mut frame = to.to_vec();
    frame.extend_from_slice(&[2, 0, 0, 0, 0, 0x0A, 0x08, 0x06, 0, 1, 8, 0, 6, 4, 0, operation, 2, 0, 0, 0, 0, 0x0A, 192, 168, 0, 10]);
    frame.extend_from_slice(&[0; 6]);
    frame.extend_from_slice(&address);
    frame.resize(60, 0);
    frame
}

fn lldp() -> Vec<u8> {
    let mut frame = vec![1, 0x80, 0xC2, 0, 0, 0x0E, 2, 0, 0, 0, 0, 0x0A, 0x88, 0xCC];
    frame.extend_from_slice(b"\x02\x09\x07switch-1\x04\x09\x07port-001\x06\x02\x00\x14\x00\x00");
    frame.resize(60, 0);
    frame
}

fn echo(to: [u8; 6], address: [u8; 4]) -> Vec<u8> {
    let mut body = b"\x08\x00\x00\x00\x00\x01\x00\x01abcdefgh".to_vec();
    let sum = !ones_sum(&body);
    put(&mut body, 2, &sum.to_be_bytes());
    packet(to, address, 1, [0, 0], &body)
}

fn dcp(to: [u8; 6], frame_id: u16, service: u8, block: &[u8]) -> Vec<u8> {
    let mut frame = to.to_vec();
    frame.extend_from_slice(&[2, 0, 0, 0, 0, 0x0A, 0x88, 0x92]);
    frame.extend_from_slice(&frame_id.to_be_bytes());
    frame.extend_from_slice(&[service, 0, 0, 0, 0, 9, 0, 0, 0, block.len() as u8]);
    frame.extend_from_slice(block);
    frame.resize(60, 0);
    frame
}

/// The address of an end.
fn address_of(end: End) -> ([u8; 6], [u8; 4]) {
    match end {
        End::Device => (DEVICE, [192, 168, 0, 2]),
        End::Controller => (CONTROLLER, [192, 168, 0, 1]),
    }
}

/// A frame that no station of PROFINET need have sent, and requests of DCP.
fn plain(draws: &mut Draws, end: End) -> Stranger {
    let (mac, address) = address_of(end);
    let elsewhere = [2, 0, 0, 0, 0, 0x0C];
    let (name, octets) = match draws.below(12) {
        0 => ("arp-request", arp([255; 6], 1, address)),
        1 => ("arp-reply", arp(mac, 2, address)),
        2 => ("lldp", lldp()),
        3 => ("echo", echo(mac, address)),
        4 => ("get", dcp(mac, 0xFEFD, 3, &[2, 2, 1, 2, 2, 3])),
        5 => {
            let mut frame = IDENTIFY.to_vec();
            put(&mut frame, 11, &[0x0A]);
            ("identify-all", frame)
        }
        6 => ("identify-other", dcp([1, 0x0E, 0xCF, 0, 0, 0], 0xFEFE, 0, b"\x02\x02\x00\x06pump-2")),
        7 => ("set-other", dcp(elsewhere, 0xFEFD, 4, b"\x02\x02\x00\x08\x00\x00pump-9")),
        8 => ("reset-other", dcp(elsewhere, 0xFEFD, 4, b"\x05\x06\x00\x02\x00\x04")),
        9 => ("fragment", packet(mac, address, 17, [0x20, 0], &[0x88, 0x94, 0x88, 0x94, 0x05, 0x00, 0, 0, 4, 0, 0x20, 0, 0, 0, 0, 0])),
        10 => ("later-fragment", packet(mac, address, 17, [0x20, 0xB9], &[0; 64])),
        _ => {
            let size = 14 + draws.below(120);
            let mut frame: Vec<u8> = (0..size).map(|_| draws.below(256) as u8).collect();
            put(&mut frame, 0, &mac);
            put(&mut frame, 6, &[2, 0, 0, 0, 0, 0x0D]);
            ("random", frame)
        }
    };
    Stranger { name: format!("x-{name}"), octets }
}

impl Strangers {
    /// The frames of strangers in a world with this plan.
    pub fn new(plan: &str) -> Strangers {
        Strangers {
            rival: scene(demo_identity, "pump-1", &with_controller(plan, 7)),
            talker: scene(demo_identity, "pump-1", &with_controller(plan, 9)),
            other: scene(other_identity, "pump-2", &with_station(plan)),
            own: scene(demo_identity, "pump-1", plan),
            last: 0,
            steps: 0,
            counter: 0,
        }
    }

    /// A schedule begins: the rival asked for nothing yet.
    pub fn begin(&mut self) {
        (self.last, self.steps, self.counter) = (0, 0, 0);
    }

    /// A frame of a stranger to this end. `owner` is the number of the device's relation, and `is_addressing` says whether the controller
    /// waits for the answer to its Set.
    pub fn one(&mut self, draws: &mut Draws, end: End, owner: u32, is_addressing: bool) -> Stranger {
        let stranger = match (end, draws.below(10)) {
            (End::Device, _) if owner > RIVAL && draws.one_in(2) => return self.rival_goes_on(draws),
            (End::Device, 0..3) | (End::Controller, 0..4) => plain(draws, end),
            (End::Device, 3..5) => self.rival_call(draws, owner == 0),
            (End::Device, 5..7) => self.talk(draws),
            (End::Device, _) => self.bent(draws, End::Device, &["out", "takenh", "lowtakenl", "ackh", "ackl", "err"]),
            (End::Controller, 4..8) => self.of_other(draws, is_addressing),
            (End::Controller, _) => self.bent(draws, End::Controller, &["in", "alarmh", "lowl", "ackh", "ackl", "err"]),
        };
        if draws.one_in(3) {
            return Stranger { octets: tagged(&stranger.octets), ..stranger };
        }
        stranger
    }

    /// What another controller says that asks for a relation: a Connect, its Release, or the next frame of its start. Or the Set of a
    /// name while there is a relation.
    fn rival_call(&mut self, draws: &mut Draws, is_free: bool) -> Stranger {
        match draws.below(8) {
            0..2 => {
                if self.last == 0 || draws.one_in(2) {
                    self.last += 1;
                    self.steps = 0;
                }
                self.call(draws, false, "connect", RIVAL + self.last)
            }
            2 if self.last != 0 => self.call(draws, false, "release", RIVAL + self.last),
            3 if !is_free => {
                Stranger { name: String::from("x-set-name"), octets: dcp(DEVICE, 0xFEFD, 4, b"\x02\x02\x00\x08\x00\x00pump-9") }
            }
            4.. if self.last != 0 => self.rival_goes_on(draws),
            _ => plain(draws, End::Device),
        }
    }

    /// The next frame of a start of the rival, mostly; then its outputs, with counters that rise.
    fn rival_goes_on(&mut self, draws: &mut Draws) -> Stranger {
        let step = self.steps.saturating_sub(usize::from(draws.one_in(6)));
        self.steps = step + 1;
        let calls: Vec<Vec<u8>> = ["write", "end", "confirm"]
            .iter()
            .flat_map(|word| self.rival.get(&format!("Controller {word}")).cloned().unwrap_or_default())
            .collect();
        let whose = RIVAL + self.last;
        match calls.get(step) {
            Some(octets) => {
                let octets = numbered_call(octets.clone(), whose);
                Stranger { name: format!("rival {}", token(&octets, End::Controller)), octets }
            }
            None => {
                let mut octets = pick(draws, &self.rival, "Controller out").expect("outputs were sent");
                let place = octets.len() - 4;
                self.counter = self.counter.wrapping_add(draws.below(40) as u16);
                put(&mut octets, place, &self.counter.to_be_bytes());
                let at = type_at(&octets) + 4;
                put(&mut octets, at, &draws.value());
                put(&mut octets, at + 2, &[if draws.one_in(4) { 0 } else { 0x80 }]);
                Stranger { name: format!("rival {}", token(&octets, End::Controller)), octets }
            }
        }
    }

    fn call(&self, draws: &mut Draws, is_talker: bool, word: &str, whose: u32) -> Stranger {
        let frames = if is_talker { &self.talker } else { &self.rival };
        let call = pick(draws, frames, &format!("Controller {word}")).expect("a call");
        let call = numbered_call(call, whose);
        Stranger { name: format!("{word} {whose} {}", crate::tokens::long(&call, 106)), octets: call }
    }

    /// Calls of a controller without a relation, its answer to an ApplicationReady, its outputs and its alarm PDUs.
    fn talk(&self, draws: &mut Draws) -> Stranger {
        let whose = 0x6000_0000 + draws.below(6) as u32;
        match draws.below(10) {
            0..2 if self.talker.contains_key("Controller write") => self.call(draws, true, "write", whose),
            0..3 => self.call(draws, true, "end", whose),
            3 => self.call(draws, true, "release", whose),
            4 => self.of(draws, true, "confirm"),
            5 => self.of(draws, true, "out"),
            6 => self.of(draws, true, "takenh"),
            7 => self.of(draws, true, "lowtakenl"),
            8 => self.of(draws, true, "err"),
            _ => self.of(draws, true, "ackh"),
        }
    }

    fn of(&self, draws: &mut Draws, is_talker: bool, word: &str) -> Stranger {
        let frames = if is_talker { &self.talker } else { &self.rival };
        let octets = pick(draws, frames, &format!("Controller {word}")).expect("each kind is sent");
        Stranger { name: format!("x-other-{word}"), octets }
    }

    /// A frame of another device to this controller.
    fn of_other(&self, draws: &mut Draws, is_addressing: bool) -> Stranger {
        let word = draws.of(&["found", "done", "yes", "ready", "in", "alarmh", "lowl", "ackh", "ackl", "err"]);
        // The answer to a Set names the request by its number alone.
        let is_left_out = word == "done" && is_addressing;
        if is_left_out {
            return plain(draws, End::Controller);
        }
        let octets = pick(draws, &self.other, &format!("Device {word}")).expect("each kind is sent");
        Stranger { name: format!("x-other-{word}"), octets }
    }

    /// A frame as this device or this controller sends it, with another source, another FrameID, or between other endpoints.
    fn bent(&self, draws: &mut Draws, end: End, words: &[&str]) -> Stranger {
        let word = draws.of(words);
        let from = if end == End::Device { "Controller" } else { "Device" };
        let mut octets = pick(draws, &self.own, &format!("{from} {word}")).expect("each kind is sent");
        let at = type_at(&octets) + 2;
        let is_cyclic = number(&octets, at) < 0xF000;
        match draws.below(3) {
            0 => octets = from_elsewhere(octets),
            1 if is_cyclic => put(&mut octets, at, &[0xC0, 0x55 + draws.below(9) as u8]),
            1 => put(&mut octets, at + 2, &[0, 9]),
            _ if is_cyclic => put(&mut octets, 0, &[2, 0, 0, 0, 0, 0x0E]),
            _ => put(&mut octets, at + 4, &[0, 9]),
        }
        Stranger { name: format!("x-bent-{word}"), octets }
    }
}

/// How many octets of a frame say something: of a cyclic frame all but some of the last ones, else all without padding.
fn contents(octets: &[u8]) -> usize {
    let at = type_at(octets) + 2;
    if is_datagram(octets) {
        return at + usize::from(number(octets, at + 2));
    }
    match number(octets, at) {
        0xFC01 | 0xFE01 => at + 14 + usize::from(number(octets, at + 12)),
        0xFEFC.. => at + 12 + usize::from(number(octets, at + 10)),
        _ => octets.len() - 5,
    }
}

/// A frame of this device or of this controller that was damaged on its way: to another station, cut, or, if it has checksums, with
/// another bit.
pub fn damaged(draws: &mut Draws, octets: &[u8]) -> Stranger {
    let mut octets = octets.to_vec();
    let size = contents(&octets).min(octets.len());
    match draws.below(3) {
        0 => {
            put(&mut octets, 0, &[2, 0, 0, 0, 0, 0x0E]);
            Stranger { name: String::from("x-to-another"), octets }
        }
        1 if is_datagram(&octets) && number(&octets, 40) != 0 => {
            let place = 14 + draws.below(size - 14);
            let place = if place == 40 || place == 41 { 42 } else { place };
            octets[place] ^= 1 << draws.below(8);
            Stranger { name: String::from("x-another-bit"), octets }
        }
        _ => {
            octets.truncate(12 + draws.below(size - 12));
            Stranger { name: String::from("x-cut"), octets }
        }
    }
}
