// What bench_exchange of tests/benches does, in one file: a device in a relation that takes cyclic frames and alarms and sends its own. It has
// no calls: an exchange begins with the first line that is a cyclic frame, an alarm, an input or a unit of time. The octets of data,
// the units of an interval and the intervals of data hold come from the command line; what else a Connect would have said is in the
// relation, as it does in a device. It prints what that program prints.
use std::env::args;
use std::io::{self, Read};

const DEVICE: [u8; 6] = [2, 0, 0, 0, 0, 1];
const CONTROLLER: [u8; 6] = [2, 0, 0, 0, 0, 2];
const OWN_REFERENCE: u16 = 1;
const ALARM_HIGH: u16 = 0xFC01;
const ALARM_LOW: u16 = 0xFE01;

/// Slot and ident number of each module; its one submodule has the same ident number.
const MODULES: [(u16, u32); 3] = [(0, 1), (1, 16), (2, 32)];

/// Octets in a place of their own.
struct Octets<const N: usize> {
    octets: [u8; N],
    len: usize,
}

impl<const N: usize> Octets<N> {
    const fn new() -> Self {
        Octets { octets: [0; N], len: 0 }
    }

    fn clear(&mut self) {
        self.len = 0;
    }

    fn put(&mut self, more: &[u8]) {
        self.octets[self.len..self.len + more.len()].copy_from_slice(more);
        self.len += more.len();
    }

    fn as_slice(&self) -> &[u8] {
        &self.octets[..self.len]
    }
}

type Frame = Octets<1518>;

/// What happens. It borrows its octets.
enum Event<'a> {
    Frame(&'a [u8]),
    Tick,
    Input(u16, u16, &'a [u8]),
    Alarm(u16, u16, &'a [u8]),
}

#[derive(PartialEq, Eq)]
enum Note {
    Done,
    NotMine,
    Fault,
    Filter,
    NoRelation,
    StaleCycle,
    Refused,
}

/// The frames of a step.
struct Outbox {
    frames: [Frame; 4],
    len: usize,
}

impl Outbox {
    /// A frame to the partner with this tag, filled up to 60 octets.
    fn send(&mut self, mac: &[u8; 6], partner: &[u8; 6], tag: u16, frame_id: u16, parts: &[&[u8]]) {
        let frame = &mut self.frames[self.len];
        frame.clear();
        frame.put(partner);
        frame.put(mac);
        frame.put(&[0x81, 0]);
        frame.put(&tag.to_be_bytes());
        frame.put(&[0x88, 0x92]);
        frame.put(&frame_id.to_be_bytes());
        for part in parts {
            frame.put(part);
        }
        if frame.len < 60 {
            frame.put(&[0; 60][frame.len..]);
        }
        self.len += 1;
    }
}

/// A pending alarm: it is sent again until its ACK comes, and is over with its AlarmAck.
struct Alarm {
    slot: u16,
    subslot: u16,
    module: u32,
    submodule: u32,
    specifier: u16,
    value: Octets<32>,
    waits: bool,
    since: u32,
    repeats: u16,
}

/// What waits for the application or for the controller: the answer to a record that the application was asked for, or the answer to the
/// ApplicationReady of a plug. It is sent or refused after a time. No line begins one, but each unit has to ask whether one is there.
struct Waiting {
    since: u32,
    repeats: u16,
}

/// What the relation waits for.
#[derive(Clone, Copy, PartialEq, Eq)]
enum Phase {
    Started,
    Exchanging,
}

/// What a Connect asked for.
struct Route {
    partner: [u8; 6],
    input_id: u16,
    input_tag: u16,
    output_id: u16,
    alarm_tag: u16,
    farewell_tag: u16,
    reference: u16,
    activity: u32,
    alarm_interval: u32,
    alarm_retries: u16,
}

/// What is plugged in a subslot.
struct Submodule {
    subslot: u16,
    ident: u32,
}

/// What is plugged in a slot.
struct Module {
    slot: u16,
    ident: u32,
    submodules: Vec<Submodule>,
}

struct Station {
    mac: [u8; 6],
    modules: Vec<Module>,
    lamp: u32,
    units: u16,
    phase: Option<Phase>,
    route: Route,
    quiet: u32,
    data_length: usize,
    interval: u32,
    until_sent: u32,
    hold: u32,
    until_held: u32,
    inputs: [u8; 1440],
    outputs: [u8; 1440],
    counter: Option<u16>,
    alarm: Option<Alarm>,
    low: Option<Alarm>,
    asked: Option<Waiting>,
    plug: Option<Waiting>,
    raised: u16,
    sent: u16,
    taken: u16,
}

fn following(number: u16) -> u16 {
    match number {
        0xFFFE => 0xFFFF,
        0xFFFF | 0x7FFF => 0,
        _ => number + 1,
    }
}

fn word(octets: &[u8], place: usize) -> u16 {
    u16::from_be_bytes([octets[place], octets[place + 1]])
}

impl Station {
    /// In a relation whose frames have this many octets of data: a status of slot 0, the data and the status of slot 1 (input) or 2
    /// (output), and the statuses of the other direction.
    fn new(data_length: usize, interval: u32, intervals: u32) -> Station {
        let mut inputs = [0; 1440];
        inputs[0] = 0x80;
        inputs[data_length - 2] = 0x80;
        inputs[data_length - 1] = 0x80;
        let hold = intervals * interval;
        Station {
            mac: DEVICE,
            modules: MODULES.map(|(slot, ident)| Module { slot, ident, submodules: vec![Submodule { subslot: 1, ident }] }).into(),
            lamp: 0,
            units: 0,
            phase: Some(Phase::Started),
            route: Route {
                partner: CONTROLLER,
                input_id: 0xC001,
                input_tag: 0xC000,
                output_id: 0xC000,
                alarm_tag: 0xC000,
                farewell_tag: 0xA000,
                reference: 1,
                activity: 200 * 3200,
                alarm_interval: 3200,
                alarm_retries: 3,
            },
            quiet: 0,
            data_length,
            interval,
            until_sent: interval,
            hold,
            until_held: hold,
            inputs,
            outputs: [0; 1440],
            counter: None,
            alarm: None,
            low: None,
            asked: None,
            plug: None,
            raised: 0,
            sent: 0xFFFF,
            taken: 0xFFFE,
        }
    }

    /// Data is exchanged from now on.
    fn begin(&mut self) {
        self.phase = Some(Phase::Exchanging);
    }

    fn step(&mut self, event: &Event<'_>, outbox: &mut Outbox) -> Note {
        outbox.len = 0;
        match event {
            Event::Frame(bytes) => self.hear(bytes, outbox),
            Event::Tick => self.tick(outbox),
            Event::Input(slot, subslot, value) => self.give(*slot, *subslot, value),
            Event::Alarm(slot, subslot, value) => self.raise(*slot, *subslot, value, outbox),
        }
    }

    fn tick(&mut self, outbox: &mut Outbox) -> Note {
        self.lamp = self.lamp.saturating_sub(1);
        self.units = self.units.wrapping_add(1);
        if let Some(asked) = &mut self.asked {
            asked.since += 1;
            if asked.since == 64_000 {
                self.asked = None;
            }
        }
        let Some(phase) = self.phase else { return Note::Done };
        if phase == Phase::Exchanging {
            self.until_held -= 1;
            if self.until_held == 0 {
                self.end(5, outbox);
                return Note::Done;
            }
        } else {
            self.quiet += 1;
            if self.quiet == self.route.activity {
                self.end(6, outbox);
                return Note::Done;
            }
        }
        if let Some(plug) = &mut self.plug {
            plug.since += 1;
            if plug.since == 32_000 {
                plug.since = 0;
                plug.repeats += 1;
            }
        }
        if let Some(low) = &mut self.low {
            low.since += 1;
            if low.since == self.route.alarm_interval {
                low.since = 0;
                low.repeats += 1;
            }
        }
        if let Some(alarm) = &mut self.alarm {
            if alarm.waits {
                alarm.since += 1;
                if alarm.since == self.route.alarm_interval && alarm.repeats == self.route.alarm_retries {
                    self.end(13, outbox);
                    return Note::Done;
                }
                if alarm.since == self.route.alarm_interval {
                    alarm.since = 0;
                    alarm.repeats += 1;
                    self.send_alarm(outbox);
                }
            }
        }
        self.until_sent -= 1;
        if self.until_sent == 0 {
            self.until_sent = self.interval;
            let [high, low] = self.units.to_be_bytes();
            let data = &self.inputs[..self.data_length];
            let route = &self.route;
            outbox.send(&self.mac, &route.partner, route.input_tag, route.input_id, &[data, &[high, low, 0x35, 0]]);
        }
        Note::Done
    }

    fn end(&mut self, reason: u8, outbox: &mut Outbox) {
        self.phase = None;
        let header = self.header(0x14, 1, 4);
        let (mac, route) = (&self.mac, &self.route);
        outbox.send(mac, &route.partner, route.farewell_tag, ALARM_LOW, &[&header, &[0xCF, 0x81, 0xFD, reason]]);
    }

    fn header(&self, kind: u8, flags: u8, len: u16) -> [u8; 12] {
        let (sent, taken, len) = (self.sent.to_be_bytes(), self.taken.to_be_bytes(), len.to_be_bytes());
        let (to, from) = (self.route.reference.to_be_bytes(), OWN_REFERENCE.to_be_bytes());
        [to[0], to[1], from[0], from[1], kind, flags, sent[0], sent[1], taken[0], taken[1], len[0], len[1]]
    }

    fn send_alarm(&self, outbox: &mut Outbox) {
        let Some(alarm) = &self.alarm else { return };
        let value = alarm.value.as_slice();
        let mut block = [0; 28];
        block[..6].copy_from_slice(&[0, 1, 0, 24 + value.len() as u8, 1, 0]);
        block[6..8].copy_from_slice(&2u16.to_be_bytes());
        block[12..14].copy_from_slice(&alarm.slot.to_be_bytes());
        block[14..16].copy_from_slice(&alarm.subslot.to_be_bytes());
        block[16..20].copy_from_slice(&alarm.module.to_be_bytes());
        block[20..24].copy_from_slice(&alarm.submodule.to_be_bytes());
        block[24..26].copy_from_slice(&alarm.specifier.to_be_bytes());
        block[26..28].copy_from_slice(&1u16.to_be_bytes());
        let header = self.header(0x11, 0x11, 28 + value.len() as u16);
        let route = &self.route;
        outbox.send(&self.mac, &route.partner, route.alarm_tag, ALARM_HIGH, &[&header, &block, value]);
    }

    fn give(&mut self, slot: u16, subslot: u16, value: &[u8]) -> Note {
        if self.phase.is_none() || (slot, subslot) != (1, 1) || value.len() != self.data_length - 3 {
            return Note::Refused;
        }
        self.inputs[1..1 + value.len()].copy_from_slice(value);
        Note::Done
    }

    fn raise(&mut self, slot: u16, subslot: u16, value: &[u8], outbox: &mut Outbox) -> Note {
        let Some(module) = self.modules.iter().find(|module| module.slot == slot) else { return Note::Refused };
        let Some(submodule) = module.submodules.iter().find(|submodule| submodule.subslot == subslot) else { return Note::Refused };
        if self.phase != Some(Phase::Exchanging) || self.alarm.is_some() || value.len() > 32 {
            return Note::Refused;
        }
        let mut kept = Octets::new();
        kept.put(value);
        self.sent = if self.raised == 0 { 0xFFFF } else { following(self.sent) };
        self.alarm = Some(Alarm {
            slot,
            subslot,
            module: module.ident,
            submodule: submodule.ident,
            specifier: self.raised % 2048,
            value: kept,
            waits: true,
            since: 0,
            repeats: 0,
        });
        self.raised += 1;
        self.send_alarm(outbox);
        Note::Done
    }

    fn hear(&mut self, octets: &[u8], outbox: &mut Outbox) -> Note {
        if octets.len() < 14 {
            return Note::Fault;
        }
        let head = if octets[12..14] == [0x81, 0] { 18 } else { 14 };
        if octets.len() < head + 2 || octets.len() > 1500 + head {
            return Note::Fault;
        }
        if octets[head - 2..head] != [0x88, 0x92] {
            return Note::Fault;
        }
        if octets[..6] != self.mac {
            return Note::NotMine;
        }
        let is_partner = octets[6..12] == self.route.partner;
        let body = &octets[head + 2..];
        match word(octets, head) {
            ALARM_HIGH | ALARM_LOW => self.hear_alarm(is_partner, body, outbox),
            frame_id @ (0x8000..=0xBBFF | 0xC000..=0xF7FF) => self.hear_cyclic(is_partner && frame_id == self.route.output_id, body),
            _ => Note::NotMine,
        }
    }

    fn hear_cyclic(&mut self, is_partner: bool, body: &[u8]) -> Note {
        if self.phase.is_none() || !is_partner {
            return Note::NoRelation;
        }
        if body.len() < self.data_length + 4 {
            return Note::Fault;
        }
        let (data, tail) = body.split_at(self.data_length);
        let counter = word(tail, 0);
        let is_newer = match self.counter {
            Some(last) => (1..=61440).contains(&counter.wrapping_sub(last)),
            None => true,
        };
        if tail[2] & 4 == 0 || tail[3] != 0 || !is_newer {
            return Note::StaleCycle;
        }
        self.counter = Some(counter);
        self.outputs[..self.data_length].copy_from_slice(data);
        self.until_held = self.hold;
        Note::Done
    }

    fn hear_alarm(&mut self, is_partner: bool, body: &[u8], outbox: &mut Outbox) -> Note {
        if body.len() < 12 {
            return Note::Fault;
        }
        let (header, rest) = body.split_at(12);
        let Some(part) = rest.get(..usize::from(word(header, 10))) else {
            return Note::Fault;
        };
        let is_whole = part.len() >= 22 && part[..6] == [0x80, 1, 0, 18, 1, 0];
        match header[4] {
            0x11 if !is_whole => return Note::Fault,
            0x11..=0x13 => {}
            0x14 if part.len() >= 4 => {}
            _ => return Note::Fault,
        }
        if self.phase.is_none() || !is_partner || word(header, 0) != OWN_REFERENCE || word(header, 2) != self.route.reference {
            return Note::NoRelation;
        }
        match header[4] {
            0x11 => self.hear_data(word(header, 6), part, outbox),
            0x13 if self.raised > 0 && word(header, 8) == self.sent => {
                if let Some(alarm) = &mut self.alarm {
                    alarm.waits = false;
                }
                Note::Done
            }
            0x14 => {
                self.phase = None;
                Note::Done
            }
            _ => Note::Filter,
        }
    }

    fn hear_data(&mut self, number: u16, part: &[u8], outbox: &mut Outbox) -> Note {
        if number == following(self.taken) {
            self.taken = number;
            let is_its = self.alarm.as_ref().is_some_and(|alarm| {
                word(part, 6) == 2
                    && part[8..12] == [0; 4]
                    && word(part, 12) == alarm.slot
                    && word(part, 14) == alarm.subslot
                    && word(part, 16) == alarm.specifier
            });
            if is_its {
                self.alarm = None;
            }
        }
        let kind = if number == self.taken { 0x13 } else { 0x12 };
        let header = self.header(kind, 1, 0);
        let route = &self.route;
        outbox.send(&self.mac, &route.partner, route.alarm_tag, ALARM_HIGH, &[&header]);
        Note::Done
    }
}

/// One step. It is no part of its caller, so that it can be counted by itself.
#[inline(never)]
fn turn(device: &mut Station, event: &Event<'_>, outbox: &mut Outbox) -> Note {
    device.step(event, outbox)
}

/// What the device did and sent.
#[derive(Default)]
struct Count {
    done: usize,
    frames: usize,
    octets: usize,
    sum: u64,
}

impl Count {
    fn take(&mut self, device: &mut Station, event: &Event<'_>, outbox: &mut Outbox) {
        if turn(device, event, outbox) == Note::Done {
            self.done += 1;
        }
        for frame in &outbox.frames[..outbox.len] {
            self.frames += 1;
            self.octets += frame.len;
            self.sum += (1..).zip(frame.as_slice()).map(|(place, octet)| place * u64::from(*octet)).sum::<u64>();
        }
    }
}

fn octets_of(hex: &str) -> Option<Vec<u8>> {
    (0..hex.len()).step_by(2).map(|place| u8::from_str_radix(hex.get(place..place + 2)?, 16).ok()).collect()
}

/// How many times an event of a line happens, and the event. Its octets are put into the room.
fn event_of<'a>(line: &str, room: &'a mut Vec<u8>) -> Option<(u16, Event<'a>)> {
    let words: Vec<&str> = line.split(' ').collect();
    *room = octets_of(words.last()?).unwrap_or_default();
    match words.as_slice() {
        ["frame", _] => Some((1, Event::Frame(room))),
        ["tick", units] => Some((units.parse().ok()?, Event::Tick)),
        ["input", slot, _] => Some((1, Event::Input(slot.parse().ok()?, 1, room))),
        ["alarm", slot, _] => Some((1, Event::Alarm(slot.parse().ok()?, 1, room))),
        _ => None,
    }
}

fn main() -> io::Result<()> {
    let mut text = String::new();
    io::stdin().read_to_string(&mut text)?;
    let numbers: Vec<usize> = args().skip(1).filter_map(|number| number.parse().ok()).collect();
    let mut device = Station::new(numbers[0], numbers[1] as u32, numbers[2] as u32);
    device.begin();
    let mut outbox = Outbox { frames: [const { Octets::new() }; 4], len: 0 };
    let mut count = Count::default();
    let mut room = Vec::new();
    for line in text.lines() {
        let Some((times, event)) = event_of(line, &mut room) else { continue };
        if matches!(&event, Event::Frame(bytes) if bytes[12] != 0x81) {
            continue;
        }
        for _ in 0..times {
            count.take(&mut device, &event, &mut outbox);
        }
    }
    println!("{} events done; {} frames of {} octets in all, whose sum is {}", count.done, count.frames, count.octets, count.sum);
    Ok(())
}
