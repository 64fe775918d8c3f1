// What crates/table_controller does with the lines of an exchange, in plain Rust: a controller in a relation that takes cyclic frames and
// alarms and sends its own. It begins where ApplicationReady was answered. The octets of data, the units of an interval and the intervals
// of data hold come from the command line; what else a Connect would have said is in the relation, as it is in a controller. It
// prints what that program prints.
use std::env::args;
use std::io::{self, Read, Write};

const CONTROLLER: [u8; 6] = [2, 0, 0, 0, 0, 2];
const DEVICE: [u8; 6] = [2, 0, 0, 0, 0, 1];
const OWN_REFERENCE: u16 = 1;
const ALARM_HIGH: u16 = 0xFC01;
const ALARM_LOW: u16 = 0xFE01;
/// Units until a request is sent again.
const RESEND: u32 = 32_000;

/// Octets in a place of their own.
struct Octets<const N: usize> {
    octets: [u8; N],
    len: usize,
}

impl<const N: usize> Octets<N> {
    const fn new() -> Self {
        Octets { octets: [0; N], len: 0 }
    }

    fn clear(&mut self) {
        self.len = 0;
    }

    fn put(&mut self, more: &[u8]) {
        self.octets[self.len..self.len + more.len()].copy_from_slice(more);
        self.len += more.len();
    }

    fn as_slice(&self) -> &[u8] {
        &self.octets[..self.len]
    }
}

type Bytes = Octets<1519>;
type Frame = Octets<1518>;

enum Event {
    Frame(Bytes),
    Tick,
    Give(u16, u16, Bytes),
    Stop,
}

/// The frames of a step.
struct Outbox {
    frames: [Frame; 4],
    len: usize,
}

impl Outbox {
    /// A frame to the device with this tag, filled up to 60 octets.
    fn send(&mut self, route: &Route, tag: u16, frame_id: u16, parts: &[&[u8]]) {
        let frame = &mut self.frames[self.len];
        frame.clear();
        frame.put(&route.partner);
        frame.put(&route.own);
        frame.put(&[0x81, 0]);
        frame.put(&tag.to_be_bytes());
        frame.put(&[0x88, 0x92]);
        frame.put(&frame_id.to_be_bytes());
        for part in parts {
            frame.put(part);
        }
        if frame.len < 60 {
            frame.put(&[0; 60][frame.len..]);
        }
        self.len += 1;
    }
}

/// How far the controller is.
#[derive(Clone, Copy, PartialEq, Eq)]
enum State {
    Waiting,
    Exchanging,
    Ended(u8),
}

/// The request that is open until it is answered.
struct Release;

/// With whom, and under which numbers.
struct Route {
    own: [u8; 6],
    partner: [u8; 6],
    output_id: u16,
    output_tag: u16,
    input_id: u16,
    alarm_tag: u16,
    farewell_tag: u16,
    reference: u16,
    alarm_interval: u32,
    alarm_retries: u16,
}

/// The AlarmAck of an alarm that was accepted.
struct Acknowledged {
    slot: u16,
    subslot: u16,
    specifier: u16,
    waits: bool,
    since: u32,
    repeats: u16,
}

struct Controller {
    state: State,
    asked: Option<Release>,
    waited: u32,
    units: u16,
    stands: bool,
    route: Route,
    data_length: usize,
    interval: u32,
    until_sent: u32,
    hold: u32,
    until_held: u32,
    outputs: [u8; 1440],
    inputs: [u8; 1440],
    counter: Option<u16>,
    alarm: Option<Acknowledged>,
    acknowledged: u32,
    sent: u16,
    taken: u16,
}

fn following(number: u16) -> u16 {
    match number {
        0xFFFE => 0xFFFF,
        0xFFFF | 0x7FFF => 0,
        _ => number + 1,
    }
}

fn word(octets: &[u8], place: usize) -> u16 {
    u16::from_be_bytes([octets[place], octets[place + 1]])
}

impl Controller {
    /// In a relation whose frames have this many octets of data: a status of slot 0, the data and the status of slot 1 (input) or 2
    /// (output), and the statuses of the other direction.
    fn new(data_length: usize, interval: u32, intervals: u32) -> Controller {
        let mut outputs = [0; 1440];
        outputs[data_length - 2] = 0x80;
        outputs[data_length - 1] = 0x80;
        let hold = intervals * interval;
        Controller {
            state: State::Waiting,
            asked: None,
            waited: 0,
            units: 0,
            stands: true,
            route: Route {
                own: CONTROLLER,
                partner: DEVICE,
                output_id: 0xC000,
                output_tag: 0xC000,
                input_id: 0xC001,
                alarm_tag: 0xC000,
                farewell_tag: 0xA000,
                reference: 1,
                alarm_interval: 3200,
                alarm_retries: 3,
            },
            data_length,
            interval,
            until_sent: interval,
            hold,
            until_held: hold,
            outputs,
            inputs: [0; 1440],
            counter: None,
            alarm: None,
            acknowledged: 0,
            sent: 0xFFFF,
            taken: 0xFFFE,
        }
    }

    /// Data is exchanged from now on.
    fn begin(&mut self) {
        self.state = State::Exchanging;
    }

    fn step(&mut self, event: &Event, outbox: &mut Outbox) {
        outbox.len = 0;
        match event {
            Event::Frame(bytes) => self.hear(bytes.as_slice(), outbox),
            Event::Tick => self.tick(outbox),
            Event::Give(slot, subslot, value) => self.give(*slot, *subslot, value.as_slice()),
            Event::Stop => self.stop(),
        }
    }

    fn tick(&mut self, outbox: &mut Outbox) {
        self.units = self.units.wrapping_add(1);
        if self.stands && self.state == State::Exchanging {
            self.until_held -= 1;
            if self.until_held == 0 {
                return self.end(4, 5, outbox);
            }
        }
        if let Some(alarm) = &mut self.alarm {
            if self.stands && alarm.waits {
                alarm.since += 1;
                if alarm.since == self.route.alarm_interval && alarm.repeats == self.route.alarm_retries {
                    return self.end(6, 13, outbox);
                }
                if alarm.since == self.route.alarm_interval {
                    alarm.since = 0;
                    alarm.repeats += 1;
                    self.send_ack(outbox);
                }
            }
        }
        if self.asked.is_some() {
            self.waited += 1;
            if self.waited == RESEND {
                self.waited = 0;
            }
        }
        if self.stands {
            self.until_sent -= 1;
            if self.until_sent == 0 {
                self.until_sent = self.interval;
                let [high, low] = self.units.to_be_bytes();
                let data = &self.outputs[..self.data_length];
                outbox.send(&self.route, self.route.output_tag, self.route.output_id, &[data, &[high, low, 0x35, 0]]);
            }
        }
    }

    fn end(&mut self, cause: u8, reason: u8, outbox: &mut Outbox) {
        self.state = State::Ended(cause);
        self.stands = false;
        let header = self.header(0x14, 1, 4);
        outbox.send(&self.route, self.route.farewell_tag, ALARM_LOW, &[&header, &[0xCF, 0x81, 0xFD, reason]]);
    }

    fn stop(&mut self) {
        self.state = State::Ended(7);
        self.stands = false;
        self.asked = Some(Release);
    }

    fn header(&self, kind: u8, flags: u8, len: u16) -> [u8; 12] {
        let (sent, taken, len) = (self.sent.to_be_bytes(), self.taken.to_be_bytes(), len.to_be_bytes());
        let (to, from) = (self.route.reference.to_be_bytes(), OWN_REFERENCE.to_be_bytes());
        [to[0], to[1], from[0], from[1], kind, flags, sent[0], sent[1], taken[0], taken[1], len[0], len[1]]
    }

    fn send_ack(&self, outbox: &mut Outbox) {
        let Some(alarm) = &self.alarm else { return };
        let mut block = [0; 22];
        block[..6].copy_from_slice(&[0x80, 1, 0, 18, 1, 0]);
        block[6..8].copy_from_slice(&2u16.to_be_bytes());
        block[12..14].copy_from_slice(&alarm.slot.to_be_bytes());
        block[14..16].copy_from_slice(&alarm.subslot.to_be_bytes());
        block[16..18].copy_from_slice(&alarm.specifier.to_be_bytes());
        let header = self.header(0x11, 0x11, 22);
        outbox.send(&self.route, self.route.alarm_tag, ALARM_HIGH, &[&header, &block]);
    }

    fn give(&mut self, slot: u16, subslot: u16, value: &[u8]) {
        let size = self.data_length - 3;
        if self.stands && (slot, subslot) == (2, 1) && value.len() == size {
            self.outputs[..size].copy_from_slice(value);
            self.outputs[size] = 0x80;
        }
    }

    /// The input in slot 1.
    fn value(&self) -> Vec<u8> {
        let size = self.data_length - 3;
        let is_good = self.inputs[1 + size] == 0x80;
        if is_good { self.inputs[1..1 + size].to_vec() } else { vec![0; size] }
    }

    fn hear(&mut self, octets: &[u8], outbox: &mut Outbox) {
        if octets.len() < 14 {
            return;
        }
        let head = if octets[12..14] == [0x81, 0] { 18 } else { 14 };
        if octets.len() < head + 2 || octets.len() > 1500 + head || octets[head - 2..head] != [0x88, 0x92] {
            return;
        }
        if octets[..6] != self.route.own {
            return;
        }
        let is_partner = octets[6..12] == self.route.partner;
        let body = &octets[head + 2..];
        match word(octets, head) {
            ALARM_HIGH | ALARM_LOW => self.hear_alarm(is_partner, body, outbox),
            frame_id @ (0x8000..=0xBBFF | 0xC000..=0xF7FF) => self.hear_cyclic(is_partner && frame_id == self.route.input_id, body),
            _ => {}
        }
    }

    fn hear_cyclic(&mut self, is_partner: bool, body: &[u8]) {
        if !self.stands || !is_partner || body.len() < self.data_length + 4 {
            return;
        }
        let (data, tail) = body.split_at(self.data_length);
        let counter = word(tail, 0);
        let is_newer = match self.counter {
            Some(last) => (1..=61440).contains(&counter.wrapping_sub(last)),
            None => true,
        };
        if tail[2] & 4 == 0 || tail[3] != 0 || !is_newer {
            return;
        }
        self.counter = Some(counter);
        self.inputs[..self.data_length].copy_from_slice(data);
        self.until_held = self.hold;
    }

    fn hear_alarm(&mut self, is_partner: bool, body: &[u8], outbox: &mut Outbox) {
        if body.len() < 12 {
            return;
        }
        let (header, rest) = body.split_at(12);
        let Some(part) = rest.get(..usize::from(word(header, 10))) else {
            return;
        };
        if !self.stands || !is_partner || word(header, 0) != OWN_REFERENCE || word(header, 2) != self.route.reference {
            return;
        }
        let is_whole = part.len() >= 28 && part[..2] == [0, 1] && part[4..6] == [1, 0] && word(part, 26) == 1;
        match header[4] {
            0x11 if is_whole => self.hear_data(word(header, 6), part, outbox),
            0x13 if self.acknowledged > 0 && word(header, 8) == self.sent => {
                if let Some(alarm) = &mut self.alarm {
                    alarm.waits = false;
                }
            }
            0x14 if part.len() >= 4 => {
                self.state = State::Ended(5);
                self.stands = false;
            }
            _ => {}
        }
    }

    fn hear_data(&mut self, number: u16, part: &[u8], outbox: &mut Outbox) {
        let is_new = number == following(self.taken);
        if is_new {
            self.taken = number;
        }
        let kind = if number == self.taken { 0x13 } else { 0x12 };
        let header = self.header(kind, 1, 0);
        outbox.send(&self.route, self.route.alarm_tag, ALARM_HIGH, &[&header]);
        if is_new {
            self.sent = if self.acknowledged == 0 { 0xFFFF } else { following(self.sent) };
            self.acknowledged += 1;
            self.alarm = Some(Acknowledged {
                slot: word(part, 12),
                subslot: word(part, 14),
                specifier: word(part, 24),
                waits: true,
                since: 0,
                repeats: 0,
            });
            self.send_ack(outbox);
        }
    }
}

/// One step. It is no part of its caller, so that it can be counted by itself.
#[inline(never)]
fn turn(controller: &mut Controller, event: &Event, outbox: &mut Outbox) {
    controller.step(event, outbox);
}

fn octets_of(hex: &str) -> Option<Bytes> {
    let mut bytes = Octets::new();
    for place in (0..hex.len()).step_by(2) {
        bytes.put(&[u8::from_str_radix(hex.get(place..place + 2)?, 16).ok()?]);
    }
    Some(bytes)
}

fn put_line(printed: &mut Vec<u8>, word: &str, octets: &[u8]) -> io::Result<()> {
    write!(printed, "{word} ")?;
    for octet in octets {
        write!(printed, "{octet:02x}")?;
    }
    writeln!(printed)
}

fn event_of(line: &str) -> Option<(u32, Event)> {
    let words: Vec<&str> = line.split(' ').collect();
    match words.as_slice() {
        ["frame", hex] => Some((1, Event::Frame(octets_of(hex)?))),
        ["tick", units] => Some((units.parse().ok()?, Event::Tick)),
        ["give", slot, subslot, hex] => Some((1, Event::Give(slot.parse().ok()?, subslot.parse().ok()?, octets_of(hex)?))),
        ["stop"] => Some((1, Event::Stop)),
        _ => None,
    }
}

fn main() -> io::Result<()> {
    let mut text = String::new();
    io::stdin().read_to_string(&mut text)?;
    let numbers: Vec<usize> = args().skip(1).filter_map(|number| number.parse().ok()).collect();
    let mut controller = Controller::new(numbers[0], numbers[1] as u32, numbers[2] as u32);
    controller.begin();
    let mut outbox = Outbox { frames: [const { Octets::new() }; 4], len: 0 };
    let mut printed = Vec::new();
    for line in text.lines() {
        if line == "value 1 1" {
            put_line(&mut printed, "value", &controller.value())?;
            continue;
        }
        let Some((times, event)) = event_of(line) else { continue };
        for _ in 0..times {
            turn(&mut controller, &event, &mut outbox);
            for frame in &outbox.frames[..outbox.len] {
                put_line(&mut printed, "out", frame.as_slice())?;
            }
        }
        match controller.state {
            State::Waiting => writeln!(printed, "state waiting")?,
            State::Exchanging => writeln!(printed, "state exchanging")?,
            State::Ended(cause) => writeln!(printed, "state ended {cause}")?,
        }
    }
    io::stdout().write_all(&printed)
}
