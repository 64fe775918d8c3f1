//! A cyclic frame is accepted exactly if it comes from the partner's MAC address, has the relation's FrameID and length, DataValid set,
//! TransferStatus 0, and a counter 1 to 61,440 ahead of the last accepted one; and each cyclic frame that an end sends has DataStatus as it is,
//! and a counter that the other end accepts (`end_laws::cyclic_device`, `end_laws::cyclic_controller`).
use crate::plant::{INTERVAL, PLAN, is_of_device, number, station};
use configurator::plan_from_json;
use controller_core::{Controller, Event as Came, State};
use device_core::{Event, Local, Note};
use frame_codec::Outbox;
use pn_values::demo_identity;
use rattle_std::alloc::Global;
use test_stations::{Station, frame, octets};
use uuid::Uuid;

/// The places of the fields of a frame with a tag: the data of either end of the plant has this many octets.
const ID: usize = 18;
const SIZE: usize = 40;
const COUNTER: usize = 20 + SIZE;
const STATUS: usize = COUNTER + 2;
const TRANSFER: usize = COUNTER + 3;

/// Both ends, and the last frame of outputs and of inputs that came to them.
struct Ends {
    device: Station,
    controller: Controller,
    outputs: Vec<u8>,
    inputs: Vec<u8>,
}

/// A frame, the last accepted one of its direction, and what was read after it: the two octets of the value and DataStatus, with those before.
#[derive(Clone, Debug)]
struct Seen {
    came: Vec<u8>,
    last: Vec<u8>,
    before: (Vec<u8>, Option<u8>),
    after: (Vec<u8>, Option<u8>),
}

fn is_cyclic(octets: &[u8]) -> bool {
    number(octets, 12) == 0x8100 && number(octets, 16) == 0x8892 && (0x8000..=0xF7FF).contains(&number(octets, ID))
}

fn with(octets: &[u8], changes: &[(usize, u8)]) -> Vec<u8> {
    let mut changed = octets.to_vec();
    for (place, value) in changes {
        changed[*place] = *value;
    }
    changed
}

/// The frame with another counter.
fn counted(octets: &[u8], counter: u16) -> Vec<u8> {
    let [high, low] = counter.to_be_bytes();
    with(octets, &[(COUNTER, high), (COUNTER + 1, low)])
}

/// The law, read of octets: `like` is the last accepted frame of the relation.
fn is_acceptable(came: &[u8], like: &[u8]) -> bool {
    let ahead = number(came, COUNTER).wrapping_sub(number(like, COUNTER));
    came.len() > TRANSFER
        && came.len() <= 1518
        && came[..12] == like[..12]
        && number(came, 12) == 0x8100
        && number(came, 16) == 0x8892
        && number(came, ID) == number(like, ID)
        && came[STATUS] & 0x04 != 0
        && came[TRANSFER] == 0
        && (1..=61_440).contains(&ahead)
}

/// Whether the law holds of what was seen: the value at this place of the frame is read from then on, if its IOPS is good, and its DataStatus.
fn holds(seen: &Seen, value: usize) -> bool {
    if !is_acceptable(&seen.came, &seen.last) {
        return seen.after == seen.before;
    }
    let given = if seen.came[value + 2] == 0x80 { seen.came[value..value + 2].to_vec() } else { vec![0, 0] };
    seen.after == (given, Some(seen.came[STATUS]))
}

/// Whether a frame that an end sends is one: these bits of DataStatus, TransferStatus 0, and a counter that is newer than the last one.
fn is_sent_well(sent: &[u8], last: &[u8], status: u8) -> bool {
    let ahead = number(sent, COUNTER).wrapping_sub(number(last, COUNTER));
    sent[STATUS] == status && sent[TRANSFER] == 0 && (1..=61_440).contains(&ahead) && sent[..20] == last[..20] && sent.len() == last.len()
}

impl Ends {
    /// Both ends exchange data.
    fn exchanging() -> Ends {
        let plan = plan_from_json(Global, PLAN.as_bytes()).ok().expect("a plan");
        let controller = Controller::new(plan, Uuid::from_bytes([1; 16]), Uuid::from_bytes([2; 16]));
        let mut ends = Ends { device: station(), controller, outputs: Vec::new(), inputs: Vec::new() };
        let mut sent = Outbox::new();
        ends.controller.send_opening(&mut sent);
        ends.carry(&sent);
        for _ in 0..3 * INTERVAL {
            ends.unit();
        }
        assert_eq!(ends.controller.state(), State::Exchanging);
        assert_eq!((ends.outputs.len() > TRANSFER, ends.inputs.len() > TRANSFER), (true, true));
        ends
    }

    /// These frames come to the other end, and those that are sent then to the first one.
    fn carry(&mut self, sent: &Outbox) {
        for one in sent.as_slice() {
            let bytes = one.as_slice().to_vec();
            let mut next = Outbox::new();
            if is_of_device(&bytes) {
                self.controller.step(&Came::Frame(octets(&bytes)), &mut next);
            } else {
                self.device.step(&frame(&bytes), &mut next);
            }
            match (is_cyclic(&bytes), is_of_device(&bytes)) {
                (true, true) => self.inputs = bytes,
                (true, false) => self.outputs = bytes,
                (false, _) => (),
            }
            self.carry(&next);
        }
    }

    /// A unit passes at both ends.
    fn unit(&mut self) {
        let mut sent = Outbox::new();
        self.controller.step(&Came::Tick, &mut sent);
        self.carry(&sent);
        self.device.step(&Event::Tick, &mut sent);
        self.carry(&sent);
    }

    fn read_output(&self) -> (Vec<u8>, Option<u8>) {
        (self.device.output(2, 1).map_or(Vec::new(), <[u8]>::to_vec), self.device.provider(2, 1).map(|said| said.data_status.0))
    }

    fn read_input(&self) -> (Vec<u8>, Option<u8>) {
        (self.controller.value(1, 1).map_or(Vec::new(), <[u8]>::to_vec), self.controller.provider(1, 1).map(|said| said.data_status.0))
    }

    /// A frame comes to the device, and to the controller.
    fn to_device(&mut self, came: &[u8]) -> Seen {
        let (before, last) = (self.read_output(), self.outputs.clone());
        self.device.step(&frame(came), &mut Outbox::new());
        Seen { came: came.to_vec(), last, before, after: self.read_output() }
    }

    fn to_controller(&mut self, came: &[u8]) -> Seen {
        let (before, last) = (self.read_input(), self.inputs.clone());
        self.controller.step(&Came::Frame(octets(came)), &mut Outbox::new());
        Seen { came: came.to_vec(), last, before, after: self.read_input() }
    }
}

/// Frames like the last one, each newer, with another value: one as it is, and others with one thing wrong; and counters at all borders.
fn variants(like: &[u8], value: usize) -> Vec<Vec<u8>> {
    let last = number(like, COUNTER);
    let next = with(&counted(like, last.wrapping_add(32)), &[(value, 0xA5), (value + 1, 0x5A), (value + 2, 0x80)]);
    let mut all = vec![
        next.clone(),
        with(&next, &[(0, next[0] ^ 4)]),
        with(&next, &[(11, next[11] ^ 1)]),
        with(&next, &[(17, 0x93)]),
        with(&next, &[(ID + 1, next[ID + 1] ^ 1)]),
        with(&next, &[(STATUS, next[STATUS] & !0x04)]),
        with(&next, &[(STATUS, next[STATUS] & !0x01)]),
        with(&next, &[(STATUS, next[STATUS] & !0x10)]),
        with(&next, &[(STATUS, next[STATUS] & !0x20)]),
        with(&next, &[(TRANSFER, 1)]),
        with(&next, &[(value + 2, 0)]),
        next[..TRANSFER].to_vec(),
    ];
    let mut long = next.clone();
    long.resize(1518, 0);
    all.push(long.clone());
    long.push(0);
    all.push(long);
    for gap in [0, 1, 2, 61_439, 61_440, 61_441, 65_535] {
        all.push(counted(&next, last.wrapping_add(gap)));
    }
    all
}

/// The place of the value that the plant's device reads, and of the one that its controller reads.
fn places(ends: &mut Ends) -> (usize, usize) {
    ends.controller.step(&Came::Give(2, 1, octets(&[0xC3, 0x3C])), &mut Outbox::new());
    ends.device.step(&Event::Application(Local::Input(1, 1, device_core::Octets::of(&[0xD2, 0x2D]))), &mut Outbox::new());
    for _ in 0..INTERVAL {
        ends.unit();
    }
    let place = |frame: &[u8], value: [u8; 2]| (20..COUNTER).find(|at| frame[*at..*at + 2] == value).expect("the value is sent");
    (place(&ends.outputs, [0xC3, 0x3C]), place(&ends.inputs, [0xD2, 0x2D]))
}

/// Each variant comes to an end of its own that exchanges data.
fn run() -> (Vec<Seen>, Vec<Seen>, (usize, usize)) {
    let mut ends = Ends::exchanging();
    let at = places(&mut ends);
    let (outputs, inputs) = (variants(&ends.outputs, at.0), variants(&ends.inputs, at.1));
    let fresh = || {
        let mut ends = Ends::exchanging();
        places(&mut ends);
        ends
    };
    let to_device = outputs.iter().map(|came| fresh().to_device(came)).collect();
    let to_controller = inputs.iter().map(|came| fresh().to_controller(came)).collect();
    (to_device, to_controller, at)
}

#[test]
fn exactly_the_acceptable_frames_are_accepted() {
    let (to_device, to_controller, at) = run();
    for (all, value) in [(&to_device, at.0), (&to_controller, at.1)] {
        assert!(all.iter().all(|seen| holds(seen, value)));
        assert_eq!(all.iter().filter(|seen| is_acceptable(&seen.came, &seen.last)).count(), 10);
    }
}

#[test]
fn a_frame_that_is_not_acceptable_and_is_shown() {
    let (to_device, to_controller, at) = run();
    for (all, value) in [(to_device, at.0), (to_controller, at.1)] {
        for seen in all.iter().filter(|seen| !is_acceptable(&seen.came, &seen.last) && seen.came.len() > TRANSFER) {
            let shown = Seen { after: (vec![0xA5, 0x5A], Some(seen.came[STATUS])), ..seen.clone() };
            assert!(!holds(&shown, value));
        }
    }
}

#[test]
fn an_acceptable_frame_that_is_not_shown() {
    let (to_device, to_controller, at) = run();
    for (all, value) in [(to_device, at.0), (to_controller, at.1)] {
        for seen in all.iter().filter(|seen| is_acceptable(&seen.came, &seen.last)) {
            assert!(!holds(&Seen { after: seen.before.clone(), ..seen.clone() }, value));
        }
    }
}

#[test]
fn data_status_and_counter_of_what_is_sent() {
    let mut ends = Ends::exchanging();
    let last = (ends.outputs.clone(), ends.inputs.clone());
    for _ in 0..INTERVAL {
        ends.unit();
    }
    assert!(is_sent_well(&ends.outputs, &last.0, 0x35) && is_sent_well(&ends.inputs, &last.1, 0x35));
    for changes in [&[(STATUS, 0x31)][..], &[(STATUS, 0x34)], &[(STATUS, 0x25)], &[(STATUS, 0x15)], &[(STATUS, 0xB5)], &[(TRANSFER, 1)], &[(ID + 1, 9)]] {
        assert!(!is_sent_well(&with(&ends.outputs, changes), &last.0, 0x35));
    }
    assert!(!is_sent_well(&last.0, &last.0, 0x35));
    // The application of the device stops, and a submodule gets a diagnosis.
    for (said, status) in [(Local::ProviderState(false), 0x25), (Local::Diagnosis(1, 1, 0x8000, 1, true), 0x05), (Local::ProviderState(true), 0x15)] {
        let mut sent = Outbox::new();
        assert_eq!(ends.device.step(&Event::Application(said), &mut sent), Note::Done);
        ends.carry(&sent);
        let last = ends.inputs.clone();
        for _ in 0..INTERVAL {
            ends.unit();
        }
        assert!(is_sent_well(&ends.inputs, &last, status), "{:02X}", ends.inputs[STATUS]);
        assert!(!is_sent_well(&with(&ends.inputs, &[(STATUS, status ^ 0x30)]), &last, status));
    }
    assert_eq!(ends.inputs[6..12], demo_identity().mac.octets);
}
