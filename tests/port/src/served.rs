//! A port with the services beside its device: the services answer what the device drops, and units of time do the same however
//! they are divided. The device and its services as `device_station::IoStation` runs them, event by event, are what the port is compared with.
use asked_records::NamedRecords;
use crate::operations::asked;
use crate::stations::demo;
use device_abi::{Operation, hand_out, play, serve};
use device_core::{Device, Event, Octets, Sink};
use device_station::{IoStation, Port, StationOutbox};
use flash_model::{MemoryFlash, Sector};
use pn_values::demo_identity;
use relations::DeviceOptions;
use test_stations::SET;

/// A Set of the IP address 192.168.0.2, temporary.
const ADDRESS: &str = "0200000000010200000000028892fefd040000000002000000120102000e0000c0a80002ffffff0000000000";
/// One of 192.168.0.7.
const OTHER_ADDRESS: &str = "0200000000010200000000028892fefd040000000003000000120102000e0000c0a80007ffffff0000000000";
/// An echo request to the first address, and its reply (Scapy 2.5).
pub(crate) const PING: &str = "0200000000010200000000020800450000240005400080017980c0a80001c0a800020800542f12340007616263646566676800000000000000000000";
const PINGED: &str = "020000000002020000000001080045000024000040004001b985c0a80002c0a8000100005c2f12340007616263646566676800000000000000000000";
/// A Set of Signal: the lamp flashes for three seconds.
pub(crate) const SIGNAL: &str = "0200000000010200000000028892fefd040000000009000000080503000400000100000000000000000000000000000000000000000000000000000000";
/// A reply of ARP by another station that says that it holds the first address.
const RIVAL: &str = "02000000004402000000003308060001080006040002020000000033c0a80002020000000002c0a80001";

/// The announcement of a switch, `sw-1` at `port-003`, for 20 seconds; that it is gone; and that of another port of it, for two seconds.
const SWITCH: &str = "0180c200000e0200000000aa88cc02050773772d31040907706f72742d303033060200140000";
const GONE: &str = "0180c200000e0200000000aa88cc02050773772d31040907706f72742d303033060200000000";
const OTHER_SWITCH: &str = "0180c200000e0200000000aa88cc02050773772d31040907706f72742d303034060200020000";
/// An Identify by the name of the place, `port-003.sw-1`, and a Get of that name.
const BY_ALIAS: &str = "010ecf0000000200000000028892fefe050000000005000100120206000d706f72742d3030332e73772d3100";
const GET_ALIAS: &str = "0200000000010200000000028892fefd0300000000060000000202060000000000000000000000000000000000000000000000000000000000000000";

pub(crate) fn octets(digits: &str) -> Vec<u8> {
    (0..digits.len()).step_by(2).map(|place| u8::from_str_radix(&digits[place..place + 2], 16).expect("a digit")).collect()
}

/// Whether these octets are in it.
fn holds(frame: &[u8], digits: &str) -> bool {
    let wanted = octets(digits);
    frame.windows(wanted.len()).any(|part| part == wanted)
}

/// A port that did not start.
pub(crate) fn made() -> Port {
    Port::new(demo_identity(), demo(), DeviceOptions::default(), NamedRecords::new(), true)
}

fn start(mut port: Port) -> Port {
    let _ = port.fill(Sector::First, &[0xFF; 4096]);
    let _ = port.fill(Sector::Second, &[0xFF; 4096]);
    assert!(port.boot().is_ok());
    port
}

/// One that started from a chip that was never written.
pub(crate) fn booted() -> Port {
    start(made())
}

/// The same of a device alone.
pub(crate) fn alone() -> Port {
    start(Port::new(demo_identity(), demo(), DeviceOptions::default(), NamedRecords::new(), false))
}

/// One that was given the name "pump-1", of which nothing is carried out yet.
pub(crate) fn busy() -> Port {
    let mut port = booted();
    assert_eq!(take(&mut port, &SET), 0);
    port
}

/// One of which a call failed as it was carried out.
pub(crate) fn lost() -> Port {
    let mut port = busy();
    let _ = port.lose();
    port
}

/// All frames of the last step, in order; its flash calls are carried out.
pub(crate) fn sent(port: &mut Port) -> Vec<Vec<u8>> {
    let mut frames = Vec::new();
    loop {
        let (mut op, mut answer) = (asked(0), 9);
        let octets = hand_out(port, &mut op, &mut answer).to_vec();
        assert_eq!((answer, op.length as usize), (0, octets.len()));
        match op.work {
            0 => return frames,
            3 => frames.push(octets),
            _ => {}
        }
    }
}

/// A frame: 0, or why it is refused.
fn take(port: &mut Port, octets: &[u8]) -> u32 {
    let mut op = asked(3);
    op.work = 9;
    let answer = serve(port, &mut op, octets);
    assert_eq!(op.work, if answer == 0 { port.waiting() } else { 9 });
    answer
}

pub(crate) fn hear(port: &mut Port, digits: &str) -> Vec<Vec<u8>> {
    assert_eq!(take(port, &octets(digits)), 0);
    sent(port)
}

/// The number of units that remain of these, what is due then, and what they sent.
pub(crate) fn pass(port: &mut Port, units: u32) -> (u32, u32, Vec<Vec<u8>>) {
    let mut op = asked(4);
    (op.units, op.note, op.work) = (units, 9, 9);
    assert_eq!(serve(port, &mut op, &[]), 0);
    assert_eq!((op.note, op.work), (0, port.waiting()));
    (op.units, op.due, sent(port))
}

/// The same, unit by unit.
pub(crate) fn pass_each(port: &mut Port, units: u32) -> (u32, u32, Vec<Vec<u8>>) {
    for passed in 1..=units {
        let (left, due, frames) = pass(port, 1);
        assert_eq!(left, 0);
        if passed == units || !frames.is_empty() {
            return (units - passed, due, frames);
        }
    }
    pass(port, 0)
}

fn conflicts(port: &mut Port) -> u32 {
    let mut op = asked(20);
    assert_eq!(serve(port, &mut op, &[]), 0);
    op.count
}

#[test]
fn a_ping_is_answered_and_a_conflict_counted() {
    let mut port = booted();
    assert!(hear(&mut port, PING).is_empty(), "the device has no address yet");
    assert_eq!(hear(&mut port, ADDRESS).len(), 1);
    assert_eq!(hear(&mut port, PING), vec![octets(PINGED)]);
    // The address is announced in the next unit, and 64,000 units later. In the next unit, and each 160,000 units, LLDP is sent too.
    assert_eq!(port.due().ok(), Some(1));
    let (left, due, frames) = pass(&mut port, 70_000);
    assert_eq!((left, due, frames.len(), &frames[0][..6], &frames[1][12..14]), (69_999, 64_000, 2, &[0xFF; 6][..], &[0x88, 0xCC][..]));
    let (left, due, frames) = pass(&mut port, 63_999);
    assert_eq!((left, due, frames.len()), (0, 1, 0));
    assert_eq!(hear(&mut port, PING), vec![octets(PINGED)]);
    let (left, due, frames) = pass(&mut port, 2);
    assert_eq!((left, due, frames.len()), (1, 96_000, 1));
    // A conflict is counted, and defended in the next unit.
    assert_eq!(conflicts(&mut port), 0);
    assert!(hear(&mut port, RIVAL).is_empty());
    assert_eq!((conflicts(&mut port), port.due().ok()), (1, Some(1)));
    assert_eq!(pass(&mut port, 1).2.len(), 1);
}

// The device learns of its neighbour, and that it is gone, before the next event: by a frame, and by units of time.
#[test]
fn the_device_is_told_of_its_neighbour() {
    let mut port = booted();
    assert!(hear(&mut port, BY_ALIAS).is_empty());
    assert!(hear(&mut port, SWITCH).is_empty());
    assert_eq!(hear(&mut port, BY_ALIAS).len(), 1);
    assert!(holds(&hear(&mut port, GET_ALIAS)[0], "0206000f0000706f72742d3030332e73772d31"));
    assert!(hear(&mut port, GONE).is_empty());
    assert!(hear(&mut port, BY_ALIAS).is_empty());
    assert!(hear(&mut port, SWITCH).is_empty());
    let mut left = 640_000;
    while left > 0 {
        left = pass(&mut port, left).0;
    }
    assert!(hear(&mut port, BY_ALIAS).is_empty());
}

// A frame of the services is work like one of the device: no event is accepted before it is fetched.
#[test]
fn no_event_is_accepted_before_an_answer_is_fetched() {
    let mut port = booted();
    let _ = hear(&mut port, ADDRESS);
    assert_eq!(take(&mut port, &octets(PING)), 0);
    assert_eq!(port.waiting(), 3);
    for (what, units) in [(3, 0), (4, 0), (4, 1), (4, 32), (5, 0), (6, 0), (16, 0), (17, 0)] {
        let mut op = asked(what);
        (op.units, op.slot, op.subslot) = (units, 1, 1);
        assert_eq!(serve(&mut port, &mut op, &[1, 2]), 7, "{what}");
    }
    assert_eq!(sent(&mut port), vec![octets(PINGED)]);
    assert_eq!(pass(&mut port, 0).2.len(), 0);
}

// What the host says of the link is in the LLDP that follows, in the form of IEEE 802.3: support 3, capability 0x6c00, type 30.
#[test]
fn the_host_says_what_the_link_is() {
    let mut port = booted();
    let announced = |port: &mut Port, digits: &str| holds(&pass(port, 160_000).2[0], digits);
    assert!(!announced(&mut port, "00120f01"));
    let said = |port: &mut Port, is_up: u32, given: &[u8]| {
        let mut op = asked(21);
        op.is_up = is_up;
        serve(port, &mut op, given)
    };
    assert_eq!(said(&mut port, 1, &[3, 0x6C, 0, 0, 30]), 0);
    assert!(announced(&mut port, "fe0900120f01036c00001e"));
    for length in [1, 4, 6] {
        assert_eq!(said(&mut port, 1, &vec![0; length]), 8, "{length}");
    }
    assert_eq!(said(&mut port, 0, &[]), 0);
    let (left, due, frames) = pass(&mut port, 200_000);
    assert_eq!((left, due, frames.len()), (0, 120_000, 0));
    assert_eq!(said(&mut port, 1, &[]), 0);
    assert!(!announced(&mut port, "00120f01"));
    // Of a device alone nothing is said, and before a start nothing is accepted.
    assert_eq!((said(&mut alone(), 1, &[]), said(&mut made(), 1, &[])), (0, 5));
}

#[test]
fn a_device_alone_answers_no_ping() {
    let mut port = alone();
    assert_eq!(hear(&mut port, ADDRESS).len(), 1);
    assert!(hear(&mut port, PING).is_empty());
    assert!(hear(&mut port, RIVAL).is_empty());
    assert_eq!((conflicts(&mut port), port.due().ok()), (0, Some(u32::MAX)));
    assert_eq!(pass(&mut port, 100_000), (0, u32::MAX, vec![]));
}

/// The device and its services, event by event.
pub(crate) struct Model {
    pub(crate) station: IoStation<MemoryFlash<4096>, 4096>,
    outbox: StationOutbox,
}

impl Model {
    pub(crate) fn new() -> Model {
        let device = Device::boot(demo_identity(), demo(), MemoryFlash::blank());
        Model { station: IoStation::new(device.ok().expect("starts")), outbox: StationOutbox::new() }
    }

    pub(crate) fn step(&mut self, event: &Event<'_>) -> Vec<Vec<u8>> {
        let _ = self.station.step(event, &mut self.outbox);
        let all = [self.outbox.device(), self.outbox.services()];
        all.iter().flat_map(|frames| frames.iter().map(|frame| frame.as_slice().to_vec())).collect()
    }

    pub(crate) fn hear(&mut self, digits: &str) -> Vec<Vec<u8>> {
        self.step(&Event::Frame(Octets::of(&octets(digits))))
    }

    /// Up to the first unit that sends something.
    pub(crate) fn pass(&mut self, units: u32) -> (u32, Vec<Vec<u8>>) {
        for passed in 0..units {
            let frames = self.step(&Event::Tick);
            if !frames.is_empty() {
                return (units - passed - 1, frames);
            }
        }
        (0, Vec::new())
    }
}

// Schedules of frames and units, from a generator with a fixed start: the port sends what the station sends, and says what is due
// of it.
#[test]
fn a_port_is_the_station_event_by_event() {
    let frames = [ADDRESS, OTHER_ADDRESS, PING, RIVAL, PING, SIGNAL, "00", SWITCH, GONE, OTHER_SWITCH, BY_ALIAS, GET_ALIAS];
    for seed in 1..60_u64 {
        let (mut port, mut model, mut state) = (booted(), Model::new(), seed);
        for _ in 0..60 {
            state = state.wrapping_mul(6_364_136_223_846_793_005).wrapping_add(1_442_695_040_888_963_407);
            let number = (state >> 33) as u32;
            if number % 3 == 0 {
                let digits = frames[(number / 3) as usize % frames.len()];
                assert_eq!(hear(&mut port, digits), model.hear(digits), "{seed}");
                continue;
            }
            let units = [1, 1, 2, 32, 700, 64_000, 20_000][(number / 3) as usize % 7] + number % 2;
            let (left, due, sent) = if seed % 3 == 0 && units < 1000 { pass_each(&mut port, units) } else { pass(&mut port, units) };
            assert_eq!((left, sent), model.pass(units), "{seed}");
            assert_eq!(due, model.station.due(), "{seed}");
            assert_eq!(port.due().ok(), Some(due), "{seed}");
        }
        assert_eq!(u64::from(conflicts(&mut port)), model.station.services().conflicts(), "{seed}");
    }
}

/// All frames that the reference host sends.
struct Sent(Vec<Vec<u8>>);

impl Sink for Sent {
    fn take(&mut self, frame: &frame_codec::Frame) {
        self.0.push(frame.as_slice().to_vec());
    }
}

#[test]
fn the_reference_host_drives_the_device_and_its_services() {
    let frames = [SWITCH, ADDRESS, PING, BY_ALIAS].map(octets);
    let [switch, address, ping, by_alias] = frames.each_ref().map(|octets| Operation::Happens(Event::Frame(Octets::of(octets))));
    let mut sent = Sent(Vec::new());
    let operations = [switch, address, ping, Operation::Works, by_alias, Operation::Works];
    let mut port = booted();
    assert!(play(&mut port, &mut MemoryFlash::<4096>::blank(), &operations, &mut sent).is_ok());
    // The services answer the ping, and the device answers by the name that it has of its neighbour.
    assert_eq!(sent.0.len(), 3);
    assert!(holds(&sent.0[1], PINGED));
    assert!(!port.has_work());
}
