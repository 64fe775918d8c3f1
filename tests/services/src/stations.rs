//! A device and the services beside it: a run and a cycle of them, and several units at once.

use super::{ANNOUNCEMENT, octets};
use device_core::{Device, Event, Note, Octets, Sink};
use device_station::{IoStation, StationOutbox, cycle};
use flash_model::MemoryFlash;
use frame_codec::Frame;
use lldp::Link;
use pn_values::{demo_identity, demo_modules};

/// A Set of the IP address 192.168.0.2, permanent.
pub const SET_ADDRESS: &str =
    "0200000000010200000000028892fefd040000000002000000120102000e0001c0a80002ffffff0000000000";

/// An echo request to it, and the reply.
pub const PING: &str = "0200000000010200000000020800450000240005400080017980c0a80001c0a800020800542f12340007616263646566676800000000000000000000";
/// The station's LLDP, without a name, up to its port.
const LLDP: &str = "0180c200000e02000000000188cc0207040200000000010409";

pub const PINGED: &str = "020000000002020000000001080045000024000040004001b985c0a80002c0a8000100005c2f12340007616263646566676800000000000000000000";

/// What is handed on, kept in memory.
struct Taken(Vec<Vec<u8>>);

impl Sink for Taken {
    fn take(&mut self, frame: &Frame) {
        self.0.push(frame.as_slice().to_vec());
    }
}

/// A frame that arrives.
fn frame(octets: &[u8]) -> Event<'_> {
    Event::Frame(Octets::of(octets))
}

/// The station of a demo device with a blank flash.
fn blank() -> IoStation<MemoryFlash<768>, 768> {
    let flash = MemoryFlash::<768>::blank();
    let device = Device::boot(demo_identity(), demo_modules(), flash);
    IoStation::new(device.ok().expect("starts"))
}

#[test]
fn a_run_hands_on_what_both_send() {
    let mut sink = Taken(Vec::new());
    let mut station = blank();
    let (set, ping) = (octets(SET_ADDRESS), octets(PING));
    station.run(&[frame(&set), Event::Tick, frame(&ping)], &mut sink);
    // The answer to the Set is the device's; then come the announcement, LLDP, and the echo reply of the services.
    let begins: Vec<bool> = [(1, ANNOUNCEMENT), (2, LLDP), (3, PINGED)]
        .iter()
        .map(|(place, wanted)| sink.0[*place].starts_with(&octets(wanted)))
        .collect();
    assert_eq!((sink.0.len(), begins), (4, vec![true; 3]));
    assert_eq!(station.services().conflicts(), 0);
}

#[test]
fn a_cycle_hands_on_what_both_send_and_its_next_start_announces_the_address() {
    let (set, ping) = (octets(SET_ADDRESS), octets(PING));
    let events = [frame(&set), Event::Tick, frame(&ping), frame(&set), frame(&ping)];
    let mut flash = MemoryFlash::<768>::blank();
    // The power is lost in the second commit, in its first call.
    flash.fuse(3, [0; 8]);
    let mut sink = Taken(Vec::new());
    let station = cycle(demo_identity(), demo_modules(), flash, &events, &mut sink, |mut flash| {
        flash.power_up();
        flash
    });
    let mut station = station.ok().expect("starts again");
    // The answer to the Set is the device's; then come the announcement, LLDP, and the echo reply of the services. The last Ping
    // comes when the power is lost.
    let begins: Vec<bool> = [(1, ANNOUNCEMENT), (2, LLDP), (3, PINGED)]
        .iter()
        .map(|(place, wanted)| sink.0[*place].starts_with(&octets(wanted)))
        .collect();
    assert_eq!((sink.0.len(), begins), (4, vec![true; 3]));
    // The address that was stored is announced again.
    let mut outbox = StationOutbox::new();
    assert_eq!(station.step(&Event::Tick, &mut outbox), Note::Done);
    assert!(outbox.services()[0].as_slice().starts_with(&octets(ANNOUNCEMENT)));
}

#[test]
fn a_leap_does_what_as_many_units_do() {
    let (mut one, mut other) = (blank(), blank());
    let (mut sent, mut leapt) = (StationOutbox::new(), StationOutbox::new());
    assert_eq!(one.due(), 1);
    one.step(&frame(&octets(SET_ADDRESS)), &mut sent);
    other.step(&frame(&octets(SET_ADDRESS)), &mut leapt);
    let mut announced = Vec::new();
    for unit in 1..=160_001_u32 {
        one.step(&Event::Tick, &mut sent);
        if !sent.services().is_empty() {
            announced.push((unit, sent.services().len()));
        }
    }
    // The address is announced twice, and LLDP each 160,000 units.
    assert_eq!(announced, [(1, 2), (64_001, 1), (160_001, 1)]);
    // By leaps of all that is due: the same units send, and no other.
    let mut passed = 0;
    for (unit, count) in announced {
        let due = other.due();
        assert_eq!(other.elapse(due, &mut leapt), Note::Done);
        passed += due;
        assert_eq!((passed, leapt.services().len()), (unit, count));
    }
    assert_eq!((one.due(), other.due()), (160_000, 160_000));
}

/// LLDP of the port `port-003` of `sw-1`, for this many seconds.
fn lldp(seconds: u8) -> Vec<u8> {
    octets(&format!("0180c200000e0200000000aa88cc02050773772d31040907706f72742d30303306020{seconds:03x}0000"))
}

/// Whether its device knows a neighbour.
fn knows(station: &IoStation<MemoryFlash<768>, 768>) -> bool {
    station.device().neighbour().is_some()
}

// The device is told before the next event.
#[test]
fn a_neighbour_is_told_and_forgotten_in_time() {
    let mut station = blank();
    let mut outbox = StationOutbox::new();
    let mut takes = |station: &mut IoStation<_, 768>, event: &Event<'_>| station.step(event, &mut outbox);
    assert_eq!(takes(&mut station, &frame(&lldp(1))), Note::Done);
    assert!(!knows(&station));
    // 32,000 units: in the last one it is forgotten.
    for _ in 1..=32_000 {
        assert_eq!(takes(&mut station, &Event::Tick), Note::Done);
        assert!(knows(&station));
    }
    takes(&mut station, &Event::Tick);
    assert!(!knows(&station));
    // A message for no time forgets it at once; one that is not complete is no message.
    takes(&mut station, &frame(&lldp(9)));
    takes(&mut station, &frame(&lldp(0)));
    assert!(knows(&station));
    assert_eq!(takes(&mut station, &frame(&octets("0180c200000e0200000000aa88cc0205077377"))), Note::Fault);
    assert!(!knows(&station));
}

// Nothing is sent while the link is down; the host says which link it is.
#[test]
fn lldp_follows_the_link() {
    let mut station = blank();
    let mut outbox = StationOutbox::new();
    station.set_link(false, None);
    station.step(&Event::Tick, &mut outbox);
    assert!(outbox.services().is_empty());
    let link = Link {
        support: 3,
        capability: 0x0c00,
        mau_type: 16,
    };
    station.set_link(true, Some(link));
    let due = station.due();
    assert_eq!(due, 160_000);
    station.elapse(due, &mut outbox);
    let sent = outbox.services()[0].as_slice();
    let told = octets("fe0900120f01030c000010");
    assert!(sent.windows(told.len()).any(|part| part == told), "{sent:02x?}");
}
