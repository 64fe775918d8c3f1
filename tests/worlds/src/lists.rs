//! Start-ups whose catalogue says that a Write can carry several records: the octets of a list, lists of each length, records of a list that
//! the device refuses, and schedules from seeds in which the laws of both ends are computed after each move (`world_monitor`).
use crate::otherwise::{RECORDS, as_planned, make, never_exchanges, plugged, starts_up, station};
use configurator::plan_from_json;
use controller_core::{Cause, Controller, State};
use network_world::{End, Move, World};
use pn_values::Real;
use rattle_std::alloc::Global;
use relations::Phase;
use uuid::Uuid;
use world_monitor::{Fresh, Kind, Net, Schedule, Watched};

/// The records of that catalogue.
const TWO: &str = r#"{"Subslot":1,"Index":1,"Data":"00000064"},{"Subslot":1,"Index":2,"Data":"000000c8"}"#;

/// More frames than a start-up has.
const MOST_FRAMES: usize = 100;

/// The same catalogue with the key for lists.
pub(crate) fn listing() -> String {
    RECORDS.replace(
        r#""MinDeviceInterval":32,"#,
        r#""MinDeviceInterval":32,"MultipleWriteSupported":true,"#,
    )
}

/// The same with this many records, of index 1 and 2 in turn; the last octet of each is its number.
pub(crate) fn counting(count: usize) -> String {
    let records: Vec<String> = (0..count)
        .map(|number| {
            let index = number % 2 + 1;
            format!(r#"{{"Subslot":1,"Index":{index},"Data":"{number:08x}"}}"#)
        })
        .collect();
    listing().replace(TWO, &records.join(","))
}

/// The same, which goes on after a refused record.
fn going_on(catalogue: &str) -> String {
    catalogue.replace(
        r#""DataHoldFactor":3,"#,
        r#""DataHoldFactor":3,"ContinueOnRefusedRecord":true,"#,
    )
}

/// The controller of a catalogue.
fn controller(catalogue: &str) -> Controller {
    let plan = plan_from_json(Global, catalogue.as_bytes())
        .ok()
        .expect("a plan");
    Controller::new(plan, Uuid::from_bytes([1; 16]), Uuid::from_bytes([2; 16]))
}

/// The station in which this is plugged, and the controller of a catalogue.
pub(crate) fn world(real: Real, catalogue: &str) -> Net {
    World::new(Global, station(real), controller(catalogue))
}

/// The same under watch.
fn watched(real: Real) -> Watched {
    let fresh = Fresh {
        net: world(real, &listing()),
        records: 2,
    };
    Watched::new(Global, fresh).expect("memory")
}

/// Each frame comes to the other end as soon as it was sent. Returns how many were sent.
fn played(net: &mut Net) -> usize {
    let mut number = 0;
    while let Some(frame) = net.sent(number) {
        assert!(number < MOST_FRAMES, "the start-up does not end");
        let from_controller = frame.as_slice()[6..12] == [2, 0, 0, 0, 0, 2];
        let end = if from_controller {
            End::Device
        } else {
            End::Controller
        };
        net.play(&[Move::Deliver(end, number)]).expect("memory");
        number += 1;
    }
    number
}

/// The blocks of each Write that was sent.
fn writes(net: &Net, count: usize) -> Vec<Vec<u8>> {
    let frames = (0..count).filter_map(|number| net.sent(number));
    let calls = frames.filter(|frame| Kind::of(frame.as_slice()) == Kind::Write);
    calls
        .map(|frame| {
            let octets = frame.as_slice();
            let length = usize::from(u16::from_be_bytes([octets[16], octets[17]]));
            octets[142..14 + length].to_vec()
        })
        .collect()
}

/// The octets of an IODWriteReqHeader of this relation (IEC 61158-6-10, 5.2.3).
fn header(sequence: u8, api: [u8; 4], place: [u8; 4], index: u16, length: u16) -> Vec<u8> {
    let mut octets = vec![0, 8, 0, 60, 1, 0, 0, sequence];
    octets.extend([1; 16]);
    octets.extend(api);
    octets.extend(place);
    octets.extend([0, 0]);
    octets.extend(index.to_be_bytes());
    octets.extend([0, 0]);
    octets.extend(length.to_be_bytes());
    octets.extend([0; 24]);
    octets
}

/// The records that the device has accepted, by their last octets.
fn taken(net: &Net) -> Vec<u8> {
    let records = net.device().taken().iter();
    records.map(|record| record.value.as_slice()[3]).collect()
}

// Two records of four octets: no padding.
#[test]
fn the_octets_of_a_list() {
    let mut net = world(as_planned(), &listing());
    let count = played(&mut net);
    let mut list = header(1, [0xFF; 4], [0xFF; 4], 0xE040, 136);
    list.extend(header(1, [0; 4], [0, 1, 0, 1], 1, 4));
    list.extend([0, 0, 0, 100]);
    list.extend(header(1, [0; 4], [0, 1, 0, 1], 2, 4));
    list.extend([0, 0, 0, 200]);
    assert_eq!(writes(&net, count), [list]);
    assert_eq!(net.controller().state(), State::Exchanging);
    assert_eq!(taken(&net), [100, 200]);
}

// Records of 1, 2, 3 and 4 octets: each is padded with zeros to a multiple of 4, the last one too.
#[test]
fn each_record_of_a_list_is_padded() {
    for (length, padded) in [(1, 4), (2, 4), (3, 4), (4, 4), (5, 8), (64, 64)] {
        let data = "ab".repeat(length);
        let catalogue = listing()
            .replace(TWO, &format!(r#"{{"Subslot":1,"Index":1,"Data":"{data}"}}"#))
            .replace(r#"{"Index":1,"Length":4}"#, &format!(r#"{{"Index":1,"Length":{length}}}"#));
        let mut net = world(plugged(&[(1, length as u16), (2, 4)]), &catalogue);
        let count = played(&mut net);
        let mut list = header(1, [0xFF; 4], [0xFF; 4], 0xE040, 64 + padded as u16);
        list.extend(header(1, [0; 4], [0, 1, 0, 1], 1, length as u16));
        list.extend(vec![0xAB; length]);
        list.extend(vec![0; padded - length]);
        assert_eq!(writes(&net, count), [list]);
        assert_eq!(net.controller().state(), State::Exchanging);
        assert_eq!(net.device().taken()[0].value.len(), length);
    }
}

// Ten records a list; the last one has those that are left.
#[test]
fn lists_of_each_length() {
    for (records, lists) in [(0, 0), (1, 1), (9, 1), (10, 1), (11, 2), (20, 2), (21, 3), (32, 4)] {
        let mut net = world(as_planned(), &counting(records));
        let count = played(&mut net);
        assert_eq!(net.controller().state(), State::Exchanging, "{records} records");
        assert_eq!(net.device().phase(), Some(Phase::Exchanging));
        assert_eq!(taken(&net), (0..records as u8).collect::<Vec<u8>>());
        let sent = writes(&net, count);
        assert_eq!(sent.len(), lists);
        for (number, list) in (1..).zip(&sent) {
            let most = 64 + 10 * 68;
            assert_eq!(list[7], number);
            assert_eq!(list.len(), if usize::from(number) < lists { most } else { 64 + (records - 10 * (lists - 1)) * 68 });
        }
        assert!(net.controller().refused_record().is_none());
    }
}

// The second one of three is refused, and the others are kept: the controller ends, and tells which one it was.
#[test]
fn a_refused_record_of_a_list_ends_the_start_up() {
    let mut net = world(plugged(&[(1, 4), (2, 3)]), &counting(3));
    played(&mut net);
    assert_eq!(net.controller().state(), State::Ended(Cause::Refused));
    assert_eq!(net.device().phase(), Some(Phase::Started));
    assert_eq!(taken(&net), [0, 2]);
    let refused = net.controller().refused_record().expect("a record");
    assert_eq!(refused.number, 1);
    assert_eq!(net.controller().refusal(), Some(refused.status));
    let status = refused.status;
    assert_eq!([status.code, status.decode, status.code1, status.code2], [0xDF, 0x80, 0xB1, 0]);
}

// The same in the second list, in a plan that goes on: of each list the first refused one is told, and data is exchanged.
#[test]
fn a_plan_may_go_on_after_a_refused_record_of_a_list() {
    let mut net = world(plugged(&[(1, 4), (2, 3)]), &going_on(&counting(13)));
    let count = played(&mut net);
    assert_eq!(net.controller().state(), State::Exchanging);
    assert_eq!(writes(&net, count).len(), 2);
    assert_eq!(taken(&net), [0, 2, 4, 6, 8, 10, 12]);
    assert_eq!(net.controller().refused_record().expect("a record").number, 11);
}

/// The frames of a start-up with one list of two records.
const LISTED: [Kind; 6] = [
    Kind::Write,
    Kind::Positive,
    Kind::PrmEnd,
    Kind::Positive,
    Kind::Ready,
    Kind::Confirm,
];

#[test]
fn two_records_of_a_list_are_written_by_one_call() {
    let mut watched = watched(as_planned());
    starts_up(&mut watched, &LISTED);
    assert!(watched.told().is_exchanging());
    assert_eq!(watched.told().taken, 2);
}

// In schedules from seeds no law is broken, and many of them come to the exchange of data.
#[test]
fn lists_in_schedules() {
    let mut exchanging = 0;
    for seed in 0..40 {
        let (mut watched, mut schedule) = (watched(as_planned()), Schedule::new(seed));
        for _ in 0..1_000 {
            let choice = schedule.choose(watched.count(), watched.raised());
            make(&mut watched, choice);
        }
        assert!(watched.are_kept());
        exchanging += u32::from(watched.tally().exchanging != 0);
    }
    assert!(exchanging > 0);
}

#[test]
fn a_refused_list_in_schedules() {
    for lengths in [[4, 3], [3, 4], [3, 3]] {
        let real = move || plugged(&[(1, lengths[0]), (2, lengths[1])]);
        never_exchanges(move || watched(real()), Cause::Refused);
    }
}
