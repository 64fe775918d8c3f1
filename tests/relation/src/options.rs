//! A station with options.
use crate::Tried;
use crate::connects::{Blocks, THREE, connect};
use crate::exchange::outputs;
use crate::records::many;
use crate::requests::{served, write};
use device_core::{Device, Note};
use flash_model::MemoryFlash;
use frame_codec::{Bytes, Outbox};
use pn_values::{Real, demo_identity};
use relations::{DeviceOptions, Phase};
use test_stations::{
    CONNECT, CONTROL, END, PRM_END, READ, RELEASE, Station, WRITE, call, frame, mend, octets,
    plugged, response, set, set_address,
};

/// A station with an address and these options, in which these modules are plugged.
fn with_options(options: DeviceOptions, real: Real) -> Tried {
    let mut device = Device::unstarted(demo_identity(), real, options, MemoryFlash::blank());
    device.load().expect("starts");
    let mut tried = Tried::new(Some(device));
    tried.notes(&set_address(), Note::Done);
    tried
}

/// A station with an address and this smallest interval.
fn hasty(smallest_interval: u32) -> Option<Station> {
    let options = DeviceOptions { smallest_interval, ..DeviceOptions::default() };
    let mut device = Device::unstarted(demo_identity(), plugged(), options, MemoryFlash::blank());
    device.load().ok()?;
    let _ = device.step(&set_address(), &mut Outbox::new());
    Some(device)
}

/// The status of the answer to a Connect of 32 units, and whether there is a relation.
fn connected(smallest_interval: u32) -> ([u8; 4], Option<Phase>) {
    let mut device = hasty(smallest_interval).expect("starts");
    let blocks = connect(0x11, 600, THREE);
    let (_, _, status) = served(&mut device, &call(CONNECT, 7, 0, blocks.as_slice()));
    (status, device.phase())
}

#[test]
fn an_interval_that_is_too_small_makes_no_relation() {
    let started = ([0; 4], Some(Phase::Started));
    assert_eq!(
        connected(DeviceOptions::default().smallest_interval),
        started
    );
    assert_eq!(connected(32), started);
    assert_eq!(connected(33), ([0xDB, 0x81, 0x02, 0x0A], None));
}

// ---- who holds a relation

/// Whether a relation is held by its own controller alone.
fn held(only_own_controller: bool) -> Tried {
    let options = DeviceOptions { only_own_controller, ..DeviceOptions::default() };
    with_options(options, plugged())
}

/// The MAC address and the IP address of the controller, and of others.
const OWN: ([u8; 6], [u8; 4]) = ([2, 0, 0, 0, 0, 1], [192, 168, 0, 1]);
const OTHER_MAC: ([u8; 6], [u8; 4]) = ([2, 0, 0, 0, 0, 9], [192, 168, 0, 1]);
const OTHER_ADDRESS: ([u8; 6], [u8; 4]) = ([2, 0, 0, 0, 0, 1], [192, 168, 0, 9]);
const OTHER: ([u8; 6], [u8; 4]) = ([2, 0, 0, 0, 0, 9], [192, 168, 0, 9]);

/// The same call from another station.
fn from((mac, address): ([u8; 6], [u8; 4]), mut bytes: Bytes) -> Bytes {
    for (place, octet) in (6..).zip(mac).chain((26..).zip(address)) {
        set(&mut bytes, place, octet);
    }
    mend(&mut bytes);
    bytes
}

/// The blocks of a Connect with this ARUUID of the controller at 02-00-00-00-00-01.
fn own(uuid: u8) -> Blocks {
    let mut blocks = connect(uuid, 3, THREE);
    blocks.as_mut_slice()[26..32].copy_from_slice(&OWN.0);
    blocks
}

impl Tried {
    /// A Connect of the controller at 02-00-00-00-00-01, 3 times 100 ms for its activity timer, from this station gets this status.
    fn is_asked_by(&mut self, station: ([u8; 6], [u8; 4]), status: [u8; 4]) {
        let asked = from(station, call(CONNECT, 7, 0, own(0x11).as_slice()));
        assert_eq!(served(&mut self.station, &asked).2, status);
    }

    /// A Read Implicit of I&M0 that names the relation, from this station, is answered positively.
    fn is_read_by(&mut self, station: ([u8; 6], [u8; 4]), sequence: u8) {
        let mut blocks = write(sequence, 0, 1, 0xAFF0, &[]);
        for (place, octet) in [(1, 9), (38, 2)] {
            blocks.as_mut_slice()[place] = octet;
        }
        let read = from(station, call(5, 8, u16::from(sequence), blocks.as_slice()));
        assert_eq!(served(&mut self.station, &read).2, [0; 4]);
    }

    /// A PrmEnd from this station is answered positively.
    fn is_parameterized_by(&mut self, station: ([u8; 6], [u8; 4])) {
        let ended = from(station, call(CONTROL, 7, 1, &PRM_END));
        assert_eq!(served(&mut self.station, &ended).2, [0; 4]);
    }
}

/// The unit with which the activity timer ends the relation, which another call is made of each 4,000 units. `None` if there
/// still is a relation after 40,000 units.
fn ends_after(only_own: bool, station: ([u8; 6], [u8; 4])) -> Option<u32> {
    let mut device = held(only_own);
    device.is_asked_by(OWN, [0; 4]);
    for unit in 1..40_000 {
        crate::requests::sent_in(&mut device.station, 1);
        if device.station.phase().is_none() {
            return Some(unit);
        }
        if unit % 4_000 == 0 {
            device.is_read_by(station, (unit / 4_000) as u8);
        }
    }
    None
}

#[test]
fn only_its_own_controller_keeps_a_relation() {
    // 3 times 100 ms are 9,600 units.
    for station in [OTHER_MAC, OTHER_ADDRESS, OTHER] {
        assert_eq!(ends_after(true, station), Some(9_600));
        assert_eq!(ends_after(false, station), None);
    }
    assert_eq!(ends_after(true, OWN), None);
}

#[test]
fn the_prm_end_of_another_station_does_not_keep_a_relation() {
    for (only_own, station, units) in [
        (true, OTHER, 9_600 - 5_000),
        (true, OWN, 9_600),
        (false, OTHER, 9_600),
    ] {
        let mut device = held(only_own);
        device.is_asked_by(OWN, [0; 4]);
        crate::requests::sent_in(&mut device.station, 5_000);
        device.is_parameterized_by(station);
        device.is_at(Some(Phase::Awaiting));
        crate::requests::sent_in(&mut device.station, units - 1);
        device.is_at(Some(Phase::Awaiting));
        crate::requests::sent_in(&mut device.station, 1);
        device.is_at(None);
    }
}

#[test]
fn a_connect_for_another_controller_makes_no_relation() {
    // CMInitiatorMacAdd is field 7 of ARBlockReq.
    let refused = [0xDB, 0x81, 0x01, 0x07];
    for (only_own, station, status) in [
        (true, OWN, [0; 4]),
        (true, OTHER_ADDRESS, [0; 4]),
        (true, OTHER_MAC, refused),
        (true, OTHER, refused),
        (false, OTHER, [0; 4]),
    ] {
        let mut device = held(only_own);
        device.is_asked_by(station, status);
        device.is_at((status == [0; 4]).then_some(Phase::Started));
    }
}

#[test]
fn another_fault_of_a_connect_is_reported_first() {
    let mut device = held(true);
    // ARType 2, field 4.
    let mut blocks = own(0x11);
    blocks.as_mut_slice()[7] = 2;
    let asked = from(OTHER, call(CONNECT, 8, 0, blocks.as_slice()));
    assert_eq!(served(&mut device.station, &asked).2, [0xDB, 0x81, 0x01, 0x04]);
    // A relation exists already.
    device.is_asked_by(OWN, [0; 4]);
    let asked = from(OTHER, call(CONNECT, 9, 0, own(0x22).as_slice()));
    assert_eq!(served(&mut device.station, &asked).2, [0xDB, 0x81, 0x40, 0x04]);
}

// ---- records that are passed on

/// A station with 128 parameter records that exchanges data, after this many of them were written.
fn exchanging(records_passed_on: bool, written: u8) -> Tried {
    let options = DeviceOptions { records_passed_on, ..DeviceOptions::default() };
    let mut device = with_options(options, many());
    let blocks = connect(0x11, 600, THREE);
    let _ = served(&mut device.station, &call(CONNECT, 7, 0, blocks.as_slice()));
    for number in 0..written {
        device.writes_parameter(number, [0; 4]);
    }
    let _ = served(&mut device.station, &call(CONTROL, 7, 200, &PRM_END));
    let _ = served(&mut device.station, &response());
    device.is_at(Some(Phase::Exchanging));
    device
}

impl Tried {
    /// The parameter record of this number is written while data is exchanged, with this value.
    fn is_given(&mut self, sequence: u16, number: u8, value: u8, status: [u8; 4]) {
        let (slot, subslot) = (u16::from(number / 8), u16::from(number / 2 % 4) + 1);
        let blocks = write(1, slot, subslot, u16::from(number % 2) + 1, &[value]);
        let written = call(WRITE, 9, sequence, blocks.as_slice());
        assert_eq!(served(&mut self.station, &written).2, status);
    }

    /// The values that are kept, those that were passed on last, and how many were passed on.
    fn records(&self) -> (Vec<u8>, Vec<u8>, u32) {
        let kept = self.station.taken().iter().map(|record| record.value.as_slice()[0]);
        let passed = self.station.passed().iter().map(|record| record.value.as_slice()[0]);
        (kept.collect(), passed.collect(), self.station.passed_on())
    }
}

#[test]
fn records_of_an_exchange_are_passed_on() {
    let mut device = exchanging(true, 64);
    let kept: Vec<u8> = (0..64).collect();
    assert_eq!(device.records(), (kept.clone(), vec![], 0));
    for (sequence, value) in (0..200).zip(50..250) {
        device.is_given(sequence, 127, value, [0; 4]);
    }
    assert_eq!(device.records(), (kept, (234..250).collect(), 200));
    let last = device.station.passed().last().expect("was passed on");
    assert_eq!((last.slot, last.subslot, last.index), (15, 4, 2));
}

#[test]
fn without_the_option_records_of_an_exchange_are_kept() {
    let mut device = exchanging(false, 62);
    device.is_given(0, 127, 200, [0; 4]);
    device.is_given(1, 126, 201, [0; 4]);
    device.is_given(2, 126, 202, [0xDF, 0x80, 0xB5, 6]);
    let (kept, passed, count) = device.records();
    assert_eq!((kept.len(), &kept[62..], passed, count), (64, [200, 201].as_slice(), vec![], 0));
}

#[test]
fn records_of_the_start_up_are_kept() {
    let options = DeviceOptions { records_passed_on: true, ..DeviceOptions::default() };
    let mut device = with_options(options, many());
    let blocks = connect(0x11, 600, THREE);
    let _ = served(&mut device.station, &call(CONNECT, 7, 0, blocks.as_slice()));
    for number in 0..64 {
        device.writes_parameter(number, [0; 4]);
    }
    device.writes_parameter(64, [0xDF, 0x80, 0xB5, 6]);
    // PrmEnd was accepted, and ApplicationReady waits for its answer.
    let _ = served(&mut device.station, &call(CONTROL, 7, 200, &PRM_END));
    device.is_given(0, 3, 9, [0xDF, 0x80, 0xB5, 6]);
    assert_eq!(device.records(), ((0..64).collect(), vec![], 0));
}

#[test]
fn the_next_relation_has_passed_on_nothing() {
    let mut device = exchanging(true, 1);
    device.is_given(0, 127, 7, [0; 4]);
    assert_eq!(device.records(), (vec![0], vec![7], 1));
    let _ = served(&mut device.station, &call(1, 7, 201, &test_stations::END));
    assert_eq!(device.records(), (vec![], vec![], 0));
    let blocks = connect(0x11, 600, THREE);
    let _ = served(&mut device.station, &call(CONNECT, 7, 202, blocks.as_slice()));
    assert_eq!(device.records(), (vec![], vec![], 0));
}

#[test]
fn a_record_that_is_passed_on_is_not_read_back() {
    let mut device = exchanging(true, 0);
    device.is_given(0, 127, 7, [0; 4]);
    let mut blocks = write(1, 15, 4, 2, &[]);
    for (place, octet) in [(1, 9), (38, 2)] {
        blocks.as_mut_slice()[place] = octet;
    }
    let read = call(READ, 9, 1, blocks.as_slice());
    assert_eq!(served(&mut device.station, &read).2, [0xDE, 0x80, 0xB6, 0]);
}

// ---- numbers that go round

/// The frame by which the controller ends a relation: ERR with RTA_ERR_CLS_PROTOCOL and code 5, to endpoint 1 of the device.
const ENDED: [u8; 36] =
    *b"\x02\x00\x00\x00\x00\x01\x02\x00\x00\x00\x00\x02\x81\x00\xa0\x00\x88\x92\xfe\x01\
    \x00\x01\x00\x01\x14\x01\xff\xff\xff\xfe\x00\x04\xcf\x81\xfd\x05";

/// A station whose numbers go round from this one on, or are always the first ones.
fn numbered(numbers_from: Option<u16>) -> Tried {
    let options = DeviceOptions { numbers_from, ..DeviceOptions::default() };
    with_options(options, plugged())
}

/// The same frame with this number at a place.
fn with_number(frame: &[u8], place: usize, number: u16) -> Bytes {
    let mut bytes = octets(frame);
    for (place, octet) in (place..).zip(number.to_be_bytes()) {
        set(&mut bytes, place, octet);
    }
    bytes
}

/// A frame of outputs with this FrameID, CycleCounter and output.
fn brings(frame_id: u16, counter: u16, value: u8) -> Bytes {
    with_number(&outputs(counter, [value, value]), 18, frame_id)
}

/// The ERR of the controller to this endpoint of the device.
fn ends(endpoint: u16) -> Bytes {
    with_number(&ENDED, 20, endpoint)
}

impl Tried {
    /// A Connect makes a relation, and its answer has this FrameID of outputs and this endpoint of the device. Then it exchanges data.
    fn is_related(&mut self, sequence: u16, blocks: &[u8], (frame_id, endpoint): (u16, u16)) {
        self.serves(&call(CONNECT, 7, sequence, blocks), (1, 212, [0; 4]));
        let answer = &self.last.as_slice()[0].as_slice()[142..];
        assert_eq!(answer[56..58], frame_id.to_be_bytes());
        assert_eq!(answer[66..68], endpoint.to_be_bytes());
        let _ = served(&mut self.station, &call(CONTROL, 7, sequence + 1, &PRM_END));
        let _ = served(&mut self.station, &response());
        self.is_at(Some(Phase::Exchanging));
    }

    /// The controller ends the relation by a Release.
    fn is_released(&mut self, sequence: u16) {
        let _ = served(&mut self.station, &call(RELEASE, 7, sequence, &END));
        self.is_at(None);
    }

    /// This is the output of the module in slot 2.
    fn has_output(&self, value: u8) {
        assert_eq!(self.station.output(2, 1), Some([value; 2].as_slice()));
    }
}

/// A station in its second relation. In the first it had an output, and the numbers of both are these.
fn second(numbers_from: Option<u16>, first: (u16, u16), second: (u16, u16)) -> Tried {
    let mut device = numbered(numbers_from);
    let blocks = connect(0x11, 600, THREE);
    device.is_related(0, &blocks, first);
    device.sends_none(&frame(&brings(first.0, 32, 0xAA)), Note::Done);
    device.has_output(0xAA);
    device.is_released(2);
    device.is_related(3, &blocks, second);
    device.has_output(0);
    device
}

#[test]
fn late_frames_of_the_relation_before_are_refused() {
    let before = (0xC000 + 14_335, 14_336);
    let mut device = second(Some(14_335), before, (0xC000, 1));
    device.sends_none(&frame(&brings(before.0, 64, 0x55)), Note::NoRelation);
    device.has_output(0);
    device.sends_none(&frame(&ends(before.1)), Note::NoRelation);
    device.is_at(Some(Phase::Exchanging));
    // Its own are accepted.
    device.sends_none(&frame(&brings(0xC000, 64, 0x77)), Note::Done);
    device.has_output(0x77);
    device.sends_none(&frame(&ends(1)), Note::Done);
    device.is_at(None);
}

#[test]
fn without_the_option_they_are_accepted() {
    let always = (0xC000, 1);
    let mut device = second(None, always, always);
    device.sends_none(&frame(&brings(0xC000, 64, 0x55)), Note::Done);
    device.has_output(0x55);
    device.sends_none(&frame(&ends(1)), Note::Done);
    device.is_at(None);
}

#[test]
fn a_refused_connect_takes_no_number() {
    let mut device = numbered(Some(7));
    let mut blocks = connect(0x11, 600, THREE);
    // ARType 2 is refused.
    blocks.as_mut_slice()[7] = 2;
    assert_eq!(served(&mut device.station, &call(CONNECT, 7, 0, &blocks)).2, [0xDB, 0x81, 1, 4]);
    let blocks = connect(0x11, 600, THREE);
    device.is_related(1, &blocks, (0xC007, 8));
    // A second Connect is refused while there is a relation.
    assert_eq!(served(&mut device.station, &call(CONNECT, 8, 0, &blocks)).2, [0xDB, 0x81, 0x40, 6]);
    device.is_released(3);
    device.is_related(4, &blocks, (0xC008, 9));
}

#[test]
fn a_frame_id_that_is_asked_for_is_kept() {
    let mut blocks = connect(0x11, 600, THREE);
    // FrameID of the outputs.
    blocks.as_mut_slice()[163..165].copy_from_slice(&[0xC1, 0x23]);
    for (numbers_from, endpoint) in [(Some(14_335), 14_336), (None, 1)] {
        let mut device = numbered(numbers_from);
        device.is_related(0, &blocks, (0xC123, endpoint));
        device.sends_none(&frame(&brings(0xC000 + 14_335, 32, 0x55)), Note::NoRelation);
        device.sends_none(&frame(&brings(0xC123, 32, 0x55)), Note::Done);
        device.has_output(0x55);
    }
}
