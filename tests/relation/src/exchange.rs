//! What a relation exchanges: cyclic frames each way, and an alarm. The octets were worked out by hand from IEC 61158-6-10.
use crate::Tried;
use crate::connects::{MOVED, THREE, connect};
use crate::requests::{exchanging, exchanging_by, related, served};
use device_core::{Event, Note};
use frame_codec::{Bytes, Outbox};
use relations::Phase;
use test_stations::{
    CONNECT, CONTROL, END, PRM_END, RELEASE, Station, call, frame, is_filled, octets, response, set,
};

// The first cyclic frame of the device, for which the application gave 12 34.
const INPUTS: [u8; 64] =
    *b"\x02\x00\x00\x00\x00\x02\x02\x00\x00\x00\x00\x01\x81\x00\xc0\x00\x88\x92\xc0\x01\
    \x80\x80\x80\x12\x34\x80\x80\x00\x00\x00\x00\x00\x00\x00\x00\x00\x00\x00\x00\x00\
    \x00\x00\x00\x00\x00\x00\x00\x00\x00\x00\x00\x00\x00\x00\x00\x00\x00\x00\x00\x00\x00\x20\x35\x00";

// A cyclic frame of the controller: the output aa 55, with the CycleCounter 32.
const OUTPUTS: [u8; 64] =
    *b"\x02\x00\x00\x00\x00\x01\x02\x00\x00\x00\x00\x02\x81\x00\xc0\x00\x88\x92\xc0\x00\
    \xaa\x55\x80\x80\x80\x80\x80\x00\x00\x00\x00\x00\x00\x00\x00\x00\x00\x00\x00\x00\
    \x00\x00\x00\x00\x00\x00\x00\x00\x00\x00\x00\x00\x00\x00\x00\x00\x00\x00\x00\x00\x00\x20\x35\x00";

// The first process alarm of the module in slot 1, with aa bb.
const NOTIFIED: [u8; 62] =
    *b"\x02\x00\x00\x00\x00\x02\x02\x00\x00\x00\x00\x01\x81\x00\xc0\x00\x88\x92\xfc\x01\
    \x00\x01\x00\x01\x11\x11\xff\xff\xff\xfe\x00\x1e\
    \x00\x01\x00\x1a\x01\x00\x00\x02\x00\x00\x00\x00\x00\x01\x00\x01\x00\x00\x00\x10\x00\x00\x00\x10\x00\x00\
    \x00\x01\xaa\xbb";

// The controller's ACK of it, and the AlarmAck of its application.
const ACK: [u8; 32] =
    *b"\x02\x00\x00\x00\x00\x01\x02\x00\x00\x00\x00\x02\x81\x00\xc0\x00\x88\x92\xfc\x01\
    \x00\x01\x00\x01\x13\x01\xff\xff\xff\xff\x00\x00";

const ALARM_ACK: [u8; 54] =
    *b"\x02\x00\x00\x00\x00\x01\x02\x00\x00\x00\x00\x02\x81\x00\xc0\x00\x88\x92\xfc\x01\
    \x00\x01\x00\x01\x11\x11\xff\xff\xff\xff\x00\x16\
    \x80\x01\x00\x12\x01\x00\x00\x02\x00\x00\x00\x00\x00\x01\x00\x01\x00\x00\x00\x00\x00\x00";

// The device's ACK of the AlarmAck.
const TAKEN: [u8; 32] =
    *b"\x02\x00\x00\x00\x00\x02\x02\x00\x00\x00\x00\x01\x81\x00\xc0\x00\x88\x92\xfc\x01\
    \x00\x01\x00\x01\x13\x01\xff\xff\xff\xff\x00\x00";

// The ERR of a device whose controller is silent.
const SILENT: [u8; 36] =
    *b"\x02\x00\x00\x00\x00\x02\x02\x00\x00\x00\x00\x01\x81\x00\xa0\x00\x88\x92\xfe\x01\
    \x00\x01\x00\x01\x14\x01\xff\xff\xff\xfe\x00\x04\xcf\x81\xfd\x05";

// The ERR of a device whose alarm is not acknowledged: one alarm was sent, and none was accepted.
const SPENT: [u8; 36] =
    *b"\x02\x00\x00\x00\x00\x02\x02\x00\x00\x00\x00\x01\x81\x00\xa0\x00\x88\x92\xfe\x01\
    \x00\x01\x00\x01\x14\x01\xff\xff\xff\xfe\x00\x04\xcf\x81\xfd\x0d";

// The application raises an alarm of the module in slot 1.
fn alarm(bytes: &[u8]) -> Event<'_> {
    Event::alarm(1, 1, bytes)
}

impl Tried {
    /// The first interval of a relation: with its last unit one frame is sent, which holds this input.
    pub(crate) fn sends_interval(&mut self, value: [u8; 2]) {
        self.passes(31, 0);
        let mut wanted = INPUTS;
        wanted[23..25].copy_from_slice(&value);
        self.sends(&Event::Tick, &wanted);
    }

    // The output of the module in slot 2.
    fn is_output(&self, value: [u8; 2]) {
        assert_eq!(self.station.output(2, 1), Some(value.as_slice()));
    }

    // 3,200 units go by, with `between` frames in all but the last of them. In the last the alarm is sent again.
    fn notifies_again(&mut self, between: usize, with_inputs: bool) {
        self.passes(3199, between);
        self.notes(&Event::Tick, Note::Done);
        assert!(is_notified_again(&self.last, with_inputs));
    }
}

#[test]
fn inputs_are_sent_each_interval() {
    let mut device = Tried::new(related(600, THREE));
    for (value, note) in [
        ([0x12, 0x34].as_slice(), Note::Done),
        (&[0x12], Note::Refused),
        (&[], Note::Refused),
    ] {
        let given = Event::input(1, 1, value);
        device.sends_none(&given, note);
    }
    device.sends_interval([0x12, 0x34]);
    device.passes(32, 1);
}

#[test]
fn one_alarm_stands_at_a_time() {
    let mut device = Tried::new(exchanging());
    device.sends(&alarm(&[0xAA, 0xBB]), &NOTIFIED);
    device.notes(&alarm(&[0xCC]), Note::Refused);
    device.sends_none(&frame(&ACK), Note::Done);
    device.notes(&alarm(&[0xCC]), Note::Refused);
    device.sends(&frame(&ALARM_ACK), &TAKEN);
    device.notes(&alarm(&[0xCC]), Note::Done);
    assert_eq!(device.last.len(), 1);
}

// The alarm of a port names its own slot, subslot and ident numbers.
#[test]
fn an_alarm_of_another_submodule() {
    let mut device = Tried::new(exchanging());
    let mut notified = NOTIFIED;
    notified[44..48].copy_from_slice(&[0x00, 0x00, 0x80, 0x00]);
    notified[48..56].copy_from_slice(&[0, 0, 0, 1, 0, 0, 0, 2]);
    let raised = Event::alarm(0, 0x8000, &[0xAA, 0xBB]);
    device.sends(&raised, &notified);
}

// A station whose controller may be silent for 7,427 intervals, by DataHoldFactor of both IOCRs.
fn patient() -> Option<Station> {
    let mut blocks = connect(0x11, 600, THREE);
    for place in [95, 179usize] {
        if let Some(there) = blocks.as_mut_slice().get_mut(place) {
            *there = 0x1D;
        }
    }
    exchanging_by(blocks.as_slice())
}

// The alarm is sent again, in front of the frame of inputs where one is due in this unit.
fn is_notified_again(outbox: &Outbox, with_inputs: bool) -> bool {
    match outbox.as_slice() {
        [sent] => !with_inputs && is_filled(sent.as_slice(), &NOTIFIED),
        [sent, inputs] => {
            with_inputs
                && is_filled(sent.as_slice(), &NOTIFIED)
                && inputs.as_slice().starts_with(&INPUTS[..20])
        }
        _ => false,
    }
}

// An alarm is raised `first` units after the Connect, and is not acknowledged. It is sent again three times, each 3,200 units after the
// one before, with `between` frames of inputs in between. The fourth time ends the relation, and only the ERR is sent.
fn is_spent(first: u32, between: usize) {
    let mut device = Tried::new(patient());
    device.passes(first, 0);
    device.notes(&alarm(&[0xAA, 0xBB]), Note::Done);
    assert!(is_notified_again(&device.last, false));
    for _ in 0..3 {
        device.notifies_again(between, first == 0);
    }
    device.passes(3199, between);
    device.is_at(Some(Phase::Exchanging));
    device.sends(&Event::Tick, &SPENT);
    device.is_at(None);
    device.passes(32, 0);
}

#[test]
fn an_alarm_that_nobody_acknowledges() {
    is_spent(0, 99);
    is_spent(5, 100)
}

/// A cyclic frame with this CycleCounter and this output.
pub(crate) fn outputs(counter: u16, [first, second]: [u8; 2]) -> Bytes {
    let [high, low] = counter.to_be_bytes();
    let mut bytes = octets(&OUTPUTS);
    for (place, octet) in [(20, first), (21, second), (60, high), (61, low)] {
        set(&mut bytes, place, octet);
    }
    bytes
}

// Cyclic frames by their CycleCounter and their output, the note of each, and the output after it.
const NEWER_AND_OLDER: [(u16, [u8; 2], Note, [u8; 2]); 6] = [
    (65_520, [1, 0], Note::Done, [1, 0]),
    (16, [0, 2], Note::Done, [0, 2]),
    (65_520, [3, 3], Note::StaleCycle, [0, 2]),
    (16, [4, 4], Note::StaleCycle, [0, 2]),
    (61_456, [5, 0], Note::Done, [5, 0]),
    (57_361, [6, 6], Note::StaleCycle, [5, 0]),
];

#[test]
fn outputs_are_those_of_the_newest_frame() {
    let mut device = Tried::new(exchanging());
    device.is_output([0, 0]);
    for (counter, value, note, shown) in NEWER_AND_OLDER {
        device.sends_none(&frame(&outputs(counter, value)), note);
        device.is_output(shown);
    }
}

// A second relation has its frames of outputs laid out in another way, with the same length. Its output is zeros, and then what its own
// frame has at its own place.
#[test]
fn a_second_relation_has_its_own_places() {
    let mut device = Tried::new(exchanging());
    device.notes(&frame(&OUTPUTS), Note::Done);
    device.is_output([0xAA, 0x55]);
    let _ = served(&mut device.station, &call(RELEASE, 7, 2, &END));
    device.is_at(None);
    let blocks = connect(0x11, 600, MOVED);
    for call in [
        call(CONNECT, 7, 3, &blocks),
        call(CONTROL, 7, 4, &PRM_END),
        response(),
    ] {
        let _ = served(&mut device.station, &call);
    }
    device.is_at(Some(Phase::Exchanging));
    device.is_output([0, 0]);
    let mut moved = OUTPUTS;
    moved[20..27].copy_from_slice(&[0x80, 0x80, 0x80, 0x80, 0x12, 0x34, 0x80]);
    device.notes(&frame(&moved), Note::Done);
    device.is_output([0x12, 0x34]);
}

#[test]
fn silence_of_three_intervals_ends_the_exchange() {
    let mut device = Tried::new(exchanging());
    device.passes(95, 2);
    device.notes(&frame(&OUTPUTS), Note::Done);
    device.passes(95, 3);
    device.notes(&frame(&OUTPUTS), Note::StaleCycle);
    device.is_at(Some(Phase::Exchanging));
    device.sends(&Event::Tick, &SILENT);
    device.is_at(None);
    device.notes(&frame(&OUTPUTS), Note::NoRelation);
}
