//! The IOPS of inputs: what the application says of them, and an option by which they begin bad. What the controller says of
//! its outputs, whether all parameters came, and the problem bit and the provider state of DataStatus. The octets were worked out by
//! hand from IEC 61158-6-10.
use crate::Tried;
use crate::connects::{Blocks, INPUT_MOVED, OTHER, THREE, connect};
use crate::exchange::outputs;
use crate::requests::served;
use device_core::{Device, Event, Note};
use flash_model::MemoryFlash;
use frame_codec::{Bytes, Outbox};
use pn_values::demo_identity;
use relations::DeviceOptions;
use test_stations::{
    CONNECT, CONTROL, END, PRM_END, RELEASE, call, frame, plugged, response, set, set_address,
};

// The data of a frame of inputs: the IOPS of the access point and of its two ports, two octets of input in slot 1 and their
// IOPS, and the IOCS of the output in slot 2.
type Inputs = [u8; 7];

const ZEROS: Inputs = [0x80, 0x80, 0x80, 0, 0, 0x80, 0x80];
const BAD_ZEROS: Inputs = [0x80, 0x80, 0x80, 0, 0, 0, 0x80];
const GOOD: Inputs = [0x80, 0x80, 0x80, 0x12, 0x34, 0x80, 0x80];
const BAD: Inputs = [0x80, 0x80, 0x80, 0x12, 0x34, 0, 0x80];

fn three() -> Blocks {
    connect(0x11, 600, THREE)
}

/// A station with an address, whose inputs begin bad or good.
fn station(inputs_begin_bad: bool) -> Tried {
    let options = DeviceOptions {
        inputs_begin_bad,
        ..DeviceOptions::default()
    };
    let mut device = Device::unstarted(demo_identity(), plugged(), options, MemoryFlash::blank());
    device.load().expect("starts");
    let _ = device.step(&set_address(), &mut Outbox::new());
    Tried::new(Some(device))
}

impl Tried {
    // A call, whatever its answer is.
    fn serve(&mut self, operation: u8, sequence: u16, blocks: &[u8]) {
        let _ = served(&mut self.station, &call(operation, 7, sequence, blocks));
    }

    // The application says this of the inputs of a submodule.
    fn rates(&mut self, slot: u16, subslot: u16, is_good: bool, note: Note) {
        self.sends_none(&Event::status(slot, subslot, is_good), note);
    }

    // The application runs from now on, or is stopped.
    fn turns(&mut self, is_running: bool) {
        self.sends_none(&Event::provider_state(is_running), Note::Done);
    }

    // The application gives the input of the module in slot 1.
    fn gives(&mut self, value: &[u8], note: Note) {
        self.sends_none(&Event::input(1, 1, value), note);
    }

    // A diagnosis appears or disappears: a submodule, a channel and a ChannelErrorType.
    fn diagnoses(&mut self, (slot, subslot, channel, error): (u16, u16, u16, u16), appears: bool) {
        let event = Event::diagnosis(slot, subslot, channel, error, appears);
        self.sends_none(&event, Note::Done);
    }

    // The next frame of inputs has these octets, and says that the station has no problem.
    fn shows(&mut self, inputs: &[u8]) {
        self.shows_with(inputs, 0x35);
    }

    // The next frame of inputs has these octets and this DataStatus.
    fn shows_with(&mut self, inputs: &[u8], data_status: u8) {
        self.passes(31, 0);
        self.notes(&Event::Tick, Note::Done);
        let [sent] = self.last.as_slice() else {
            panic!("sends one frame");
        };
        assert_eq!(sent.as_slice().get(20..20 + inputs.len()), Some(inputs));
        assert_eq!(sent.as_slice().get(62..64), Some([data_status, 0].as_slice()));
    }

    // What the controller says of the output in slot 2: IOPS and DataStatus.
    fn hears(&self, wanted: Option<(u8, u8)>) {
        let told = self.station.provider(2, 1);
        assert_eq!(told.map(|it| (it.iops, it.data_status.0)), wanted);
    }
}

#[test]
fn a_status_is_the_iops_until_it_is_given_again() {
    let mut device = station(false);
    device.serve(CONNECT, 0, &three());
    device.shows(&ZEROS);
    device.gives(&[0x12, 0x34], Note::Done);
    device.shows(&GOOD);
    device.rates(1, 1, false, Note::Done);
    device.shows(&BAD);
    device.shows(&BAD);
    device.gives(&[0x56, 0x78], Note::Done);
    device.shows(&[0x80, 0x80, 0x80, 0x56, 0x78, 0, 0x80]);
    device.gives(&[0x12], Note::Refused);
    device.gives(&[0x12, 0x34], Note::Done);
    device.shows(&BAD);
    device.rates(1, 1, true, Note::Done);
    device.rates(1, 1, true, Note::Done);
    device.shows(&GOOD);
}

// A submodule without data has an IOPS as well. An output has none among the inputs, and its IOCS is not touched.
#[test]
fn a_status_of_another_submodule() {
    let mut device = station(false);
    device.serve(CONNECT, 0, &three());
    device.gives(&[0x12, 0x34], Note::Done);
    device.rates(2, 1, false, Note::Done);
    device.shows(&GOOD);
    device.rates(0, 0x8000, false, Note::Done);
    device.shows(&[0x80, 0, 0x80, 0x12, 0x34, 0x80, 0x80]);
    device.rates(0, 1, false, Note::Done);
    device.rates(0, 0x8000, true, Note::Done);
    device.shows(&[0, 0x80, 0x80, 0x12, 0x34, 0x80, 0x80]);
}

#[test]
fn a_status_of_nothing_is_refused() {
    let mut device = station(false);
    device.rates(3, 1, false, Note::Refused);
    device.serve(CONNECT, 0, &three());
    device.gives(&[0x12, 0x34], Note::Done);
    for (slot, subslot) in [(3, 1), (1, 2), (1, 0), (0, 2), (0xFFFF, 1)] {
        device.rates(slot, subslot, false, Note::Refused);
    }
    device.shows(&GOOD);
}

#[test]
fn a_status_is_kept_over_relations_and_forgotten_at_a_start() {
    let mut device = station(false);
    device.rates(1, 1, false, Note::Done);
    device.passes(64, 0);
    device.serve(CONNECT, 0, &three());
    device.shows(&BAD_ZEROS);
    device.gives(&[0x12, 0x34], Note::Done);
    device.serve(RELEASE, 1, &END);
    device.serve(CONNECT, 2, &three());
    device.shows(&BAD_ZEROS);
    device.rates(1, 1, true, Note::Done);
    device.shows(&ZEROS);
    device.rates(0, 1, false, Note::Done);
    device.rates(1, 1, false, Note::Done);
    device.shows(&[0, 0x80, 0x80, 0, 0, 0, 0x80]);
    device.station.load().expect("starts again");
    device.is_at(None);
    device.serve(CONNECT, 0, &three());
    device.shows(&ZEROS);
}

// With the option, the IOPS is good from the first input of the relation on that is accepted. What has no octets of data is
// good at once.
#[test]
fn inputs_begin_bad() {
    let mut device = station(true);
    device.gives(&[0x12, 0x34], Note::Refused);
    device.serve(CONNECT, 0, &three());
    device.shows(&BAD_ZEROS);
    device.gives(&[0x12], Note::Refused);
    device.rates(1, 1, true, Note::Done);
    device.shows(&BAD_ZEROS);
    device.gives(&[0x12, 0x34], Note::Done);
    device.shows(&GOOD);
    device.shows(&GOOD);
    device.serve(RELEASE, 1, &END);
    device.serve(CONNECT, 2, &three());
    device.shows(&BAD_ZEROS);
}

#[test]
fn inputs_that_begin_bad_and_are_said_to_be_bad() {
    let mut device = station(true);
    device.serve(CONNECT, 0, &three());
    device.rates(1, 1, false, Note::Done);
    device.gives(&[0x12, 0x34], Note::Done);
    device.shows(&BAD);
    device.rates(1, 1, true, Note::Done);
    device.shows(&GOOD);
}

// A module that differs has a bad IOPS, whatever the application gives and says, and a bad IOCS.
#[test]
fn inputs_of_another_module() {
    let mut device = station(false);
    device.serve(CONNECT, 0, &connect(0x11, 600, OTHER));
    device.shows(&BAD_ZEROS);
    device.gives(&[0x12, 0x34], Note::Done);
    device.rates(1, 1, true, Note::Done);
    device.shows(&BAD);
}

// The second relation has its inputs at another place.
#[test]
fn a_status_is_that_of_the_submodule_and_not_of_a_place() {
    let mut device = station(false);
    device.serve(CONNECT, 0, &three());
    device.rates(1, 1, false, Note::Done);
    device.serve(RELEASE, 1, &END);
    device.serve(CONNECT, 2, &connect(0x11, 600, INPUT_MOVED));
    device.shows(&[0, 0, 0, 0x80, 0x80, 0x80, 0x80]);
    device.rates(1, 1, true, Note::Done);
    device.shows(&[0, 0, 0x80, 0x80, 0x80, 0x80, 0x80]);
}

/// A frame of outputs with this CycleCounter, IOPS and DataStatus.
fn provided(counter: u16, iops: u8, data_status: u8) -> Bytes {
    let mut bytes = outputs(counter, [0xAA, 0x55]);
    set(&mut bytes, 22, iops);
    set(&mut bytes, 62, data_status);
    bytes
}

// Bit 4 of DataStatus is clear while the controller is stopped.
#[test]
fn what_the_controller_says_of_its_output() {
    let mut device = station(false);
    device.hears(None);
    device.serve(CONNECT, 0, &three());
    device.serve(CONTROL, 1, &PRM_END);
    let answer: Bytes = response();
    let _ = served(&mut device.station, &answer);
    device.hears(None);
    for (counter, iops, data_status, note, told) in [
        (32, 0x80, 0x35, Note::Done, (0x80, 0x35)),
        (64, 0x80, 0x25, Note::Done, (0x80, 0x25)),
        (64, 0, 0x35, Note::StaleCycle, (0x80, 0x25)),
        (96, 0, 0x35, Note::Done, (0, 0x35)),
        (128, 0x60, 0x15, Note::Done, (0x60, 0x15)),
        (160, 0x80, 0x31, Note::StaleCycle, (0x60, 0x15)),
    ] {
        device.sends_none(&frame(&provided(counter, iops, data_status)), note);
        device.hears(Some(told));
    }
    for (slot, subslot) in [(1, 1), (0, 1), (2, 2), (3, 1)] {
        assert_eq!(device.station.provider(slot, subslot), None);
    }
    device.serve(RELEASE, 2, &END);
    device.hears(None);
    device.serve(CONNECT, 3, &three());
    device.hears(None);
}

// Bit 5 of DataStatus, StationProblemIndicator, is 1 for no problem (IEC 61158-6-10, 4.7.2.1.3): 0x35, and 0x15 while a submodule of the relation
// has a diagnosis.
#[test]
fn a_diagnosis_is_a_problem_of_the_station() {
    let wire_break = (1, 1, 3, 6);
    let short_circuit = (2, 1, 0x8000, 1);
    let mut device = station(false);
    device.diagnoses(wire_break, true);
    device.serve(CONNECT, 0, &three());
    device.shows_with(&ZEROS, 0x15);
    device.diagnoses(short_circuit, true);
    device.diagnoses(wire_break, false);
    device.shows_with(&ZEROS, 0x15);
    device.diagnoses(short_circuit, false);
    device.shows(&ZEROS);
    device.diagnoses((0, 0x8001, 0, 1), true);
    device.shows_with(&ZEROS, 0x15);
    device.serve(RELEASE, 1, &END);
    device.serve(CONNECT, 2, &three());
    device.shows_with(&ZEROS, 0x15);
    device.station.load().expect("starts again");
    device.is_at(None);
    device.serve(CONNECT, 0, &three());
    device.shows(&ZEROS);
}

// Bit 4 of DataStatus, ProviderState, is 1 for Run and 0 for Stop (IEC 61158-6-10, 4.7.2.1.3): 0x25 of a device that is stopped, 0x05 if it
// has a problem too. The data, its IOPS and all other bits stay as they are.
#[test]
fn a_stopped_application_is_in_each_frame() {
    let mut device = station(false);
    device.turns(false);
    device.serve(CONNECT, 0, &three());
    device.gives(&[0x12, 0x34], Note::Done);
    device.shows_with(&GOOD, 0x25);
    device.turns(true);
    device.shows(&GOOD);
    device.turns(false);
    device.turns(false);
    device.shows_with(&GOOD, 0x25);
    device.diagnoses((1, 1, 3, 6), true);
    device.shows_with(&GOOD, 0x05);
    device.turns(true);
    device.shows_with(&GOOD, 0x15);
    device.diagnoses((1, 1, 3, 6), false);
    device.turns(false);
    device.rates(1, 1, false, Note::Done);
    device.shows_with(&BAD, 0x25);
}

// It outlives the relation, and is forgotten at a start.
#[test]
fn a_stopped_application_is_stopped_in_the_next_relation() {
    let mut device = station(false);
    device.serve(CONNECT, 0, &three());
    device.shows(&ZEROS);
    device.turns(false);
    device.shows_with(&ZEROS, 0x25);
    device.serve(RELEASE, 1, &END);
    device.passes(64, 0);
    device.serve(CONNECT, 2, &three());
    device.shows_with(&ZEROS, 0x25);
    device.serve(RELEASE, 3, &END);
    device.turns(true);
    device.serve(CONNECT, 4, &three());
    device.shows(&ZEROS);
    device.turns(false);
    device.station.load().expect("starts again");
    device.is_at(None);
    device.serve(CONNECT, 0, &three());
    device.shows(&ZEROS);
}

// A diagnosis of a submodule that is not what the Connect expects is none of the relation.
#[test]
fn a_diagnosis_of_another_module_is_no_problem() {
    let mut device = station(false);
    device.serve(CONNECT, 0, &connect(0x11, 600, OTHER));
    device.diagnoses((1, 1, 3, 6), true);
    device.shows(&BAD_ZEROS);
    device.diagnoses((2, 1, 3, 6), true);
    device.shows_with(&BAD_ZEROS, 0x15);
}

#[test]
fn the_parameters_end_with_prm_end() {
    let mut device = station(false);
    assert!(!device.station.parameters_end());
    device.serve(CONNECT, 0, &three());
    assert!(!device.station.parameters_end());
    device.serve(CONTROL, 1, &PRM_END);
    assert!(device.station.parameters_end());
    let _ = served(&mut device.station, &response());
    assert!(device.station.parameters_end());
    device.serve(RELEASE, 2, &END);
    assert!(!device.station.parameters_end());
}
