//! Both ends by their public calls, frame by frame. The octets that are wanted come from the rules of IEC 61158-6-10.

use super::{OTHER_MODULES, PUMP};
use configurator::plan_from_json;
use controller_core::{Cause, Controller, ControllerOptions, Event as ControllerEvent, State};
use pn_values::demo_identity;
use device_core::{Device, Event, Note};
use flash_model::{MemoryFlash, Order};
use frame_codec::{Bytes, Frame, Outbox};
use rattle_std::alloc::Global;
use relations::Phase;
use test_stations::{
    DONE, SET, Station, WRITE, call, frame, is_filled, is_padded, octets, plugged, set, set_pump,
    shortened, step,
};
use uuid::Uuid;

// A Write of I&M2 in the relation whose ARUUID is 1111..11.
const WRITE_DATE: [u8; 86] =
    *b"\x00\x08\x00\x3c\x01\x00\x00\x00\x11\x11\x11\x11\x11\x11\x11\x11\x11\x11\x11\x11\x11\x11\x11\x11\
    \x00\x00\x00\x00\x00\x00\x00\x01\x00\x00\xaf\xf2\x00\x00\x00\x16\
    \x00\x00\x00\x00\x00\x00\x00\x00\x00\x00\x00\x00\x00\x00\x00\x00\x00\x00\x00\x00\x00\x00\x00\x00\
    \x00\x22\x00\x12\x01\x002024-05-06 07:08";

// The ERR of a device that ends its relation for another reason.
const ABORT: [u8; 36] =
    *b"\x02\x00\x00\x00\x00\x02\x02\x00\x00\x00\x00\x01\x81\x00\xa0\x00\x88\x92\xfe\x01\
    \x00\x01\x00\x01\x14\x01\xff\xff\xff\xfe\x00\x04\xcf\x81\xfd\x0d";

// A ResetToFactory of mode 1.
const ASKED: [u8; 32] =
    *b"\x02\x00\x00\x00\x00\x01\x02\x00\x00\x00\x00\x02\x88\x92\xfe\xfd\x04\x00\x00\x00\x00\x02\x00\x00\x00\x06\
    \x05\x06\x00\x02\x00\x02";

// The answer to one that is done, and to one of a mode that does not exist.
const RESET: [u8; 33] =
    *b"\x02\x00\x00\x00\x00\x02\x02\x00\x00\x00\x00\x01\x88\x92\xfe\xfd\x04\x01\x00\x00\x00\x02\x00\x00\x00\x08\
    \x05\x04\x00\x03\x05\x06\x00";

const REFUSED: [u8; 33] =
    *b"\x02\x00\x00\x00\x00\x02\x02\x00\x00\x00\x00\x01\x88\x92\xfe\xfd\x04\x01\x00\x00\x00\x02\x00\x00\x00\x08\
    \x05\x04\x00\x03\x05\x06\x02";

// The modules of the plan that the demo station has not: another one in slot 2, and none in slot 3.
const DIFFERENCES: [u8; 50] = *b"\x81\x04\x00\x2e\x01\x00\x00\x01\x00\x00\x00\x00\x00\x02\
    \x00\x02\x00\x00\x00\x20\x00\x01\x00\x01\x00\x01\x00\x00\x00\x20\x90\x00\
    \x00\x03\x00\x00\x00\x00\x00\x00\x00\x01\x00\x01\x00\x00\x00\x00\x98\x00";

/// Both ends, the last frame that the controller sent, and what the device answered to the one before.
struct Ends {
    device: Station,
    controller: Controller,
    sent: Bytes,
    answers: Outbox,
}

/// A controller of a plan. Each octet of its ARUUID is this one; the activity of its calls is another than that of other controllers.
fn controller(alloc: Global, catalogue: &str, octet: u8) -> Controller {
    let plan = plan_from_json(alloc, catalogue.as_bytes())
        .ok()
        .expect("there is a plan");
    Controller::new(
        plan,
        Uuid::from_bytes([octet; 16]),
        Uuid::from_bytes([octet.wrapping_add(0x40); 16]),
    )
}

/// What a controller sends of an event. As for a device, what such a step promises is read here, and not again in each test.
fn told(controller: &mut Controller, event: &ControllerEvent) -> Outbox {
    let mut outbox = Outbox::new();
    controller.step(event, &mut outbox);
    outbox
}

/// The controller hears a frame. The last one that it sends then stays.
fn hear(controller: &mut Controller, frame: &Frame, sent: &mut Bytes) {
    let event = ControllerEvent::Frame(octets(frame.as_slice()));
    let outbox = told(controller, &event);
    if let Some(last) = outbox.as_slice().last() {
        *sent = octets(last.as_slice());
    }
}

impl Ends {
    /// The demo station with the name of the plan, and a controller of the plan, which looks for it.
    fn new(alloc: Global, catalogue: &str) -> Ends {
        let mut device = Device::boot(demo_identity(), plugged(), MemoryFlash::blank())
            .ok()
            .expect("it starts");
        let mut answers = Outbox::new();
        let _ = step(&mut device, &frame(&SET), &mut answers);
        let controller = controller(alloc, catalogue, 0x11);
        let sent = octets(controller.opening().as_slice());
        Ends {
            device,
            controller,
            sent,
            answers,
        }
    }

    /// The device hears what the controller sent last, and the controller what the device answers.
    fn turn(&mut self) {
        let event = frame(self.sent.as_slice());
        let _ = step(&mut self.device, &event, &mut self.answers);
        for frame in self.answers.as_slice() {
            hear(&mut self.controller, frame, &mut self.sent);
        }
    }

    /// The same, `count` times.
    fn turns(&mut self, count: u32) {
        for _ in 0..count {
            self.turn();
        }
    }

    /// Both ends exchange data.
    fn started(alloc: Global) -> Ends {
        let mut ends = Ends::new(alloc, PUMP);
        ends.turns(5);
        ends
    }

    /// What the controller is at.
    fn is_at(&self, state: State) {
        assert_eq!(self.controller.state(), state);
    }

    /// What the relation of the device waits for, if there is one.
    fn is_related(&self, phase: Option<Phase>) {
        assert_eq!(self.device.phase(), phase);
    }

    /// This becomes of an event at the device.
    fn notes(&mut self, event: &Event<'_>, note: Note) {
        assert_eq!(step(&mut self.device, event, &mut self.answers), note);
    }

    /// The device sent one frame, of this many octets.
    fn is_answer_long(&self, length: usize) {
        let answer = one(&self.answers).expect("an answer");
        assert_eq!(answer.len(), length);
    }

    /// The device sent one frame: these octets, filled up.
    fn is_answer(&self, octets: &[u8]) {
        assert!(is_padded(&self.answers, octets));
    }

    /// The device answered a call with this status.
    fn has_status(&self, status: [u8; 4]) {
        assert_eq!(status_of(&self.answers), Some(status.as_slice()));
    }

    /// The date of installation under which the device runs.
    fn has_date(&self, date: &[u8; 16]) {
        assert_eq!(self.device.running().im2.as_bytes(), date.as_slice());
    }

    /// The name under which it runs.
    fn is_named(&self, name: &[u8]) {
        assert_eq!(self.device.running().name.as_bytes(), name);
    }
}

/// A ResetToFactory of this mode, at most 127: its BlockQualifier is twice the mode.
fn reset(mode: u8) -> Bytes {
    let mut request = ASKED;
    request[31] = mode.wrapping_mul(2);
    octets(&request)
}

/// Whether these octets, cut at any place, are no frame to the device.
fn is_none_where_cut(device: &mut Station, octets: &[u8]) -> bool {
    let mut is_none = true;
    for length in 0..octets.len() {
        is_none = is_none && is_fault(device, &octets[..length]);
    }
    is_none
}

/// Whether these octets are no frame to the device.
fn is_fault(device: &mut Station, octets: &[u8]) -> bool {
    let mut outbox = Outbox::new();
    let note = step(device, &frame(octets), &mut outbox);
    note == Note::Fault && outbox.len() == 0
}

/// The one frame in a box.
fn one(outbox: &Outbox) -> Option<Bytes> {
    match outbox.as_slice() {
        [sent] => Some(octets(sent.as_slice())),
        _ => None,
    }
}

/// The two frames in a box, as they come to a device.
fn two(outbox: &Outbox) -> Option<(Event<'_>, Event<'_>)> {
    match outbox.as_slice() {
        [first, second] => Some((frame(first.as_slice()), frame(second.as_slice()))),
        _ => None,
    }
}

/// The two frames in a box are these octets, each filled up.
fn are_filled(outbox: &Outbox, first: &[u8], second: &[u8]) -> bool {
    match outbox.as_slice() {
        [one, other] => is_filled(one.as_slice(), first) && is_filled(other.as_slice(), second),
        _ => false,
    }
}

/// The one frame in a box ends with these octets, which begin at this place.
fn ends_with(outbox: &Outbox, place: usize, octets: &[u8]) -> bool {
    match outbox.as_slice() {
        [sent] => sent.as_slice().get(place..) == Some(octets),
        _ => false,
    }
}

/// The status in a response.
fn status_of(outbox: &Outbox) -> Option<&[u8]> {
    match outbox.as_slice() {
        [answer] => answer.as_slice().get(122..126),
        _ => None,
    }
}

/// The alarm that a controller shows is the process alarm of the module in slot 1, with AlarmSpecifier 0 and the octets aa bb.
fn is_alarm_shown(controller: &Controller) -> bool {
    match controller.alarm() {
        Some(alarm) => {
            alarm.alarm_type == 2
                && alarm.slot_number == 1
                && alarm.subslot_number == 1
                && alarm.alarm_specifier == 0
                && alarm.alarm_data.octets() == [0xAA, 0xBB].as_slice()
        }
        None => false,
    }
}

// The state of the controller after each turn of a start-up.
const STATES: [State; 5] = [
    State::Addressing,
    State::Connecting,
    State::Ending,
    State::Exchanging,
    State::Exchanging,
];

#[test]
fn a_start_up() {
    let mut ends = Ends::new(Global, PUMP);
    for state in STATES {
        ends.turn();
        ends.is_at(state);
    }
    ends.is_related(Some(Phase::Exchanging));
}

// The Connect of the plan is a frame of 533 octets. Cut anywhere it is not a frame. Its answer has 212 octets.
#[test]
fn a_connect_that_is_cut_is_none() {
    let mut ends = Ends::new(Global, PUMP);
    ends.turns(2);
    assert_eq!(ends.sent.len(), 533);
    assert!(is_none_where_cut(&mut ends.device, ends.sent.as_slice()));
    ends.turn();
    ends.is_answer_long(212);
    ends.is_at(State::Ending);
}

#[test]
fn other_modules_are_told() {
    let mut ends = Ends::new(Global, OTHER_MODULES);
    ends.turns(3);
    ends.is_answer_long(262);
    assert!(ends_with(&ends.answers, 212, &DIFFERENCES));
    ends.is_at(State::Ended(Cause::ModuleDiff));
    ends.is_related(Some(Phase::Started));
    ends.turn();
    ends.is_related(None);
}

// An answer to Identify of another transaction (Xid) than the controller's, which is 1, is not the answer to its Identify.
#[test]
fn an_identify_answer_of_another_transaction_is_ignored() {
    let mut ends = Ends::new(Global, PUMP);
    let request = octets(ends.sent.as_slice());
    ends.notes(&frame(&request), Note::Done);
    let answer = one(&ends.answers).expect("an answer");
    for xid in [0, 2, 0x0000_0101, 0x0001_0001, 0x0100_0001, u32::MAX] {
        let mut other = octets(answer.as_slice());
        for (place, octet) in (18..).zip(xid.to_be_bytes()) {
            set(&mut other, place, octet);
        }
        let sent = told(&mut ends.controller, &ControllerEvent::Frame(other));
        assert_eq!(sent.len(), 0, "{xid:#x}");
        ends.is_at(State::Looking);
    }
    assert_eq!(answer.get(18..22), Some([0, 0, 0, 1].as_slice()));
    let sent = told(&mut ends.controller, &ControllerEvent::Frame(answer));
    assert_eq!(sent.len(), 1);
    ends.is_at(State::Addressing);
}

// Where the blocks of the answer to a Connect of other modules are, from the first octet of each to the octet after its last:
// ARBlockRes, the IOCRBlockRes of inputs and of outputs, AlarmCRBlockRes and ModuleDiffBlock.
const ANSWERED: [(usize, usize); 5] = [(142, 176), (176, 188), (188, 200), (200, 212), (212, 262)];

/// An answer to a Connect without the octets from one place up to another. Its UDP checksum is 0: it is not used.
fn without(answer: &Bytes, from: usize, to: usize) -> Bytes {
    let mut bytes = octets(&answer[..from]);
    bytes.try_extend_from_slice(&answer[to..]).expect("room");
    let mut part = shortened(&bytes, bytes.len());
    set(&mut part, 40, 0);
    set(&mut part, 41, 0);
    part
}

// An answer to a Connect that lacks the ARBlockRes, an IOCRBlockRes or the AlarmCRBlockRes is no answer, though it says that modules
// differ. The whole one ends the relation by a Release.
#[test]
fn an_answer_to_a_connect_without_a_block_is_ignored() {
    let mut ends = Ends::new(Global, OTHER_MODULES);
    ends.turns(2);
    ends.is_at(State::Connecting);
    let request = octets(ends.sent.as_slice());
    ends.notes(&frame(&request), Note::Done);
    let answer = one(&ends.answers).expect("an answer");
    let [needed @ .., differing] = ANSWERED;
    for (from, to) in needed {
        let part = without(&answer, from, to);
        let sent = told(&mut ends.controller, &ControllerEvent::Frame(part));
        assert_eq!(sent.len(), 0, "without {from}..{to}");
        ends.is_at(State::Connecting);
    }
    // Octets that are left out are the reason, and not how they are left out: without the last block the relation begins.
    let mut same = Ends::new(Global, OTHER_MODULES);
    same.turns(2);
    let part = without(&answer, differing.0, differing.1);
    let sent = told(&mut same.controller, &ControllerEvent::Frame(part));
    assert_eq!(sent.len(), 1);
    same.is_at(State::Ending);
    let whole = without(&answer, answer.len(), answer.len());
    let sent = told(&mut ends.controller, &ControllerEvent::Frame(whole));
    assert_eq!(sent.len(), 1);
    ends.is_at(State::Ended(Cause::ModuleDiff));
}

// Mode 7 does not exist.
#[test]
fn a_reset_that_is_refused_is_an_answer() {
    let mut ends = Ends::started(Global);
    ends.sent = reset(7);
    ends.turn();
    ends.is_answer(&REFUSED);
    ends.is_at(State::Exchanging);
}

// Mode 2 ends the relation.
#[test]
fn a_reset_is_an_err_and_an_answer() {
    let mut ends = Ends::started(Global);
    ends.sent = reset(2);
    ends.turn();
    assert!(are_filled(&ends.answers, &ABORT, &RESET));
    ends.is_at(State::Ended(Cause::Aborted));
    ends.is_named(b"");
}

#[test]
fn no_name_is_set_before_the_release() {
    let mut ends = Ends::started(Global);
    let mut refused = DONE;
    refused[32] = 6;
    ends.notes(&frame(&set_pump(b'9')), Note::Done);
    ends.is_answer(&refused);
    let stopped = told(&mut ends.controller, &ControllerEvent::Stop);
    ends.sent = one(&stopped).expect("a Release");
    ends.turn();
    ends.is_related(None);
    ends.notes(&frame(&set_pump(b'9')), Note::Done);
    ends.is_answer(&DONE);
}

// The controller accepts the alarm of the device. After its AlarmAck the next one can be raised.
#[test]
fn an_alarm_is_taken() {
    let mut ends = Ends::started(Global);
    let raised = Event::alarm(1, 1, &[0xAA, 0xBB]);
    ends.notes(&raised, Note::Done);
    let alarm = one(&ends.answers).expect("an alarm");
    let acks = told(&mut ends.controller, &ControllerEvent::Frame(alarm));
    assert!(is_alarm_shown(&ends.controller));
    let again = Event::alarm(1, 1, &[0xCC]);
    ends.notes(&again, Note::Refused);
    let (ack, alarm_ack) = two(&acks).expect("an ACK and an AlarmAck");
    ends.notes(&ack, Note::Done);
    ends.notes(&alarm_ack, Note::Done);
    ends.notes(&again, Note::Done);
}

// A Write that is repeated has the same answer and is one command. One of a smaller number is not a command.
#[test]
fn a_write_that_is_repeated_is_one_command() {
    let mut ends = Ends::started(Global);
    let first = call(WRITE, 9, 5, &WRITE_DATE);
    ends.notes(&frame(first.as_slice()), Note::Done);
    ends.has_status([0; 4]);
    let answer = one(&ends.answers).expect("an answer");
    ends.notes(&frame(first.as_slice()), Note::Done);
    let repeated = one(&ends.answers).expect("the answer again");
    assert_eq!(repeated.as_slice(), answer.as_slice());
    let older = call(WRITE, 9, 4, &WRITE_DATE);
    ends.notes(&frame(older.as_slice()), Note::OldCall);
    assert_eq!(ends.answers.len(), 0);
    ends.has_date(b"2024-05-06 07:08");
}

// The flash fails in a Write, and the exchange goes on.
#[test]
fn a_fault_of_the_flash_is_a_status() {
    let mut ends = Ends::started(Global);
    ends.device.arm(Order::Fault {
        after: 0,
        mask: [0xFF; 8],
    });
    let write = call(WRITE, 9, 0, &WRITE_DATE);
    ends.notes(&frame(write.as_slice()), Note::Done);
    ends.has_status([0xDF, 0x80, 0xB5, 5]);
    ends.is_related(Some(Phase::Exchanging));
}

// Another controller finds the station with its address, and its Connect is refused.
#[test]
fn a_second_controller_is_refused() {
    let mut ends = Ends::started(Global);
    let other = controller(Global, PUMP, 0x22);
    ends.sent = octets(other.opening().as_slice());
    ends.controller = other;
    ends.turn();
    ends.is_at(State::Connecting);
    ends.turn();
    ends.has_status([0xDB, 0x81, 0x40, 4]);
    ends.is_answer_long(142);
    ends.is_at(State::Ended(Cause::Refused));
    ends.is_related(Some(Phase::Exchanging));
}

// ---- the statuses of outputs

impl Ends {
    /// The next cyclic frame of the controller, which the device hears: outputs are due each 32 units. Inputs come as often, so that
    /// neither end waits longer than its data hold time.
    fn outputs(&mut self) -> Bytes {
        self.hear_inputs(0x35);
        for _ in 0..32 {
            let sent = told(&mut self.controller, &ControllerEvent::Tick);
            if let Some(outputs) = one(&sent) {
                self.notes(&frame(outputs.as_slice()), Note::Done);
                return outputs;
            }
        }
        panic!("there are no outputs");
    }

    /// The next cyclic frame of the device.
    fn inputs(&mut self) -> Bytes {
        for _ in 0..32 {
            self.notes(&Event::Tick, Note::Done);
            if let Some(frame) = one(&self.answers) {
                return frame;
            }
        }
        panic!("there are no inputs");
    }

    /// The application of the controller sets the output of slot 2.
    fn give(&mut self, value: [u8; 2]) {
        let sent = told(&mut self.controller, &ControllerEvent::Give(2, 1, octets(&value)));
        assert_eq!(sent.len(), 0);
    }

    /// It says whether the output of a submodule is good.
    fn rate(&mut self, slot: u16, subslot: u16, is_good: bool) {
        let status = ControllerEvent::Status(slot, subslot, is_good);
        let sent = told(&mut self.controller, &status);
        assert_eq!(sent.len(), 0);
    }

    /// The next frame carries these octets for slot 2: its output, and IOPS.
    fn sends(&mut self, carried: [u8; 3]) {
        let frame = self.outputs();
        assert_eq!(frame.get(20..23), Some(carried.as_slice()));
    }

    /// The same, and the device shows this output, and this IOPS with it. The provider runs.
    fn shows(&mut self, carried: [u8; 3], shown: [u8; 2]) {
        self.sends(carried);
        assert_eq!(self.device.output(2, 1), Some(shown.as_slice()));
        let provider = self.device.provider(2, 1).expect("a frame was accepted");
        assert_eq!((provider.iops, provider.data_status.0), (carried[2], 0x35));
    }

    /// The controller hears the next inputs, with this DataStatus.
    fn hear_inputs(&mut self, data_status: u8) {
        let mut inputs = self.inputs();
        let place = inputs.len() - 2;
        set(&mut inputs, place, data_status);
        let sent = told(&mut self.controller, &ControllerEvent::Frame(inputs));
        assert_eq!(sent.len(), 0);
    }

    /// What the controller tells of an input: IOPS and DataStatus.
    fn provided(&self, slot: u16, subslot: u16) -> Option<(u8, u8)> {
        self.controller
            .provider(slot, subslot)
            .map(|told| (told.iops, told.data_status.0))
    }
}

// The frame of outputs, octet by octet: MAC addresses, VLAN tag of priority 6, EtherType 0x8892 and FrameID, the first
// of its class; the output of slot 2 and its IOPS; four IOCS, of the access point and its two ports and of slot 1; zeros up to 40 octets; CycleCounter, DataStatus and
// TransferStatus.
const OUTPUTS: [u8; 64] = *b"\x02\x00\x00\x00\x00\x01\x02\x00\x00\x00\x00\x02\x81\x00\xc0\x00\x88\x92\xc0\x00\
    \x12\x34\x80\x80\x80\x80\x80\x00\x00\x00\x00\x00\x00\x00\x00\x00\x00\x00\x00\x00\x00\x00\x00\x00\x00\x00\x00\x00\x00\x00\
    \x00\x00\x00\x00\x00\x00\x00\x00\x00\x00\x00\x20\x35\x00";

// A status changes one octet, the IOPS; the value stays.
#[test]
fn a_status_is_one_octet() {
    let mut ends = Ends::started(Global);
    ends.give([0x12, 0x34]);
    let first = ends.outputs();
    assert_eq!(first.as_slice(), OUTPUTS.as_slice());
    ends.rate(2, 1, false);
    let second = ends.outputs();
    let mut wanted = OUTPUTS;
    wanted[22] = 0;
    wanted[61] = 0x40;
    assert_eq!(second.as_slice(), wanted.as_slice());
}

// IOPS is good where a value was given and the status is good. It is bad before a value was given, whatever the status.
#[test]
fn an_output_is_good_once_it_was_given() {
    let mut ends = Ends::started(Global);
    ends.sends([0, 0, 0]);
    ends.rate(2, 1, true);
    ends.sends([0, 0, 0]);
    ends.rate(2, 1, false);
    ends.sends([0, 0, 0]);
    ends.rate(2, 1, true);
    ends.give([0x12, 0x34]);
    ends.sends([0x12, 0x34, 0x80]);
    ends.give([0x12, 0x35]);
    ends.sends([0x12, 0x35, 0x80]);
}

// A bad status is kept over values that are given, over frames, and over the start-up, until it is given again.
#[test]
fn a_bad_status_is_kept() {
    let mut ends = Ends::new(Global, PUMP);
    ends.rate(2, 1, false);
    ends.give([1, 2]);
    ends.turns(5);
    ends.is_at(State::Exchanging);
    ends.shows([1, 2, 0], [0, 0]);
    ends.give([3, 4]);
    ends.shows([3, 4, 0], [0, 0]);
    ends.shows([3, 4, 0], [0, 0]);
    ends.rate(2, 1, false);
    ends.shows([3, 4, 0], [0, 0]);
    ends.rate(2, 1, true);
    ends.shows([3, 4, 0x80], [3, 4]);
    ends.rate(2, 1, true);
    ends.shows([3, 4, 0x80], [3, 4]);
    ends.rate(2, 1, false);
    ends.shows([3, 4, 0], [0, 0]);
    ends.give([5, 6]);
    ends.rate(2, 1, true);
    ends.shows([5, 6, 0x80], [5, 6]);
}

// A value of another length is not set, and is not the first one.
#[test]
fn a_value_of_another_length_is_not_the_first() {
    let mut ends = Ends::started(Global);
    for value in [[].as_slice(), &[1], &[1, 2, 3]] {
        let _ = told(&mut ends.controller, &ControllerEvent::Give(2, 1, octets(value)));
        ends.sends([0, 0, 0]);
    }
    ends.give([1, 2]);
    ends.sends([1, 2, 0x80]);
}

// A submodule without an output, and one that the plan does not have: the frames stay the same, their IOCS too.
#[test]
fn a_status_of_no_output_changes_nothing() {
    let mut ends = Ends::started(Global);
    ends.give([0x12, 0x34]);
    for (slot, subslot) in [(0, 1), (0, 0x8000), (1, 1), (2, 0), (2, 2), (3, 1), (0x102, 1), (2, 0x101)] {
        ends.rate(slot, subslot, false);
    }
    assert_eq!(ends.outputs().as_slice(), OUTPUTS.as_slice());
}

// The controller accepts the frames of a device whose application is stopped, and reads that in their DataStatus.
#[test]
fn a_device_that_is_stopped_goes_on_to_exchange() {
    let mut ends = Ends::new(Global, PUMP);
    ends.turns(5);
    ends.is_at(State::Exchanging);
    for (is_running, data_status) in [(false, 0x25), (true, 0x35)] {
        ends.notes(&Event::provider_state(is_running), Note::Done);
        let inputs = ends.inputs();
        assert_eq!(told(&mut ends.controller, &ControllerEvent::Frame(inputs)).len(), 0);
        assert_eq!(ends.provided(1, 1), Some((0x80, data_status)));
        ends.is_at(State::Exchanging);
    }
}

// IOPS and DataStatus of inputs, while the relation is established and as soon as a frame was accepted. Bit 4 of DataStatus is
// clear where the device is stopped.
#[test]
fn what_the_device_says_of_its_inputs() {
    let mut ends = Ends::new(Global, PUMP);
    assert_eq!(ends.provided(1, 1), None);
    ends.turns(5);
    ends.is_at(State::Exchanging);
    assert_eq!(ends.provided(1, 1), None);
    ends.hear_inputs(0x35);
    assert_eq!(ends.provided(1, 1), Some((0x80, 0x35)));
    assert_eq!(ends.provided(0, 1), Some((0x80, 0x35)));
    for (slot, subslot) in [(2, 1), (1, 2), (3, 1), (0x101, 1), (1, 0x101)] {
        assert_eq!(ends.provided(slot, subslot), None, "{slot} {subslot}");
    }
    ends.notes(&Event::status(1, 1, false), Note::Done);
    ends.hear_inputs(0x25);
    assert_eq!(ends.provided(1, 1), Some((0, 0x25)));
    assert_eq!(ends.provided(0, 1), Some((0x80, 0x25)));
    let _ = told(&mut ends.controller, &ControllerEvent::Stop);
    assert_eq!(ends.provided(1, 1), None);
}

// ---- a relation that the device holds already

/// Units of a second: after each a request is sent again.
const SECOND: u32 = 32_000;

/// The catalogue of the demo station with PersistentStart.
fn persistent() -> String {
    let text = PUMP.replace(r#""DataHoldFactor":3,"#, r#""DataHoldFactor":3,"PersistentStart":true,"#);
    assert_ne!(text, PUMP);
    text
}

/// An answer to a call with another status. Its UDP checksum is 0: it is not used.
fn with_status(answer: &Bytes, status: [u8; 4]) -> Bytes {
    let mut other = octets(answer.as_slice());
    for (place, octet) in (40..42).zip([0, 0]).chain((122..126).zip(status)) {
        set(&mut other, place, octet);
    }
    other
}

impl Ends {
    /// The device has accepted the Connect, and the answer was lost. It stores the answers to four other controllers since, and none to this
    /// one. The controller has sent its Connect again, which is under way.
    fn unanswered(alloc: Global, catalogue: &str) -> Ends {
        let mut ends = Ends::new(alloc, catalogue);
        ends.turns(2);
        ends.is_at(State::Connecting);
        let connect = octets(ends.sent.as_slice());
        ends.notes(&frame(&connect), Note::Done);
        ends.has_status([0; 4]);
        ends.is_related(Some(Phase::Started));
        for octet in 0x22..0x26 {
            let mut other = controller(alloc, catalogue, octet);
            let mut sent = octets(other.opening().as_slice());
            for _ in 0..2 {
                ends.notes(&frame(&sent), Note::Done);
                hear(&mut other, &ends.answers.as_slice()[0], &mut sent);
            }
            ends.has_status([0xDB, 0x81, 0x40, 4]);
            assert_eq!(other.state(), State::Ended(Cause::Refused));
        }
        assert_eq!(ends.seconds(1), [(SECOND, connect)]);
        ends
    }

    /// What the controller sends in this many seconds: each frame, and the unit with which it is sent.
    fn seconds(&mut self, count: u32) -> Vec<(u32, Bytes)> {
        let mut all = Vec::new();
        for unit in 1..=count * SECOND {
            let sent = told(&mut self.controller, &ControllerEvent::Tick);
            all.extend(sent.as_slice().iter().map(|frame| (unit, octets(frame.as_slice()))));
        }
        all
    }

    /// The controller has ended because it was refused, and sends nothing with these frames and in three seconds.
    fn is_refused_silently(&mut self, sent: &Outbox) {
        self.is_at(State::Ended(Cause::Refused));
        assert_eq!(sent.len(), 0);
        assert_eq!(self.seconds(3), []);
    }

    /// The next controller, with another ARUUID, starts.
    fn starts_again(&mut self, alloc: Global, catalogue: &str) {
        self.controller = controller(alloc, catalogue, 0x33);
        self.sent = octets(self.controller.opening().as_slice());
        self.turns(4);
    }
}

// With PersistentStart the controller ends with a Release, which it repeats each second until it is answered. The next start succeeds.
#[test]
fn a_relation_that_is_held_already_is_released() {
    let text = persistent();
    let mut ends = Ends::unanswered(Global, &text);
    ends.turn();
    ends.has_status([0xDB, 0x81, 0x40, 6]);
    ends.is_at(State::Ended(Cause::Refused));
    let release = octets(ends.sent.as_slice());
    assert_eq!(release.get(110..112), Some([0, 1].as_slice()));
    let lost = [1, 2, 3].map(|second| (second * SECOND, octets(release.as_slice())));
    assert_eq!(ends.seconds(3), lost);
    ends.is_related(Some(Phase::Started));
    ends.turn();
    ends.has_status([0; 4]);
    ends.is_related(None);
    assert_eq!(ends.seconds(3), []);
    ends.is_at(State::Ended(Cause::Refused));
    ends.starts_again(Global, &text);
    ends.is_at(State::Exchanging);
}

// Without the key it ends as after each refused Connect: nothing is sent, and the device keeps the relation.
#[test]
fn a_relation_that_is_held_already_is_kept_without_the_key() {
    let mut ends = Ends::unanswered(Global, PUMP);
    let request = octets(ends.sent.as_slice());
    ends.notes(&frame(&request), Note::Done);
    ends.has_status([0xDB, 0x81, 0x40, 6]);
    let answer = one(&ends.answers).expect("an answer");
    let sent = told(&mut ends.controller, &ControllerEvent::Frame(answer));
    ends.is_refused_silently(&sent);
    ends.is_related(Some(Phase::Started));
    ends.starts_again(Global, PUMP);
    ends.has_status([0xDB, 0x81, 0x40, 4]);
    ends.is_at(State::Ended(Cause::Refused));
}

// Any other status of the Connect ends it without a frame, also with the key. So does this one of PrmEnd.
#[test]
fn no_other_refusal_is_followed_by_a_release() {
    let text = persistent();
    let mut first = Ends::unanswered(Global, &text);
    let request = octets(first.sent.as_slice());
    first.notes(&frame(&request), Note::Done);
    let answer = one(&first.answers).expect("an answer");
    let others = [
        [0xDB, 0x81, 0x40, 0],
        [0xDB, 0x81, 0x40, 4],
        [0xDB, 0x81, 0x40, 5],
        [0xDB, 0x81, 0x40, 7],
        [0xDB, 0x81, 0x40, 0x86],
        [0xDB, 0x81, 0x41, 6],
        [0xDB, 0x81, 0, 6],
        [0xDB, 0x80, 0x40, 6],
        [0xDB, 0, 0x40, 6],
        [0xDD, 0x81, 0x40, 6],
        [0xDF, 0x81, 0x40, 6],
        [0, 0x81, 0x40, 6],
        [6, 0x40, 0x81, 0xDB],
    ];
    for status in others {
        let mut ends = Ends::new(Global, &text);
        ends.turns(2);
        let refusal = with_status(&answer, status);
        let sent = told(&mut ends.controller, &ControllerEvent::Frame(refusal));
        ends.is_refused_silently(&sent);
    }
    let refusal = with_status(&answer, [0xDB, 0x81, 0x40, 6]);
    let sent = told(&mut first.controller, &ControllerEvent::Frame(refusal));
    assert_eq!(sent.len(), 1);
    for status in [[0xDB, 0x81, 0x40, 6], [0xDD, 0x81, 0x40, 6]] {
        let mut ends = Ends::new(Global, &text);
        ends.turns(3);
        ends.is_at(State::Ending);
        let request = octets(ends.sent.as_slice());
        ends.notes(&frame(&request), Note::Done);
        let answer = octets(ends.answers.as_slice()[0].as_slice());
        let refusal = with_status(&answer, status);
        let sent = told(&mut ends.controller, &ControllerEvent::Frame(refusal));
        ends.is_refused_silently(&sent);
    }
}

// ---- calls of the start-up that are refused as busy

/// The catalogue of the demo station with two records of slot 1, each written by a Write of its own; with PersistentStart or without.
fn with_records(is_persistent: bool) -> String {
    let text = if is_persistent { persistent() } else { String::from(PUMP) };
    let input = r#""IOData":{"Input":[{"DataType":"Unsigned16"}]}"#;
    let items = r#","ParameterRecordDataItem":[{"Index":1,"Length":4},{"Index":2,"Length":4}]"#;
    let slot = r#"{"Slot":1,"ModuleItemTarget":"IN2""#;
    let records = r#","Records":[{"Subslot":1,"Index":1,"Data":"00000064"},{"Subslot":1,"Index":2,"Data":"000000c8"}]"#;
    let changed = text
        .replace(input, &format!("{input}{items}"))
        .replace(slot, &format!("{slot}{records}"));
    assert!(changed.contains(items) && changed.contains(records));
    changed
}

// Resource busy, of a Write and of a control.
const BUSY_WRITE: [u8; 4] = [0xDF, 0x80, 0xC2, 0];
const BUSY_CONTROL: [u8; 4] = [0xDD, 0x80, 0xC2, 0];

/// A call has this operation and this sequence number.
fn is_call(call: &Bytes, operation: u8, sequence: u32) {
    assert_eq!(call.get(106..110), Some(sequence.to_be_bytes().as_slice()));
    assert_eq!(call.get(110..112), Some([0, operation].as_slice()));
}

/// SeqNumber in the block of a Write.
fn has_seq_number(call: &Bytes, number: u16) {
    assert_eq!(call.get(148..150), Some(number.to_be_bytes().as_slice()));
}

impl Ends {
    /// The controller hears that its call with this number is refused with this status: the answer to its Connect, changed. What it sends then.
    fn hears_refusal(&mut self, connected: &Bytes, sequence: u32, status: [u8; 4]) -> Outbox {
        let mut refusal = with_status(connected, status);
        for (place, octet) in (106..110).zip(sequence.to_be_bytes()) {
            set(&mut refusal, place, octet);
        }
        told(&mut self.controller, &ControllerEvent::Frame(refusal))
    }

    /// The calls of a second, each with its unit. Outputs are sent beside them since the Connect.
    fn calls(&mut self) -> Vec<(u32, Bytes)> {
        let mut sent = self.seconds(1);
        sent.retain(|(_, frame)| frame.get(12..14) == Some([8, 0].as_slice()));
        sent
    }

    /// The call is refused as busy. The controller sends nothing, stays in its state, and sends one call with the end of the second.
    fn tries_again(&mut self, connected: &Bytes, sequence: u32, status: [u8; 4]) {
        let state = self.controller.state();
        assert_eq!(self.hears_refusal(connected, sequence, status).len(), 0);
        self.is_at(state);
        let mut sent = self.calls();
        assert_eq!(sent.len(), 1);
        let (unit, call) = sent.pop().expect("a call");
        assert_eq!(unit, SECOND);
        self.is_at(state);
        self.sent = call;
    }

    /// The device has answered the Connect of this catalogue. Gives its answer.
    fn connected(alloc: Global, catalogue: &str) -> (Ends, Bytes) {
        let mut ends = Ends::new(alloc, catalogue);
        ends.turns(3);
        let answer = one(&ends.answers).expect("an answer");
        (ends, answer)
    }
}

// A Write that is refused as busy is tried again with the end of the second, as a new call with the same blocks. The calls after it, and those
// of the application, have the numbers that follow.
#[test]
fn a_write_that_is_refused_as_busy_is_tried_again() {
    let text = with_records(true).replace(r#""PersistentStart":true,"#, r#""PersistentStart":true,"ContinueOnRefusedRecord":true,"#);
    let (mut ends, answer) = Ends::connected(Global, &text);
    ends.is_at(State::Writing);
    is_call(&ends.sent, 3, 1);
    has_seq_number(&ends.sent, 1);
    for sequence in [1, 2] {
        ends.tries_again(&answer, sequence, BUSY_WRITE);
        is_call(&ends.sent, 3, sequence + 1);
        has_seq_number(&ends.sent, 1);
    }
    let sent = ends.hears_refusal(&answer, 3, [0; 4]);
    ends.sent = one(&sent).expect("the next Write");
    ends.is_at(State::Writing);
    is_call(&ends.sent, 3, 4);
    has_seq_number(&ends.sent, 2);
    ends.tries_again(&answer, 4, BUSY_WRITE);
    is_call(&ends.sent, 3, 5);
    // This device does not have the record, and the plan goes on.
    ends.turn();
    ends.has_status([0xDF, 0x80, 0xB0, 0]);
    ends.is_at(State::Ending);
    is_call(&ends.sent, 4, 6);
    ends.turn();
    ends.is_at(State::Exchanging);
    ends.turn();
    ends.is_related(Some(Phase::Exchanging));
    let read = told(&mut ends.controller, &ControllerEvent::Read(1, 1, 1));
    is_call(&one(&read).expect("a Read"), 2, 7);
}

// So is PrmEnd. The response to its last call ends the parameters.
#[test]
fn a_prm_end_that_is_refused_as_busy_is_tried_again() {
    let (mut ends, answer) = Ends::connected(Global, &persistent());
    ends.is_at(State::Ending);
    is_call(&ends.sent, 4, 1);
    for (sequence, status) in [(1, BUSY_CONTROL), (2, BUSY_WRITE), (3, [0, 0x80, 0xC2, 7])] {
        ends.tries_again(&answer, sequence, status);
        is_call(&ends.sent, 4, sequence + 1);
    }
    ends.turn();
    ends.is_at(State::Exchanging);
    ends.turn();
    ends.is_related(Some(Phase::Exchanging));
    let stopped = told(&mut ends.controller, &ControllerEvent::Stop);
    is_call(&one(&stopped).expect("a Release"), 1, 5);
}

// The refusal of a call that is tried again already changes nothing.
#[test]
fn a_refusal_as_busy_that_is_repeated_is_ignored() {
    let (mut ends, answer) = Ends::connected(Global, &with_records(true));
    for _ in 0..3 {
        assert_eq!(ends.hears_refusal(&answer, 1, BUSY_WRITE).len(), 0);
    }
    let sent = ends.calls();
    assert_eq!(sent.len(), 1);
    is_call(&sent[0].1, 3, 2);
    let stopped = told(&mut ends.controller, &ControllerEvent::Stop);
    is_call(&one(&stopped).expect("a Release"), 1, 3);
}

// A device that stays busy is tried until the patience ends, which is counted from the first try.
#[test]
fn a_device_that_stays_busy_ends_with_the_patience() {
    for (text, status, operation) in [(persistent(), BUSY_CONTROL, 4), (with_records(true), BUSY_WRITE, 3)] {
        let plan = plan_from_json(Global, text.as_bytes()).ok().expect("there is a plan");
        let options = ControllerOptions {
            patience: 2 * SECOND + 9,
            waiting_patience: 0,
        };
        let mut ends = Ends::new(Global, &text);
        let uuid = |octet| Uuid::from_bytes([octet; 16]);
        ends.controller = Controller::new_with(plan, uuid(0x11), uuid(0x51), options);
        ends.turns(3);
        let answer = one(&ends.answers).expect("an answer");
        for sequence in 1..=2 {
            ends.tries_again(&answer, sequence, status);
            is_call(&ends.sent, operation, sequence + 1);
        }
        assert_eq!(ends.hears_refusal(&answer, 3, status).len(), 0);
        let sent = ends.calls();
        ends.is_at(State::Ended(Cause::NoProgress));
        let (unit, release) = &sent[0];
        assert_eq!(*unit, 9);
        is_call(release, 1, 5);
    }
}

// Any other status ends the controller, and so does a busy device without the key.
#[test]
fn no_other_refusal_is_tried_again() {
    let others = [
        [0xDF, 0x80, 0xA7, 0],
        [0xDF, 0x80, 0xC1, 0],
        [0xDF, 0x80, 0xC3, 0],
        [0xDF, 0x81, 0xC2, 0],
        [0xDF, 0xC2, 0x80, 0],
        [0xDF, 0x80, 0, 0xC2],
        [0xDB, 0x81, 0x40, 6],
    ];
    let with_key = others.map(|status| (true, status));
    for (is_persistent, status) in with_key.into_iter().chain([(false, BUSY_WRITE), (false, BUSY_CONTROL)]) {
        let (mut ends, answer) = Ends::connected(Global, &with_records(is_persistent));
        let sent = ends.hears_refusal(&answer, 1, status);
        ends.is_refused_silently(&sent);
        let prm_end = if is_persistent { persistent() } else { String::from(PUMP) };
        let (mut ends, answer) = Ends::connected(Global, &prm_end);
        let sent = ends.hears_refusal(&answer, 1, status);
        ends.is_refused_silently(&sent);
    }
}
