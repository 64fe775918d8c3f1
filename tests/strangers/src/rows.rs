//! Rows: the frames of a real start-up and exchange belong to the relation at the end that they are for; what other stations send does not,
//! and leaves the relation as it was.
use crate::octets::{belongs, belongs_to};
use crate::plant::{ACTIVITY, CONTROLLER, Came, DEVICE, Plant, at, at_controller, at_device, by, bytes};
use controller_core::{Event as ControllerEvent, State};
use device_core::{Event, Octets};
use relations::Phase;
use test_stations::mend;

/// A start-up, then an exchange with an alarm, and all frames that came.
pub(crate) fn exchange(plant: &mut Plant) -> Vec<Came> {
    let mut came = plant.start();
    for unit in 0..200 {
        came.extend(plant.tick());
        if unit == 100 {
            let sent = at(&mut plant.device, &Event::alarm(1, 1, &[7]));
            came.extend(plant.deliver(sent));
        }
    }
    came
}

fn kinds(frames: &[&Came]) -> Vec<u16> {
    frames.iter().map(|came| u16::from_be_bytes([came.frame[12], came.frame[13]])).collect()
}

// Of all frames that come to either end from its Connect on, each belongs to the relation by its octets alone.
#[test]
fn frames_of_a_relation_belong_to_it() {
    let mut plant = Plant::new();
    let mut came = exchange(&mut plant);
    assert_eq!(plant.device.phase(), Some(Phase::Exchanging));
    assert_eq!(plant.controller.state(), State::Exchanging);
    let stop = by(&mut plant.controller, &ControllerEvent::Stop);
    came.extend(plant.deliver(stop));
    assert_eq!(plant.device.phase(), None);
    let to_device: Vec<&Came> = came.iter().filter(|came| came.at_device && came.related).collect();
    let to_controller: Vec<&Came> = came.iter().filter(|came| !came.at_device).collect();
    assert!(to_device.len() > 8 && to_controller.len() > 12);
    // PrmEnd, the answer to ApplicationReady, outputs, the ACK and the AlarmAck, and the Release.
    assert_eq!(kinds(&to_device)[..2], [0x0800, 0x0800]);
    assert_eq!(to_device.last().map(|came| came.frame[12..14].to_vec()), Some(vec![0x08, 0x00]));
    for came in &to_device {
        assert!(belongs(&at_device(), &came.frame), "{:02x?}", came.frame);
    }
    for came in &to_controller {
        assert!(belongs_to(&at_controller(), came.state, &ACTIVITY, &came.frame), "{:02x?}", came.frame);
    }
    // None of them belongs to the relation of another pair, or at the other end.
    let mut others = at_device();
    others.uuid = [3; 16];
    others.partner = [2, 0, 0, 0, 0, 9];
    assert!(to_device.iter().all(|came| !belongs(&others, &came.frame)));
    assert!(to_controller.iter().all(|came| !belongs(&at_device(), &came.frame)));
}

fn filled(mut frame: Vec<u8>) -> Vec<u8> {
    while frame.len() < 60 {
        frame.push(0);
    }
    frame
}

/// A frame with other octets at a place, and the checksums that go with them.
fn with(frame: &[u8], places: &[(usize, &[u8])]) -> Vec<u8> {
    let mut octets = bytes(frame);
    for (place, other) in places {
        octets.as_mut_slice()[*place..place + other.len()].copy_from_slice(other);
    }
    if frame[12..14] == [0x08, 0x00] {
        octets.as_mut_slice()[40..42].copy_from_slice(&[0, 0]);
        mend(&mut octets);
    }
    octets.as_slice().to_vec()
}

/// A frame that came to the device, by its EtherType and what follows.
fn found<'a>(came: &'a [Came], at_device: bool, is: impl Fn(&[u8]) -> bool) -> &'a [u8] {
    let found = came.iter().find(|came| came.at_device == at_device && is(&came.frame));
    &found.expect("came").frame
}

fn is_call(operation: u8) -> impl Fn(&[u8]) -> bool {
    move |frame| frame[12..14] == [0x08, 0x00] && frame[43] == 0 && frame[110..112] == [0, operation]
}

/// Frames of other stations, made of `came`: each with its name.
pub(crate) fn strange(came: &[Came]) -> Vec<(&'static str, Vec<u8>)> {
    let other: &[u8] = &[2, 0, 0, 0, 0, 9];
    let connect = found(came, true, is_call(0));
    let control = found(came, true, is_call(4));
    let response = found(came, true, |frame| frame[12..14] == [0x08, 0x00] && frame[43] == 2);
    let outputs = found(came, true, |frame| frame[12..16] == [0x81, 0x00, frame[14], frame[15]] && frame[16..20] == [0x88, 0x92, 0xC0, 0x00]);
    let ack = found(came, true, |frame| frame[12..14] == [0x81, 0x00] && frame[18..20] == [0xFC, 0x01]);
    let arp = [&[255; 6], other, &[8, 6, 0, 1, 8, 0, 6, 4, 0, 1], other, &[192, 168, 0, 9, 0, 0, 0, 0, 0, 0, 192, 168, 0, 2]].concat();
    let lldp = [&[1, 0x80, 0xC2, 0, 0, 0x0E], other, &[0x88, 0xCC, 2, 7, 4], other, &[4, 5, 7, b'p', b'o', b'r', b't', 6, 2, 0, 20, 0, 0]].concat();
    let echo = [&DEVICE, other, &[8, 0, 0x45, 0, 0, 32, 0, 0, 0, 0, 64, 1, 0, 0, 192, 168, 0, 9, 192, 168, 0, 2, 8, 0, 0xF3, 0xF6, 0, 1, 0, 1, 4, 0, 0, 0]].concat();
    let identify = [&[1, 0x0E, 0xCF, 0, 0, 0], other, &[0x88, 0x92, 0xFE, 0xFE, 5, 0, 0, 0, 0, 9, 0, 1, 0, 4, 255, 255, 0, 0]].concat();
    let signal = [&DEVICE, other, &[0x88, 0x92, 0xFE, 0xFD, 4, 0, 0, 0, 0, 9, 0, 0, 0, 8, 5, 3, 0, 4, 0, 0, 1, 0]].concat();
    let name = [&DEVICE, other, &[0x88, 0x92, 0xFE, 0xFD, 4, 0, 0, 0, 0, 9, 0, 0, 0, 8, 2, 2, 0, 3, 0, 1, b'x', 0]].concat();
    vec![
        ("an ARP request", filled(arp)),
        ("a message of LLDP", filled(lldp)),
        ("an echo request whose data begins as a call does", filled(with(&filled(echo), &[]))),
        ("an Identify request", filled(identify)),
        ("a Set that makes the lamp flash", filled(signal)),
        ("a Set of the name", filled(name)),
        ("a Connect of another relation", with(connect, &[(6, other), (82, &[9; 16]), (150, &[9; 16])])),
        ("a PrmEnd of another relation", with(control, &[(6, other), (82, &[9; 16]), (150, &[9; 16])])),
        ("a Release of another relation", with(control, &[(6, other), (82, &[9; 16]), (110, &[0, 1]), (142, &[0x01, 0x14]), (150, &[9; 16]), (170, &[0, 4])])),
        ("an answer to another ApplicationReady", with(response, &[(6, other), (82, &[9; 16])])),
        ("a cyclic frame of another station", with(outputs, &[(6, other)])),
        ("a cyclic frame of another FrameID", with(outputs, &[(18, &[0xC0, 0x01])])),
        ("an ACK of another station", with(ack, &[(6, other)])),
        ("an ACK of another endpoint", with(ack, &[(22, &[0, 2])])),
    ]
}

// What other stations send does not belong to the relation, and leaves it: the phase, the outputs, the records, and all that is sent later.
#[test]
fn frames_of_strangers_leave_a_device() {
    let came = exchange(&mut Plant::new());
    for (name, frame) in strange(&came) {
        assert!(!belongs(&at_device(), &frame), "{name}");
        let (mut plant, mut alone) = (Plant::new(), Plant::new());
        exchange(&mut plant);
        exchange(&mut alone);
        let sent = at(&mut plant.device, &Event::Frame(Octets::of(&frame)));
        assert!(sent.iter().all(|frame| frame[12..14] != [0x81, 0x00] && frame[6..12] == DEVICE), "{name}");
        for _ in 0..400 {
            assert_eq!(plant.device.phase(), alone.device.phase(), "{name}");
            assert_eq!(plant.device.output(2, 1), alone.device.output(2, 1), "{name}");
            assert_eq!(at(&mut plant.device, &Event::Tick), at(&mut alone.device, &Event::Tick), "{name}");
        }
    }
}

// While the device waits for the answer to its ApplicationReady, an answer of another activity, positive or negative, changes nothing: it
// still waits, and sends ApplicationReady again with the same units.
#[test]
fn answers_of_strangers_confirm_nothing() {
    let came = exchange(&mut Plant::new());
    let response = found(&came, true, |frame| frame[12..14] == [0x08, 0x00] && frame[43] == 2);
    for status in [[0; 4], [0xDB, 0x81, 0x3C, 0x0A]] {
        let frame = with(response, &[(6, &[2, 0, 0, 0, 0, 9]), (82, &[9; 16]), (122, &status)]);
        assert!(!belongs(&at_device(), &frame));
        let (mut plant, mut alone) = (awaiting(), awaiting());
        assert!(at(&mut plant.device, &Event::Frame(Octets::of(&frame))).is_empty());
        let mut sent = 0;
        for _ in 0..70_000 {
            assert_eq!(plant.device.phase(), Some(Phase::Awaiting));
            let frames = at(&mut plant.device, &Event::Tick);
            sent += frames.iter().filter(|frame| frame[12..14] == [0x08, 0x00]).count();
            assert_eq!(frames, at(&mut alone.device, &Event::Tick));
        }
        assert_eq!(sent, 2);
    }
}

// While an alarm waits for its ACK and its AlarmAck, those of another station confirm nothing: a second alarm is refused as before.
#[test]
fn strangers_confirm_no_alarm() {
    let came = exchange(&mut Plant::new());
    let replies: Vec<&Came> = came.iter().filter(|came| came.at_device && came.frame[18..20] == [0xFC, 0x01]).collect();
    assert_eq!(replies.len(), 2);
    for (sender, sent) in [(9, 0), (2, 1)] {
        let mut plant = Plant::new();
        plant.start();
        for _ in 0..101 {
            plant.tick();
        }
        assert_eq!(at(&mut plant.device, &Event::alarm(1, 1, &[7])).len(), 1);
        for came in &replies {
            let frame = with(&came.frame, &[(6, &[2, 0, 0, 0, 0, sender])]);
            assert_eq!(belongs(&at_device(), &frame), sender == 2);
            at(&mut plant.device, &Event::Frame(Octets::of(&frame)));
        }
        assert_eq!(at(&mut plant.device, &Event::alarm(1, 1, &[8])).len(), sent);
    }
}

/// Both ends, once the device has sent ApplicationReady.
fn awaiting() -> Plant {
    let mut plant = Plant::new();
    let mut waiting = vec![plant.controller.opening().as_slice().to_vec()];
    while plant.device.phase() != Some(Phase::Awaiting) {
        let frame = waiting.remove(0);
        waiting.extend(plant.one(&frame));
    }
    plant
}

// The same at the controller: nothing at all changes, and nothing is sent.
#[test]
fn frames_of_strangers_leave_a_controller() {
    let came = exchange(&mut Plant::new());
    let other: &[u8] = &[2, 0, 0, 0, 0, 9];
    let inputs = found(&came, false, |frame| frame[12..14] == [0x81, 0x00] && frame[16..18] == [0x88, 0x92] && frame[18] == 0xC0);
    let alarm = found(&came, false, |frame| frame[12..14] == [0x81, 0x00] && frame[18..20] == [0xFC, 0x01]);
    let ready = found(&came, false, is_call(4));
    let granted = found(&came, false, |frame| frame[12..14] == [0x08, 0x00] && frame[43] == 2);
    let rows = [
        ("a cyclic frame of another station", with(inputs, &[(6, other)])),
        ("an alarm of another station", with(alarm, &[(6, other)])),
        ("an alarm of another endpoint", with(alarm, &[(22, &[0, 2])])),
        ("an ApplicationReady of another relation", with(ready, &[(6, other), (82, &[9; 16]), (150, &[9; 16])])),
        ("an answer to another call", with(granted, &[(6, other), (82, &[9; 16])])),
        ("a reject of another call", with(granted, &[(6, other), (43, &[6]), (82, &[9; 16])])),
    ];
    for (name, frame) in rows {
        assert!(!belongs_to(&at_controller(), State::Exchanging, &ACTIVITY, &frame), "{name}");
        let (mut plant, mut alone) = (Plant::new(), Plant::new());
        exchange(&mut plant);
        exchange(&mut alone);
        assert!(by(&mut plant.controller, &ControllerEvent::Frame(bytes(&frame))).is_empty(), "{name}");
        for _ in 0..400 {
            assert_eq!(plant.controller.state(), alone.controller.state(), "{name}");
            assert_eq!(plant.controller.value(1, 1), alone.controller.value(1, 1), "{name}");
            assert_eq!(by(&mut plant.controller, &ControllerEvent::Tick), by(&mut alone.controller, &ControllerEvent::Tick), "{name}");
        }
    }
}

// Frames that do belong to it move it: a Release of the relation ends it, whoever sends it, and so does a reset.
#[test]
fn frames_that_belong_end_a_relation() {
    let came = exchange(&mut Plant::new());
    let control = found(&came, true, is_call(4));
    let other: &[u8] = &[2, 0, 0, 0, 0, 9];
    let release = with(control, &[(6, other), (82, &[9; 16]), (110, &[0, 1]), (142, &[0x01, 0x14]), (170, &[0, 4])]);
    let reset = filled([&DEVICE, other, &[0x88, 0x92, 0xFE, 0xFD, 4, 0, 0, 0, 0, 9, 0, 0, 0, 6, 5, 6, 0, 2, 0, 4]].concat());
    for frame in [release, reset] {
        assert!(belongs(&at_device(), &frame));
        let mut plant = Plant::new();
        exchange(&mut plant);
        at(&mut plant.device, &Event::Frame(Octets::of(&frame)));
        assert_eq!(plant.device.phase(), None, "{frame:02x?}");
    }
    assert_eq!(CONTROLLER[5], 2);
}
