//! What becomes of a process alarm that a host in C raised, and that it is told once. The octets were worked out by hand from IEC 61158-6-10.
use crate::operations::{asked, lines_of};
use crate::passed::{BEFORE, exchanging_with};
use crate::served::octets;
use c_layout::Op;
use device_abi::{hand_out, serve};
use device_station::Port;
use relations::DeviceOptions;
use test_stations::{CONTROL, END, RELEASE, call};

/// The numbers of the operations that report it.
const FRAME: u32 = 3;
const TICK: u32 = 4;
const FRAME_AFTER: u32 = 24;

/// What is reported: nothing, an AlarmAck, and that the relation ended first.
const NOTHING: u32 = 0;
const ACKNOWLEDGED: u32 = 1;
const GIVEN_UP: u32 = 2;

/// What an operation holds of an event before, which each event overwrites.
const OLD: u32 = 9;

/// A port that exchanges data, and the operation of its host.
struct Host {
    port: Port,
    op: Op,
}

impl Host {
    /// Beside services, or alone, with an alarm of slot 1 that is open.
    fn with_alarm(serves: bool) -> Host {
        let mut host = Host { port: exchanging_with(DeviceOptions::default(), serves), op: asked(0) };
        assert_eq!(host.raise(), 0);
        host
    }

    /// An operation is carried out, and all of its work is taken. Its answer.
    fn does(&mut self, what: u32, octets: &[u8]) -> u32 {
        (self.op.what, self.op.confirmed, self.op.status) = (what, OLD, OLD);
        let answer = serve(&mut self.port, &mut self.op, octets);
        while !hand_out(&mut self.port, &mut self.op, &mut 0).is_empty() {}
        answer
    }

    /// An alarm of slot 1 is raised. The answer; nothing is confirmed by it.
    fn raise(&mut self) -> u32 {
        (self.op.slot, self.op.subslot) = (1, 1);
        let answer = self.does(6, &[0xAA, 0xBB]);
        let untold = if answer == 0 { NOTHING } else { OLD };
        assert_eq!((self.op.confirmed, self.op.status), (untold, OLD));
        answer
    }

    /// Whether the alarm is open: the device refuses another one for that.
    fn is_open(&mut self) -> bool {
        self.raise() == 44 && self.op.reason == 6
    }

    /// A frame comes after this many units, which bring nothing: what became of the alarm, with the status that is told.
    fn hears_after(&mut self, units: u32, frame: &[u8]) -> (u32, u32) {
        self.op.units = units;
        assert_eq!((self.does(FRAME_AFTER, frame), self.op.units), (0, 0));
        (self.op.confirmed, self.op.status)
    }

    /// A frame comes.
    fn hears(&mut self, frame: &[u8]) -> (u32, u32) {
        assert_eq!(self.does(FRAME, frame), 0);
        (self.op.confirmed, self.op.status)
    }

    /// Units pass, up to the first that sends something: what became of the alarm, and how many remain.
    fn passes(&mut self, units: u32) -> (u32, u32) {
        self.op.units = units;
        assert_eq!((self.does(TICK, &[]), self.op.status), (0, OLD));
        (self.op.confirmed, self.op.units)
    }
}

/// An alarm frame of the controller, of this type, with the numbers of what it sent and accepted, and this body.
fn alarm_frame(frame_id: &str, kind: &str, number: u16, body: &str) -> Vec<u8> {
    let length = body.len() / 2;
    octets(&format!("0200000000010200000000028100c0008892{frame_id}00010001{kind}{number:04x}ffff{length:04x}{body}"))
}

/// The AlarmAck of an alarm of slot 1 with this AlarmSpecifier, and this PNIOStatus.
fn alarm_ack(number: u16, specifier: u16, status: u32) -> Vec<u8> {
    alarm_frame("fc01", "1111", number, &format!("80010012010000020000000000010001{specifier:04x}{status:08x}"))
}

/// The ACK of the alarm: the controller has received it, which is not yet a confirmation.
fn ack() -> Vec<u8> {
    alarm_frame("fc01", "1301", 0xFFFF, "")
}

/// A cyclic frame with this CycleCounter.
pub(crate) fn outputs(counter: u16) -> Vec<u8> {
    octets(&format!("0200000000010200000000028100c0008892c000aa558080808080{:066}{counter:04x}3500", 0))
}

#[test]
fn the_confirmations_are_those_of_the_header() {
    let numbers: Vec<(&str, u32)> = lines_of("enum pn_confirmed {")
        .filter_map(|line| line.trim().strip_prefix("PN_")?.split_once(" = "))
        .filter_map(|(name, rest)| Some((name, rest.split([',', ' ']).next()?.parse().ok()?)))
        .collect();
    assert_eq!(numbers, [("UNCONFIRMED", NOTHING), ("ACKNOWLEDGED", ACKNOWLEDGED), ("GIVEN_UP", GIVEN_UP)]);
}

#[test]
fn an_alarm_ack_is_told_once_with_its_status() {
    for serves in [false, true] {
        for status in [0, 0xDF80_B200] {
            let mut host = Host::with_alarm(serves);
            assert_eq!(host.hears(&ack()), (NOTHING, OLD));
            assert!(host.is_open());
            assert_eq!(host.hears(&alarm_ack(0xFFFF, 0, status)), (ACKNOWLEDGED, status));
            // The same frame again, another one and the next unit tell nothing.
            assert_eq!(host.hears(&alarm_ack(0xFFFF, 0, status)), (NOTHING, OLD));
            assert_eq!(host.hears(&outputs(32)), (NOTHING, OLD));
            assert_eq!(host.passes(1), (NOTHING, 0));
            // The next alarm has the next AlarmSpecifier, and its AlarmAck comes after units that bring nothing.
            assert_eq!(host.raise(), 0);
            assert_eq!(host.hears_after(2, &alarm_ack(0, 1, !status)), (ACKNOWLEDGED, !status));
            assert_eq!(host.raise(), 0);
        }
    }
}

// Of another alarm, of another submodule, of another controller, and data that is accepted already.
#[test]
fn another_alarm_ack_confirms_nothing() {
    let mut elsewhere = alarm_ack(2, 0, 0);
    elsewhere[45] = 2;
    let mut foreign = alarm_ack(2, 0, 0);
    foreign[11] = 3;
    let mut host = Host::with_alarm(false);
    for frame in [alarm_ack(0xFFFF, 1, 5), alarm_ack(0xFFFF, 0, 5), elsewhere, foreign] {
        assert_eq!(host.hears(&frame), (NOTHING, OLD));
        assert!(host.is_open());
    }
    assert_eq!(host.hears_after(3, &alarm_ack(0, 0, 5)), (ACKNOWLEDGED, 5));
}

/// The ERR of the controller, with this PNIOStatus.
fn err() -> Vec<u8> {
    alarm_frame("fe01", "1401", 0xFFFF, "cf81fd05")
}

#[test]
fn an_alarm_whose_relation_the_controller_ends_is_given_up() {
    let release = octets("0114001c01000000111111112222333344445555555555550001000000040000");
    for frame in [err(), call(RELEASE, 9, 0, &release).as_slice().to_vec()] {
        for (serves, units) in [(true, None), (false, None), (false, Some(0)), (false, Some(5))] {
            let mut host = Host::with_alarm(serves);
            let told = match units {
                Some(units) => host.hears_after(units, &frame),
                None => host.hears(&frame),
            };
            assert_eq!(told, (GIVEN_UP, OLD));
            assert_eq!(host.hears(&frame), (NOTHING, OLD));
            assert_eq!(host.passes(9).0, NOTHING);
        }
    }
}

// A Connect while a relation exists is refused, and so is a PrmEnd that is not wanted. Once the relation is over, a Connect makes another one,
// in which nothing is open.
#[test]
fn a_connect_confirms_nothing() {
    let mut host = Host::with_alarm(false);
    let connect = octets(BEFORE[2]);
    let other = call(CONTROL, 7, 0, &END);
    for frame in [connect.as_slice(), other.as_slice()] {
        assert_eq!(host.hears(frame), (NOTHING, OLD));
        assert!(host.is_open());
    }
    assert_eq!(host.hears(&err()), (GIVEN_UP, OLD));
    for digits in &BEFORE[2..] {
        assert_eq!(host.hears(&octets(digits)), (NOTHING, OLD));
    }
}

// Three intervals without a frame of the controller end the relation: in one of several units, or in a single one.
#[test]
fn an_alarm_of_a_silent_controller_is_given_up() {
    for step in [1, 7, 1000] {
        let mut host = Host::with_alarm(true);
        let (mut told, mut sum) = (Vec::new(), 0);
        while sum < 1000 {
            let (confirmed, left) = host.passes(step);
            sum += step - left;
            if confirmed != NOTHING {
                told.push((confirmed, sum));
            }
        }
        assert_eq!(told, [(GIVEN_UP, 96)], "{step}");
    }
}

// Cyclic frames keep the relation. The alarm is sent again three times, each 3,200 units after the one before, and is then given up.
#[test]
fn an_alarm_that_nobody_acknowledges_is_given_up() {
    let mut host = Host::with_alarm(false);
    let mut told = Vec::new();
    for interval in 1..=500u32 {
        let counter = (interval * 32) as u16;
        if host.hears_after(31, &outputs(counter)).0 != NOTHING {
            told.push((FRAME, interval));
        }
        match host.passes(1).0 {
            NOTHING => {}
            confirmed => told.push((confirmed, interval)),
        }
    }
    assert_eq!(told, [(GIVEN_UP, 400)]);
}

// What the application says confirms nothing. What is refused tells nothing, not even that.
#[test]
fn other_operations_tell_nothing() {
    let mut host = Host::with_alarm(false);
    (host.op.slot, host.op.subslot, host.op.is_good) = (1, 1, 0);
    for (what, octets, answer, confirmed) in [(5, vec![1, 2], 0, NOTHING), (5, vec![1], 44, OLD), (16, vec![], 0, NOTHING), (17, vec![], 44, OLD)] {
        assert_eq!((host.does(what, &octets), host.op.confirmed, host.op.status), (answer, confirmed, OLD), "{what}");
    }
    // Work of the event before remains: the AlarmAck is not read.
    host.op.what = TICK;
    host.op.units = 32;
    assert_eq!(serve(&mut host.port, &mut host.op, &[]), 0);
    assert_eq!((host.op.work, host.op.units), (3, 0));
    host.op.what = FRAME;
    host.op.confirmed = OLD;
    assert_eq!(serve(&mut host.port, &mut host.op, &alarm_ack(0xFFFF, 0, 0)), 7);
    assert_eq!(host.op.confirmed, OLD);
    while !hand_out(&mut host.port, &mut host.op, &mut 0).is_empty() {}
    assert!(host.is_open());
    assert_eq!(host.hears(&alarm_ack(0xFFFF, 0, 0)), (ACKNOWLEDGED, 0));
}
