//! The alarms of low priority of a device: changes of diagnosis, pulls and plugs, one active at a time, the others waiting. The octets of
//! the first alarm are those of a reference model that shares no line with the sources; tshark read them. Those of a pull were written by
//! hand from IEC 61158-6-10, 5.2.5.

use diagnosis::{Priority, read_low_message, read_report};
use block_codec::AlarmAck;
use diagnosis::{Change, Diagnoses, Diagnosis};
use diagnosis::{DiagnosisAlarms, LowChange, ModuleChange, Terms};
use connect_blocks::{ExpectedModule, ExpectedSubmodule};
use module_diff::{ChangeKind, Expected, RealChange, diff};
use pn_alarms::{Due, Message, PduFate, PduType, Taken, read_message, read_pdu};
use pn_values::{Real, demo_modules};

const TERMS: Terms = Terms { timeout_factor: 1, retries: 3, tag: 0xA000 };

/// What follows the FrameID of the alarm that a diagnosis of channel 3 with the error 1 appears at slot 1, subslot 1.
const ALARM: &str = "000100011111fffffffe00220002001e010000010000000000010001000000100000\
                     0010a8008000000308000001";

/// The same of the alarm that the submodule with the ident numbers 0x10 and 0x11 is pulled there, while a diagnosis exists elsewhere in
/// the relation.
const PULL: &str = "000100011111fffffffe001a000200160100000300000000000100010000001000000011\
                    8000";

fn change(slot: u16, channel: u16, appears: bool) -> Change {
    let diagnosis = Diagnosis { slot, subslot: 1, channel, error: 1 };
    Change { diagnosis, appears }
}

/// A Connect that expects the submodules in slot 1 and slot 2 of the demo station, the second one under this ident number.
fn expected(ident: u32) -> Expected {
    let mut expected = Expected::default();
    let real = demo_modules();
    for slot in [1, 2] {
        let entry = real.modules.iter().find(|entry| entry.slot == slot).expect("is plugged");
        let part = entry.submodules.iter().find(|part| part.subslot == 1).expect("is plugged");
        expected.modules.push(ExpectedModule {
            slot_number: slot,
            module_ident_number: entry.ident,
            number_of_submodules: 1,
            ..ExpectedModule::default()
        });
        expected.submodules.push(ExpectedSubmodule {
            subslot_number: 1,
            submodule_ident_number: if slot == 2 && ident != 0 { ident } else { part.ident },
            ..ExpectedSubmodule::default()
        });
    }
    expected
}

/// The alarms of a relation that expects this.
fn opened(expected: &Expected, diagnoses: &Diagnoses, real: &Real) -> DiagnosisAlarms {
    let mut low = DiagnosisAlarms::new();
    low.open(TERMS, expected, &diff(expected, real), diagnoses);
    low
}

/// The octets of the active alarm.
fn octets(low: &DiagnosisAlarms) -> String {
    let header = low.header(PduType::Data, 1, 1);
    let (front, data) = low.alarm(&header).expect("is active");
    front.iter().chain(data).map(|octet| format!("{octet:02x}")).collect()
}

/// The AlarmAck of the active alarm, as data of this number.
fn confirms(number: u16, low: &DiagnosisAlarms) -> Message {
    let bytes: Vec<u8> = (0..octets(low).len()).step_by(2).map(|at| u8::from_str_radix(&octets(low)[at..at + 2], 16).expect("hex")).collect();
    let pdu = read_pdu(&bytes).ok().expect("is a PDU");
    let report = read_report(pdu.body).ok().expect("is an alarm");
    assert_eq!(report.priority, Priority::Low);
    let alarm = report.notification;
    let ack = AlarmAck {
        alarm_type: alarm.alarm_type,
        api: alarm.api,
        slot_number: alarm.slot_number,
        subslot_number: alarm.subslot_number,
        alarm_specifier: alarm.alarm_specifier,
        pnio_status: 0,
    };
    Message::Data(number, ack)
}

#[test]
fn what_exists_is_reported_as_data_exchange_begins() {
    let (real, expected) = (demo_modules(), expected(0));
    let mut diagnoses = Diagnoses::new();
    assert!(diagnoses.change(&change(1, 3, true)));
    let mut low = opened(&expected, &diagnoses, &real);
    assert!(low.has_problem());
    assert!(!low.has_sent());
    assert!(low.begin(&real, &diagnoses));
    assert!(low.has_sent());
    assert_eq!(octets(&low), ALARM);
    assert_eq!(low.tag(), 0xA000);
}

#[test]
fn a_change_waits_until_the_alarm_is_acknowledged() {
    let (real, expected) = (demo_modules(), expected(0));
    let mut diagnoses = Diagnoses::new();
    let mut low = opened(&expected, &diagnoses, &real);
    assert!(!low.begin(&real, &diagnoses));
    for (channel, appears) in [(3, true), (4, true), (3, false)] {
        let it = change(1, channel, appears);
        assert!(diagnoses.change(&it));
        assert_eq!(low.change(&real, true, &it, &diagnoses), channel == 3 && appears);
    }
    assert_eq!(octets(&low), ALARM);
    // the second one under the next number and sequence, and the third is a diagnosis that disappears while another exists
    let first = confirms(0xFFFF, &low);
    assert_eq!(low.hear(&first), PduFate::Data(Taken::New));
    assert!(low.next());
    assert_eq!(&octets(&low)[12..20], "0000ffff");
    assert_eq!(&octets(&low)[72..], "a8018000000408000001");
    assert!(!low.next());
    let second = confirms(0, &low);
    assert_eq!(low.hear(&second), PduFate::Data(Taken::New));
    assert!(low.next());
    assert_eq!(&octets(&low)[36..40], "000c");
    assert_eq!(&octets(&low)[72..], "a8028000000310000001");
    let third = confirms(1, &low);
    assert_eq!(low.hear(&third), PduFate::Data(Taken::New));
    assert!(!low.next());
}

#[test]
fn only_submodules_of_the_relation_are_reported() {
    let real = demo_modules();
    let mut diagnoses = Diagnoses::new();
    // the submodule in slot 2 differs
    let mut low = opened(&expected(0x77), &diagnoses, &real);
    assert!(low.owns(1, 1));
    assert!(!low.owns(2, 1));
    let other = change(2, 0, true);
    assert!(diagnoses.change(&other));
    assert!(!low.change(&real, true, &other, &diagnoses));
    assert!(!low.has_problem());
    assert!(!low.next());
    // before data is exchanged none is reported, and the problem counts
    let own = change(1, 0, true);
    assert!(diagnoses.change(&own));
    assert!(!low.change(&real, false, &own, &diagnoses));
    assert!(low.has_problem());
    assert!(!low.has_sent());
}

#[test]
fn thirty_two_changes_wait_beside_the_active_alarm() {
    let (real, expected) = (demo_modules(), expected(0));
    let mut diagnoses = Diagnoses::new();
    let mut low = opened(&expected, &diagnoses, &real);
    for number in 0..33 {
        assert!(!low.is_full());
        let it = change(1, 0, number % 2 == 0);
        assert!(diagnoses.change(&it));
        assert_eq!(low.change(&real, true, &it, &diagnoses), number == 0);
    }
    assert!(low.is_full());
    // the next relation begins with none of it
    low.open(TERMS, &expected, &diff(&expected, &real), &diagnoses);
    assert!(!low.is_full());
    assert!(!low.has_sent());
    assert!(low.has_problem());
}

/// A submodule that was pulled or plugged at slot 1, subslot 1.
fn made(kind: ChangeKind) -> RealChange {
    RealChange { kind, slot: 1, subslot: 1, module_ident_number: 0x10, submodule_ident_number: 0x11 }
}

#[test]
fn a_pull_is_reported_with_what_was_pulled() {
    let (real, expected) = (demo_modules(), expected(0));
    let mut diagnoses = Diagnoses::new();
    assert!(diagnoses.change(&change(2, 0, true)));
    let mut low = opened(&expected, &diagnoses, &real);
    let pull = made(ChangeKind::Pull);
    let change = ModuleChange::of(&pull, false, true);
    assert!(!low.change_modules(false, change, &pull, &diagnoses));
    assert_eq!(low.sent(), None);
    // what exists when the alarm is sent does not count
    assert!(low.begin(&real, &Diagnoses::new()));
    assert_eq!(octets(&low), PULL);
    assert_eq!(low.sent().map(|sent| (sent.change, sent.number)), Some((LowChange::Module(change), 0)));
}

#[test]
fn pulls_and_plugs_wait_before_what_exists() {
    let (real, expected) = (demo_modules(), expected(0));
    let mut diagnoses = Diagnoses::new();
    for channel in 0..32 {
        assert!(diagnoses.change(&change(1, channel, true)));
    }
    let mut low = opened(&expected, &diagnoses, &real);
    for number in 0..32 {
        assert!(!low.is_full());
        let it = made(if number % 2 == 0 { ChangeKind::Pull } else { ChangeKind::Plug });
        assert!(!low.change_modules(false, ModuleChange::of(&it, false, false), &it, &diagnoses));
    }
    assert!(low.is_full());
    assert!(low.waits_for_plug(1, 1));
    assert!(!low.waits_for_plug(1, 2) && !low.waits_for_plug(2, 1));
    let mut is_active = low.begin(&real, &diagnoses);
    let mut types = Vec::new();
    while is_active {
        let sent = low.sent().expect("is sent");
        assert_eq!(usize::from(sent.number), types.len());
        types.push((sent.change.alarm_type(), sent.change.slot(), sent.change.subslot()));
        let ack = confirms(sent.number.wrapping_sub(1), &low);
        assert_eq!(low.hear(&ack), PduFate::Data(Taken::New));
        is_active = low.next();
    }
    let wanted: Vec<_> = (0..64).map(|number| (if number >= 32 { 1 } else { 3 + number % 2 }, 1, 1)).collect();
    assert_eq!(types, wanted);
    assert!(!low.waits_for_plug(1, 1));
}

#[test]
fn an_alarm_is_repeated_and_given_up() {
    let (real, expected) = (demo_modules(), expected(0));
    let mut diagnoses = Diagnoses::new();
    assert!(diagnoses.change(&change(1, 3, true)));
    let mut low = opened(&expected, &diagnoses, &real);
    assert!(low.begin(&real, &diagnoses));
    for repeat in 1..=4 {
        assert_eq!(low.due_in(), 3_200);
        low.pass(3_199);
        assert_eq!(low.tick(), if repeat < 4 { Due::Again } else { Due::Spent });
    }
}

#[test]
fn an_alarm_ack_of_low_priority_is_read_as_such_alone() {
    let ack = "000100011111fffffffe001680020012010000010000000000010001a80000000000";
    let bytes: Vec<u8> = (0..ack.len()).step_by(2).map(|at| u8::from_str_radix(&ack[at..at + 2], 16).expect("hex")).collect();
    assert!(read_message(&bytes).is_err());
    let Ok((header, Message::Data(number, read))) = read_low_message(&bytes) else {
        panic!("is read");
    };
    assert_eq!((header.destination, header.source, number), (1, 1, 0xFFFF));
    assert_eq!((read.alarm_type, read.slot_number, read.subslot_number), (1, 1, 1));
    let mut high = bytes.clone();
    high[13] = 0x01;
    assert!(read_low_message(&high).is_err());
    assert!(read_message(&high).is_ok());
}
