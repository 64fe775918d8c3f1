//! Diagnoses, the changes that wait for an alarm, and the octets of both. The octets are those of a reference model that shares
//! no line with the sources; tshark read them.

use arrayvec::ArrayVec;
use diagnosis::{Change, Diagnoses, Diagnosis, Notice, Places, WHOLE_SUBMODULE, put_diagnosis_data};
use module_diff::Affected;
use pn_values::demo_modules;

/// Submodules of a relation in a test.
struct Listed(&'static [(u16, u16)]);

impl Places for Listed {
    fn has(&self, slot: u16, subslot: u16) -> bool {
        self.0.contains(&(slot, subslot))
    }
}

/// Every submodule of the demo station that has a diagnosis in these tests.
const ALL: Listed = Listed(&[(1, 1), (2, 1)]);

fn change(slot: u16, subslot: u16, channel: u16, error: u16, appears: bool) -> Change {
    let diagnosis = Diagnosis { slot, subslot, channel, error };
    Change { diagnosis, appears }
}

/// Three diagnoses, in the order in which they appeared.
fn three() -> Diagnoses {
    let mut diagnoses = Diagnoses::new();
    assert!(diagnoses.change(&change(1, 1, 3, 1, true)));
    assert!(diagnoses.change(&change(2, 1, WHOLE_SUBMODULE, 9, true)));
    assert!(diagnoses.change(&change(1, 1, 0x7FFF, 2, true)));
    diagnoses
}

fn record(diagnoses: &Diagnoses, places: &Listed) -> String {
    let mut octets: ArrayVec<u8, 1308> = ArrayVec::new();
    put_diagnosis_data(&mut octets, diagnoses, &demo_modules(), places);
    octets.iter().map(|octet| format!("{octet:02x}")).collect()
}

#[test]
fn a_record_has_a_block_for_each_submodule() {
    let first = "0010001c0101000000000001000180000800800000030800" .to_owned() + "00017fff08000002";
    let second = "001000160101000000000002000180000800800080000800" .to_owned() + "0009";
    assert_eq!(record(&three(), &ALL), first.clone() + &second);
    assert_eq!(record(&three(), &Listed(&[(1, 1)])), first);
    assert_eq!(record(&three(), &Listed(&[(3, 1)])), "");
    assert_eq!(record(&Diagnoses::new(), &ALL), "");
}

#[test]
fn changes_are_refused_and_change_nothing() {
    let mut diagnoses = three();
    let refused = [
        change(1, 1, 3, 1, true),
        change(1, 1, 3, 2, false),
        change(1, 2, 3, 1, false),
        change(1, 1, 0x8001, 1, true),
        change(1, 1, 4, 0, true),
    ];
    for it in &refused {
        assert!(!diagnoses.change(it), "{it:?}");
    }
    assert_eq!(diagnoses.as_slice().len(), 3);
    assert!(diagnoses.change(&change(1, 1, 3, 1, false)));
    assert!(diagnoses.is_any_at(1, 1));
    assert!(diagnoses.change(&change(1, 1, 0x7FFF, 2, false)));
    assert!(!diagnoses.is_any_at(1, 1));
    assert!(diagnoses.is_any_in(&ALL));
    assert!(!diagnoses.is_any_in(&Listed(&[(1, 1)])));
}

#[test]
fn there_is_room_for_thirty_two() {
    let mut diagnoses = Diagnoses::new();
    for channel in 0..32 {
        assert!(diagnoses.change(&change(1, 1, channel, 1, true)));
    }
    assert!(!diagnoses.change(&change(1, 1, 32, 1, true)));
    assert!(diagnoses.change(&change(1, 1, 7, 1, false)));
    assert!(diagnoses.change(&change(1, 1, 32, 1, true)));
    assert_eq!(diagnoses.as_slice().last().map(|it| it.channel), Some(32));
}

#[test]
fn an_alarm_says_what_its_change_left() {
    let mut diagnoses = Diagnoses::new();
    let appears = change(1, 1, 3, 1, true);
    assert!(diagnoses.change(&appears));
    let notice = Notice::of(appears, &diagnoses, &ALL);
    assert_eq!((appears.alarm_type(), notice.is_any_at_submodule, notice.is_any_in_relation), (1, true, true));
    assert_eq!(appears.octets(), [0x00, 0x03, 0x08, 0x00, 0x00, 0x01]);
    let goes = change(1, 1, 3, 1, false);
    assert!(diagnoses.change(&goes));
    let notice = Notice::of(goes, &diagnoses, &ALL);
    assert_eq!((goes.alarm_type(), notice.is_any_at_submodule, notice.is_any_in_relation), (0x000C, false, false));
    assert_eq!(goes.octets(), [0x00, 0x03, 0x10, 0x00, 0x00, 0x01]);
}

#[test]
fn diagnoses_of_what_is_pulled_are_forgotten() {
    let mut diagnoses = Diagnoses::new();
    for (slot, subslot, channel) in [(1, 1, 3), (1, 2, 3), (2, 1, 3), (1, 1, 4)] {
        assert!(diagnoses.change(&change(slot, subslot, channel, 1, true)));
    }
    let left = |diagnoses: &Diagnoses| diagnoses.as_slice().iter().map(|it| (it.slot, it.subslot, it.channel)).collect::<Vec<_>>();
    diagnoses.forget(Affected { slot: 1, subslot: Some(1) });
    assert_eq!(left(&diagnoses), [(1, 2, 3), (2, 1, 3)]);
    diagnoses.forget(Affected { slot: 2, subslot: Some(2) });
    assert_eq!(left(&diagnoses), [(1, 2, 3), (2, 1, 3)]);
    diagnoses.forget(Affected { slot: 1, subslot: None });
    assert_eq!(left(&diagnoses), [(2, 1, 3)]);
}
