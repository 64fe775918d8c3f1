//! The watch over worlds about which it was told a lie: each law is called broken, so that a watch that says nothing passes no test.

use super::*;
use crate::places::Place;
use rattle_std::alloc::Global;

/// The plan of the first line of the schedules of `tests/table_world`: two records, and outputs of slots 2 and 3.
const SCHEDULES: &str = include_str!("../../table_world/stdin");

fn catalogue() -> &'static str {
    SCHEDULES.lines().next().and_then(|line| line.strip_prefix("plan ")).expect("a catalogue")
}

/// A watched world of a catalogue in which nothing has happened yet.
fn fresh_of(catalogue: &str) -> Watched {
    let fresh = both_ends::fresh_world(Global, catalogue, None).expect("there is a world");
    Watched::new(Global, fresh).expect("memory")
}

fn fresh() -> Watched {
    fresh_of(catalogue())
}

/// Makes a move after which all laws hold.
fn hold(watched: &mut Watched, choice: Choice) {
    assert_eq!(watched.make(choice).expect("memory"), None, "{choice:?}");
}

/// Both ends exchange data: each frame came to the other end as soon as it was sent.
fn exchanging() -> Watched {
    let mut watched = fresh();
    for number in 0..40 {
        if number < watched.count() {
            let end = watched.other_end(number);
            hold(&mut watched, Choice::Deliver(end, number));
        }
    }
    assert!(watched.told().is_exchanging());
    watched
}

/// What the watch says after a unit of time at the device.
fn said_after_a_unit(watched: &mut Watched) -> Option<Law> {
    watched.make(Choice::Tick(End::Device)).expect("memory")
}

#[test]
fn without_a_lie_all_laws_hold() {
    let mut watched = exchanging();
    assert_eq!(said_after_a_unit(&mut watched), None);
    assert!(watched.are_kept());
    assert!(watched.tally().exchanging > 0);
}

#[test]
fn an_exchange_without_an_application_ready() {
    let mut watched = exchanging();
    watched.was_handed = false;
    assert_eq!(said_after_a_unit(&mut watched), Some(Law::StartUp));
}

#[test]
fn a_device_that_exchanges_before_its_controller() {
    let mut watched = exchanging();
    hold(&mut watched, Choice::Stop);
    watched.was_exchanging = false;
    assert_eq!(said_after_a_unit(&mut watched), Some(Law::Confirmed));
}

#[test]
fn a_phase_that_no_frame_made() {
    let mut watched = exchanging();
    watched.told.phase = Some(Phase::Started);
    assert_eq!(said_after_a_unit(&mut watched), Some(Law::Phases));
}

#[test]
fn a_second_relation() {
    let mut watched = exchanging();
    watched.relations = 2;
    assert_eq!(said_after_a_unit(&mut watched), Some(Law::Phases));
}

#[test]
fn a_state_that_no_frame_made() {
    let mut watched = exchanging();
    watched.told.state = State::Looking;
    assert_eq!(said_after_a_unit(&mut watched), Some(Law::States));
}

#[test]
fn two_records_in_one_move() {
    let mut watched = exchanging();
    assert_eq!(watched.told.taken, 2);
    watched.told.taken = 0;
    assert_eq!(said_after_a_unit(&mut watched), Some(Law::Records));
}

// The controller writes the second record first.
#[test]
fn records_in_another_order() {
    let (first, second) = (r#"{"Subslot":1,"Index":1,"Data":"00000064"}"#, r#"{"Subslot":1,"Index":2,"Data":"000000c8"}"#);
    let other = catalogue().replace(&format!("{first},{second}"), &format!("{second},{first}"));
    assert_ne!(other, catalogue());
    let mut watched = fresh_of(&other);
    let mut number = 0;
    let said = loop {
        assert!(number < watched.count(), "no law is broken");
        let end = watched.other_end(number);
        if let Some(law) = watched.make(Choice::Deliver(end, number)).expect("memory") {
            break law;
        }
        number += 1;
    };
    assert_eq!(said, Law::Records);
    assert_eq!(watched.kind(number), Kind::Write);
}

#[test]
fn outputs_that_no_frame_brought() {
    let mut watched = exchanging();
    let mut last = watched.last.or(watched.seen.get(0).copied()).expect("a frame");
    last.brings.second = [0x12, 0x34];
    watched.last = Some(last);
    assert_eq!(said_after_a_unit(&mut watched), Some(Law::Outputs));
}

#[test]
fn outputs_that_were_never_set() {
    let mut watched = exchanging();
    hold(&mut watched, Choice::Give(2, [0x56, 0x78]));
    while watched.told.outputs == ZEROS {
        let count = watched.count();
        hold(&mut watched, Choice::Tick(End::Controller));
        for number in count..watched.count() {
            hold(&mut watched, Choice::Deliver(End::Device, number));
        }
    }
    let last = watched.last.as_mut().expect("a cyclic frame was accepted");
    last.given.second = [0x9a, 0xbc];
    assert_eq!(said_after_a_unit(&mut watched), Some(Law::Outputs));
}

#[test]
fn alarms_that_were_lost() {
    let mut watched = exchanging();
    watched.raised = 2;
    assert_eq!(said_after_a_unit(&mut watched), Some(Law::Alarms));
}

#[test]
fn an_alarm_that_was_acknowledged_twice() {
    let mut watched = exchanging();
    watched.acknowledged = 1;
    assert_eq!(said_after_a_unit(&mut watched), Some(Law::Alarms));
}

/// Each frame comes to the other end as soon as it was sent, from this one on.
fn deliver_from(watched: &mut Watched, mut number: usize) {
    while number < watched.count() {
        let end = watched.other_end(number);
        hold(watched, Choice::Deliver(end, number));
        number += 1;
    }
}

/// Both ends exchange data. The submodule of slot 1 is pulled, and gone to the controller.
fn pulled() -> Watched {
    let keys = r#""DataHoldFactor":3"#;
    let text = catalogue().replace(keys, &format!(r#"{keys},"ParametersAfterPlug":true"#));
    let mut watched = fresh_of(&text);
    deliver_from(&mut watched, 0);
    let count = watched.count();
    hold(&mut watched, Choice::Pull(1));
    deliver_from(&mut watched, count);
    watched
}

/// It was plugged again, and both its records were written.
fn plugged_again() -> Watched {
    let mut watched = pulled();
    let count = watched.count();
    hold(&mut watched, Choice::Plug(1, 16, 2));
    deliver_from(&mut watched, count);
    let tally = watched.place_tally();
    assert_eq!((tally.reported, tally.renewed, tally.parametrized, tally.ready), (2, 1, 1, 1));
    watched
}

/// What was seen of the submodule in subslot 1 of a slot, of those after slot 0.
fn place(watched: &mut Watched, slot: u16) -> &mut Place {
    watched.places.all.iter_mut().find(|place| place.slot == slot).expect("a place")
}

#[test]
fn after_a_plug_all_laws_hold() {
    assert_eq!(said_after_a_unit(&mut pulled()), None);
    assert_eq!(said_after_a_unit(&mut plugged_again()), None);
}

// The device had both records as the alarm of the plug was sent, and accepted none since.
#[test]
fn records_that_were_not_written_after_a_plug() {
    for had in [1, 2] {
        let mut watched = plugged_again();
        place(&mut watched, 1).had = had;
        assert_eq!(said_after_a_unit(&mut watched), Some(Law::PlugRecords));
    }
}

#[test]
fn records_in_another_order_after_a_plug() {
    let mut watched = plugged_again();
    watched.places.wanted.swap(0, 1);
    assert_eq!(said_after_a_unit(&mut watched), Some(Law::PlugRecords));
}

#[test]
fn another_record_after_a_plug() {
    let mut watched = plugged_again();
    watched.places.wanted[1].data[3] ^= 1;
    assert_eq!(said_after_a_unit(&mut watched), Some(Law::PlugRecords));
}

// What the application of the controller writes there is no fault.
#[test]
fn another_record_of_a_place_to_which_the_application_wrote() {
    let mut watched = plugged_again();
    watched.places.wanted[1].data[3] ^= 1;
    watched.places.write(1, 1);
    assert_eq!(said_after_a_unit(&mut watched), None);
}

// A plug of slot 2 was reported, and the controller does not say that the submodule is there again.
#[test]
fn a_place_that_is_good_again_only_at_the_device() {
    let mut watched = plugged_again();
    place(&mut watched, 2).is_reported = true;
    assert_eq!(said_after_a_unit(&mut watched), Some(Law::Ready));
    watched.places.is_confirmed = false;
    assert_eq!(said_after_a_unit(&mut watched), None);
}

#[test]
fn a_place_of_which_nothing_was_reported_and_that_is_not_as_it_was() {
    let mut watched = plugged_again();
    place(&mut watched, 1).is_reported = false;
    assert_eq!(said_after_a_unit(&mut watched), Some(Law::Places));
}

// The alarm of the pull is on its way.
#[test]
fn a_submodule_that_is_gone_at_the_device_alone() {
    let mut watched = plugged_again();
    hold(&mut watched, Choice::Pull(1));
    watched.places.is_confirmed = true;
    assert_eq!(said_after_a_unit(&mut watched), Some(Law::Places));
}

// The alarm of the plug is on its way.
#[test]
fn a_submodule_that_is_gone_at_the_controller_alone() {
    let mut watched = pulled();
    hold(&mut watched, Choice::Plug(1, 16, 2));
    watched.places.is_confirmed = true;
    assert_eq!(said_after_a_unit(&mut watched), Some(Law::Places));
}

#[test]
fn a_frame_that_does_not_exist_and_changes_something() {
    let mut watched = exchanging();
    watched.told.is_front = false;
    let said = watched.make(Choice::Deliver(End::Device, 1_000)).expect("memory");
    assert_eq!(said, Some(Law::Skipped));
}

#[test]
fn a_move_that_changes_the_other_end() {
    let mut watched = exchanging();
    watched.told.alarm = Some(7);
    assert_eq!(said_after_a_unit(&mut watched), Some(Law::OneEnd));
}

#[test]
fn a_frame_that_nobody_saw() {
    let mut watched = exchanging();
    for _ in 0..6 {
        watched.seen.pop();
    }
    assert_eq!(said_after_a_unit(&mut watched), Some(Law::Frames));
}

#[test]
fn a_frame_that_is_not_as_it_was() {
    let mut watched = exchanging();
    watched.seen[0].sum ^= 1;
    assert!(!watched.are_kept());
}

#[test]
fn a_world_that_is_not_that_of_the_moves_before() {
    let mut watched = exchanging();
    watched.told.taken = 0;
    assert!(matches!(watched.without_memory(AllocError), Ok(Some(Law::Front))));
}
