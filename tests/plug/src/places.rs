//! How far a place is: rows that were computed by hand.

use connect_blocks::{ExpectedModule, ExpectedSubmodule};
use expected_places::{Plugs, Progress};
use module_diff::{Affected, Expected, diff};
use pn_values::demo_modules;

/// A submodule that is expected.
fn part(subslot_number: u16, submodule_ident_number: u32) -> ExpectedSubmodule {
    ExpectedSubmodule {
        subslot_number,
        submodule_ident_number,
        ..ExpectedSubmodule::default()
    }
}

/// A module that is expected, with one submodule.
fn module(slot_number: u16, module_ident_number: u32) -> ExpectedModule {
    ExpectedModule {
        slot_number,
        module_ident_number,
        number_of_submodules: 1,
        ..ExpectedModule::default()
    }
}

/// The modules in slots 1 and 2 of the demo station, and one in slot 3, which is empty.
fn opened() -> Plugs {
    let mut expected = Expected::default();
    for (slot, ident) in [(1, 16), (2, 32), (3, 48)] {
        expected.modules.push(module(slot, ident));
        expected.submodules.push(part(1, ident));
    }
    let mut plugs = Plugs::new();
    plugs.open(&expected, &diff(&expected, &demo_modules()));
    plugs
}

/// How far the places in slots 1 to 3 are.
fn progress(plugs: &Plugs) -> Vec<Progress> {
    plugs.places().iter().map(|place| place.progress()).collect()
}

/// Subslot 1 of a slot.
fn at(slot: u16) -> Affected {
    Affected {
        slot,
        subslot: Some(1),
    }
}

/// The sequence and the number of the call that waits for its answer.
fn standing(plugs: &Plugs) -> Option<(u32, u16)> {
    plugs.standing().map(|call| (call.sequence, call.number))
}

#[test]
fn a_plug_is_told_ended_and_released() {
    let mut plugs = opened();
    assert_eq!(progress(&plugs), [Progress::Good, Progress::Good, Progress::Differs]);
    plugs.plug(at(1));
    assert_eq!(progress(&plugs)[0], Progress::Plugged);
    assert!(plugs.is_touched(1, 1) && !plugs.is_touched(2, 1) && !plugs.has_told());
    // No place is told with this number yet.
    assert!(!plugs.end(7, true));
    plugs.tell(1, 1, 7, true);
    assert!(plugs.has_told());
    assert_eq!(progress(&plugs)[0], Progress::Told);
    assert!(!plugs.end(6, true) && plugs.end(7, true) && !plugs.end(7, true));
    assert_eq!((progress(&plugs)[0], standing(&plugs)), (Progress::Ended, None));
    assert!(plugs.call_next() && !plugs.call_next());
    assert_eq!(standing(&plugs), Some((1, 7)));
    plugs.answer(true);
    assert_eq!((progress(&plugs)[0], standing(&plugs)), (Progress::Good, None));
    assert!(!plugs.is_touched(1, 1));
}

#[test]
fn a_refused_place_stays_touched() {
    let mut plugs = opened();
    plugs.plug(at(2));
    plugs.tell(2, 1, 0, true);
    assert!(plugs.end(0, true) && plugs.call_next());
    plugs.answer(false);
    assert_eq!(progress(&plugs)[1], Progress::Refused);
    assert!(plugs.is_touched(2, 1));
    // A later pull begins anew.
    plugs.pull(at(2));
    plugs.plug(at(2));
    assert_eq!(progress(&plugs)[1], Progress::Plugged);
}

#[test]
fn the_alarm_of_an_earlier_plug_tells_nothing() {
    let mut plugs = opened();
    plugs.plug(at(1));
    plugs.pull(at(1));
    plugs.tell(1, 1, 0, true);
    assert!(plugs.has_told());
    assert!(!plugs.end(0, true));
    plugs.plug(at(1));
    // The alarm of this plug waits still.
    plugs.tell(1, 1, 1, false);
    assert_eq!(progress(&plugs)[0], Progress::Plugged);
    plugs.tell(1, 1, 3, true);
    assert!(!plugs.end(1, true) && plugs.end(3, true));
}

#[test]
fn one_call_at_a_time_in_the_order_of_their_ends() {
    let mut plugs = opened();
    for (slot, number) in [(1, 5), (2, 6)] {
        plugs.plug(at(slot));
        plugs.tell(slot, 1, number, true);
    }
    assert!(plugs.end(6, true) && plugs.end(5, true));
    assert!(plugs.call_next());
    assert_eq!(standing(&plugs), Some((1, 6)));
    // A pull of its place ends it, and the next one goes out.
    plugs.pull(at(2));
    assert_eq!(standing(&plugs), None);
    assert!(plugs.call_next());
    assert_eq!(standing(&plugs), Some((2, 5)));
}

#[test]
fn the_application_is_waited_for_at_each_place() {
    let mut plugs = opened();
    for (slot, number) in [(1, 5), (2, 6)] {
        plugs.plug(at(slot));
        plugs.tell(slot, 1, number, true);
        assert!(plugs.end(number, false));
    }
    assert!(!plugs.call_next());
    assert!(!plugs.get_ready(3, 1));
    assert!(plugs.get_ready(2, 1) && !plugs.get_ready(2, 1));
    assert!(plugs.call_next());
    assert_eq!(standing(&plugs), Some((1, 6)));
    assert!(plugs.get_ready(1, 1) && !plugs.call_next());
    plugs.answer(true);
    assert!(plugs.call_next());
    assert_eq!(standing(&plugs), Some((2, 5)));
}

#[test]
fn a_call_is_sent_again_each_second() {
    let mut plugs = opened();
    assert_eq!(plugs.due_in(), u32::MAX);
    assert!(!plugs.tick());
    plugs.plug(at(1));
    plugs.tell(1, 1, 5, true);
    assert!(plugs.end(5, true) && plugs.call_next());
    assert_eq!(plugs.due_in(), 32_000);
    plugs.pass(31_999);
    assert_eq!(plugs.due_in(), 1);
    assert!(plugs.tick());
    assert_eq!(plugs.due_in(), 32_000);
    assert!(!plugs.tick());
}

#[test]
fn nothing_remains_in_the_next_relation() {
    let mut plugs = opened();
    plugs.plug(at(1));
    plugs.tell(1, 1, 5, true);
    assert!(plugs.end(5, true) && plugs.call_next());
    let expected = Expected::default();
    plugs.open(&expected, &diff(&expected, &demo_modules()));
    assert!(plugs.places().is_empty() && plugs.standing().is_none() && !plugs.has_told());
}
