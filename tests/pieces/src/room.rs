//! Which call makes room for another one.

use super::writer::{Packet, fragment};
use super::{Did, calls, did};
use rpc_services::Joiner;

/// A fragment of a call of two, whose octets are its activity and its number.
fn part(activity: u8, number: u16) -> Packet {
    let octets = [activity, u8::try_from(number).expect("a number")];
    fragment(activity, 1, number, &octets, number == 1)
}

/// Whether the last fragment of a call completes it.
fn completes(joiner: &mut Joiner, activity: u8) -> bool {
    let whole = part(activity, 0).whole(&[activity, 0, activity, 1]);
    match did(joiner, &part(activity, 1).octets()) {
        Did::Joined(got) => {
            assert_eq!(got, whole);
            true
        }
        Did::Dropped(None) => false,
        other => panic!("{other:?}"),
    }
}

/// Calls of these activities begin, in one tick.
fn begin(joiner: &mut Joiner, activities: impl IntoIterator<Item = u8>) {
    for activity in activities {
        let first = part(activity, 0);
        assert_eq!(
            did(joiner, &first.octets()),
            Did::Waits(Some(first.fack(0)))
        );
    }
}

#[test]
fn finished_calls_make_room_first() {
    let mut joiner = calls();
    // Two of four are finished, the second one and the last one.
    begin(&mut joiner, 1..=4);
    joiner.tick();
    assert!(completes(&mut joiner, 2) && completes(&mut joiner, 4));
    // Two more begin long after, in their places. The two that were unfinished are completed.
    joiner.elapse(60_000);
    begin(&mut joiner, [5, 6]);
    for activity in [1, 3, 5, 6] {
        assert!(completes(&mut joiner, activity), "{activity}");
    }
    for activity in [2, 4] {
        assert!(!completes(&mut joiner, activity), "{activity}");
    }
}

#[test]
fn a_finished_call_stays_while_there_is_room() {
    let mut joiner = calls();
    begin(&mut joiner, [1]);
    assert!(completes(&mut joiner, 1));
    // Three more have places of their own. A repeat of the last fragment completes the call again.
    begin(&mut joiner, 2..=4);
    assert!(completes(&mut joiner, 1));
    // A fifth one takes the place of the finished one.
    begin(&mut joiner, [5]);
    assert!(!completes(&mut joiner, 1));
    assert!((2..=5).all(|activity| completes(&mut joiner, activity)));
}

#[test]
fn of_six_that_begin_in_one_tick_the_first_two_are_lost() {
    let mut joiner = calls();
    begin(&mut joiner, 1..=6);
    let joined: Vec<u8> = (1..=6)
        .filter(|activity| completes(&mut joiner, *activity))
        .collect();
    assert_eq!(joined, [3, 4, 5, 6]);
}

#[test]
fn a_call_that_begins_again_is_the_youngest() {
    let mut joiner = calls();
    begin(&mut joiner, 1..=4);
    // Another sequence of the first activity begins in its place. The second activity is then the oldest.
    let again = |number: u16| fragment(1, 2, number, &[7], number == 1);
    assert_eq!(
        did(&mut joiner, &again(0).octets()),
        Did::Waits(Some(again(0).fack(0)))
    );
    begin(&mut joiner, [5]);
    assert!(!completes(&mut joiner, 2));
    assert_eq!(
        did(&mut joiner, &again(1).octets()),
        Did::Joined(again(1).whole(&[7, 7]))
    );
}
