//! For how long fragments may be missing, by ticks and by leaps.

use super::writer::fragment;
use super::{Did, calls, did};
use services::NEVER;

#[test]
fn a_call_is_dropped_after_64000_ticks() {
    for (ticks, joins) in [(0, true), (63_999, true), (64_000, false), (64_001, false)] {
        for leaps in [false, true] {
            let mut joiner = calls();
            let first = fragment(1, 1, 0, &[1], false);
            let last = fragment(1, 1, 1, &[2], true);
            assert_eq!(
                did(&mut joiner, &first.octets()),
                Did::Waits(Some(first.fack(0)))
            );
            if leaps {
                joiner.elapse(ticks / 2);
                joiner.elapse(ticks - ticks / 2);
            } else {
                (0..ticks).for_each(|_| joiner.tick());
            }
            let expected = if joins {
                Did::Joined(first.whole(&[1, 2]))
            } else {
                Did::Dropped(None)
            };
            assert_eq!(did(&mut joiner, &last.octets()), expected, "{ticks}");
        }
    }
}

#[test]
fn a_repeat_of_the_first_fragment_gives_no_more_time() {
    let mut joiner = calls();
    let first = fragment(1, 1, 0, &[1], false);
    did(&mut joiner, &first.octets());
    joiner.elapse(63_999);
    did(&mut joiner, &first.octets());
    joiner.elapse(1);
    assert_eq!(
        did(&mut joiner, &fragment(1, 1, 1, &[2], true).octets()),
        Did::Dropped(None)
    );
}

#[test]
fn what_is_due_is_the_next_call_that_is_dropped() {
    let mut joiner = calls();
    assert_eq!(joiner.due_in(), NEVER);
    did(&mut joiner, &fragment(1, 1, 0, &[1], false).octets());
    assert_eq!(joiner.due_in(), 64_000);
    joiner.elapse(1000);
    did(&mut joiner, &fragment(2, 1, 0, &[1], false).octets());
    assert_eq!(joiner.due_in(), 63_000);
    joiner.elapse(63_000);
    assert_eq!(joiner.due_in(), 1000);
    joiner.tick();
    assert_eq!(joiner.due_in(), 999);
    joiner.elapse(u32::MAX);
    assert_eq!(joiner.due_in(), NEVER);
}

#[test]
fn a_storm_costs_no_memory() {
    let size = size_of_val(&calls());
    assert!(size < 17_300, "{size}");
}
