//! Flash calls that fail while power stays, and what goes on after them.

use super::{is_refused, means, prints};
use rattle_std::alloc::{AllocError, Global};
use rattle_std::{String, format};

#[test]
fn after_a_fault_no_set_is_carried_out() {
    let script = "set pump-1\nfault 0 ff\nset pump-2\nset pump-3\nshow\nrestart\nshow";
    let wanted = "boot ok\nis set\nis refused\nis refused\nnamed pump-1\nboot ok\nnamed pump-1";
    means(Global, script, wanted)
}

#[test]
fn after_a_fault_no_reset_is_carried_out() {
    let script = "set pump-1\nfault 0 ff\nset pump-2\nset 050600020002\nset 050600020004\nset 050500020000\nshow\nrestart\nshow";
    let wanted = "boot ok\nis set\nis refused\n\
        answer 0504000305060500\nanswer 0504000305060500\nanswer 0504000305050500\nnamed pump-1\nboot ok\nnamed pump-1";
    means(Global, script, wanted)
}

// 0503 is a Signal.
#[test]
fn after_a_fault_all_else_goes_on() {
    let script = "set pump-1\nfault 0 ff\nset pump-2\nidentify\n\
        set 0503000400000100\ntick 95999\nset 0503000400000100\ntick 96000\nshow";
    let wanted = "boot ok\nis set\nis refused\nidentified pump-1\n\
        answer 0504000305030000\nnote done\nanswer 0504000305030000\nnote done\nnamed pump-1";
    means(Global, script, wanted)
}

/// A script in which a Set is struck by this fault, and another follows.
fn struck(alloc: Global, fault: &str) -> Result<String, AllocError> {
    format!(in alloc; "set pump-1\nfault {fault}\nset pump-2\nset pump-2\nrestart\nshow")
}

/// Both Sets are refused, and the restart finds this name.
fn leaves(alloc: Global, fault: &str, name: &str) {
    let script = struck(alloc, fault).unwrap();
    let mut wanted = String::from_str(
        alloc,
        "boot ok\nis set\nis refused\nis refused\nboot ok\nnamed ",
    )
    .unwrap();
    wanted.push_str(name).unwrap();
    means(alloc, script.as_str(), wanted.as_str())
}

// A commit writes into a slot, and opens its gate. The new name is found only where that last call turned each bit of the gate,
// which is one byte, from FF to 00.
const LEFT: [(&str, &str); 8] = [
    ("0 00", "pump-1"),
    ("0 ff", "pump-1"),
    ("0 55", "pump-1"),
    ("1 00", "pump-1"),
    ("1 7f", "pump-1"),
    ("1 00ff", "pump-1"),
    ("1 ff", "pump-2"),
    ("1 FF000000", "pump-2"),
];

#[test]
fn what_a_fault_leaves() {
    for (fault, name) in LEFT {
        leaves(Global, fault, name);
    }
}

#[test]
fn a_fault_strikes_once() {
    let script = "fault 1 55\nset pump-1\nrestart\nset pump-2\nrestart\nshow";
    let wanted = "boot ok\nis refused\nboot ok\nis set\nboot ok\nnamed pump-2";
    means(Global, script, wanted)
}

#[test]
fn a_fault_that_has_not_struck_stays_armed() {
    let script = "fault 3 00\nset pump-1\nrestart\nset pump-2";
    means(Global, script, "boot ok\nis set\nboot ok\nis refused")
}

#[test]
fn one_order_takes_the_place_of_another() {
    let script = "fault 0 ff\ncut 0 ff\nset pump-1\nshow";
    means(Global, script, "boot ok\npower lost\noff");
    let script = "cut 0 ff\nfault 0 ff\nset pump-1";
    means(Global, script, "boot ok\nis refused")
}

#[test]
fn without_power_a_fault_is_not_heard() {
    let script = "cut 0 55\nset pump-1\nfault 0 ff\nrestart\nset pump-2";
    means(Global, script, "boot ok\npower lost\noff\nboot ok\nis set")
}

const NO_FAULTS: [&str; 8] = [
    "fault",
    "fault 0",
    "fault 0 ",
    "fault 0 5",
    "fault 0 555555",
    "fault 4294967296 55",
    "fault 0 55 1",
    "Fault 0 55",
];

#[test]
fn the_words_of_a_fault() {
    prints(Global, "fault 0004294967295 Ff", "boot ok\n");
    prints(Global, "fault 0 0123456789abcdef", "boot ok\n");
    for script in NO_FAULTS {
        is_refused(Global, script.as_bytes(), 1, b"boot ok\n");
    }
}
