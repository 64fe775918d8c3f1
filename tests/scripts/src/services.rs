//! The line `services on`. What whole scripts with it print comes from a reference model in `tests/tables/services`.

use super::{is_refused, prints};
use rattle_std::alloc::Global;

/// A Set of the address 192.168.0.2, permanent, and what is printed of it.
const SET_ADDRESS: &str =
    "frame 0200000000010200000000028892fefd040000000002000000120102000e0001c0a80002ffffff0000000000";
const ADDRESS_SET: &str = "out 0200000000020200000000018892fefd0401000000020000000805040003010200000000000000000000000000000000000000000000000000000000\nnote done";

/// The announcement of this address (RFC 5227, 2.3).
const ANNOUNCED: &str = "out ffffffffffff02000000000108060001080006040001020000000001c0a80002000000000000c0a80002000000000000000000000000000000000000\nnote done";

/// The same in the first tick, and then the LLDP of a station without a name (a reference model gave its octets).
const FIRST: &str = "out ffffffffffff02000000000108060001080006040001020000000001c0a80002000000000000c0a80002000000000000000000000000000000000000\nout 0180c200000e02000000000188cc020704020000000001040907706f72742d30303106020014fe08000ecf0200000000fe0a000ecf05020000000001100c0501c0a800020200000001000000\nnote done";

/// An echo request to this address, and the reply.
const PING: &str = "frame 0200000000010200000000020800450000240005400080017980c0a80001c0a800020800542f12340007616263646566676800000000000000000000";
const PINGED: &str = "out 020000000002020000000001080045000024000040004001b985c0a80002c0a8000100005c2f12340007616263646566676800000000000000000000\nnote done";

/// A script of these lines prints these, after `boot ok`.
fn plays(lines: &[&str], wanted: &[&str]) {
    let script = lines.join("\n") + "\n";
    let wanted = format!("boot ok\n{}\n", wanted.join("\n"));
    prints(Global, &script, &wanted);
}

#[test]
fn without_the_line_the_device_is_alone() {
    plays(
        &[SET_ADDRESS, "tick 1", PING, "due"],
        &[ADDRESS_SET, "note done", "note fault", "due 4294967295"],
    );
}

#[test]
fn services_that_begin_announce_the_address_that_is_there() {
    plays(
        &[SET_ADDRESS, "tick 5", "services on", PING, "tick 1", "tick 64000"],
        &[ADDRESS_SET, "note done", PINGED, FIRST, ANNOUNCED],
    );
}

#[test]
fn services_stay_on_over_a_restart_and_begin_again_there() {
    plays(
        &["services on", SET_ADDRESS, "tick 1", "tick 60000", "restart", PING, "tick 1", "tick 63999", "tick 1"],
        &[ADDRESS_SET, FIRST, "note done", "boot ok", PINGED, FIRST, "note done", ANNOUNCED],
    );
}

#[test]
fn a_second_line_changes_nothing() {
    plays(
        &["services on", SET_ADDRESS, "tick 1", "services on", "tick 63999", "tick 1"],
        &[ADDRESS_SET, FIRST, "note done", ANNOUNCED],
    );
}

#[test]
fn what_is_due_is_the_sooner_of_both() {
    // The device alone is never due; each announcement is, and LLDP: in the first tick, and 160,000 ticks after it.
    plays(
        &["services on", "due", SET_ADDRESS, "due", "tick 1", "due", "tick 63999", "due", "tick 1", "due"],
        &["due 1", ADDRESS_SET, "due 1", FIRST, "due 64000", "note done", "due 1", ANNOUNCED, "due 96000"],
    );
    // The lamp flashes for 3 seconds after a Signal: the device is due before the second announcement where that is later.
    let signal = "frame 0200000000010200000000028892fefd040000000003000000080503000400000100";
    let signalled = "out 0200000000020200000000018892fefd0401000000030000000805040003050300000000000000000000000000000000000000000000000000000000\nnote done";
    plays(
        &["services on", SET_ADDRESS, "tick 1", signal, "due", "tick 63999", "due", "tick 1", "due"],
        &[ADDRESS_SET, FIRST, signalled, "due 64000", "note done", "due 1", ANNOUNCED, "due 32000"],
    );
}

#[test]
fn while_the_power_is_off_the_line_does_nothing() {
    plays(
        &["cut 0 00", SET_ADDRESS, "services on", "restart", SET_ADDRESS, "tick 1", PING],
        &["power lost", "off", "boot ok", ADDRESS_SET, "note done", "note fault"],
    );
}

#[test]
fn services_that_are_on_begin_again_after_a_loss_of_power() {
    plays(
        &["services on", SET_ADDRESS, "tick 1", "cut 0 00", SET_ADDRESS, "restart", "tick 1"],
        &[ADDRESS_SET, FIRST, "power lost", "boot ok", FIRST],
    );
}

#[test]
fn any_other_word_is_refused() {
    for line in ["services", "services off", "services on on", "services  on", "Services on", "services On"] {
        let script = format!("services on\n{line}\n");
        is_refused(Global, script.as_bytes(), 2, b"boot ok\n");
    }
}
