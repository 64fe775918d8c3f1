//! Power that is lost, and what is heard until it is back.

use super::{is_refused, meaning, means};
use rattle_std::alloc::{AllocError, Global};
use rattle_std::{String, format};

#[test]
fn without_power_each_line_prints_off() {
    let script =
        "cut 2 55\nset pump-1\nshow\ntick 5\nx\n\n# a comment\nrestart now\nframe 00\ncut 0";
    let wanted = "boot ok\npower lost\noff\noff\noff\noff\noff\noff";
    means(Global, script, wanted)
}

#[test]
fn without_power_a_byte_past_ascii_is_refused() {
    let script = meaning(Global, "cut 2 55\nset pump-1\nx\n# \u{e4}").unwrap();
    let printed = b"boot ok\npower lost\noff\n";
    is_refused(Global, script.as_bytes(), 4, printed);
}

#[test]
fn without_power_an_order_is_not_heard() {
    let script = "cut 0 55\nset pump-1\ncut 0 ff\nrestart\nset pump-2";
    means(Global, script, "boot ok\npower lost\noff\nboot ok\nis set")
}

#[test]
fn an_order_that_has_not_struck_stays_armed() {
    let script = "cut 0 00\nrestart\nset pump-1\nrestart\nset pump-1";
    means(
        Global,
        script,
        "boot ok\nboot ok\npower lost\nboot ok\nis set",
    )
}

#[test]
fn a_restart_gives_the_power_back() {
    let script = "set pump-1\ncut 1 55\nset pump-2\nrestart\nshow\nset pump-3\nrestart\nshow";
    let wanted =
        "boot ok\nis set\npower lost\nboot ok\nnamed pump-1\nis set\nboot ok\nnamed pump-3";
    means(Global, script, wanted)
}

/// A script in which power is lost, at this mask, as the slot of the third name is written.
fn cut_short(alloc: Global, mask: &str) -> Result<String, AllocError> {
    format!(in alloc; "set pump-1\nset pump-2\ncut 0 {mask}\nset pump-3\nrestart\nshow")
}

#[test]
fn a_slot_that_was_cut_short_changes_nothing() {
    let wanted = "boot ok\nis set\nis set\npower lost\nboot ok\nnamed pump-2";
    for mask in ["00", "55", "ff", "00000000ffff0000"] {
        let script = cut_short(Global, mask).unwrap();
        means(Global, script.as_str(), wanted);
    }
}
