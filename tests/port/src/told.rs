//! What a port tells, and time that goes by.
use crate::calls;
use crate::stations::{booted, busy, kind, made};
use device_station::{Port, Stage};

// There is no relation, and so no record that one took; the lamp does not flash.
fn tells_no_relation(port: &Port) {
    let phase = port.phase().ok().expect("is told");
    assert!(phase.is_none());
    let lamp = port.lamp().ok().expect("is told");
    assert_eq!(lamp, 0);
    let taken = port.taken().ok().expect("is told");
    assert!(taken.is_empty());
}

// The output of the module in slot 2.
fn tells_output(port: &Port, wanted: &[u8]) {
    let output = port.output(2, 1).ok().expect("is told");
    assert_eq!(output, wanted);
}

// The name that runs.
fn tells_name(port: &Port, name: &[u8]) {
    let running = port.running().ok().expect("is told");
    assert_eq!(running.name.as_bytes(), name);
}

// The name that a restart finds.
fn tells_stored(port: &Port, name: &[u8]) {
    let stored = port.stored().ok().expect("is told");
    assert_eq!(stored.name.as_bytes(), name);
}

#[test]
fn a_port_that_started() {
    let port = booted();
    assert!(port.stage() == Stage::Booted);
    assert!(made().stage() == Stage::Made);
    tells_no_relation(&port);
    tells_output(&port, &[0, 0]);
    tells_name(&port, b"")
}

#[test]
fn a_name_runs_at_once() {
    let port = busy();
    tells_name(&port, b"pump-1");
    tells_stored(&port, b"pump-1")
}

#[test]
fn time_without_work_goes_by_at_once() {
    let mut port = booted();
    assert_eq!(calls::left(&mut port, 0), Some(0));
    assert_eq!(calls::left(&mut port, 1000), Some(0));
    assert_eq!(calls::work(&port), 0);
    assert_eq!(kind(&port), 0);
}
