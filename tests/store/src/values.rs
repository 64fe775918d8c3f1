//! Suites, and what commands make of the settings.

use pn_values::{Command, ImValue, IpSuite, Padded, Settings, StationName};

// Address, mask, gateway, and whether a station may have them.
const SUITES: [([u8; 4], [u8; 4], [u8; 4], bool); 14] = [
    ([0; 4], [0; 4], [0; 4], true),
    ([192, 168, 0, 2], [255, 255, 255, 0], [0; 4], true),
    ([192, 168, 0, 2], [255, 255, 255, 255], [0; 4], true),
    ([192, 168, 0, 2], [0; 4], [0; 4], true),
    ([1, 0, 0, 0], [128, 0, 0, 0], [9, 9, 9, 9], true),
    ([126, 0, 0, 1], [255, 128, 0, 0], [0; 4], true),
    ([128, 0, 0, 1], [255, 255, 254, 0], [0; 4], true),
    ([223, 255, 255, 255], [255, 255, 255, 252], [0; 4], true),
    ([192, 168, 0, 2], [255, 0, 255, 0], [0; 4], false),
    ([192, 168, 0, 2], [127, 0, 0, 0], [0; 4], false),
    ([127, 0, 0, 1], [255, 0, 0, 0], [0; 4], false),
    ([224, 0, 0, 1], [255, 0, 0, 0], [0; 4], false),
    ([0; 4], [255, 0, 0, 0], [0; 4], false),
    ([0; 4], [0; 4], [0, 0, 0, 1], false),
];

#[test]
fn suites() {
    for (address, mask, gateway, valid) in SUITES {
        let suite = IpSuite::new(address, mask, gateway);
        assert_eq!(suite.is_some(), valid, "at {address:?}, {mask:?}");
    }
}

/// A command that sets the suite 192.168.0.2 for a while.
fn temporary() -> Command {
    let suite = IpSuite::new([192, 168, 0, 2], [255, 255, 255, 0], [0; 4]);
    Command::SetIp {
        permanent: false,
        suite: suite.expect("a suite"),
    }
}

/// What a command makes of stored settings.
fn applied(command: &Command, settings: Settings) -> Settings {
    command.apply(settings)
}

/// What a command makes of the running settings of a station as it leaves the factory.
fn shown(command: &Command) -> Settings {
    command.show(Settings::factory())
}

/// The date of installation.
fn is_dated(settings: &Settings, date: &[u8; 16]) {
    assert_eq!(settings.im2.as_bytes(), date.as_slice());
}

#[test]
fn a_temporary_name_runs_and_is_not_stored() {
    let permanent = Command::SetName {
        permanent: true,
        name: StationName::none(),
    };
    let temporary = temporary();
    let stored = applied(&temporary, applied(&permanent, Settings::factory()));
    let running = shown(&temporary);
    assert_eq!(stored.suite.address(), [0; 4]);
    assert_eq!(running.suite.address(), [192, 168, 0, 2]);
    assert_eq!(running.suite.mask(), [255, 255, 255, 0]);
    assert_eq!(running.suite.gateway(), [0; 4]);
    assert_eq!(stored.name.as_bytes(), b"".as_slice());
    is_dated(&running.copy(), b"                ");
}

#[test]
fn a_reset_makes_the_texts_blank() {
    let text = Padded::new(*b"2024-05-06 07:08");
    let set = Command::SetIm(ImValue::Im2(text));
    let written = applied(&set, Settings::factory());
    is_dated(&written, b"2024-05-06 07:08");
    let kept = applied(&Command::ResetCommunication, written);
    is_dated(&kept, b"2024-05-06 07:08");
    let blank = applied(&Command::ResetApplication, kept);
    is_dated(&blank, b"                ");
}
