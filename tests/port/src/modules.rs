//! Modules that come and go, as a host in C says it: each reason why the device refuses a pull, a plug and that the application is ready for one,
//! and how far each place of the relation is. The frames were worked out by hand from IEC 61158-6-10.
use asked_records::NamedRecords;
use crate::operations::{asked, lines_of};
use crate::passed::BEFORE;
use crate::served::octets;
use crate::stations::{booted, demo};
use device_abi::{hand_out, serve};
use device_station::Port;
use flash_model::Sector;
use pn_values::demo_identity;
use relations::DeviceOptions;
use test_stations::{CONTROL, call, set};

/// The numbers of the operations.
const FRAME: u32 = 3;
const READY: u32 = 17;
const PULL: u32 = 28;
const PULL_MODULE: u32 = 29;
const PLUG: u32 = 30;
const READY_AT: u32 = 31;
const EXPECTED: u32 = 32;

/// What the device refused, and what is no number of 16 bits.
const REFUSED: u32 = 44;
const NO_SLOT: u32 = 9;

/// A module and a submodule, as a host describes them: the ident numbers, the octets of input and of output, and records.
fn described(module: u32, submodule: u32, data: [u16; 2], records: &[[u16; 2]]) -> Vec<u8> {
    let mut octets = [module.to_be_bytes(), submodule.to_be_bytes()].concat();
    octets.extend(data.iter().chain(records.iter().flatten()).flat_map(|number| number.to_be_bytes()));
    octets
}

/// What was plugged in slot 1 of the demo station.
fn first() -> Vec<u8> {
    described(16, 16, [2, 0], &[[7, 2]])
}

/// An operation at a place: its answer, and the reason if it is refused. All of its work is taken.
fn does(port: &mut Port, what: u32, slot: u32, subslot: u32, given: &[u8]) -> (u32, u32) {
    let mut op = asked(what);
    (op.slot, op.subslot, op.note, op.confirmed) = (slot, subslot, 5, 5);
    let answer = serve(port, &mut op, given);
    let told = if answer == 0 { (0, 0) } else { (5, 5) };
    assert_eq!((op.note, op.confirmed, op.length), (told.0, told.1, 0), "{what} {slot} {subslot}");
    op.work = 1;
    while op.work != 0 {
        let _ = hand_out(port, &mut op, &mut 0);
    }
    (answer, op.reason)
}

// ---- without a relation

#[test]
fn what_is_pulled_is_plugged() {
    let mut port = booted();
    for (slot, subslot, wanted) in [
        (0, 1, (REFUSED, 14)),
        (1, 2, (REFUSED, 1)),
        (9, 1, (REFUSED, 1)),
        (65536 + 1, 1, (NO_SLOT, 0)),
        (1, 65536 + 1, (NO_SLOT, 0)),
        (1, 1, (0, 0)),
        (1, 1, (REFUSED, 1)),
    ] {
        assert_eq!(does(&mut port, PULL, slot, subslot, &[]), wanted, "{slot} {subslot}");
    }
    // Its module stays, and goes by itself. The subslot is not read.
    for (slot, wanted) in [(0, (REFUSED, 14)), (3, (REFUSED, 1)), (65536 + 1, (NO_SLOT, 0)), (1, (0, 0)), (1, (REFUSED, 1)), (2, (0, 0))] {
        assert_eq!(does(&mut port, PULL_MODULE, slot, 65536, &[]), wanted, "{slot}");
    }
}

#[test]
fn what_is_plugged_has_its_numbers() {
    let mut port = booted();
    for (slot, subslot, given, wanted) in [
        (0, 2, first(), (REFUSED, 14)),
        (1, 2, described(17, 16, [2, 0], &[]), (REFUSED, 15)),
        (1, 1, first(), (REFUSED, 16)),
        (16, 1, first(), (REFUSED, 18)),
        (4, 0, first(), (REFUSED, 18)),
        (4, 36_864, first(), (REFUSED, 18)),
        (4, 1, described(0, 16, [2, 0], &[]), (REFUSED, 18)),
        (4, 1, described(16, 16, [1441, 0], &[]), (REFUSED, 18)),
        (4, 1, described(16, 16, [0, 1441], &[]), (REFUSED, 18)),
        (4, 1, described(16, 16, [0, 0], &[[32_768, 1]]), (REFUSED, 18)),
        (4, 1, described(16, 16, [0, 0], &[[7, 0]]), (REFUSED, 18)),
        (4, 1, described(16, 16, [0, 0], &[[7, 1], [8, 65]]), (REFUSED, 18)),
        (4, 1, described(16, 16, [0, 0], &[[7, 1], [7, 2]]), (REFUSED, 18)),
        (1, 2, described(16, 16, [0, 1441], &[]), (REFUSED, 18)),
        (65536 + 4, 1, first(), (NO_SLOT, 0)),
        (4, 65536 + 1, first(), (NO_SLOT, 0)),
        (4, 1, vec![0; 11], (8, 0)),
        (4, 1, vec![0; 13], (8, 0)),
        (4, 1, vec![0; 24], (8, 0)),
        (15, 36_863, described(u32::MAX, u32::MAX, [1440, 1440], &[[32_767, 64], [0, 1]]), (0, 0)),
        (4, 4, described(16, 0, [0, 0], &[]), (0, 0)),
        (4, 3, described(16, 1, [0, 0], &[[0, 1]]), (0, 0)),
        (4, 2, described(16, 2, [1, 0], &[]), (0, 0)),
        (4, 1, described(16, 3, [0, 1], &[]), (0, 0)),
        (4, 5, described(16, 4, [0, 0], &[]), (REFUSED, 17)),
        (4, 4, described(16, 4, [0, 0], &[]), (REFUSED, 16)),
    ] {
        assert_eq!(does(&mut port, PLUG, slot, subslot, &given), wanted, "{slot} {subslot} {given:?}");
    }
    let plugged = port.device().real().modules.as_slice().iter().map(|module| (module.slot, module.ident, module.submodules.len()));
    assert_eq!(plugged.collect::<Vec<_>>(), [(0, 1, 3), (1, 16, 1), (2, 32, 1), (4, 16, 4), (15, u32::MAX, 1)]);
    let last = &port.device().real().modules.as_slice()[4].submodules.as_slice()[0];
    assert_eq!((last.subslot, last.ident, last.input, last.output), (36_863, u32::MAX, 1440, 1440));
    let records = last.parameters.as_slice().iter().map(|record| (record.index, record.length));
    assert_eq!(records.collect::<Vec<_>>(), [(32_767, 64), (0, 1)]);
    // Without a relation nothing is expected, and the application is not asked.
    assert_eq!(does(&mut port, READY_AT, 4, 1, &[]), (REFUSED, 2));
    assert_eq!(serve(&mut port, &mut asked(EXPECTED), &[]), 45);
}

// ---- while data is exchanged

/// The place of this number: its slot, its subslot, and how far it is.
fn place(port: &mut Port, number: u32) -> Option<[u32; 3]> {
    let mut op = asked(EXPECTED);
    op.number = number;
    match serve(port, &mut op, &[]) {
        0 => Some([op.slot, op.subslot, op.progress]),
        answer => {
            assert_eq!((answer, op.slot, op.subslot, op.progress), (45, 0, 0, 0));
            None
        }
    }
}

/// How far the place of slot 1 is, by its name in the header.
fn progress(port: &mut Port) -> &'static str {
    let number = place(port, 3).expect("is expected")[2];
    lines_of("enum pn_progress {")
        .filter_map(|line| line.trim().strip_prefix("PN_PLACE_")?.split_once(" = "))
        .find(|(_, rest)| rest.starts_with(&number.to_string()))
        .expect("has a name")
        .0
}

/// An alarm frame of low priority of the controller, of this kind, with the numbers of what it sent and accepted, and this body.
fn alarm_frame(kind: &str, sent: u16, accepted: u16, body: &str) -> Vec<u8> {
    let length = body.len() / 2;
    octets(&format!("0200000000010200000000028100c0008892fe0100010001{kind}{sent:04x}{accepted:04x}{length:04x}{body}"))
}

/// The controller acknowledges the alarm of this number, of slot 1, of this type and with this AlarmSpecifier: its ACK and its AlarmAck come.
fn acknowledge(port: &mut Port, number: u16, alarm_type: u8, specifier: u16) {
    let body = format!("800200120100{alarm_type:04x}0000000000010001{specifier:04x}00000000");
    for frame in [alarm_frame("1301", 0xFFFF, number, ""), alarm_frame("1111", number, number, &body)] {
        assert_eq!(does(port, FRAME, 0, 0, &frame), (0, 0));
    }
}

/// A block of the relation about a plug: its kind, the number of the plug and the command.
fn block(kind: &str, number: u16, command: u8) -> Vec<u8> {
    octets(&format!("{kind}001c01000000111111112222333344445555555555550001{number:04x}00{command:02x}0000"))
}

/// The controller ends the parameters of the plug with this number, by the call of this sequence.
fn end_parameters(port: &mut Port, sequence: u16, number: u16) {
    assert_eq!(does(port, FRAME, 0, 0, call(CONTROL, 9, sequence, &block("0111", number, 1)).as_slice()), (0, 0));
}

/// The controller answers the ApplicationReady of this sequence for the plug with this number, with this status.
fn confirm(port: &mut Port, sequence: u16, number: u16, status: [u8; 4]) {
    let mut response = call(CONTROL, 9, sequence, &block("8113", number, 8));
    for (place, octet) in [(43, 2)].into_iter().chain(octets("11111111222233334444555555555555").into_iter().enumerate().map(|(at, octet)| (82 + at, octet))) {
        set(&mut response, place, octet);
    }
    for (at, octet) in status.into_iter().enumerate() {
        set(&mut response, 122 + at, octet);
    }
    assert_eq!(does(port, FRAME, 0, 0, response.as_slice()), (0, 0));
}

/// The demo station, whose application says when it is ready, while it exchanges data.
fn exchanging() -> Port {
    let options = DeviceOptions { ready_by_application: true, ..DeviceOptions::default() };
    let mut port = Port::new(demo_identity(), demo(), options, NamedRecords::new(), false);
    let _ = port.fill(Sector::First, &[0xFF; 4096]);
    let _ = port.fill(Sector::Second, &[0xFF; 4096]);
    assert!(port.boot().is_ok());
    for frame in &BEFORE[..4] {
        assert_eq!(does(&mut port, FRAME, 0, 0, &octets(frame)), (0, 0));
    }
    assert_eq!(does(&mut port, READY, 0, 0, &[]), (0, 0));
    assert_eq!(does(&mut port, FRAME, 0, 0, &octets(BEFORE[4])), (0, 0));
    port
}

#[test]
fn places_are_those_of_the_connect() {
    let mut port = exchanging();
    let places: Vec<_> = (0..6).map_while(|number| place(&mut port, number)).collect();
    assert_eq!(places, [[0, 1, 0], [0, 0x8000, 0], [0, 0x8001, 0], [1, 1, 0], [2, 1, 0]]);
    assert_eq!(place(&mut port, u32::MAX), None);
}

// From a pull to the answer to ApplicationReady for the plug after it, twice: the controller confirms the first and refuses the second.
#[test]
fn a_plug_goes_its_way() {
    let mut port = exchanging();
    let is_at = |port: &mut Port, name: &str, ready: (u32, u32)| assert_eq!((progress(port), does(port, READY_AT, 1, 1, &[])), (name, ready));
    assert_eq!(does(&mut port, READY_AT, 9, 9, &[]), (REFUSED, 19));
    is_at(&mut port, "GOOD", (REFUSED, 19));
    for (round, status, name, reason) in [(0, [0; 4], "GOOD", 19), (1, [0xDD, 0x81, 0x40, 6], "REFUSED", 13)] {
        let (pulled, plugged) = (2 * round, 2 * round + 1);
        assert_eq!(does(&mut port, PULL, 1, 1, &[]), (0, 0));
        is_at(&mut port, "DIFFERS", (REFUSED, 19));
        // Its alarm waits until that of the pull is acknowledged.
        assert_eq!(does(&mut port, PLUG, 1, 1, &first()), (0, 0));
        is_at(&mut port, "PLUGGED", (REFUSED, 12));
        acknowledge(&mut port, if round == 0 { 0xFFFF } else { pulled - 1 }, 3, pulled);
        is_at(&mut port, "TOLD", (REFUSED, 12));
        acknowledge(&mut port, plugged - 1, 4, plugged);
        is_at(&mut port, "TOLD", (REFUSED, 12));
        end_parameters(&mut port, round, plugged);
        is_at(&mut port, "ENDED", (0, 0));
        is_at(&mut port, "ENDED", (REFUSED, 13));
        confirm(&mut port, round + 1, plugged, status);
        is_at(&mut port, name, (REFUSED, reason));
    }
}

// Changes wait for their alarms: one alarm is active, and 32 wait.
#[test]
fn changes_wait_for_their_alarms() {
    let mut port = exchanging();
    for number in 0..33 {
        let (what, given) = if number % 2 == 0 { (PULL, vec![]) } else { (PLUG, first()) };
        assert_eq!(does(&mut port, what, 1, 1, &given), (0, 0), "{number}");
    }
    assert_eq!(does(&mut port, PLUG, 1, 1, &first()), (REFUSED, 11));
    assert_eq!(does(&mut port, PULL, 2, 1, &[]), (REFUSED, 11));
    assert_eq!(does(&mut port, PULL_MODULE, 2, 0, &[]), (REFUSED, 11));
    // Elsewhere nothing is reported, and nothing waits.
    assert_eq!(does(&mut port, PLUG, 5, 1, &first()), (0, 0));
    assert_eq!(does(&mut port, PULL_MODULE, 5, 0, &[]), (0, 0));
}
