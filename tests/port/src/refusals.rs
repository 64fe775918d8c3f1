//! Each call that is refused, and the number that says why.
use crate::calls::{
    alarm, boot, fill, frame, input, lamp, lose, output, phase, running, stored, taken, tick, work,
};
use crate::stations::{booted, busy, lost, made};
use c_layout::{BAD_ABI, BAD_DATA, BAD_LENGTH, BAD_MAC, BAD_PARAMETER, BAD_PLAN, BAD_SLOT, BAD_STATION, BAD_SUBSLOT};
use c_layout::{HAS_WORK, NO_PLACE, NO_RECORD, NO_SLOT, PLAN_FAULT, REFUSED, SMALL_ROOM, UNKNOWN};
use device_station::{Port, Refusal};
use flash_model::Sector;
use test_stations::{IDENTIFY, SET};

/// What the header says of numbers.
const HEADER: &str = include_str!("../../../include/nandutable_numbers.h");

/// Each number of the header, with its name.
fn header() -> Vec<(&'static str, u32)> {
    let lines = HEADER.lines().filter_map(|line| line.trim().strip_prefix("PN_")?.split_once(" = "));
    lines.filter_map(|(name, rest)| Some((name, rest.split([',', ' ']).next()?.parse().ok()?))).collect()
}

#[test]
fn each_number_of_the_header_has_one_meaning() {
    let numbers = header();
    assert_eq!(numbers.len(), 48);
    for (place, (name, number)) in numbers.iter().enumerate() {
        for (other, same) in &numbers[place + 1..] {
            assert!(name != other && number != same, "{name} and {other} are {number} and {same}");
        }
    }
}

#[test]
fn numbers_are_those_of_the_header() {
    let named = [
        ("NOT_BOOTED", Refusal::NotBooted.number()),
        ("IS_BOOTED", Refusal::IsBooted.number()),
        ("HAS_WORK", Refusal::HasWork.number()),
        ("BAD_LENGTH", Refusal::BadLength.number()),
        ("NO_SLOT", Refusal::NoSlot.number()),
        ("FOREIGN", Refusal::Foreign.number()),
        ("LOST", Refusal::PowerLost.number()),
        ("BAD_ABI", BAD_ABI),
        ("SMALL_ROOM", SMALL_ROOM),
        ("BAD_STATION", BAD_STATION),
        ("HAS_WORK", HAS_WORK),
        ("BAD_LENGTH", BAD_LENGTH),
        ("NO_SLOT", NO_SLOT),
        ("UNKNOWN", UNKNOWN),
        ("NO_RECORD", NO_RECORD),
        ("NO_PLACE", NO_PLACE),
        ("REFUSED", REFUSED),
        ("BAD_PLAN", BAD_PLAN),
        ("BAD_MAC", BAD_MAC),
        ("BAD_SLOT", BAD_SLOT),
        ("BAD_SUBSLOT", BAD_SUBSLOT),
        ("BAD_DATA", BAD_DATA),
        ("BAD_PARAMETER", BAD_PARAMETER),
        ("PLAN_JSON", PLAN_FAULT + 1),
        ("PLAN_MEMORY", PLAN_FAULT + 11),
    ];
    for (name, wanted) in named {
        assert!(header().contains(&(name, wanted)), "{name} is {wanted}");
    }
}

// Each event is refused by this number.
fn no_event(port: &mut Port, wanted: u32) {
    assert_eq!(frame(port, &IDENTIFY), wanted);
    assert_eq!(tick(port, 1), wanted);
    assert_eq!(input(port, 0, 1, &[1]), wanted);
    assert_eq!(alarm(port, 0, 1, &[1]), wanted);
}

// Nothing is reported, and this number says why.
fn nothing_told(port: &Port, wanted: u32) {
    assert_eq!(work(port), wanted);
    assert_eq!(running(port), wanted);
    assert_eq!(stored(port), wanted);
    assert_eq!(phase(port), wanted);
    assert_eq!(lamp(port), wanted);
    assert_eq!(taken(port), wanted);
    assert_eq!(output(port, 2, 1), wanted);
}

#[test]
fn before_a_start() {
    let mut port = made();
    no_event(&mut port, 5);
    nothing_told(&port, 5);
    assert_eq!(lose(&mut port), 5);
}

#[test]
fn behind_a_loss() {
    let mut port = lost();
    no_event(&mut port, 14);
    nothing_told(&port, 14);
    assert_eq!(lose(&mut port), 14);
    assert_eq!(boot(&mut port), 14);
    assert_eq!(fill(&mut port, Sector::First, &[0xFF; 4096]), 14);
    assert!(!port.has_work());
}

#[test]
fn over_work_that_is_left() {
    let mut port = busy();
    no_event(&mut port, 7);
    assert_eq!(work(&port), 0);
    assert_eq!(running(&port), 0);
}

#[test]
fn behind_a_start() {
    let mut port = booted();
    assert_eq!(boot(&mut port), 6);
    assert_eq!(fill(&mut port, Sector::First, &[0xFF; 4096]), 6);
    assert_eq!(frame(&mut port, &SET), 0);
}

#[test]
fn a_sector_of_another_length() {
    let mut port = made();
    assert_eq!(fill(&mut port, Sector::First, &[0xFF; 4095]), 8);
    assert_eq!(fill(&mut port, Sector::Second, &[0xFF; 4097]), 8);
    assert_eq!(fill(&mut port, Sector::Second, &[]), 8);
    assert_eq!(boot(&mut port), 0);
}

#[test]
fn a_chip_that_is_foreign() {
    let mut port = made();
    assert_eq!(fill(&mut port, Sector::First, &[0; 4096]), 0);
    assert_eq!(fill(&mut port, Sector::Second, &[0; 4096]), 0);
    assert_eq!(boot(&mut port), 11);
    assert_eq!(tick(&mut port, 1), 5);
    assert_eq!(fill(&mut port, Sector::First, &[0xFF; 4096]), 0);
    assert_eq!(fill(&mut port, Sector::Second, &[0xFF; 4096]), 0);
    assert_eq!(boot(&mut port), 0);
}

#[test]
fn nothing_is_plugged_there() {
    let port = booted();
    assert_eq!(output(&port, 2, 1), 0);
    assert_eq!(output(&port, 2, 2), 9);
    assert_eq!(output(&port, 9, 1), 9);
}
