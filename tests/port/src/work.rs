//! The work of a step: calls of the flash, and then frames.
use crate::calls;
use crate::stations::{booted, busy, kind};
use device_core::Note;
use device_station::{Port, Stage, Work};
use test_stations::{DONE, IDENTIFY, is_filled};

// The kind of the next work, which is handed out.
fn takes(port: &mut Port, wanted: u32) {
    assert_eq!(kind(port), wanted);
    port.advance();
}

// What is noted of a frame, of an input and of an alarm of the module in slot 2.
fn frame_noted(port: &mut Port, octets: &[u8]) -> Option<Note> {
    port.frame(octets).unwrap_or(Ok(Note::Done)).ok()
}

fn input_noted(port: &mut Port, octets: &[u8]) -> Option<Note> {
    port.input(2, 1, octets).unwrap_or(Ok(Note::Done)).ok()
}

fn alarm_noted(port: &mut Port, octets: &[u8]) -> Option<Note> {
    port.alarm(2, 1, octets).ok()
}

// Whether the frame that is next is these octets, filled up.
fn is_next(port: &Port, octets: &[u8]) -> bool {
    match port.work() {
        Ok(Work::Send(sent)) => is_filled(sent, octets),
        _ => false,
    }
}

#[test]
fn calls_come_first() {
    let mut port = busy();
    // A base: the sector is erased, its octets are programmed, and its gate is closed.
    for wanted in [2, 1, 1, 3, 0] {
        takes(&mut port, wanted);
    }
    assert!(!port.has_work());
}

#[test]
fn the_frame_behind_them_says_done() {
    let mut port = busy();
    for _ in 0..3 {
        port.advance();
    }
    assert!(is_next(&port, &DONE));
}

#[test]
fn notes_are_answers() {
    let mut port = booted();
    assert_eq!(frame_noted(&mut port, &IDENTIFY), Some(Note::Done));
    port.advance();
    assert_eq!(frame_noted(&mut port, &[]), Some(Note::Fault));
    assert_eq!(input_noted(&mut port, &[1, 2]), Some(Note::Refused));
    assert_eq!(alarm_noted(&mut port, &[1, 2]), Some(Note::Refused));
    assert_eq!(frame_noted(&mut port, &[0; 2000]), Some(Note::Fault));
}

#[test]
fn a_loss_drops_what_is_left() {
    let mut port = busy();
    assert!(port.stage() == Stage::Booted);
    assert!(port.has_work());
    assert_eq!(calls::lose(&mut port), 0);
    assert!(port.stage() == Stage::Lost);
    assert!(!port.has_work());
}
