//! Two options of the device: the answers to Read Implicit are not stored, and calls of the relation are asked first. And what is left of an answer of the
//! application at a device that has no address any more.

use device_core::{Event, Note};
use relations::DeviceOptions;
use test_stations::{END, READ, RELEASE, Station, WRITE, call, frame};

use crate::device::{BOTH, READ_IMPLICIT, header, number_and_index, passed, read, station_of, status_in, step, told, write};

/// Where a response has its activity UUID.
const ACTIVITY: usize = 82;

/// ErrorCode1 resource busy, of a Read and of a Write.
const BUSY: ([u8; 4], [u8; 4]) = ([0xDE, 0x80, 0xC2, 0], [0xDF, 0x80, 0xC2, 0]);

/// A temporary Set of the suite 0.0.0.0.
const NO_ADDRESS: [u8; 44] = *b"\x02\x00\x00\x00\x00\x01\x02\x00\x00\x00\x00\x02\x88\x92\xfe\xfd\x04\x00\x00\x00\x00\x02\x00\x00\x00\x12\
    \x01\x02\x00\x0e\x00\x00\0\0\0\0\0\0\0\0\0\0\0\0";

/// A station in a relation, whose application answers one record, with the one option or the other.
fn station(reads_not_kept: bool, asks_own_first: bool) -> Station {
    station_of(&[BOTH], 600, DeviceOptions { reads_not_kept, asks_own_first, ..DeviceOptions::default() })
}

/// Read Implicit of I&M0 by other activities, each of them once.
fn strangers(device: &mut Station, count: u8) {
    for activity in 20..20 + count {
        assert_eq!(status_in(&told(device, READ_IMPLICIT, activity, 1, &header(9, 0, 0xAFF0, 1000))), [0; 4]);
    }
}

/// The activity UUID of a response: all its octets are the same.
fn activity_in(response: &[u8]) -> u8 {
    assert!(response[ACTIVITY..ACTIVITY + 16].iter().all(|octet| *octet == response[ACTIVITY]));
    response[ACTIVITY]
}

#[test]
fn strangers_take_no_place_of_a_stored_answer() {
    for (reads_not_kept, count, is_stored) in [(true, 200, true), (false, 3, true), (false, 4, false)] {
        let mut device = station(reads_not_kept, false);
        let writing = write(1, 0x1234, &[9]);
        assert!(told(&mut device, WRITE, 7, 1, &writing).is_empty());
        let sent = step(&mut device, &Event::written(1), Note::Done);
        strangers(&mut device, count);
        // The repeat gets the frame again, or the application is asked a second time.
        let wanted = if is_stored { sent } else { Vec::new() };
        assert_eq!(told(&mut device, WRITE, 7, 1, &writing), wanted);
        assert_eq!(number_and_index(&device).is_none(), is_stored);
    }
}

#[test]
fn a_release_is_repeated_among_strangers() {
    for (reads_not_kept, repeated) in [(true, [0; 4]), (false, [0xDC, 0x81, 0x40, 5])] {
        let mut device = station(reads_not_kept, false);
        assert_eq!(status_in(&told(&mut device, RELEASE, 7, 1, &END)), [0; 4]);
        strangers(&mut device, 4);
        assert_eq!(status_in(&told(&mut device, RELEASE, 7, 1, &END)), repeated);
    }
}

#[test]
fn each_read_implicit_is_handled_again() {
    let mut device = station(true, false);
    for number in [1, 2] {
        assert!(told(&mut device, READ_IMPLICIT, 20, 5, &read(&BOTH, 8)).is_empty());
        // A repeat of the one that is asked is dropped.
        assert!(told(&mut device, READ_IMPLICIT, 20, 5, &read(&BOTH, 8)).is_empty());
        assert_eq!(number_and_index(&device), Some((number, 0x1234)));
        let sent = step(&mut device, &Event::answer(number, &[number as u8]), Note::Done);
        assert_eq!(sent[0][142 + 64..], [number as u8]);
    }
    // One with a smaller number too. A Read within the relation is stored as before.
    assert!(told(&mut device, READ_IMPLICIT, 20, 4, &read(&BOTH, 8)).is_empty());
    let late = passed(&mut device, 64_000);
    assert_eq!((status_in(&late), activity_in(&late[0])), ([0xDE, 0x80, 0xA7, 0], 20));
    assert!(told(&mut device, READ, 7, 1, &read(&BOTH, 8)).is_empty());
    let sent = step(&mut device, &Event::answer(4, &[4]), Note::Done);
    assert_eq!(told(&mut device, READ, 7, 1, &read(&BOTH, 8)), sent);
    // Without the option the answer is repeated, and an older call is dropped.
    let mut device = station(false, false);
    assert!(told(&mut device, READ_IMPLICIT, 20, 5, &read(&BOTH, 8)).is_empty());
    let sent = step(&mut device, &Event::answer(1, &[1]), Note::Done);
    assert_eq!(told(&mut device, READ_IMPLICIT, 20, 5, &read(&BOTH, 8)), sent);
    assert!(step(&mut device, &frame(&call(READ_IMPLICIT, 20, 4, &read(&BOTH, 8))), Note::OldCall).is_empty());
}

#[test]
fn a_call_of_the_relation_is_asked_before_a_read_implicit() {
    let (reading, writing) = (read(&BOTH, 8), write(1, 0x1234, &[9]));
    for (operation, blocks) in [(READ, &reading), (WRITE, &writing)] {
        let mut device = station(false, true);
        assert!(told(&mut device, READ_IMPLICIT, 20, 1, &read(&BOTH, 8)).is_empty());
        let refused = told(&mut device, operation, 7, 1, blocks);
        assert_eq!((status_in(&refused), activity_in(&refused[0])), (BUSY.0, 20));
        assert_eq!(number_and_index(&device), Some((2, 0x1234)));
        // The stranger's answer comes too late. Its repeat gets what it got.
        assert!(step(&mut device, &Event::answer(1, &[1]), Note::Refused).is_empty());
        assert_eq!(told(&mut device, READ_IMPLICIT, 20, 1, &read(&BOTH, 8)), refused);
        // Neither another one nor a further call of the relation takes this place.
        assert_eq!(status_in(&told(&mut device, READ_IMPLICIT, 21, 1, &read(&BOTH, 8))), BUSY.0);
        assert_eq!(status_in(&told(&mut device, WRITE, 8, 1, &write(1, 0x1234, &[5]))), BUSY.1);
        assert_eq!(number_and_index(&device), Some((2, 0x1234)));
        let answer = if operation == READ { Event::answer(2, &[7]) } else { Event::written(2) };
        let sent = step(&mut device, &answer, Note::Done);
        assert_eq!((status_in(&sent), activity_in(&sent[0])), ([0; 4], 7));
        assert_eq!(told(&mut device, operation, 7, 1, blocks), sent);
    }
}

#[test]
fn the_time_of_a_call_that_displaced_another_is_its_own() {
    let mut device = station(true, true);
    assert!(told(&mut device, READ_IMPLICIT, 20, 1, &read(&BOTH, 8)).is_empty());
    assert!(passed(&mut device, 60_000).is_empty());
    assert_eq!(status_in(&told(&mut device, WRITE, 7, 1, &write(1, 0x1234, &[9]))), BUSY.0);
    assert!(passed(&mut device, 63_999).is_empty());
    assert_eq!(status_in(&passed(&mut device, 1)), [0xDF, 0x80, 0xA7, 0]);
}

#[test]
fn a_read_implicit_displaces_nothing() {
    let mut device = station(false, true);
    assert!(told(&mut device, READ_IMPLICIT, 20, 1, &read(&BOTH, 8)).is_empty());
    assert_eq!(status_in(&told(&mut device, READ_IMPLICIT, 21, 1, &read(&BOTH, 8))), BUSY.0);
    assert_eq!(number_and_index(&device), Some((1, 0x1234)));
}

#[test]
fn without_the_option_a_call_of_the_relation_is_busy() {
    let mut device = station(true, false);
    assert!(told(&mut device, READ_IMPLICIT, 20, 1, &read(&BOTH, 8)).is_empty());
    let refused = told(&mut device, WRITE, 7, 1, &write(1, 0x1234, &[9]));
    assert_eq!((status_in(&refused), activity_in(&refused[0])), (BUSY.1, 7));
    assert_eq!(number_and_index(&device), Some((1, 0x1234)));
}

#[test]
fn without_an_address_nothing_is_answered_any_more() {
    // An answer, a refusal, and the end of its time.
    for answer in [Some(Event::answer(1, &[1])), Some(Event::refuse(1, 0xA0, 0)), None] {
        let mut device = station(false, false);
        assert_eq!(told(&mut device, RELEASE, 7, 1, &END).len(), 1);
        assert!(told(&mut device, READ_IMPLICIT, 20, 1, &read(&BOTH, 8)).is_empty());
        assert_eq!(step(&mut device, &frame(&NO_ADDRESS), Note::Done).len(), 1);
        assert_eq!(number_and_index(&device), Some((1, 0x1234)));
        match answer {
            Some(answer) => assert!(step(&mut device, &answer, Note::Done).is_empty()),
            None => assert!(passed(&mut device, 64_000).is_empty()),
        }
        assert_eq!(device.asked(), None);
    }
}
