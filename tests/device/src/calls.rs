//! Calls, answered, answered again, and not answered. Their octets and those of the answers were made by another program from
//! RFC 768 and 791, C706 and IEC 61158-6-10.
use crate::Tried;
use device_core::Note;
use frame_codec::Outbox;
use test_stations::{addressed, frame};

// A Read Implicit of I&M0 at slot 0, subslot 1, asked for from 192.168.0.1, its sequence number 7.
const CALL: [u8; 206] = *b"\x02\x00\x00\x00\x00\x01\x02\x00\x00\x00\x00\x02\x08\x00\
        \x45\x00\x00\xc0\x00\x00\x40\x00\x40\x11\xb8\xd9\xc0\xa8\x00\x01\xc0\xa8\x00\x02\
        \x88\x94\x88\x94\x00\xac\x7a\x40\
        \x04\x00\x20\x00\x00\x00\x00\x00\xde\xa0\x00\x00\x6c\x97\x11\xd1\x82\x71\x00\x01\x04\x56\x01\x23\
        \xde\xa0\x00\x01\x6c\x97\x11\xd1\x82\x71\x00\xa0\x24\x42\xdf\x7d\x07\x07\x07\x07\x07\x07\x07\x07\x07\x07\x07\x07\x07\x07\x07\x07\
        \x00\x00\x00\x00\x00\x00\x00\x01\x00\x00\x00\x07\x00\x05\xff\xff\xff\xff\x00\x54\x00\x00\x00\x00\
        \x00\x00\x05\x5c\x00\x00\x00\x40\x00\x00\x05\x5c\x00\x00\x00\x00\x00\x00\x00\x40\
        \x00\x09\x00\x3c\x01\x00\x00\x00\x00\x00\x00\x00\x00\x00\x00\x00\x00\x00\x00\x00\x00\x00\x00\x00\x00\x00\x00\x00\
        \x00\x00\x00\x01\x00\x00\xaf\xf0\x00\x00\x10\x00\x00\x00\x00\x00\x00\x00\x00\x00\x00\x00\x00\x00\x00\x00\x00\x00\x00\x00\x00\x00\x00\x00\x00\x00";

// The call in little endian, and without a checksum.
const LITTLE: [u8; 206] = *b"\x02\x00\x00\x00\x00\x01\x02\x00\x00\x00\x00\x02\x08\x00\
        \x45\x00\x00\xc0\x00\x00\x40\x00\x40\x11\xb8\xd9\xc0\xa8\x00\x01\xc0\xa8\x00\x02\
        \x88\x94\x88\x94\x00\xac\x00\x00\
        \x04\x00\x20\x00\x10\x00\x00\x00\x00\x00\xa0\xde\x97\x6c\xd1\x11\x82\x71\x00\x01\x04\x56\x01\x23\
        \x01\x00\xa0\xde\x97\x6c\xd1\x11\x82\x71\x00\xa0\x24\x42\xdf\x7d\x07\x07\x07\x07\x07\x07\x07\x07\x07\x07\x07\x07\x07\x07\x07\x07\
        \x00\x00\x00\x00\x01\x00\x00\x00\x07\x00\x00\x00\x05\x00\xff\xff\xff\xff\x54\x00\x00\x00\x00\x00\
        \x5c\x05\x00\x00\x40\x00\x00\x00\x5c\x05\x00\x00\x00\x00\x00\x00\x40\x00\x00\x00\
        \x00\x09\x00\x3c\x01\x00\x00\x00\x00\x00\x00\x00\x00\x00\x00\x00\x00\x00\x00\x00\x00\x00\x00\x00\x00\x00\x00\x00\
        \x00\x00\x00\x01\x00\x00\xaf\xf0\x00\x00\x10\x00\x00\x00\x00\x00\x00\x00\x00\x00\x00\x00\x00\x00\x00\x00\x00\x00\x00\x00\x00\x00\x00\x00\x00\x00";

// Its answer.
const ANSWER: [u8; 266] = *b"\x02\x00\x00\x00\x00\x02\x02\x00\x00\x00\x00\x01\x08\x00\
        \x45\x00\x00\xfc\x00\x00\x40\x00\x40\x11\xb8\x9d\xc0\xa8\x00\x02\xc0\xa8\x00\x01\
        \x88\x94\x88\x94\x00\xe8\x88\x55\
        \x04\x02\x0a\x00\x00\x00\x00\x00\xde\xa0\x00\x00\x6c\x97\x11\xd1\x82\x71\x00\x01\x04\x56\x01\x23\
        \xde\xa0\x00\x01\x6c\x97\x11\xd1\x82\x71\x00\xa0\x24\x42\xdf\x7d\x07\x07\x07\x07\x07\x07\x07\x07\x07\x07\x07\x07\x07\x07\x07\x07\
        \x00\x00\x00\x00\x00\x00\x00\x01\x00\x00\x00\x07\x00\x05\xff\xff\xff\xff\x00\x90\x00\x00\x00\x00\
        \x00\x00\x00\x00\x00\x00\x00\x7c\x00\x00\x05\x5c\x00\x00\x00\x00\x00\x00\x00\x7c\
        \x80\x09\x00\x3c\x01\x00\x00\x00\x00\x00\x00\x00\x00\x00\x00\x00\x00\x00\x00\x00\x00\x00\x00\x00\x00\x00\x00\x00\x00\x00\x00\x01\
        \x00\x00\xaf\xf0\x00\x00\x00\x3c\x00\x00\x00\x00\x00\x00\x00\x00\x00\x00\x00\x00\x00\x00\x00\x00\x00\x00\x00\x00\x00\x00\x00\x00\
        \x00\x20\x00\x38\x01\x00\x01\x23\x20\x20\x20\x20\x20\x20\x20\x20\x20\x20\x20\x20\x20\x20\x20\x20\x20\x20\x20\x20\x20\x20\x20\x20\
        \x20\x20\x20\x20\x20\x20\x20\x20\x20\x20\x20\x20\x00\x00\x56\x00\x00\x00\x00\x00\x00\x00\x00\x00\x01\x01\x00\x3e";

// The answer where the index is 0xAFF5.
const NO_RECORD: [u8; 142] = *b"\x02\x00\x00\x00\x00\x02\x02\x00\x00\x00\x00\x01\x08\x00\
        \x45\x00\x00\x80\x00\x00\x40\x00\x40\x11\xb9\x19\xc0\xa8\x00\x02\xc0\xa8\x00\x01\
        \x88\x94\x88\x94\x00\x6c\xc9\x8f\
        \x04\x02\x0a\x00\x00\x00\x00\x00\xde\xa0\x00\x00\x6c\x97\x11\xd1\x82\x71\x00\x01\x04\x56\x01\x23\
        \xde\xa0\x00\x01\x6c\x97\x11\xd1\x82\x71\x00\xa0\x24\x42\xdf\x7d\x07\x07\x07\x07\x07\x07\x07\x07\x07\x07\x07\x07\x07\x07\x07\x07\
        \x00\x00\x00\x00\x00\x00\x00\x01\x00\x00\x00\x07\x00\x05\xff\xff\xff\xff\x00\x14\x00\x00\x00\x00\
        \xde\x80\xb0\x00\x00\x00\x00\x00\x00\x00\x05\x5c\x00\x00\x00\x00\x00\x00\x00\x00";

// Where fields stand in a call.
const CHECKSUM: usize = 40;

const REPRESENTATION: usize = 46;

const ACTIVITY: usize = 82;

const SEQUENCE: usize = 109;

const OPERATION: usize = 111;

const OFFSET: usize = 137;

const API: usize = 169;

const SLOT: usize = 171;

const INDEX: usize = 177;

const LENGTH: usize = 180;

// The call with other octets at some places, and without a checksum.
fn changed(changes: &[(usize, u8)]) -> [u8; 206] {
    let mut bytes = CALL;
    bytes[CHECKSUM] = 0;
    bytes[CHECKSUM + 1] = 0;
    for (place, octet) in changes {
        if let Some(there) = bytes.get_mut(*place) {
            *there = *octet;
        }
    }
    bytes
}

// How long the one frame is that answers a call, and its status.
fn answer_in(outbox: &Outbox) -> (usize, [u8; 4]) {
    let mut status = [0xFF; 4];
    match outbox.as_slice() {
        [sent] if sent.len() >= 126 => {
            status.copy_from_slice(&sent.as_slice()[122..126]);
            (sent.len(), status)
        }
        _ => (0, status),
    }
}

// Whether the one frame in a box is these octets.
fn is_one(outbox: &Outbox, octets: &[u8]) -> bool {
    match outbox.as_slice() {
        [sent] => sent.as_slice() == octets,
        _ => false,
    }
}

impl Tried {
    // The note of a call, and how many frames are sent.
    fn hears(&mut self, bytes: &[u8], note: Note, frames: usize) {
        self.notes(&frame(bytes), note);
        assert_eq!(self.last.len(), frames);
    }

    // The one frame that answers a call is these octets.
    fn answers(&mut self, bytes: &[u8], answer: &[u8]) {
        self.notes(&frame(bytes), Note::Done);
        assert!(is_one(&self.last, answer));
    }

    // A call is refused with this status, in a frame without blocks.
    fn refuses(&mut self, bytes: &[u8], status: [u8; 4]) {
        self.take(&frame(bytes));
        assert_eq!(answer_in(&self.last), (142, status));
    }
}

#[test]
fn a_record_is_read() {
    let mut device = Tried::new(addressed());
    device.answers(&CALL, &ANSWER);
}

#[test]
fn as_much_of_a_record_is_read_as_is_asked_for() {
    let mut device = Tried::new(addressed());
    let ten = changed(&[(LENGTH, 0), (LENGTH + 1, 10)]);
    device.notes(&frame(&ten), Note::Done);
    let sent = device.first();
    assert_eq!(sent.len(), 216);
    assert_eq!(
        sent.get(206..),
        Some(b"\x00\x20\x00\x38\x01\x00\x01\x23\x20\x20".as_slice())
    );
}

#[test]
fn a_record_that_there_is_not() {
    let mut device = Tried::new(addressed());
    device.answers(&changed(&[(INDEX, 0xF6)]), &NO_RECORD);
}

#[test]
fn places_that_there_are_not() {
    let mut device = Tried::new(addressed());
    let slot = changed(&[(SEQUENCE, 1), (SLOT, 3)]);
    device.refuses(&slot, [0xDE, 0x80, 0xB2, 0]);
    let api = changed(&[(SEQUENCE, 2), (API, 1)]);
    device.refuses(&api, [0xDE, 0x80, 0xB4, 0]);
}

#[test]
fn a_call_in_little_endian_gets_the_same_answer() {
    let mut device = Tried::new(addressed());
    device.answers(&LITTLE, &ANSWER);
}

#[test]
fn a_call_again_gets_the_same_frame() {
    let mut device = Tried::new(addressed());
    device.answers(&CALL, &ANSWER);
    // from another station, another port, and for another record
    let again = changed(&[(11, 9), (34, 1), (INDEX, 0xF6)]);
    device.answers(&again, &ANSWER);
}

#[test]
fn an_older_call_is_not_answered() {
    let mut device = Tried::new(addressed());
    device.hears(&CALL, Note::Done, 1);
    device.hears(&changed(&[(SEQUENCE, 6)]), Note::OldCall, 0);
}

#[test]
fn four_other_activities_later_a_call_is_new() {
    let mut device = Tried::new(addressed());
    device.hears(&CALL, Note::Done, 1);
    for other in [1, 2, 3, 4u8] {
        let call = changed(&[(ACTIVITY, other)]);
        device.hears(&call, Note::Done, 1);
    }
    let again = changed(&[(INDEX, 0xF6)]);
    device.answers(&again, &NO_RECORD);
}

#[test]
fn blocks_that_are_not_counted_well_are_answered_and_not_kept() {
    let mut device = Tried::new(addressed());
    device.hears(&CALL, Note::Done, 1);
    let older = changed(&[(SEQUENCE, 6), (OFFSET, 1)]);
    device.refuses(&older, [0xDE, 0x81, 0x40, 0]);
    let newer = changed(&[(SEQUENCE, 8), (OFFSET, 1)]);
    device.refuses(&newer, [0xDE, 0x81, 0x40, 0]);
    device.answers(&CALL, &ANSWER);
}

#[test]
fn calls_that_can_not_be_read() {
    let mut device = Tried::new(addressed());
    let mut sum = CALL;
    sum[CHECKSUM + 1] = 0x41;
    device.hears(&sum, Note::Fault, 0);
    device.hears(&changed(&[(REPRESENTATION, 0x20)]), Note::Fault, 0);
    device.hears(&CALL[..205], Note::Fault, 0);
}

#[test]
fn operations_that_are_not_served() {
    let mut device = Tried::new(addressed());
    for operation in [6, 7, 255u8] {
        let call = changed(&[(OPERATION, operation), (OFFSET, 1)]);
        device.hears(&call, Note::Fault, 0);
    }
}

// A block of another call, or of a relation that does not exist.
#[test]
fn operations_of_a_relation_that_there_is_not() {
    for (operation, status) in [
        (0, [0xDB, 0x81, 0x40, 1]),
        (1, [0xDC, 0x81, 0x40, 1]),
        (2, [0xDE, 0x81, 0x40, 5]),
        (3, [0xDF, 0x81, 0x40, 1]),
        (4u8, [0xDD, 0x81, 0x40, 1]),
    ] {
        let mut device = Tried::new(addressed());
        let call = changed(&[(OPERATION, operation)]);
        device.refuses(&call, status);
    }
}

#[test]
fn a_response_that_nobody_waits_for() {
    let mut device = Tried::new(addressed());
    let mut response = NO_RECORD;
    response[..6].copy_from_slice(&CALL[..6]);
    response[26..34].copy_from_slice(&CALL[26..34]);
    device.hears(&response, Note::NoRelation, 0);
}

#[test]
fn datagrams_to_somebody_else() {
    let mut device = Tried::new(addressed());
    let port = changed(&[(37, 0x95)]);
    device.hears(&port, Note::NotMine, 0);
    let station = changed(&[(5, 9)]);
    device.hears(&station, Note::NotMine, 0);
    // the header's checksum goes along with the address
    let address = changed(&[(33, 3), (25, 0xD8)]);
    device.hears(&address, Note::NotMine, 0);
}

#[test]
fn no_call_is_answered_without_an_address() {
    let mut device = Tried::blank();
    device.hears(&CALL, Note::NotMine, 0);
    // to the address of zeros
    let zero = changed(&[(24, 0x79), (25, 0x84), (30, 0), (31, 0), (33, 0)]);
    device.hears(&zero, Note::NotMine, 0);
}
