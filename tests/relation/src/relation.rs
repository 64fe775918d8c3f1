//! A relation: made by a Connect, or refused with a status, and ended. The octets that have to come were worked out by hand
//! from IEC 61158-6-10 and checked with another program.
use crate::Tried;
use crate::connects::{FOUR, THREE, connect};
use crate::requests::{exchanging, related, served};
use device_core::{Event, Note};
use flash_model::MemoryFlash;
use frame_codec::{Bytes, Frame, Outbox};
use relations::Phase;
use test_stations::{
    CONNECT, CONTROL, DONE, END, PRM_END, RELEASE, Station, call, frame, is_filled, plugged, set,
    set_pump, station,
};

// The blocks of the answer to the Connect of three modules: ARBlockRes, an IOCRBlockRes each, AlarmCRBlockRes.
const MADE: [u8; 70] =
    *b"\x81\x01\x00\x1e\x01\x00\x00\x01\x11\x11\x11\x11\x11\x11\x11\x11\x11\x11\x11\x11\x11\x11\x11\x11\
    \x00\x01\x02\x00\x00\x00\x00\x01\x88\x92\
    \x81\x02\x00\x08\x01\x00\x00\x01\x00\x01\xc0\x01\x81\x02\x00\x08\x01\x00\x00\x02\x00\x02\xc0\x00\
    \x81\x03\x00\x08\x01\x00\x00\x01\x00\x01\x00\xc8";

// The ModuleDiffBlock where the module of slot 2 is another one and slot 3 is empty.
const DIFFERENCE: [u8; 50] = *b"\x81\x04\x00\x2e\x01\x00\x00\x01\x00\x00\x00\x00\x00\x02\
    \x00\x02\x00\x00\x00\x20\x00\x01\x00\x01\x00\x01\x00\x00\x00\x20\x90\x00\
    \x00\x03\x00\x00\x00\x00\x00\x00\x00\x01\x00\x01\x00\x00\x00\x00\x98\x00";

// The ERR that ends a relation, but for its last octet.
const ABORT: [u8; 37] =
    *b"\x02\x00\x00\x00\x00\x02\x02\x00\x00\x00\x00\x01\x81\x00\xa0\x00\x88\x92\
    \xfe\x01\x00\x01\x00\x01\x14\x01\xff\xff\xff\xfe\x00\x04\xcf\x81\xfd\x0d\x00";

fn fresh() -> Option<Station> {
    station(plugged(), MemoryFlash::blank())
}

// The Connect of three modules as the first call.
fn three() -> Bytes {
    call(CONNECT, 7, 0, connect(0x11, 600, THREE).as_slice())
}

// The one answer to a Connect has this many octets and these blocks.
fn is_made(bytes: &Bytes, length: usize, blocks: &[&[u8]]) {
    let mut device = Tried::new(fresh());
    device.notes(&frame(bytes.as_slice()), Note::Done);
    assert_eq!(device.last.len(), 1);
    let sent = device.last.as_slice().first().expect("is answered");
    assert_eq!(sent.len(), length);
    let mut place: usize = 142;
    for block in blocks {
        stands_at(sent, place, block);
        place = place.wrapping_add(block.len());
    }
    device.is_at(Some(Phase::Started));
}

// A block is at this place of a frame.
fn stands_at(sent: &Frame, place: usize, block: &[u8]) {
    let rest = sent.as_slice().get(place..).unwrap_or(&[]);
    assert!(rest.starts_with(block));
}

#[test]
fn a_connect_makes_a_relation() {
    assert_eq!(connect(0x11, 600, THREE).len(), 391);
    assert_eq!(three().len(), 533);
    is_made(&three(), 212, &[&MADE])
}

// Where the numbers of a call stand whose octets go the other way round in little endian: from, to.
const NUMBERS: [(usize, usize); 12] = [
    (50, 54),
    (54, 56),
    (56, 58),
    (66, 70),
    (70, 72),
    (72, 74),
    (102, 106),
    (116, 118),
    (122, 126),
    (126, 130),
    (130, 134),
    (138, 142),
];

// Turns a number round.
fn turn(bytes: &mut Bytes, first: usize, end: usize) {
    if let Some(part) = bytes.as_mut_slice().get_mut(first..end) {
        part.reverse();
    }
}

// The same in little endian.
#[test]
fn a_connect_in_little_endian_gets_the_same_answer() {
    let mut bytes = three();
    set(&mut bytes, 46, 0x10);
    for (first, end) in NUMBERS {
        turn(&mut bytes, first, end);
    }
    is_made(&bytes, 212, &[&MADE])
}

#[test]
fn other_modules_are_told() {
    let blocks = connect(0x11, 600, FOUR);
    let bytes = call(CONNECT, 7, 0, blocks.as_slice());
    is_made(&bytes, 262, &[&MADE, &DIFFERENCE])
}

#[test]
fn a_connect_that_is_cut_is_none() {
    let mut device = Tried::new(fresh());
    let bytes = three();
    for length in 0..533 {
        let part = bytes.get(..length).expect("is longer");
        device.sends_none(&frame(part), Note::Fault);
    }
    device.is_at(None);
}

// The status by which a Connect with other octets at some places is refused. It asks for the relation of this ARUUID.
fn refused(device: &mut Station, octet: u8, changes: &[(usize, u8)]) -> (usize, usize, [u8; 4]) {
    let mut bytes = call(CONNECT, 9, 5, connect(octet, 600, THREE).as_slice());
    for (place, octet) in changes {
        set(&mut bytes, *place, *octet);
    }
    served(device, &bytes)
}

// What is sent to such a Connect if the device has no relation, and has none after it.
fn sent_to(changes: &[(usize, u8)]) -> Option<(usize, usize, [u8; 4])> {
    let mut device = fresh()?;
    let sent = refused(&mut device, 0x11, changes);
    match device.phase() {
        None => Some(sent),
        Some(_) => None,
    }
}

// Such a Connect gets this status, and makes no relation.
fn is_none(changes: &[(usize, u8)], status: [u8; 4]) {
    assert_eq!(sent_to(changes), Some((1, 142, status)));
}

#[test]
fn a_connect_with_a_fault_is_refused() {
    // ArgsLength one less than ActualCount
    is_none(&[(129, 0x86)], [0xDB, 0x81, 0x40, 0]);
    // BlockLength of the ARBlockReq
    is_none(&[(144, 0xFF), (145, 0xFF)], [0xDB, 0x81, 1, 1]);
    // NumberOfIODataObjects of the input
    is_none(&[(253, 0xFF), (254, 0xFF)], [0xDB, 0x81, 2, 1]);
}

// The checksum of UDP is the one that Scapy computes, and then one more; and a representation that does not exist.
#[test]
fn a_connect_that_can_not_be_read_is_a_fault() {
    let mut device = Tried::new(fresh());
    let mut bytes = three();
    set(&mut bytes, 40, CHECKSUM[0]);
    set(&mut bytes, 41, CHECKSUM[1].wrapping_add(1));
    device.notes(&frame(bytes.as_slice()), Note::Fault);
    set(&mut bytes, 41, CHECKSUM[1]);
    set(&mut bytes, 46, 0x20);
    device.notes(&frame(bytes.as_slice()), Note::Fault);
    set(&mut bytes, 46, 0);
    device.notes(&frame(bytes.as_slice()), Note::Done);
    assert_eq!(device.last.len(), 1);
}

const CHECKSUM: [u8; 2] = [0x30, 0x24];

impl Tried {
    // A Connect for the relation of this ARUUID gets this status while a relation is active.
    fn refuses(&mut self, octet: u8, status: [u8; 4]) {
        let sent = refused(&mut self.station, octet, &[]);
        assert_eq!(sent, (1, 142, status));
    }
}

#[test]
fn a_second_connect_is_refused() {
    let mut device = Tried::new(related(600, THREE));
    device.refuses(0x12, [0xDB, 0x81, 0x40, 4]);
    let mut device = Tried::new(related(600, THREE));
    device.refuses(0x11, [0xDB, 0x81, 0x40, 6]);
    device.is_at(Some(Phase::Started));
}

#[test]
fn silence_ends_a_relation() {
    let mut device = Tried::new(related(1, THREE));
    // a cyclic frame each interval of 32 units
    device.passes(3199, 99);
    device.is_at(Some(Phase::Started));
    let mut silent = ABORT;
    silent[35] = 6;
    device.sends(&Event::Tick, &silent);
    device.is_at(None);
}

// The two frames in a box are these octets, each filled up.
fn are_filled(outbox: &Outbox, first: &[u8], second: &[u8]) -> bool {
    match outbox.as_slice() {
        [one, other] => is_filled(one.as_slice(), first) && is_filled(other.as_slice(), second),
        _ => false,
    }
}

// ResetToFactory of the communication, and a Set of a name, which is judged as the frame comes.
#[test]
fn a_reset_ends_a_relation() {
    let mut device = Tried::new(related(600, THREE));
    let request =
        *b"\x02\x00\x00\x00\x00\x01\x02\x00\x00\x00\x00\x02\x88\x92\xfe\xfd\x04\x00\x00\x00\x00\x02\x00\x00\x00\x12\
        \x05\x06\x00\x02\x00\x04\x02\x02\x00\x08\x00\x01pump-9";
    device.notes(&frame(&request), Note::Done);
    let answer =
        *b"\x02\x00\x00\x00\x00\x02\x02\x00\x00\x00\x00\x01\x88\x92\xfe\xfd\x04\x01\x00\x00\x00\x02\x00\x00\x00\x10\
        \x05\x04\x00\x03\x05\x06\x00\x00\x05\x04\x00\x03\x02\x02\x06\x00";
    assert!(are_filled(&device.last, &ABORT, &answer));
    assert_eq!(device.station.running().name.as_bytes(), b"".as_slice());
    device.is_at(None);
}

#[test]
fn no_name_is_set_before_the_release() {
    let mut device = Tried::new(related(600, THREE));
    let mut refused = DONE;
    refused[32] = 6;
    device.sends(&frame(&set_pump(b'9')), &refused);
    let release = call(RELEASE, 7, 1, &END);
    device.serves(&release, (1, 174, [0; 4]));
    device.is_at(None);
    device.sends(&frame(&set_pump(b'9')), &DONE);
}

#[test]
fn the_parameters_end_once() {
    let mut device = Tried::new(related(600, THREE));
    let ends = call(CONTROL, 7, 1, &PRM_END);
    device.serves(&ends, (2, 174, [0; 4]));
    device.is_at(Some(Phase::Awaiting));
    let again = call(CONTROL, 7, 2, &PRM_END);
    device.serves(&again, (1, 142, [0xDD, 0x81, 0x40, 6]));
    // ApplicationReady again, beside a cyclic frame each interval
    device.passes(32_000, 1001);
    let device = Tried::new(exchanging());
    device.is_at(Some(Phase::Exchanging));
}
