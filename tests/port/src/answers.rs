//! Records that the application answers, as a host in C serves them: what is asked, what its answers are answered with, and what
//! is sent.
use asked_records::{NamedRecords, RecordName};
use crate::operations::asked;
use crate::passed::BEFORE;
use crate::served::octets;
use crate::stations::demo;
use c_layout::Op;
use device_abi::{Operation, hand_out, play, serve};
use device_core::{Event, Sink};
use device_station::Port;
use flash_model::{MemoryFlash, Sector};
use frame_codec::Frame;
use pn_values::demo_identity;
use relations::DeviceOptions;
use test_stations::{READ, RELEASE, WRITE, call};

/// Frames that nobody looks at.
struct Dropped;

impl Sink for Dropped {
    fn take(&mut self, _: &Frame) {}
}

/// Record 0x1234 of slot 1, which can be read and written, and record 8 of slot 2, which can be read.
const NAMES: [RecordName; 2] = [
    RecordName { slot: 1, subslot: 1, index: 0x1234, greatest_length: 8, is_readable: true, is_writable: true },
    RecordName { slot: 2, subslot: 1, index: 8, greatest_length: 1308, is_readable: true, is_writable: false },
];

/// An operation, and the frames that are its work.
fn serve_all(port: &mut Port, op: &mut Op, given: &[u8]) -> (u32, Vec<Vec<u8>>) {
    let answer = serve(port, op, given);
    let mut sent = Vec::new();
    loop {
        let (mut next, mut fetched) = (asked(0), 0);
        let octets = hand_out(port, &mut next, &mut fetched).to_vec();
        match (fetched, next.work) {
            (0, 0) => return (answer, sent),
            (0, 3) => sent.push(octets),
            (0, _) => (),
            (refused, _) => return (refused, sent),
        }
    }
}

/// A port that exchanges data, whose application answers these records.
fn exchanging(names: &[RecordName]) -> Port {
    let named = NamedRecords::of(names).expect("they are records");
    let mut port = Port::new(demo_identity(), demo(), DeviceOptions::default(), named, true);
    let _ = port.fill(Sector::First, &[0xFF; 4096]);
    let _ = port.fill(Sector::Second, &[0xFF; 4096]);
    assert!(port.boot().is_ok());
    for frame in BEFORE {
        assert_eq!(serve_all(&mut port, &mut asked(3), &octets(frame)).0, 0);
    }
    let mut op = asked(9);
    assert_eq!((serve(&mut port, &mut op, &[]), op.phase), (0, 3));
    port
}

/// The call of this operation for a record of the relation, with the octets after its header.
fn record_call(operation: u8, sequence: u16, slot: u16, index: u16, length: u32, value: &[u8]) -> Vec<u8> {
    let mut blocks = vec![0, if operation == WRITE { 8 } else { 9 }, 0, 60, 1, 0, 0, 9];
    blocks.extend(octets("11111111222233334444555555555555"));
    blocks.extend([0; 4]);
    blocks.extend(slot.to_be_bytes());
    blocks.extend([0, 1, 0, 0]);
    blocks.extend(index.to_be_bytes());
    blocks.extend(length.to_be_bytes());
    blocks.extend([0; 24]);
    blocks.extend(value);
    call(operation, 9, sequence, &blocks).as_slice().to_vec()
}

/// The call comes. Returns the frames that it makes.
fn hear(port: &mut Port, call: &[u8]) -> Vec<Vec<u8>> {
    let mut op = asked(3);
    let (answer, sent) = serve_all(port, &mut op, call);
    assert_eq!((answer, op.note), (0, 0));
    sent
}

/// What is asked: its answer, number, slot, subslot, index, what is wanted, how many octets are read, and the octets that are written.
fn question(port: &mut Port) -> (u32, [u32; 6], Vec<u8>) {
    let mut op = asked(33);
    let answer = serve(port, &mut op, &[]);
    (answer, [op.number, op.slot, op.subslot, op.index, op.wanted, op.read_length], op.octets[..op.length as usize].to_vec())
}

/// An answer to what is asked under this number: its result, the reason, and the PNIOStatus and the octets after the header of what
/// is sent.
fn reply(port: &mut Port, what: u32, number: u32, given: &[u8]) -> (u32, u32, Option<([u8; 4], Vec<u8>)>) {
    let mut op = asked(what);
    op.number = number;
    let (answer, sent) = serve_all(port, &mut op, given);
    assert!(sent.len() <= 1);
    let read = |frame: &Vec<u8>| (frame[122..126].try_into().expect("a status"), frame.get(206..).unwrap_or(&[]).to_vec());
    (answer, op.reason, sent.first().map(read))
}

#[test]
fn a_read_and_a_write_are_asked_and_answered() {
    let mut port = exchanging(&NAMES);
    assert_eq!(question(&mut port), (47, [0; 6], vec![]));
    assert!(hear(&mut port, &record_call(READ, 1, 1, 0x1234, 100, &[])).is_empty());
    assert_eq!(question(&mut port), (0, [1, 1, 1, 0x1234, 1, 100], vec![]));
    // It is still asked as it was.
    assert_eq!(question(&mut port).1[0], 1);
    assert_eq!(reply(&mut port, 34, 1, b"state"), (0, 0, Some(([0; 4], b"state".to_vec()))));
    assert_eq!(question(&mut port).0, 47);
    // A repeat gets the same answer again, and asks nothing.
    let again = hear(&mut port, &record_call(READ, 1, 1, 0x1234, 100, &[]));
    assert_eq!((again.len(), &again[0][206..211]), (1, &b"state"[..]));
    assert_eq!(question(&mut port).0, 47);
    assert!(hear(&mut port, &record_call(WRITE, 2, 1, 0x1234, 3, &[7, 8, 9])).is_empty());
    assert_eq!(question(&mut port), (0, [2, 1, 1, 0x1234, 2, 0], vec![7, 8, 9]));
    assert_eq!(reply(&mut port, 35, 2, &[]).2.map(|sent| sent.0), Some([0; 4]));
    assert_eq!(question(&mut port).0, 47);
    // The longest record.
    assert!(hear(&mut port, &record_call(READ, 3, 2, 8, u32::MAX, &[])).is_empty());
    assert_eq!(question(&mut port), (0, [3, 2, 1, 8, 1, u32::MAX], vec![]));
    assert_eq!(reply(&mut port, 34, 3, &[0x5A; 1308]), (0, 0, Some(([0; 4], vec![0x5A; 1308]))));
}

#[test]
fn a_refusal_is_negative() {
    let mut port = exchanging(&NAMES);
    for (number, (operation, value, status)) in [(READ, &[][..], 0xDE), (WRITE, &[1][..], 0xDF)].into_iter().enumerate() {
        let number = number as u32 + 1;
        assert!(hear(&mut port, &record_call(operation, number as u16, 1, 0x1234, 1, value)).is_empty());
        for codes in [[0x9F, 0], [0xB0, 0], [0, 0]] {
            assert_eq!(reply(&mut port, 36, number, &codes), (44, 22, None));
        }
        assert_eq!(question(&mut port).1[0], number);
        let (answer, _, sent) = reply(&mut port, 36, number, &[0xA0 + 15 * (number as u8 - 1), 0xFF]);
        assert_eq!((answer, sent.map(|sent| sent.0)), (0, Some([status, 0x80, 0xA0 + 15 * (number as u8 - 1), 0xFF])));
    }
}

#[test]
fn answers_that_are_refused_say_why_and_change_nothing() {
    let mut port = exchanging(&NAMES);
    // Nothing is asked.
    for (what, given) in [(34, &[1, 2][..]), (35, &[]), (36, &[0xA0, 0])] {
        assert_eq!(reply(&mut port, what, 1, given), (44, 20, None));
        assert_eq!(reply(&mut port, what, 0, given), (44, 20, None));
    }
    assert!(hear(&mut port, &record_call(READ, 1, 1, 0x1234, 100, &[])).is_empty());
    // Another number, the wrong kind, and too many octets; of several reasons the first.
    let rows = [(34, 2, &[0; 9][..], 20), (35, 2, &[], 20), (36, 0, &[0, 0], 20), (35, 1, &[], 21), (34, 1, &[0; 9], 3), (34, 1, &[0; 1520], 3)];
    for (what, number, given, why) in rows {
        assert_eq!(reply(&mut port, what, number, given), (44, why, None));
        assert_eq!(question(&mut port).1, [1, 1, 1, 0x1234, 1, 100]);
    }
    assert_eq!(reply(&mut port, 34, 1, &[0; 8]).2.map(|sent| sent.1.len()), Some(8));
    // A second answer to the same call is refused.
    assert_eq!(reply(&mut port, 34, 1, &[0; 8]), (44, 20, None));
    assert!(hear(&mut port, &record_call(WRITE, 2, 1, 0x1234, 1, &[5])).is_empty());
    for (what, given, why) in [(34, &[0; 9][..], 21), (34, &[], 21), (36, &[0x9F, 9], 22)] {
        assert_eq!(reply(&mut port, what, 2, given), (44, why, None));
    }
    assert_eq!(question(&mut port), (0, [2, 1, 1, 0x1234, 2, 0], vec![5]));
    // The answer to the call before is refused, and is not given to this one.
    assert_eq!(reply(&mut port, 34, 1, &[1]), (44, 20, None));
    assert_eq!(reply(&mut port, 35, 1, &[]), (44, 20, None));
    assert_eq!(question(&mut port).1[0], 2);
}

#[test]
fn what_is_asked_ends_with_its_relation_its_submodule_and_in_time() {
    let release = "01140 01c01000000111111112222333344445555555555550001000000040000".replace(' ', "");
    let mut port = exchanging(&NAMES);
    assert!(hear(&mut port, &record_call(READ, 1, 1, 0x1234, 100, &[])).is_empty());
    assert_eq!(hear(&mut port, call(RELEASE, 9, 2, &octets(&release)).as_slice()).len(), 1);
    assert_eq!(question(&mut port).0, 47);
    assert_eq!(reply(&mut port, 34, 1, &[0; 8]), (44, 20, None));
    // A pull of its submodule, and of another one.
    let mut port = exchanging(&NAMES);
    assert!(hear(&mut port, &record_call(READ, 1, 1, 0x1234, 100, &[])).is_empty());
    for (slot, wanted) in [(2, 0), (1, 47)] {
        let mut op = asked(28);
        (op.slot, op.subslot) = (slot, 1);
        assert_eq!(serve_all(&mut port, &mut op, &[]).0, 0);
        assert_eq!(question(&mut port).0, wanted);
    }
    assert_eq!(reply(&mut port, 36, 1, &[0xA0, 0]), (44, 20, None));
}

#[test]
fn a_call_without_an_answer_is_refused_in_time() {
    // Read Implicit needs no relation, so nothing else is due.
    let mut port = exchanging(&NAMES);
    let mut op = asked(4);
    op.units = 40_000;
    while op.units != 0 {
        assert_eq!(serve_all(&mut port, &mut op, &[]).0, 0);
    }
    let mut blocks = vec![0, 9, 0, 60, 1, 0, 0, 1];
    blocks.extend([0; 20]);
    blocks.extend([0, 2, 0, 1, 0, 0, 0, 8, 0, 0, 1, 0]);
    blocks.extend([0; 24]);
    assert!(hear(&mut port, call(5, 10, 0, &blocks).as_slice()).is_empty());
    assert_eq!(question(&mut port).1, [1, 2, 1, 8, 1, 256]);
    let mut left = 64_000;
    let mut refused = Vec::new();
    while left != 0 {
        let mut due = asked(15);
        assert_eq!(serve(&mut port, &mut due, &[]), 0);
        assert!(due.due >= 1 && due.due <= left, "{} of {left}", due.due);
        assert_eq!(question(&mut port).0, 0);
        let mut op = asked(4);
        op.units = due.due;
        left -= due.due;
        let (answer, sent) = serve_all(&mut port, &mut op, &[]);
        assert_eq!((answer, op.units), (0, 0));
        refused.extend(sent.into_iter().filter(|frame| frame.get(122..126) == Some(&[0xDE, 0x80, 0xA7, 0])));
    }
    assert_eq!((refused.len(), question(&mut port).0), (1, 47));
    assert_eq!(reply(&mut port, 34, 1, &[1]), (44, 20, None));
}

#[test]
fn a_second_call_meanwhile_is_refused() {
    let mut port = exchanging(&NAMES);
    assert!(hear(&mut port, &record_call(READ, 1, 1, 0x1234, 100, &[])).is_empty());
    let busy = hear(&mut port, &record_call(READ, 2, 2, 8, 100, &[]));
    assert_eq!((busy.len(), &busy[0][122..126]), (1, &[0xDE, 0x80, 0xC2, 0][..]));
    assert_eq!(question(&mut port).1[0], 1);
}

#[test]
fn a_station_without_such_records_asks_nothing() {
    let mut port = exchanging(&[]);
    for call in [record_call(READ, 1, 1, 0x1234, 100, &[]), record_call(WRITE, 2, 1, 0x1234, 1, &[1])] {
        assert_eq!(hear(&mut port, &call).len(), 1);
        assert_eq!(question(&mut port).0, 47);
    }
}

#[test]
fn the_reference_host_hands_answers_in() {
    let mut chip = MemoryFlash::<4096>::blank();
    let answers = [Event::answer(1, b"ok"), Event::refuse(1, 0xA0, 0), Event::written(2)];
    let mut port = exchanging(&NAMES);
    for (place, answer) in answers.into_iter().enumerate() {
        let (operation, value): (u8, &[u8]) = if place == 2 { (WRITE, &[1]) } else { (READ, &[]) };
        if place != 1 {
            assert!(hear(&mut port, &record_call(operation, place as u16 + 1, 1, 0x1234, 1, value)).is_empty());
        }
        let (before, _, _) = question(&mut port);
        assert!(play(&mut port, &mut chip, &[Operation::Happens(answer), Operation::Works], &mut Dropped).is_ok());
        assert_eq!((before, question(&mut port).0), (if place == 1 { 47 } else { 0 }, 47));
    }
}
