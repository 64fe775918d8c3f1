//! The device asks its application: what is sent and when, what is kept, and what drops a question.

use asked_records::{AskedRecord, RecordName, Wanted};
use device_core::{Device, Event, Note, restart};
use flash_model::MemoryFlash;
use frame_codec::Outbox;
use pn_values::demo_identity;
use relations::{DeviceOptions, Phase};
use test_stations::{
    BLOCKS, CONNECT, CONTROL, END, PRM_END, READ, RELEASE, Station, WRITE, call, frame, plugged, response, set, set_address,
};

use crate::samples::named;

/// The operation Read Implicit.
pub(crate) const READ_IMPLICIT: u8 = 5;

/// Record 0x1234 of slot 1, which can be read and written.
pub(crate) const BOTH: RecordName = RecordName {
    slot: 1,
    subslot: 1,
    index: 0x1234,
    greatest_length: 8,
    is_readable: true,
    is_writable: true,
};

/// Record 0x20 of slot 2, which can be read.
const LONG: RecordName = RecordName {
    slot: 2,
    subslot: 1,
    index: 0x20,
    greatest_length: 1308,
    is_readable: true,
    is_writable: false,
};

/// Record 0x21 of slot 2, which can be written.
const INTO: RecordName = RecordName {
    slot: 2,
    subslot: 1,
    index: 0x21,
    greatest_length: 4,
    is_readable: false,
    is_writable: true,
};

/// I&M2, the date of installation.
const DATE: [u8; 22] = *b"\x00\x22\x00\x12\x01\x002024-05-06 07:08";

/// The header of a request of this BlockType for this many octets of a record of the relation.
pub(crate) fn header(kind: u8, slot: u16, index: u16, length: usize) -> Vec<u8> {
    let mut blocks = vec![0, kind, 0, 60, 1, 0, 0, 9];
    blocks.extend([0x11; 16]);
    blocks.extend([0; 4]);
    blocks.extend(slot.to_be_bytes());
    blocks.extend(if slot == 0xFFFF { [0xFF; 2] } else { [0, 1] });
    blocks.extend([0; 2]);
    blocks.extend(index.to_be_bytes());
    blocks.extend((length as u32).to_be_bytes());
    blocks.extend([0; 24]);
    blocks
}

/// A Read of a record.
pub(crate) fn read(name: &RecordName, length: usize) -> Vec<u8> {
    header(9, name.slot, name.index, length)
}

/// A Write of a record.
pub(crate) fn write(slot: u16, index: u16, octets: &[u8]) -> Vec<u8> {
    let mut blocks = header(8, slot, index, octets.len());
    blocks.extend(octets);
    blocks
}

/// A station whose application answers these records, with a relation whose activity timer has this factor.
fn station_with(names: &[RecordName], factor: u16) -> Station {
    station_of(names, factor, DeviceOptions::default())
}

/// The same with these options.
pub(crate) fn station_of(names: &[RecordName], factor: u16, options: DeviceOptions) -> Station {
    let started = Device::boot_named(
        demo_identity(),
        plugged(),
        options,
        named(names),
        MemoryFlash::blank(),
    );
    let mut device = started.ok().expect("it starts");
    let mut blocks = BLOCKS;
    blocks[52..54].copy_from_slice(&factor.to_be_bytes());
    assert_eq!(step(&mut device, &set_address(), Note::Done).len(), 1);
    assert_eq!(told(&mut device, CONNECT, 7, 0, &blocks)[0][122..126], [0; 4]);
    device
}

/// The same with records of each kind, and a minute.
fn station() -> Station {
    station_with(&[BOTH, LONG, INTO], 600)
}

/// A step, whose note is this one. Returns the frames that it sends.
pub(crate) fn step(device: &mut Station, event: &Event<'_>, note: Note) -> Vec<Vec<u8>> {
    let mut outbox = Outbox::new();
    assert_eq!(device.step(event, &mut outbox), note);
    outbox.as_slice().iter().map(|frame| frame.as_slice().to_vec()).collect()
}

/// A call that is handled. Returns the frames that it sends.
pub(crate) fn told(device: &mut Station, operation: u8, activity: u8, sequence: u16, blocks: &[u8]) -> Vec<Vec<u8>> {
    step(device, &frame(&call(operation, activity, sequence, blocks)), Note::Done)
}

/// The PNIOStatus of the one response.
pub(crate) fn status_in(sent: &[Vec<u8>]) -> [u8; 4] {
    assert_eq!(sent.len(), 1);
    sent[0][122..126].try_into().expect("a status")
}

/// What is asked: its number and its index.
pub(crate) fn number_and_index(device: &Station) -> Option<(u32, u16)> {
    device.asked().map(|asked| (asked.number, asked.index))
}

/// Units that pass. Returns the frames other than inputs that they send.
pub(crate) fn passed(device: &mut Station, units: u32) -> Vec<Vec<u8>> {
    let mut sent = Vec::new();
    let mut outbox = Outbox::new();
    let mut left = units;
    while left > 0 {
        let leap = device.due().min(left);
        device.elapse(leap, &mut outbox);
        let calls = outbox.as_slice().iter().map(|frame| frame.as_slice().to_vec());
        sent.extend(calls.filter(|octets| octets[12..14] == [8, 0]));
        left -= leap;
    }
    sent
}

#[test]
fn a_read_is_asked_and_answered_once() {
    let mut device = station();
    assert!(told(&mut device, READ, 7, 1, &read(&BOTH, 100)).is_empty());
    let asked = AskedRecord {
        number: 1,
        slot: 1,
        subslot: 1,
        index: 0x1234,
        wanted: Wanted::Read(100),
    };
    assert_eq!(device.asked(), Some(asked));
    // A repeat is dropped.
    assert!(told(&mut device, READ, 7, 1, &read(&BOTH, 100)).is_empty());
    assert_eq!(device.asked(), Some(asked));
    // What is no answer changes nothing.
    for answer in [
        Event::answer(2, &[1]),
        Event::answer(0, &[1]),
        Event::answer(1, &[1; 9]),
        Event::answer(1, &[1; 1600]),
        Event::written(1),
        Event::refuse(1, 0x9F, 0),
        Event::refuse(1, 0xB0, 0),
    ] {
        assert!(step(&mut device, &answer, Note::Refused).is_empty());
        assert_eq!(device.asked(), Some(asked));
    }
    let sent = step(&mut device, &Event::answer(1, &[1, 2, 3]), Note::Done);
    assert_eq!(status_in(&sent), [0; 4]);
    let blocks = &sent[0][142..];
    assert_eq!(blocks.len(), 67);
    assert_eq!(blocks[..8], [0x80, 9, 0, 60, 1, 0, 0, 9]);
    assert_eq!(blocks[34..40], [0x12, 0x34, 0, 0, 0, 3]);
    assert_eq!(blocks[64..], [1, 2, 3]);
    // It goes to the caller: its MAC address, its IP address and its port.
    assert_eq!(sent[0][..6], [2, 0, 0, 0, 0, 2]);
    assert_eq!(sent[0][30..34], [192, 168, 0, 1]);
    assert_eq!(device.asked(), None);
    // A second answer goes to nobody, and a repeat of the call gets the same frame.
    assert!(step(&mut device, &Event::answer(1, &[4]), Note::Refused).is_empty());
    assert_eq!(told(&mut device, READ, 7, 1, &read(&BOTH, 100)), sent);
    // The next question has the next number.
    assert!(told(&mut device, READ, 7, 2, &read(&LONG, 2000)).is_empty());
    assert_eq!(number_and_index(&device), Some((2, 0x20)));
    let sent = step(&mut device, &Event::answer(2, &[5; 1308]), Note::Done);
    assert_eq!(sent[0].len(), 142 + 64 + 1308);
}

#[test]
fn as_much_of_a_record_is_sent_as_was_asked_for() {
    let mut device = station();
    assert!(told(&mut device, READ, 7, 1, &read(&BOTH, 2)).is_empty());
    let sent = step(&mut device, &Event::answer(1, &[1, 2, 3]), Note::Done);
    assert_eq!(sent[0][142 + 36..142 + 40], [0, 0, 0, 2]);
    assert_eq!(sent[0][142 + 64..], [1, 2]);
}

#[test]
fn a_write_is_asked_with_its_octets() {
    let mut device = station();
    assert!(told(&mut device, WRITE, 7, 1, &write(1, 0x1234, &[9, 8, 7])).is_empty());
    let wanted = device.asked().map(|asked| asked.wanted);
    assert_eq!(wanted, Some(Wanted::Write(&[9, 8, 7])));
    assert!(step(&mut device, &Event::answer(1, &[1]), Note::Refused).is_empty());
    let sent = step(&mut device, &Event::written(1), Note::Done);
    assert_eq!(status_in(&sent), [0; 4]);
    assert_eq!(sent[0].len(), 142 + 64);
    assert_eq!(sent[0][142..148], [0x80, 8, 0, 60, 1, 0]);
    assert_eq!(told(&mut device, WRITE, 7, 1, &write(1, 0x1234, &[9, 8, 7])), sent);
}

#[test]
fn the_application_refuses_with_its_own_codes() {
    let mut device = station();
    assert!(told(&mut device, WRITE, 7, 1, &write(2, 0x21, &[1])).is_empty());
    let sent = step(&mut device, &Event::refuse(1, 0xA3, 7), Note::Done);
    assert_eq!(status_in(&sent), [0xDF, 0x80, 0xA3, 7]);
    assert_eq!(sent[0].len(), 142);
    assert!(told(&mut device, READ, 7, 2, &read(&LONG, 4)).is_empty());
    let sent = step(&mut device, &Event::refuse(2, 0xAF, 0xFF), Note::Done);
    assert_eq!(status_in(&sent), [0xDE, 0x80, 0xAF, 0xFF]);
    assert_eq!(told(&mut device, READ, 7, 2, &read(&LONG, 4)), sent);
}

#[test]
fn one_call_is_asked_at_a_time() {
    let mut device = station();
    assert!(told(&mut device, READ, 7, 1, &read(&BOTH, 8)).is_empty());
    let busy = told(&mut device, READ, 8, 1, &read(&LONG, 8));
    assert_eq!(status_in(&busy), [0xDE, 0x80, 0xC2, 0]);
    let written = told(&mut device, WRITE, 9, 1, &write(1, 0x1234, &[1]));
    assert_eq!(status_in(&written), [0xDF, 0x80, 0xC2, 0]);
    // Other records are served meanwhile, and what is asked stays.
    assert_eq!(status_in(&told(&mut device, READ_IMPLICIT, 10, 1, &header(9, 0, 0xAFF0, 1000))), [0; 4]);
    assert_eq!(number_and_index(&device), Some((1, 0x1234)));
    assert_eq!(step(&mut device, &Event::answer(1, &[1]), Note::Done).len(), 1);
    // The refusal is kept as any other answer.
    assert_eq!(told(&mut device, READ, 8, 1, &read(&LONG, 8)), busy);
    assert_eq!(device.asked(), None);
}

#[test]
fn what_may_not_be_asked_is_refused() {
    let mut device = station();
    let read_into = told(&mut device, READ, 7, 1, &read(&INTO, 8));
    assert_eq!(status_in(&read_into), [0xDE, 0x80, 0xB6, 0]);
    let written = told(&mut device, WRITE, 7, 2, &write(2, 0x20, &[1]));
    assert_eq!(status_in(&written), [0xDF, 0x80, 0xB6, 0]);
    let long = told(&mut device, WRITE, 7, 3, &write(2, 0x21, &[1; 5]));
    assert_eq!(status_in(&long), [0xDF, 0x80, 0xB1, 0]);
    // A Read that does not name the relation, and a record that nobody named, are refused as before.
    let mut other = read(&BOTH, 8);
    other[8] = 0;
    let strange = status_in(&told(&mut device, READ, 7, 4, &other));
    let mut plain = station_with(&[], 600);
    assert_eq!(status_in(&told(&mut plain, READ, 7, 4, &other)), strange);
    let unnamed = status_in(&told(&mut plain, READ, 7, 5, &read(&BOTH, 8)));
    assert_eq!(unnamed, [0xDE, 0x80, 0xB0, 0]);
    assert_eq!((device.asked(), plain.asked()), (None, None));
}

#[test]
fn a_call_without_an_answer_is_refused_after_two_seconds() {
    let mut device = station();
    assert!(told(&mut device, READ, 7, 1, &read(&BOTH, 8)).is_empty());
    assert!(passed(&mut device, 63_999).is_empty());
    assert_eq!(number_and_index(&device), Some((1, 0x1234)));
    let sent = passed(&mut device, 1);
    assert_eq!(status_in(&sent), [0xDE, 0x80, 0xA7, 0]);
    assert_eq!(device.asked(), None);
    assert!(step(&mut device, &Event::answer(1, &[1]), Note::Refused).is_empty());
    assert_eq!(told(&mut device, READ, 7, 1, &read(&BOTH, 8)), sent);
    // The next one has the whole time again.
    assert!(told(&mut device, WRITE, 7, 2, &write(1, 0x1234, &[1])).is_empty());
    assert!(passed(&mut device, 63_999).is_empty());
    assert_eq!(status_in(&passed(&mut device, 1)), [0xDF, 0x80, 0xA7, 0]);
}

#[test]
fn a_read_implicit_needs_no_relation() {
    let mut device = station();
    assert_eq!(told(&mut device, RELEASE, 7, 1, &END).len(), 1);
    assert!(told(&mut device, READ_IMPLICIT, 8, 1, &read(&BOTH, 8)).is_empty());
    assert_eq!(device.due(), 64_000);
    let mut outbox = Outbox::new();
    device.elapse(63_999, &mut outbox);
    assert!(outbox.is_empty());
    assert_eq!(device.due(), 1);
    let sent = step(&mut device, &Event::Tick, Note::Done);
    assert_eq!(status_in(&sent), [0xDE, 0x80, 0xA7, 0]);
    assert_eq!(device.due(), u32::MAX);
}

#[test]
fn an_entry_of_a_list_is_not_asked() {
    let mut device = station();
    let mut entries = write(0, 0xAFF2, &DATE);
    entries.extend([0; 2]);
    entries.extend(write(1, 0x1234, &[1, 2, 3, 4]));
    entries.extend(write(1, 0x77, &[1]));
    let mut list = write(0xFFFF, 0xE040, &entries);
    list[24..28].fill(0xFF);
    let sent = told(&mut device, WRITE, 7, 1, &list);
    assert_eq!(status_in(&sent), [0; 4]);
    let outcome = |entry: usize| &sent[0][142 + 64 * entry + 44..142 + 64 * entry + 48];
    assert_eq!(outcome(1), [0; 4]);
    assert_eq!(outcome(2), [0xDF, 0x80, 0xA9, 0]);
    assert_eq!(outcome(3), [0xDF, 0x80, 0xB0, 0]);
    assert_eq!(device.asked(), None);
    assert_eq!(device.running().im2.as_bytes(), b"2024-05-06 07:08".as_slice());
}

#[test]
fn the_end_of_the_relation_drops_what_it_asked() {
    let mut device = station();
    assert!(told(&mut device, READ, 7, 1, &read(&BOTH, 8)).is_empty());
    assert_eq!(told(&mut device, RELEASE, 7, 2, &END).len(), 1);
    assert_eq!((device.phase(), device.asked()), (None, None));
    assert!(step(&mut device, &Event::answer(1, &[1]), Note::Refused).is_empty());
    // A Release that is refused drops nothing.
    let mut device = station();
    assert!(told(&mut device, READ, 7, 1, &read(&BOTH, 8)).is_empty());
    let mut other = END;
    other[8] = 0;
    assert_eq!(told(&mut device, RELEASE, 7, 2, &other).len(), 1);
    assert_eq!(number_and_index(&device), Some((1, 0x1234)));
    // A Read Implicit is of no relation.
    let mut device = station();
    assert!(told(&mut device, READ_IMPLICIT, 8, 1, &read(&BOTH, 8)).is_empty());
    assert_eq!(told(&mut device, RELEASE, 7, 1, &END).len(), 1);
    assert_eq!(number_and_index(&device), Some((1, 0x1234)));
    assert_eq!(step(&mut device, &Event::answer(1, &[1]), Note::Done).len(), 1);
}

/// The frame by which the controller ends a relation: ERR with RTA_ERR_CLS_PROTOCOL and code 5, to endpoint 1 of the device.
const ENDED: [u8; 36] = *b"\x02\x00\x00\x00\x00\x01\x02\x00\x00\x00\x00\x02\x81\x00\xa0\x00\x88\x92\xfe\x01\
    \x00\x01\x00\x01\x14\x01\xff\xff\xff\xfe\x00\x04\xcf\x81\xfd\x05";

/// ResetToFactory of the communication.
const RESET: [u8; 36] = *b"\x02\x00\x00\x00\x00\x01\x02\x00\x00\x00\x00\x02\x88\x92\xfe\xfd\x04\x00\x00\x00\x00\x02\x00\x00\x00\x06\
    \x05\x06\x00\x02\x00\x04\0\0\0\0";

/// The answer to ApplicationReady that refuses it.
fn refusal() -> Vec<u8> {
    let mut bytes = response();
    for (place, value) in [(122, 0xDD), (123, 0x81), (124, 0x40), (125, 0x06)] {
        set(&mut bytes, place, value);
    }
    bytes.as_slice().to_vec()
}

/// A station whose parameters have ended: it waits for the answer to ApplicationReady, or exchanges data.
fn with_parameters(phase: Phase) -> Station {
    let mut device = station();
    assert_eq!(told(&mut device, CONTROL, 7, 1, &PRM_END).len(), 2);
    if phase == Phase::Exchanging {
        step(&mut device, &frame(&response()), Note::Done);
    }
    assert_eq!(device.phase(), Some(phase));
    device
}

#[test]
fn each_end_of_a_relation_drops_what_it_asked() {
    let ends = [
        (Phase::Awaiting, refusal()),
        (Phase::Awaiting, ENDED.to_vec()),
        (Phase::Exchanging, ENDED.to_vec()),
        (Phase::Exchanging, RESET.to_vec()),
        (Phase::Exchanging, Vec::new()),
    ];
    for (number, (phase, end)) in ends.iter().enumerate() {
        let mut device = with_parameters(*phase);
        assert!(told(&mut device, READ, 7, 2, &read(&BOTH, 8)).is_empty());
        assert_eq!(number_and_index(&device), Some((1, 0x1234)));
        if end.is_empty() {
            // No cyclic frame of the controller arrives: the data hold time.
            passed(&mut device, 3_200);
        } else {
            step(&mut device, &frame(end), Note::Done);
        }
        assert_eq!((device.phase(), device.asked()), (None, None), "the end {number}");
        assert!(step(&mut device, &Event::answer(1, &[1]), Note::Refused).is_empty());
        // Nothing is sent of it later either.
        assert!(passed(&mut device, 64_000).is_empty());
    }
}

#[test]
fn a_question_does_not_keep_a_relation_alive_and_an_answer_does() {
    let mut device = station_with(&[BOTH], 1);
    passed(&mut device, 2_000);
    assert!(told(&mut device, READ, 7, 1, &read(&BOTH, 8)).is_empty());
    passed(&mut device, 1_199);
    assert_eq!(device.phase(), Some(Phase::Started));
    passed(&mut device, 1);
    assert_eq!((device.phase(), device.asked()), (None, None));
    for (answer, phase) in [
        (Event::answer(1, &[1]), Some(Phase::Started)),
        (Event::refuse(1, 0xA0, 0), None),
    ] {
        let mut device = station_with(&[BOTH], 1);
        assert!(told(&mut device, READ, 7, 1, &read(&BOTH, 8)).is_empty());
        passed(&mut device, 3_000);
        assert_eq!(step(&mut device, &answer, Note::Done).len(), 1);
        passed(&mut device, 3_199);
        assert_eq!(device.phase(), phase);
    }
}

#[test]
fn a_pull_drops_what_is_asked_of_the_place() {
    for (pull, asked) in [
        (Event::pull(1, 1), None),
        (Event::pull_module(1), None),
        (Event::pull(2, 1), Some((1, 0x1234))),
    ] {
        let mut device = station();
        assert!(told(&mut device, READ, 7, 1, &read(&BOTH, 8)).is_empty());
        assert!(step(&mut device, &pull, Note::Done).is_empty());
        assert_eq!(number_and_index(&device), asked);
        let note = if asked.is_some() { Note::Done } else { Note::Refused };
        assert_eq!(step(&mut device, &Event::answer(1, &[1]), note).len(), usize::from(asked.is_some()));
    }
}

#[test]
fn a_late_answer_does_not_replace_that_to_a_later_call() {
    let mut device = station();
    assert!(told(&mut device, READ, 7, 1, &read(&BOTH, 8)).is_empty());
    let later = told(&mut device, READ, 7, 2, &header(9, 0, 0xAFF0, 1000));
    assert_eq!(status_in(&later), [0; 4]);
    // The question is answered, but its caller has gone on.
    assert!(step(&mut device, &Event::answer(1, &[1]), Note::Done).is_empty());
    assert_eq!(device.asked(), None);
    assert_eq!(told(&mut device, READ, 7, 2, &header(9, 0, 0xAFF0, 1000)), later);
    assert!(step(&mut device, &frame(&call(READ, 7, 1, &read(&BOTH, 8))), Note::OldCall).is_empty());
}

#[test]
fn names_stay_over_a_restart_and_questions_do_not() {
    let mut device = station();
    assert!(told(&mut device, READ, 7, 1, &read(&BOTH, 8)).is_empty());
    let mut device = restart(device, |flash| flash).ok().expect("it starts");
    assert_eq!(device.named(), [BOTH, LONG, INTO]);
    assert_eq!(device.asked(), None);
    assert!(step(&mut device, &Event::answer(1, &[1]), Note::Refused).is_empty());
    assert!(told(&mut device, READ_IMPLICIT, 7, 1, &read(&BOTH, 8)).is_empty());
    assert_eq!(number_and_index(&device), Some((1, 0x1234)));
}
