//! Operations as a host in C calls them: numbers, answers, and where the reported values are.
use crate::served::{alone, booted, busy, lost, made};
use c_layout::Op;
use device_abi::{Reason, hand_out, serve};
use device_station::Port;
use std::mem::offset_of;
use test_stations::SET;

/// The header of the device.
const HEADER: &str = include_str!("../../../include/nandutable.h");

/// The lines of the header from this one on, up to the one that ends it.
pub(crate) fn lines_of(begin: &str) -> impl Iterator<Item = &'static str> {
    HEADER.lines().skip_while(move |line| !line.starts_with(begin)).skip(1).take_while(|line| !line.starts_with('}'))
}

/// An operation of this number, with nothing else in it.
pub(crate) fn asked(what: u32) -> Op {
    Op {
        what,
        slot: 0,
        subslot: 0,
        index: 0,
        number: 0,
        channel: 0,
        error: 0,
        appears: 0,
        is_good: 0,
        is_up: 0,
        is_low: 0,
        units: 0,
        due: 0,
        note: 0,
        reason: 0,
        phase: 0,
        cause: 0,
        lamp: 0,
        iops: 0,
        data_status: 0,
        count: 0,
        left_out: 0,
        commits: 0,
        status: 0,
        block_error: 0,
        alarm_type: 0,
        specifier: 0,
        structure: 0,
        sequence: 0,
        confirmed: 0,
        progress: 0,
        wanted: 0,
        read_length: 0,
        port_length: 0,
        chassis_length: 0,
        work: 0,
        more: 0,
        sector: 0,
        place: 0,
        length: 0,
        octets: [0; 1520],
    }
}

/// What it is answered with.
fn answer(port: &mut Port, what: u32) -> u32 {
    let mut op = asked(what);
    serve(port, &mut op, &[])
}

#[test]
fn before_a_start_and_behind_a_loss() {
    let mut early = made();
    let mut late = lost();
    for what in (3..37).filter(|what| *what != 7) {
        // A plug is described by 12 octets, and a refusal by two.
        let octets = vec![0; match what {
            30 => 12,
            36 => 2,
            _ => 0,
        }];
        assert_eq!(serve(&mut early, &mut asked(what), &octets), 5);
        assert_eq!(serve(&mut late, &mut asked(what), &octets), 14);
    }
    // Nothing is handed out, and the operation stays as it was.
    for (port, wanted) in [(&mut early, 5), (&mut late, 14)] {
        let (mut op, mut answer) = (asked(0), 0);
        (op.work, op.more, op.length) = (9, 8, 7);
        assert!(hand_out(port, &mut op, &mut answer).is_empty());
        assert_eq!((answer, op.work, op.more, op.length), (wanted, 9, 8, 7));
    }
}

#[test]
fn no_such_operation_sector_or_slot() {
    let mut port = made();
    for what in [0, 7, 37, u32::MAX] {
        assert_eq!(answer(&mut port, what), 10);
    }
    let mut op = asked(1);
    op.sector = 2;
    assert_eq!(serve(&mut port, &mut op, &[0xFF; 4096]), 8);
    let mut port = booted();
    for what in [5, 6, 8] {
        let mut op = asked(what);
        op.slot = 65536 + 2;
        op.subslot = 1;
        assert_eq!(serve(&mut port, &mut op, &[]), 9);
    }
    assert_eq!(answer(&mut port, 13), 15);
    assert_eq!(answer(&mut port, 22), 15);
    assert_eq!(answer(&mut port, 32), 45);
    assert_eq!(answer(&mut port, 33), 47);
    // A refusal has two codes.
    for codes in [&[][..], &[0xA0], &[0xA0, 0, 0]] {
        assert_eq!(serve(&mut port, &mut asked(36), codes), 8);
    }
}

#[test]
fn work_is_told() {
    let mut port = booted();
    let mut op = asked(3);
    assert_eq!(serve(&mut port, &mut op, &SET), 0);
    // The event says what comes first.
    assert_eq!((op.note, op.work, op.more), (0, 2, 0));
    // The first base: its sector is erased, its 437 octets are programmed after its gate's, and the gate is closed.
    for (work, more, length) in [(2, 1, 0), (1, 1, 437), (1, 3, 1), (3, 0, 60), (0, 0, 0)] {
        let (mut op, mut answer) = (asked(0), 9);
        let octets = hand_out(&mut port, &mut op, &mut answer).len();
        assert_eq!((answer, op.work, op.more, op.length, octets), (0, work, more, length, length as usize));
    }
}

// What is handed out is the frame where it lies: its octets are those of the step, and not a copy in the operation.
#[test]
fn a_frame_is_handed_out_where_it_lies() {
    let mut port = booted();
    let mut op = asked(3);
    assert_eq!(serve(&mut port, &mut op, &SET), 0);
    let begin = (&raw const port).addr();
    for _ in 0..3 {
        let _ = hand_out(&mut port, &mut op, &mut 0);
    }
    let octets = hand_out(&mut port, &mut op, &mut 0);
    // The answer to the Set goes to its sender, from the device, and is padded to the shortest frame.
    assert_eq!((octets.len(), &octets[..6], &octets[12..18]), (60, &SET[6..12], &[0x88, 0x92, 0xFE, 0xFD, 0x04, 0x01][..]));
    let place = octets.as_ptr().addr();
    assert!(begin < place && place + 60 <= begin + size_of::<Port>());
    assert_eq!(op.octets, [0; 1520]);
}

#[test]
fn an_event_without_work_tells_none() {
    let mut port = alone();
    for what in [3, 4, 16] {
        let mut op = asked_of(what, 1, 1);
        (op.work, op.units) = (3, 1000);
        assert_eq!(serve(&mut port, &mut op, &[1, 2]), 0);
        assert_eq!(op.work, 0);
    }
}

// Nothing is ever due without a relation; a refused event tells nothing.
#[test]
fn what_is_due_is_told() {
    let mut op = asked(15);
    assert_eq!(serve(&mut alone(), &mut op, &[]), 0);
    assert_eq!((op.due, op.work), (u32::MAX, 0));
    let mut op = asked(4);
    (op.units, op.due) = (9, 8);
    assert_eq!(serve(&mut busy(), &mut op, &[]), 7);
    assert_eq!((op.units, op.due, op.work), (9, 8, 0));
}

// A DCP Set of Signal lets the lamp flash for three seconds, 96,000 units. A tick says what is due after its units, also after a
// single one.
#[test]
fn a_tick_tells_what_is_due() {
    let signal: Vec<u8> = [&SET[..6], &SET[6..12], b"\x88\x92\xfe\xfd\x04\x00\0\0\0\x09\0\0\0\x08\x05\x03\0\x04\0\0\x01\0"].concat();
    let mut port = alone();
    let mut op = asked(4);
    for (units, due) in [(0, u32::MAX), (9, u32::MAX), (1, u32::MAX)] {
        op.units = units;
        assert_eq!(serve(&mut port, &mut op, &[]), 0);
        assert_eq!((op.units, op.due, op.work), (0, due, 0), "{units}");
    }
    op.what = 3;
    assert_eq!((serve(&mut port, &mut op, &signal), op.note), (0, 0));
    while !hand_out(&mut port, &mut op, &mut 0).is_empty() {}
    for (units, due) in [(0, 96_000), (1_000, 95_000), (1, 94_999), (2, 94_997), (94_996, 1), (1, u32::MAX)] {
        (op.what, op.units) = (4, units);
        assert_eq!(serve(&mut port, &mut op, &[]), 0);
        assert_eq!((op.units, op.due, op.work), (0, due, 0), "{units}");
    }
}

/// An operation of a submodule.
fn asked_of(what: u32, slot: u32, subslot: u32) -> Op {
    let mut op = asked(what);
    op.slot = slot;
    op.subslot = subslot;
    op
}

/// What the device refused: the answer 44, and the reason. What was there before stays.
const REFUSED: u32 = 44;

// A status is that of what is plugged; without a relation too. The number of `is_good` that is not 0 is good. A refused one says
// why, and no other field changes.
#[test]
fn a_status_is_given_to_what_is_plugged() {
    for (slot, subslot, is_good, answer, note, reason) in [
        (1, 1, 0, 0, 0, 8),
        (1, 1, 1, 0, 0, 8),
        (2, 1, 9, 0, 0, 8),
        (0, 1, 0, 0, 0, 8),
        (1, 2, 0, REFUSED, 5, 1),
        (9, 1, 1, REFUSED, 5, 1),
        (65536 + 1, 1, 1, 9, 5, 8),
        (1, 65536 + 1, 1, 9, 5, 8),
    ] {
        let mut op = asked_of(16, slot, subslot);
        (op.is_good, op.note, op.reason) = (is_good, 5, 8);
        assert_eq!(serve(&mut booted(), &mut op, &[]), answer, "{slot} {subslot}");
        assert_eq!((op.note, op.work, op.is_good, op.reason), (note, 0, is_good, reason), "{slot} {subslot}");
    }
}

// Without a relation each input and alarm is refused: of what is not plugged, of another length, or for want of a relation.
#[test]
fn inputs_and_alarms_without_a_relation() {
    let long = [0; 2000];
    for (what, slot, subslot, length, reason) in [
        (5, 9, 1, 2, 1),
        (5, 1, 2, 2, 1),
        (5, 1, 1, 1, 3),
        (5, 1, 1, 3, 3),
        (5, 1, 1, 1519, 3),
        (5, 1, 1, 2000, 3),
        (5, 1, 1, 2, 2),
        (5, 2, 1, 2, 3),
        (5, 2, 1, 0, 2),
        (6, 9, 1, 1, 1),
        (6, 1, 1, 33, 3),
        (6, 1, 1, 32, 2),
        (6, 1, 1, 0, 2),
    ] {
        let mut op = asked_of(what, slot, subslot);
        assert_eq!(serve(&mut booted(), &mut op, &long[..length]), REFUSED, "{what} {slot} {subslot} {length}");
        assert_eq!((op.reason, op.note, op.work, op.length), (reason, 0, 0, 0), "{what} {slot} {subslot} {length}");
    }
}

// A diagnosis is that of what is plugged, with numbers in their ranges; without a relation too. It exists until it disappears.
#[test]
fn a_diagnosis_is_given_to_what_is_plugged() {
    let mut port = booted();
    for (slot, subslot, channel, error, appears, answer, reason) in [
        (1, 1, 3, 6, 1, 0, 0),
        (1, 1, 3, 6, 9, REFUSED, 8),
        (1, 1, 3, 6, 0, 0, 0),
        (1, 1, 3, 6, 0, REFUSED, 9),
        (2, 1, 0x8000, 0xFFFF, 1, 0, 0),
        (2, 1, 0x8001, 1, 1, REFUSED, 7),
        (2, 1, 1, 0, 1, REFUSED, 7),
        (2, 1, 1, 0, 0, REFUSED, 7),
        (1, 2, 1, 1, 1, REFUSED, 1),
        (1, 2, 0x8001, 0, 1, REFUSED, 1),
        (65536 + 1, 1, 1, 1, 1, 9, 0),
        (1, 65536 + 1, 1, 1, 1, 9, 0),
        (1, 1, 65536 + 1, 1, 1, 9, 0),
        (1, 1, 1, 65536 + 1, 1, 9, 0),
    ] {
        let mut op = asked_of(19, slot, subslot);
        (op.channel, op.error, op.appears, op.note) = (channel, error, appears, 5);
        assert_eq!(serve(&mut port, &mut op, &[]), answer, "{slot} {subslot} {channel} {error} {appears}");
        let note = if answer == 0 { 0 } else { 5 };
        assert_eq!((op.note, op.work, op.reason), (note, 0, reason), "{slot} {subslot} {channel} {error} {appears}");
        assert_eq!((op.channel, op.error, op.appears), (channel, error, appears));
    }
}

// The list has room for 32.
#[test]
fn a_33rd_diagnosis_finds_no_room() {
    let mut port = booted();
    for (channel, answer, reason) in (0..32).map(|channel| (channel, 0, 0)).chain([(32, REFUSED, 10), (31, REFUSED, 8)]) {
        let mut op = asked_of(19, 1, 1);
        (op.channel, op.error, op.appears) = (channel, 1, 1);
        assert_eq!((serve(&mut port, &mut op, &[]), op.reason), (answer, reason), "{channel}");
    }
}

// ProviderState, bit 4 of DataStatus, is 0 in each frame while the application is stopped (IEC 61158-6-10, 4.7.2.1.3).
#[test]
fn a_stop_is_in_each_frame() {
    assert_eq!(answer(&mut booted(), 27), 0);
    assert_eq!(answer(&mut busy(), 27), 7);
    let mut port = crate::passed::exchanging(false);
    for (what, wanted) in [(27, 0x25), (26, 0x35)] {
        let mut op = asked(what);
        assert_eq!((serve(&mut port, &mut op, &[]), op.note, op.work), (0, 0, 0));
        let (mut op, mut answer) = (asked(4), 0);
        op.units = 32;
        assert_eq!((serve(&mut port, &mut op, &[]), op.work), (0, 3));
        let sent = hand_out(&mut port, &mut op, &mut answer);
        assert_eq!(sent[sent.len() - 2..], [wanted, 0]);
        let _ = hand_out(&mut port, &mut op, &mut answer);
        assert_eq!(op.work, 0);
    }
}

// Without a relation nobody waits for the application, and no frame was accepted.
#[test]
fn ready_and_the_provider_need_a_relation() {
    let mut op = asked(17);
    assert_eq!(serve(&mut booted(), &mut op, &[]), REFUSED);
    assert_eq!((op.reason, op.note, op.work), (2, 0, 0));
    for (slot, subslot) in [(2, 1), (9, 9), (65536 + 2, 1)] {
        let mut op = asked_of(18, slot, subslot);
        op.length = 5;
        assert_eq!(serve(&mut booted(), &mut op, &[]), 24);
        assert_eq!(op.length, 5);
    }
    for what in [16, 17, 19] {
        assert_eq!(answer(&mut busy(), what), 7);
    }
}

#[test]
fn settings_are_told() {
    let mut port = busy();
    for what in [10, 11] {
        let mut op = asked(what);
        assert_eq!(serve(&mut port, &mut op, &[]), 0);
        assert_eq!(op.length, 196);
        let name = &op.octets[190..196];
        assert!(name == b"pump-1".as_slice());
        assert!(op.octets[12..66].iter().all(|octet| *octet == b' '));
    }
}

// A blank flash takes 65,535 bases with 14 slots each; a Set takes one of these commits.
#[test]
fn commits_that_are_left_are_told() {
    for (mut port, left) in [(booted(), 983_025), (busy(), 983_024)] {
        let mut op = asked(14);
        assert_eq!(serve(&mut port, &mut op, &[]), 0);
        assert_eq!((op.commits, op.count, op.note), (left, 0, 0));
    }
}

// Each field of an operation lies where the header says: all but the octets are numbers of four octets, in this order.
#[test]
fn the_fields_are_those_of_the_header() {
    let named: Vec<&str> = lines_of("typedef struct pn_op {").filter_map(|line| line.trim().strip_prefix("uint32_t ")?.split(';').next()).collect();
    let fields = [
        ("what", offset_of!(Op, what)),
        ("slot", offset_of!(Op, slot)),
        ("subslot", offset_of!(Op, subslot)),
        ("index", offset_of!(Op, index)),
        ("number", offset_of!(Op, number)),
        ("channel", offset_of!(Op, channel)),
        ("error", offset_of!(Op, error)),
        ("appears", offset_of!(Op, appears)),
        ("is_good", offset_of!(Op, is_good)),
        ("is_up", offset_of!(Op, is_up)),
        ("is_low", offset_of!(Op, is_low)),
        ("units", offset_of!(Op, units)),
        ("due", offset_of!(Op, due)),
        ("note", offset_of!(Op, note)),
        ("reason", offset_of!(Op, reason)),
        ("phase", offset_of!(Op, phase)),
        ("cause", offset_of!(Op, cause)),
        ("lamp", offset_of!(Op, lamp)),
        ("iops", offset_of!(Op, iops)),
        ("data_status", offset_of!(Op, data_status)),
        ("count", offset_of!(Op, count)),
        ("left_out", offset_of!(Op, left_out)),
        ("commits", offset_of!(Op, commits)),
        ("status", offset_of!(Op, status)),
        ("block_error", offset_of!(Op, block_error)),
        ("alarm_type", offset_of!(Op, alarm_type)),
        ("specifier", offset_of!(Op, specifier)),
        ("structure", offset_of!(Op, structure)),
        ("sequence", offset_of!(Op, sequence)),
        ("confirmed", offset_of!(Op, confirmed)),
        ("progress", offset_of!(Op, progress)),
        ("wanted", offset_of!(Op, wanted)),
        ("read_length", offset_of!(Op, read_length)),
        ("port_length", offset_of!(Op, port_length)),
        ("chassis_length", offset_of!(Op, chassis_length)),
        ("work", offset_of!(Op, work)),
        ("more", offset_of!(Op, more)),
        ("sector", offset_of!(Op, sector)),
        ("place", offset_of!(Op, place)),
        ("length", offset_of!(Op, length)),
    ];
    assert_eq!(named.len(), fields.len());
    for (place, (name, offset)) in fields.into_iter().enumerate() {
        assert_eq!((named[place], 4 * place), (name, offset));
    }
    assert_eq!((offset_of!(Op, octets), size_of::<Op>()), (4 * named.len(), 1680));
}

#[test]
fn the_reasons_are_those_of_the_header() {
    let numbers: Vec<(&str, u32)> = lines_of("enum pn_reason {")
        .filter_map(|line| line.trim().strip_prefix("PN_WHY_")?.split_once(" = "))
        .filter_map(|(name, rest)| Some((name, rest.split([',', ' ']).next()?.parse().ok()?)))
        .collect();
    let reasons = [
        ("NOT_PLUGGED", Reason::NotPlugged),
        ("NO_RELATION", Reason::NoRelation),
        ("BAD_LENGTH", Reason::BadLength),
        ("NO_PLACE", Reason::NoPlace),
        ("NO_EXCHANGE", Reason::NoExchange),
        ("ALARM_OPEN", Reason::AlarmOpen),
        ("BAD_NUMBER", Reason::BadNumber),
        ("EXISTS", Reason::Exists),
        ("ABSENT", Reason::Absent),
        ("FULL", Reason::Full),
        ("CHANGES_WAIT", Reason::ChangesWait),
        ("TOO_EARLY", Reason::TooEarly),
        ("TOO_LATE", Reason::TooLate),
        ("ACCESS_POINT", Reason::AccessPoint),
        ("OTHER_MODULE", Reason::OtherModule),
        ("PLUGGED", Reason::IsPlugged),
        ("NO_ROOM", Reason::NoRoom),
        ("BAD_SUBMODULE", Reason::BadSubmodule),
        ("NO_PLUG", Reason::NoPlug),
        ("NOT_ASKED", Reason::NotAsked),
        ("OTHER_KIND", Reason::OtherKind),
        ("BAD_CODE", Reason::BadCode),
    ];
    assert_eq!(numbers, reasons.map(|(name, reason)| (name, reason.number())));
}
