//! A whole new Write to the running address is answered in its step, with a status of its own and one for its record, and so is a whole Read
//! Implicit at a device that does not store the answers to these, new or repeated (`octets_law::step`: `owed`).
use device_core::{Device, Event, Octets};
use frame_codec::{Bytes, Outbox};
use pn_values::demo_identity;
use relations::{DeviceOptions, Phase};
use test_stations::{BLOCKS, CONNECT, Station, WRITE, addressed, call, no_modules};

/// The running address of the station.
const ADDRESS: [u8; 4] = [192, 168, 0, 2];

fn number(octets: &[u8], at: usize, size: usize) -> u64 {
    octets.iter().skip(at).take(size).fold(0, |number, octet| number << 8 | u64::from(*octet))
}

/// The operation of a Read Implicit.
const READ_IMPLICIT: u8 = 5;

/// Whether a frame is a whole call of this operation to this device, by its lengths and counts. (Its checksum is that of `call`.)
fn is_call(operation: u8, frame: &[u8]) -> bool {
    let body = frame.get(42..).unwrap_or(&[]);
    frame[..6] == [2, 0, 0, 0, 0, 1]
        && number(frame, 12, 2) == 0x0800
        && frame[30..34] == ADDRESS
        && number(frame, 36, 2) == 34_964
        && number(body, 0, 2) == 0x0400
        && number(body, 68, 2) == u64::from(operation)
        && 80 + number(body, 74, 2) <= body.len() as u64
        && number(body, 84, 4) + 20 <= number(body, 74, 2)
        && number(body, 84, 4) == number(body, 96, 4)
}

/// The statuses with which frames answer a call: its own, and that of its record.
fn statuses(call: &[u8], sent: &[Vec<u8>]) -> Vec<u64> {
    let name = |frame: &[u8]| (number(frame, 42 + 64, 4), frame.get(82..98).map(<[u8]>::to_vec));
    let answers = sent.iter().filter(|frame| number(frame, 12, 2) == 0x0800 && number(frame, 42, 2) == 0x0402 && name(frame) == name(call));
    answers.map(|frame| number(frame, 42 + 80, 4)).collect()
}

/// Whether the law holds of a step: a frame that came to a device that has stored no answer to its activity, and the frames then sent.
fn holds(came: &[u8], sent: &[Vec<u8>]) -> bool {
    !is_call(WRITE, came) || !statuses(came, sent).is_empty()
}

/// The same of a device that stores no answers to Read Implicit, whatever it has stored.
fn holds_of_reads(came: &[u8], sent: &[Vec<u8>]) -> bool {
    !is_call(READ_IMPLICIT, came) || !statuses(came, sent).is_empty()
}

fn stepped(device: &mut Station, bytes: &Bytes) -> Vec<Vec<u8>> {
    let mut outbox = Outbox::new();
    device.step(&Event::Frame(Octets::of(bytes)), &mut outbox);
    outbox.as_slice().iter().map(|frame| frame.as_slice().to_vec()).collect()
}

/// A Write of one octet to a record that the relation has, or not.
fn write(index: u8) -> Bytes {
    let header = [
        &[0, 8, 0, 60, 1, 0, 0, 2][..],
        &[0x11; 16],
        &[0, 0, 0, 0, 0, 1, 0, 1, 0, 0, 0, index, 0, 0, 0, 1],
        &[0; 24],
        &[7],
    ];
    call(WRITE, 9, 3, &header.concat())
}

/// A device with a relation.
fn related() -> Station {
    let mut device = addressed().expect("a station");
    stepped(&mut device, &call(CONNECT, 7, 1, &BLOCKS));
    assert_eq!(device.phase(), Some(Phase::Started));
    device
}

// Also of one that no relation has asked for, and of a record that is refused.
#[test]
fn it_holds_of_steps() {
    for index in [1, 9] {
        let came = write(index);
        assert!(is_call(WRITE, came.as_slice()));
        let mut without = addressed().expect("a station");
        for device in [&mut related(), &mut without] {
            let sent = stepped(device, &came);
            assert_eq!(statuses(came.as_slice(), &sent).len(), 1);
            assert!(holds(came.as_slice(), &sent));
        }
    }
}

// It is answered in no step, by an answer to another call, or by a call.
#[test]
fn a_write_that_is_not_answered() {
    let came = write(1);
    let sent = stepped(&mut related(), &came);
    assert!(holds(came.as_slice(), &sent));
    assert!(!holds(came.as_slice(), &[]));
    for (place, octet) in [(42 + 67, 77), (85, 77), (43, 0)] {
        let mut other = sent.clone();
        other[0][place] = octet;
        assert!(!holds(came.as_slice(), &other), "place {place}");
    }
}

/// A Read Implicit of I&M0 with a number.
fn read(activity: u8, sequence: u16) -> Bytes {
    let header = [&[0, 9, 0, 60, 1, 0, 0, 0][..], &[0; 20], &[0, 0, 0, 1, 0, 0, 0xAF, 0xF0, 0, 0, 0, 64], &[0; 24]];
    call(READ_IMPLICIT, activity, sequence, &header.concat())
}

// Repeated, outdated, and with the activity of a Write that was answered; a device that stores these answers leaves the outdated one.
#[test]
fn each_read_is_answered_where_none_is_stored() {
    let options = DeviceOptions { reads_not_kept: true, ..DeviceOptions::default() };
    let flash = addressed().expect("a station").into_flash();
    let mut device: Station = Device::boot_with(demo_identity(), no_modules(), options, flash).ok().expect("a station");
    let mut stores = addressed().expect("a station");
    for device in [&mut device, &mut stores] {
        assert_eq!(stepped(device, &write(1)).len(), 1);
    }
    for (activity, sequence) in [(7, 2), (7, 2), (7, 1), (9, 3), (9, 2)] {
        let came = read(activity, sequence);
        assert!(is_call(READ_IMPLICIT, came.as_slice()));
        let sent = stepped(&mut device, &came);
        assert_eq!(statuses(came.as_slice(), &sent).len(), 1, "{activity} {sequence}");
        assert!(holds_of_reads(came.as_slice(), &sent));
        let is_owed = holds_of_reads(came.as_slice(), &stepped(&mut stores, &came));
        assert_eq!(is_owed, (activity, sequence) != (7, 1) && (activity, sequence) != (9, 2));
    }
}
