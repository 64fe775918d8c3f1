//! The log of a device: what ends a relation and what refuses a Connect, and that the last sixteen are kept.
use crate::Tried;
use crate::connects::{THREE, connect};
use crate::requests::{exchanging, related, write};
use device_core::{Event, Note};
use relations::Phase;
use test_stations::{CONNECT, END, RELEASE, call, frame, restart};

/// Operation of a Read Implicit.
const READ_IMPLICIT: u8 = 5;

/// The ERR of a controller, with PNIOStatus CF 81 FD 0A and one more octet.
const ENDED: [u8; 37] =
    *b"\x02\x00\x00\x00\x00\x01\x02\x00\x00\x00\x00\x02\x81\x00\xa0\x00\x88\x92\xfe\x01\
    \x00\x01\x00\x01\x14\x01\xff\xff\xff\xfe\x00\x05\xcf\x81\xfd\x0a\xee";

/// The time, the last octet of ARUUID and PNIOStatus of each entry of the log, the oldest first.
fn entries(device: &mut Tried, sequence: u8) -> Vec<(u64, u8, [u8; 4])> {
    let mut blocks = write(sequence, 0, 1, 0xF830, &[]);
    blocks.as_mut_slice()[1] = 9;
    // RecordDataLength
    blocks.as_mut_slice()[38] = 0x10;
    device.notes(&frame(call(READ_IMPLICIT, 9, u16::from(sequence), blocks.as_slice()).as_slice()), Note::Done);
    let sent = device.last.as_slice().first().map_or(&[][..], |sent| sent.as_slice());
    let (head, entries) = sent[206..].split_at(16);
    assert_eq!(head[..2], [0x00, 0x19]);
    let count = usize::from(head[15]);
    assert_eq!(usize::from(u16::from_be_bytes([head[2], head[3]])), 12 + 32 * count);
    let found = entries[..32 * count].chunks_exact(32).map(|entry| {
        let mut time = [0; 8];
        time.copy_from_slice(&entry[..8]);
        assert_eq!(entry[28..], [0; 4]);
        (u64::from_be_bytes(time), entry[23], [entry[24], entry[25], entry[26], entry[27]])
    });
    found.collect()
}

/// Lets units pass until there is no relation, and counts them.
fn units_to_the_end(device: &mut Tried) -> u64 {
    let mut units = 0;
    while device.station.phase().is_some() {
        device.notes(&Event::Tick, Note::Done);
        units += 1;
    }
    units
}

#[test]
fn a_silent_controller_is_logged() {
    for (station, reason) in [(exchanging(), 5), (related(1, THREE), 6)] {
        let mut device = Tried::new(station);
        let units = units_to_the_end(&mut device);
        assert_eq!(entries(&mut device, 1), [(units, 0x11, [0xCF, 0x81, 0xFD, reason])]);
    }
}

#[test]
fn an_err_and_a_release_of_the_controller_are_logged() {
    let mut device = Tried::new(exchanging());
    device.passes(31, 0);
    device.notes(&frame(&ENDED), Note::Done);
    device.is_at(None);
    assert_eq!(entries(&mut device, 1), [(31, 0x11, [0xCF, 0x81, 0xFD, 0x0A])]);
    let mut device = Tried::new(related(600, THREE));
    device.notes(&frame(call(RELEASE, 7, 1, &END).as_slice()), Note::Done);
    device.is_at(None);
    // A Release that is answered again, and one that is refused, ended nothing.
    device.notes(&frame(call(RELEASE, 7, 1, &END).as_slice()), Note::Done);
    device.notes(&frame(call(RELEASE, 7, 2, &END).as_slice()), Note::Done);
    assert_eq!(entries(&mut device, 1), [(0, 0x11, [0; 4])]);
}

#[test]
fn the_last_sixteen_are_kept_and_a_restart_forgets_them() {
    let mut device = Tried::new(related(600, THREE));
    for number in 1..=17 {
        let mut blocks = connect(0x11, 600, THREE);
        blocks.as_mut_slice()[23] = number;
        let refused = call(CONNECT, 8, u16::from(number), blocks.as_slice());
        device.notes(&frame(refused.as_slice()), Note::Done);
        // The kept answer goes out again, and is not logged again.
        device.notes(&frame(refused.as_slice()), Note::Done);
    }
    device.is_at(Some(Phase::Started));
    let found = entries(&mut device, 1);
    let wanted: Vec<_> = (2..=17).map(|number| (0, number, [0xDB, 0x81, 0x40, if number == 0x11 { 6 } else { 4 }])).collect();
    assert_eq!(found, wanted);
    let mut device = Tried::new(restart(device.station));
    assert_eq!(entries(&mut device, 1), []);
}
