//! Several records in one Write (MultipleWrite): each is carried out and answered for itself, in order.
use crate::Tried;
use crate::connects::{Blocks, THREE};
use crate::requests::{related, served, write};
use flash_model::Order;
use frame_codec::Bytes;
use test_stations::{WRITE, call, restart};

// I&M2, the date of installation, and I&M3, a descriptor.
const DATE: [u8; 22] = *b"\x00\x22\x00\x12\x01\x002024-05-06 07:08";
const DESCRIPTOR: [u8; 60] =
    *b"\x00\x23\x00\x38\x01\x00the second of two records                             ";

const DONE: [u8; 4] = [0; 4];
const NO_INDEX: [u8; 4] = [0xDF, 0x80, 0xB0, 0];
const FLASH_FAULT: [u8; 4] = [0xDF, 0x80, 0xB5, 5];

// A Write of these records of the access point: each its index and its octets.
fn list(sequence: u8, records: &[(u16, &[u8])]) -> Bytes {
    let mut entries = Blocks::new();
    for (number, (index, record)) in (0..).zip(records) {
        let _ = entries.try_extend_from_slice(write(number, 0, 1, *index, record).as_slice());
        while entries.len() % 4 != 0 {
            entries.push(0);
        }
    }
    let mut blocks = write(sequence, 0xFFFF, 0xFFFF, 0xE040, entries.as_slice());
    blocks.as_mut_slice()[24..28].fill(0xFF);
    call(WRITE, 7, u16::from(sequence), blocks.as_slice())
}

impl Tried {
    // A list is done, and its records have these outcomes.
    fn writes_each(&mut self, list: &Bytes, outcomes: &[[u8; 4]]) {
        self.serves(list, (1, 142 + 64 * (outcomes.len() + 1), DONE));
        let answer = self.last.as_slice()[0].as_slice()[142..].to_vec();
        assert_eq!(answer[34..36], [0xE0, 0x40]);
        for (number, outcome) in (1..).zip(outcomes) {
            let header = &answer[64 * number..64 * (number + 1)];
            assert_eq!(header[..6], [0x80, 8, 0, 60, 1, 0]);
            assert_eq!(header[44..48], *outcome);
        }
    }

    fn has_texts(&self, date: &[u8; 16], descriptor: &[u8; 25]) {
        let running = self.station.running();
        assert_eq!(running.im2.as_bytes(), date.as_slice());
        assert_eq!(&running.im3.as_bytes()[..25], descriptor.as_slice());
    }
}

// A date, a record that does not exist, and a descriptor.
fn three(sequence: u8) -> Bytes {
    list(
        sequence,
        &[(0xAFF2, &DATE), (0x7B, &[1]), (0xAFF3, &DESCRIPTOR)],
    )
}

const BLANK: [u8; 25] = [b' '; 25];

#[test]
fn a_refused_record_does_not_keep_the_next_one_from_being_stored() {
    let mut device = Tried::new(related(600, THREE));
    device.writes_each(&three(1), &[DONE, NO_INDEX, DONE]);
    let device = Tried::new(restart(device.station));
    device.has_texts(b"2024-05-06 07:08", b"the second of two records");
}

#[test]
fn the_last_of_two_dates_is_stored() {
    let mut device = Tried::new(related(600, THREE));
    let later = *b"\x00\x22\x00\x12\x01\x002025-06-07 08:09";
    device.writes_each(&list(1, &[(0xAFF2, &DATE), (0xAFF2, &later)]), &[DONE; 2]);
    let device = Tried::new(restart(device.station));
    device.has_texts(b"2025-06-07 08:09", &BLANK);
}

#[test]
fn a_list_that_is_repeated_writes_nothing() {
    let mut device = Tried::new(related(600, THREE));
    device.writes_each(&three(1), &[DONE, NO_INDEX, DONE]);
    // A further commit would fail.
    device.station.arm(Order::Fault {
        after: 0,
        mask: [0xFF; 8],
    });
    device.writes_each(&three(1), &[DONE, NO_INDEX, DONE]);
    device.writes_each(&list(2, &[(0xAFF2, &DATE)]), &[FLASH_FAULT]);
}

// The first commit makes two calls, and the second, a new base, three. The one after this many is the last that reaches the
// flash, or does not.
fn cut_after(after: u32, reaches: u8) -> Tried {
    let mut device = Tried::new(related(600, THREE));
    device.station.arm(Order::Cut {
        after,
        mask: [reaches; 8],
    });
    let _ = served(&mut device.station, &three(1));
    assert!(device.station.is_lost());
    Tried::new(restart(device.station))
}

#[test]
fn power_is_lost_in_each_call_of_a_list() {
    cut_after(0, 0xFF).has_texts(b"                ", &BLANK);
    cut_after(1, 0x00).has_texts(b"                ", &BLANK);
    cut_after(1, 0xFF).has_texts(b"2024-05-06 07:08", &BLANK);
    cut_after(2, 0xFF).has_texts(b"2024-05-06 07:08", &BLANK);
    cut_after(3, 0x00).has_texts(b"2024-05-06 07:08", &BLANK);
    cut_after(3, 0xFF).has_texts(b"2024-05-06 07:08", &BLANK);
    cut_after(4, 0x00).has_texts(b"2024-05-06 07:08", &BLANK);
    cut_after(4, 0xFF).has_texts(b"2024-05-06 07:08", b"the second of two records");
}

#[test]
fn a_fault_is_the_outcome_of_its_record_and_of_the_texts_after_it() {
    let mut device = Tried::new(related(600, THREE));
    device.station.arm(Order::Fault {
        after: 2,
        mask: [0xFF; 8],
    });
    let texts: [(u16, &[u8]); 4] = [
        (0xAFF2, &DATE),
        (0xAFF3, &DESCRIPTOR),
        (0x7B, &[1]),
        (0xAFF2, &DATE),
    ];
    device.writes_each(
        &list(1, &texts),
        &[DONE, FLASH_FAULT, NO_INDEX, FLASH_FAULT],
    );
    device.has_texts(b"2024-05-06 07:08", &BLANK);
}

#[test]
fn sixteen_records_are_written_and_seventeen_are_refused_whole() {
    let mut device = Tried::new(related(600, THREE));
    let records: [(u16, &[u8]); 16] = [(0x7B, &[]); 16];
    device.writes_each(&list(1, &records), &[NO_INDEX; 16]);
    let mut most: [(u16, &[u8]); 17] = [(0x7B, &[]); 17];
    most[0] = (0xAFF2, &DATE);
    device.serves(&list(2, &most), (1, 142, [0xDF, 0x80, 0xB1, 0]));
    device.has_texts(b"                ", &BLANK);
}

#[test]
fn a_list_without_records_is_done() {
    let mut device = Tried::new(related(600, THREE));
    device.writes_each(&list(1, &[]), &[]);
}

// The index of a list at a submodule is a record that does not exist.
#[test]
fn a_list_has_no_submodule() {
    let mut device = Tried::new(related(600, THREE));
    let written = call(WRITE, 7, 1, write(1, 0, 1, 0xE040, &[]).as_slice());
    device.serves(&written, (1, 142, NO_INDEX));
}
