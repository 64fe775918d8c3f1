//! Broken calls of each operation.

use super::frames::{ASKED, BLOCKS, CALLS, GIVEN, NUMBERS, bent, call};
use super::stations::{at, front, is_in, is_noted, is_served, is_untouched, takes};
use device_core::Note;
use frame_codec::{Bytes, Outbox};
use relations::Phase;
use test_stations::{CONNECT, CONTROL, PRM_END, READ, Station, WRITE, frame, mend, shortened};

/// A call is a fault that ends in front of its end, or within its headers.
fn is_cut(device: &mut Station, whole: &[u8]) {
    for length in 0..whole.len() {
        is_noted(device, &front(whole, length), Note::Fault);
    }
    for length in 0..142 {
        is_noted(device, &shortened(whole, length), Note::Fault);
    }
}

// Cut at each length, with all lengths as they were; and cut within the headers, with the lengths lowered to what is there.
#[test]
fn calls_cut_short() {
    let mut device = at(Some(Phase::Exchanging));
    for (operation, _, blocks) in CALLS {
        is_cut(&mut device, call(operation, 9, blocks).as_slice());
    }
    is_untouched(device, Some(Phase::Exchanging))
}

// The status of a call whose blocks are cut at a length: there is no block, no whole one, or a record shorter than RecordDataLength.
fn status_of_cut(code: u8, length: usize) -> [u8; 4] {
    match length {
        0 => [code, 0x81, 0x40, 1],
        64.. => [code, 0x80, 0xB1, 0],
        _ => [code, 0x81, 0x40, 0],
    }
}

fn are_refused_cut(
    device: &mut Station,
    (operation, code, blocks): (u8, u8, &[u8]),
    sequence: &mut u16,
) {
    for length in 0..blocks.len() {
        let part = blocks.get(..length).expect("is longer");
        let part = call(operation, *sequence, part);
        is_served(device, &part, (142, status_of_cut(code, length)));
        *sequence = sequence.wrapping_add(1);
    }
}

// Cut within their blocks, with the lengths lowered.
#[test]
fn blocks_cut_short() {
    let mut device = at(Some(Phase::Started));
    let mut sequence: u16 = 1;
    for (operation, code, blocks) in CALLS {
        if operation != CONNECT {
            are_refused_cut(&mut device, (operation, code, blocks), &mut sequence);
        }
    }
    is_as_it_was(&device)
}

// The relation is where it was, and no date is stored.
fn is_as_it_was(device: &Station) {
    is_in(device, Some(Phase::Started));
    assert_eq!(device.running().im2.as_bytes(), [b' '; 16].as_slice());
}

// The end of each block of a Connect; ErrorCode1 of its fields; and both codes where the blocks end in front of it: there is no
// ARBlockReq, or nothing is expected (which comes before a missing IOCR or AlarmCR), or not each submodule that has an object.
const ENDS: [(usize, u8, [u8; 2]); 7] = [
    (61, 1, [0x40, 1]),
    (145, 2, [0x40, 1]),
    (229, 2, [0x40, 1]),
    (255, 4, [0x40, 1]),
    (319, 3, [0x40, 1]),
    (355, 3, [2, 0x17]),
    (391, 3, [2, 0x17]),
];

// Both codes of a Connect whose blocks end after this many octets.
fn codes_of_connect(length: usize) -> [u8; 2] {
    let mut first: usize = 0;
    for (end, code, missing) in ENDS {
        if length < end {
            return match length.saturating_sub(first) {
                0 => missing,
                1..4 => [0x40, 0],
                _ => [code, 1],
            };
        }
        first = end;
    }
    [0, 0]
}

#[test]
fn connects_cut_short() {
    let mut device = at(None);
    let mut sequence: u16 = 1;
    for length in 0..BLOCKS.len() {
        let part = call(CONNECT, sequence, BLOCKS.get(..length).expect("is longer"));
        let [code, other] = codes_of_connect(length);
        is_served(&mut device, &part, (142, [0xDB, 0x81, code, other]));
        sequence = sequence.wrapping_add(1);
    }
    is_in(&device, None);
}

/// A call is a fault with each other number at a place.
fn is_bound(device: &mut Station, whole: &[u8], place: usize) {
    for number in NUMBERS {
        let mut other = bent(whole, place, 2, number);
        mend(&mut other);
        is_noted(device, &other, Note::Fault);
    }
}

// The lengths of IPv4, of UDP and of RPC in a call of each operation: where one is another, the call cannot be read.
#[test]
fn lengths_around_calls() {
    let mut device = at(Some(Phase::Exchanging));
    for (operation, _, blocks) in CALLS {
        let whole = call(operation, 9, blocks);
        for place in [16, 38, 116usize] {
            is_bound(&mut device, whole.as_slice(), place);
        }
    }
    is_untouched(device, Some(Phase::Exchanging))
}

// ArgsLength, ActualCount and BlockLength of a call of each operation: an answer without blocks, with ErrorCode1 and ErrorCode2 of a
// Connect's first block, or those of all other calls.
#[test]
fn counts_in_calls() {
    let mut device = at(Some(Phase::Started));
    let mut sequence: u16 = 1;
    for number in NUMBERS {
        for (place, size) in [(126, 4), (138, 4), (144, 2)] {
            for (operation, code, blocks) in CALLS {
                let wanted = if operation == CONNECT && place == 144 {
                    [code, 0x81, 1, 1]
                } else {
                    [code, 0x81, 0x40, 0]
                };
                let whole = call(operation, sequence, blocks);
                let other = bent(whole.as_slice(), place, size, number);
                is_served(&mut device, &other, (142, wanted));
                sequence = sequence.wrapping_add(1);
            }
        }
    }
    is_as_it_was(&device)
}

// ArgsLength and ActualCount alike: there is no block, one octet of a block, or less than they say.
#[test]
fn counts_alike() {
    let mut device = at(Some(Phase::Started));
    let mut sequence: u16 = 1;
    for (number, wanted) in NUMBERS.into_iter().zip([1u8, 0, 0]) {
        for (operation, code, blocks) in CALLS {
            let whole = call(operation, sequence, blocks);
            let other = bent(whole.as_slice(), 126, 4, number);
            let other = bent(other.as_slice(), 138, 4, number);
            is_served(&mut device, &other, (142, [code, 0x81, 0x40, wanted]));
            sequence = sequence.wrapping_add(1);
        }
    }
    is_as_it_was(&device)
}

// RecordDataLength: that of a Write must be the record's own. A Read gives no more octets of the record than that.
#[test]
fn lengths_of_records() {
    let mut device = at(Some(Phase::Started));
    let mut sequence: u16 = 1;
    for (number, read) in NUMBERS.into_iter().zip([0, 1, 22usize]) {
        let written = call(WRITE, sequence, &GIVEN);
        let written = bent(written.as_slice(), 178, 4, number);
        is_served(&mut device, &written, (142, [0xDF, 0x80, 0xB1, 0]));
        let asked = call(READ, sequence.wrapping_add(1), &ASKED);
        let asked = bent(asked.as_slice(), 178, 4, number);
        is_served(&mut device, &asked, (read.saturating_add(206), [0; 4]));
        sequence = sequence.wrapping_add(2);
    }
    is_as_it_was(&device)
}

// What serves a call of an operation, the code of its negative answers, its blocks, and the octets of its positive answer.
const SERVED: [(Option<Phase>, u8, u8, &[u8], usize); 3] = [
    (None, CONNECT, 0xDB, &BLOCKS, 212),
    (Some(Phase::Started), WRITE, 0xDF, &GIVEN, 206),
    (Some(Phase::Started), CONTROL, 0xDD, &PRM_END, 174),
];

// Where Offset is not 0 the blocks are not counted well.
#[test]
fn offsets_of_blocks() {
    for (phase, operation, code, blocks, length) in SERVED {
        let whole = call(operation, 2, blocks);
        for number in NUMBERS {
            let mut device = at(phase);
            let other = bent(whole.as_slice(), 134, 4, number);
            let wanted = if number == (0, 0) {
                (length, [0; 4])
            } else {
                (142, [code, 0x81, 0x40, 0])
            };
            is_served(&mut device, &other, wanted);
        }
    }
}

/// A call in this phase has a positive answer of this many octets, which repeats the ArgsMaximum of the call.
fn is_answered(phase: Option<Phase>, bytes: &Bytes, length: usize) {
    let mut device = at(phase);
    let mut outbox = Outbox::new();
    takes(&mut device, &frame(bytes.as_slice()), &mut outbox);
    let sent = outbox.as_slice().first().expect("is answered");
    assert_eq!(sent.len(), length);
    assert_eq!(sent.as_slice().get(122..126), Some([0; 4].as_slice()));
    assert_eq!(sent.as_slice().get(130..134), bytes.get(122..126));
}

// MaximumCount says nothing to the device, and ArgsMaximum only what the answer repeats in the place of MaximumCount.
#[test]
fn room_for_the_answer() {
    for (phase, operation, _, blocks, length) in SERVED {
        let whole = call(operation, 2, blocks);
        for place in [122, 130usize] {
            for number in NUMBERS {
                let other = bent(whole.as_slice(), place, 4, number);
                is_answered(phase, &other, length);
            }
        }
    }
}
