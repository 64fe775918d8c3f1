//! Broken answers to ApplicationReady. Behind each the right one still counts.

use super::frames::{NUMBERS, bent};
use super::stations::{at, is_in, is_noted, is_untouched};
use device_core::Note;
use frame_codec::Bytes;
use relations::Phase;
use test_stations::{mend, response, shortened};

// A broken answer, and then the right one.
fn are_heard(broken: &Bytes) {
    let mut device = at(Some(Phase::Awaiting));
    is_noted(&mut device, broken, Note::Fault);
    is_in(&device, Some(Phase::Awaiting));
    is_noted(&mut device, &response(), Note::Done);
    is_in(&device, Some(Phase::Exchanging));
}

// Cut within its headers, and within its block, with the lengths around lowered to what is there.
#[test]
fn answers_cut_with_their_lengths() {
    let whole = response();
    let mut device = at(Some(Phase::Awaiting));
    for length in 0..whole.len() {
        let part = shortened(whole.as_slice(), length);
        is_noted(&mut device, &part, Note::Fault);
    }
    is_untouched(device, Some(Phase::Awaiting));
    for length in 142..whole.len() {
        are_heard(&shortened(whole.as_slice(), length));
    }
}

// The lengths of IPv4, of UDP and of RPC, and ArgsLength, Offset, ActualCount and BlockLength, each alone.
#[test]
fn lengths_of_answers() {
    let whole = response();
    for (place, size) in [
        (16, 2),
        (38, 2),
        (116, 2),
        (126, 4),
        (134, 4),
        (138, 4),
        (144, 2),
    ] {
        for number in NUMBERS {
            let mut other = bent(whole.as_slice(), place, size, number);
            mend(&mut other);
            if other.as_slice() != whole.as_slice() {
                are_heard(&other);
            }
        }
    }
}

// ArgsLength and ActualCount alike.
#[test]
fn counts_of_answers() {
    let whole = response();
    for number in NUMBERS {
        let other = bent(whole.as_slice(), 126, 4, number);
        are_heard(&bent(other.as_slice(), 138, 4, number));
    }
}
