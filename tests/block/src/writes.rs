//! Records that are written within a relation, octet by octet.

use super::reads::{Asked, plugged};
use super::records::IM2;
use super::statuses::told;
use arrayvec::ArrayVec;
use wire::Uuid;
use pn_values::{Command, Settings};
use records::{
    CallFault, Effect, Operation, TakenRecord, TakenRecords, Write, Writing, judge_write,
    put_write_answer,
};

/// Parameter record 1 of the submodule in slot 2, subslot 2, which takes four octets.
const GOOD: Asked = Asked {
    kind: 0x0008,
    version: 1,
    api: 0,
    slot: 2,
    subslot: 2,
    index: 1,
    length: 4,
};

/// I&M2 of the access point.
const DATE: Asked = Asked {
    slot: 0,
    subslot: 1,
    index: 0xAFF2,
    length: 22,
    ..GOOD
};

/// What a Write asks for while a relation is active. All octets of its ARUUID are `relation`. The octets `behind` follow the header.
fn judged_in(relation: u8, asked: Asked, behind: &[u8]) -> Result<Write, CallFault> {
    let mut call: ArrayVec<u8, 256> = ArrayVec::new();
    let _ = call.try_extend_from_slice(&asked.octets());
    let _ = call.try_extend_from_slice(behind);
    let uuid = Uuid::from_bytes([relation; 16]);
    one(judge_write(call.as_slice(), Some(&uuid), &plugged()))
}

/// What a Write of one record asks for.
fn one(judged: Result<Writing<'_>, CallFault>) -> Result<Write, CallFault> {
    match judged? {
        Writing::One(write) => Ok(write),
        Writing::Each(..) => panic!("a list of records"),
    }
}

/// The status by which a Write is refused while this relation is active. `None` if it is accepted.
fn refused_in(relation: u8, asked: Asked, behind: &[u8]) -> Option<[u8; 4]> {
    Some(told(
        Operation::Write,
        judged_in(relation, asked, behind).err()?,
    ))
}

/// The same within its own relation.
fn refused(asked: Asked, behind: &[u8]) -> Option<[u8; 4]> {
    refused_in(7, asked, behind)
}

/// The parameter record that a Write asks to keep.
fn kept(asked: Asked, behind: &[u8]) -> Option<TakenRecord> {
    match judged_in(7, asked, behind).ok()?.effect {
        Effect::Keeps(taken) => Some(taken),
        Effect::Stores(_value) => None,
    }
}

/// The settings of the factory with the text that a Write asks to store.
fn stored(asked: Asked, behind: &[u8]) -> Option<Settings> {
    match judged_in(7, asked, behind).ok()?.effect {
        Effect::Stores(value) => Some(Command::SetIm(value).show(Settings::factory())),
        Effect::Keeps(_taken) => None,
    }
}

/// The status by which a Write of four octets is answered at this place.
fn refused_at(slot: u16, subslot: u16, index: u16) -> Option<[u8; 4]> {
    let asked = Asked {
        slot,
        subslot,
        index,
        ..GOOD
    };
    refused(asked, &[0; 4])
}

/// The octets of a status: no such place, no such Index there, a record that is not written, another relation, another length,
/// and a record too many.
const NO_PLACE: [u8; 4] = [0xDF, 0x80, 0xB2, 0x00];

const NO_INDEX: [u8; 4] = [0xDF, 0x80, 0xB0, 0x00];

const NO_ACCESS: [u8; 4] = [0xDF, 0x80, 0xB6, 0x00];

const NO_RELATION: [u8; 4] = [0xDF, 0x81, 0x40, 0x05];

const OTHER_LENGTH: [u8; 4] = [0xDF, 0x80, 0xB1, 0x00];

const TOO_MANY: [u8; 4] = [0xDF, 0x80, 0xB5, 0x06];

#[test]
fn refuses_what_is_not_written_there() {
    assert_eq!(refused_at(1, 1, 0xAFF1), Some(NO_INDEX));
    assert_eq!(refused_at(0, 1, 0xAFF0), Some(NO_ACCESS));
    assert_eq!(refused_at(9, 9, 0xF840), Some(NO_ACCESS));
    assert_eq!(refused_at(9, 9, 0xE002), Some(NO_ACCESS));
    assert_eq!(refused_at(9, 9, 0xAFF0), Some(NO_PLACE));
    assert_eq!(refused_at(2, 1, 1), Some(NO_INDEX));
}

/// The status by which a Write is answered while no relation is active.
fn refused_alone() -> Option<[u8; 4]> {
    Some(told(
        Operation::Write,
        one(judge_write(&GOOD.octets(), None, &plugged())).err()?,
    ))
}

#[test]
fn refuses_a_write_of_another_relation() {
    assert_eq!(refused_in(8, GOOD, &[0; 4]), Some(NO_RELATION));
    assert_eq!(refused_alone(), Some(NO_RELATION));
}

#[test]
fn keeps_a_record_of_its_exact_length() {
    let Some(taken) = kept(GOOD, &[1, 2, 3, 4, 5]) else {
        panic!("refused");
    };
    assert_eq!((taken.slot, taken.subslot, taken.index), (2, 2, 1));
    assert_eq!(taken.value.as_slice(), [1, 2, 3, 4].as_slice());
}

#[test]
fn takes_no_record_of_another_length() {
    for length in [0, 3, 5] {
        let asked = Asked { length, ..GOOD };
        assert_eq!(refused(asked, &[0; 9]), Some(OTHER_LENGTH));
    }
    assert_eq!(refused(GOOD, &[0; 3]), Some(OTHER_LENGTH));
}

#[test]
fn stores_a_whole_text() {
    let Some(settings) = stored(DATE, &IM2) else {
        panic!("refused");
    };
    assert_eq!(settings.im2.as_bytes(), &IM2[6..]);
    let short = Asked { length: 21, ..DATE };
    assert_eq!(refused(short, &IM2[..21]), Some(OTHER_LENGTH));
    let other = *b"\x00\x23\x00\x12\x01\x002024-05-06 07:08";
    assert_eq!(refused(DATE, &other), Some(OTHER_LENGTH));
}

#[test]
fn answers_with_what_was_asked_for() {
    let Ok(write) = judged_in(7, GOOD, &[1, 2, 3, 4]) else {
        panic!("refused");
    };
    let mut answer: ArrayVec<u8, 64> = ArrayVec::new();
    put_write_answer(&mut answer, &write.request);
    let mut octets = GOOD.octets();
    octets[0] = 0x80;
    assert_eq!(answer.as_slice(), octets.as_slice());
}

/// Keeps a record whose first octet is this one, or says why not.
fn keep(records: &mut TakenRecords, first: u8) -> Option<Result<(), CallFault>> {
    Some(records.keep(kept(GOOD, &[first, 0, 0, 0])?))
}

/// The first octet of each record that is kept.
fn first_octets(records: &TakenRecords) -> ArrayVec<u8, 64> {
    let mut octets = ArrayVec::new();
    for taken in records.as_slice() {
        if let [first, ..] = taken.value.as_slice() {
            let _ = octets.try_push(*first);
        }
    }
    octets
}

#[test]
fn takes_sixty_four_records() {
    let mut records = TakenRecords::new();
    let mut firsts: ArrayVec<u8, 64> = ArrayVec::new();
    for first in 0..64 {
        assert_eq!(keep(&mut records, first), Some(Ok(())));
        let _ = firsts.try_push(first);
    }
    let Err(fault) = records.keep(TakenRecord::default()) else {
        panic!("kept");
    };
    assert_eq!(told(Operation::Write, fault), TOO_MANY);
    assert_eq!(records.as_slice().len(), 64);
    assert_eq!(first_octets(&records).as_slice(), firsts.as_slice());
}
