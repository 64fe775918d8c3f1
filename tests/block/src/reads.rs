//! Records that are read by a Read Implicit, octet by octet.

use super::records::{module, settings};
use super::statuses::told;
use super::within::read_implicit;
use arrayvec::ArrayVec;
use pn_values::{ParameterRecord, Real, RealSubmodule, demo_identity};
use records::{Blocks, CallFault, Operation};

/// I&M0 of the demo station.
pub(crate) const IM0: [u8; 60] =
    *b"\x00\x20\x00\x38\x01\x00\x01\x23                                    \x00\x00V\x00\x00\x00\x00\x00\x00\x00\x00\x00\x01\x01\x00\x3E";

/// A submodule with parameter records 1 and 700.
fn with_parameters() -> RealSubmodule {
    let mut parameters: ArrayVec<ParameterRecord, 2> = ArrayVec::new();
    parameters.push(ParameterRecord {
        index: 1,
        length: 4,
    });
    parameters.push(ParameterRecord {
        index: 700,
        length: 1,
    });
    RealSubmodule {
        subslot: 2,
        ident: 33,
        input: 0,
        output: 0,
        parameters,
    }
}

/// An access point, and two modules, of which the second has a submodule with parameter records too.
pub(crate) fn plugged() -> Real {
    let mut modules = ArrayVec::new();
    modules.push(module(0, 1, &[(1, 1), (0x8000, 2), (0x8001, 3)]));
    modules.push(module(1, 16, &[(1, 16)]));
    let mut last = module(2, 32, &[(1, 32)]);
    let _ = last.submodules.try_push(with_parameters());
    modules.push(last);
    Real { modules }
}

/// What a call for a record asks for.
#[derive(Clone, Copy)]
pub(crate) struct Asked {
    pub(crate) kind: u16,
    pub(crate) version: u8,
    pub(crate) api: u32,
    pub(crate) slot: u16,
    pub(crate) subslot: u16,
    pub(crate) index: u16,
    pub(crate) length: u32,
}

/// Record 0xAFF0 of the access point.
pub(crate) const GOOD: Asked = Asked {
    kind: 0x0009,
    version: 1,
    api: 0,
    slot: 0,
    subslot: 1,
    index: 0xAFF0,
    length: 4096,
};

impl Asked {
    /// Its header, of SeqNumber 0x0A0B and an ARUUID of 7s.
    pub(crate) fn octets(self) -> [u8; 64] {
        let mut octets = [0; 64];
        octets[..2].copy_from_slice(&self.kind.to_be_bytes());
        octets[3] = 60;
        octets[4] = self.version;
        octets[6] = 0x0A;
        octets[7] = 0x0B;
        octets[8..24].copy_from_slice(&[7; 16]);
        octets[24..28].copy_from_slice(&self.api.to_be_bytes());
        octets[28..30].copy_from_slice(&self.slot.to_be_bytes());
        octets[30..32].copy_from_slice(&self.subslot.to_be_bytes());
        octets[34..36].copy_from_slice(&self.index.to_be_bytes());
        octets[36..40].copy_from_slice(&self.length.to_be_bytes());
        octets
    }
}

/// What these octets are answered.
fn answered(octets: &[u8]) -> Result<Blocks, CallFault> {
    let mut answer = Blocks::new();
    read_implicit(None, &demo_identity(), &plugged(), &settings(), octets, &mut answer)?;
    Ok(answer)
}

/// The octets of a status: what is there of a header is wrong, another BlockType, no such place, no such Index there, and a
/// record that is not read.
const WRONG_HEADER: [u8; 4] = [0xDE, 0x81, 0x40, 0x00];

const OTHER_TYPE: [u8; 4] = [0xDE, 0x81, 0x40, 0x01];

const NO_PLACE: [u8; 4] = [0xDE, 0x80, 0xB2, 0x00];

const NO_INDEX: [u8; 4] = [0xDE, 0x80, 0xB0, 0x00];

const NO_ACCESS: [u8; 4] = [0xDE, 0x80, 0xB6, 0x00];

/// The four octets of the status by which these octets are answered.
fn refused(octets: &[u8]) -> Option<[u8; 4]> {
    Some(told(Operation::ReadImplicit, answered(octets).err()?))
}

/// IODReadResHeader with 60 octets of record 0xAFF0.
const HEADER: [u8; 64] = [
    0x80, 0x09, 0x00, 0x3C, 0x01, 0x00, 0x0A, 0x0B, 0x07, 0x07, 0x07, 0x07, 0x07, 0x07, 0x07, 0x07,
    0x07, 0x07, 0x07, 0x07, 0x07, 0x07, 0x07, 0x07, 0x00, 0x00, 0x00, 0x00, 0x00, 0x00, 0x00, 0x01,
    0x00, 0x00, 0xAF, 0xF0, 0x00, 0x00, 0x00, 0x3C, 0x00, 0x00, 0x00, 0x00, 0x00, 0x00, 0x00, 0x00,
    0x00, 0x00, 0x00, 0x00, 0x00, 0x00, 0x00, 0x00, 0x00, 0x00, 0x00, 0x00, 0x00, 0x00, 0x00, 0x00,
];

#[test]
fn answers_with_the_whole_record() {
    let Ok(answer) = answered(&GOOD.octets()) else {
        panic!("refused");
    };
    assert_eq!(answer.as_slice().get(..64), Some(HEADER.as_slice()));
    assert_eq!(answer.as_slice().get(64..), Some(IM0.as_slice()));
}

/// RecordDataLength of an answer, and the record.
pub(crate) fn sent(answer: &Blocks) -> Option<(&[u8], &[u8])> {
    let (header, record) = answer.as_slice().split_at_checked(64)?;
    Some((header.get(36..40)?, record))
}

/// Whether a call for this many octets is answered with that many of I&M0, by RecordDataLength too.
fn gives(length: u32, told: u8) -> bool {
    match answered(&Asked { length, ..GOOD }.octets()) {
        Ok(answer) => match sent(&answer) {
            Some((length, record)) => {
                length == [0, 0, 0, told].as_slice() && Some(record) == IM0.get(..usize::from(told))
            }
            None => false,
        },
        Err(_) => false,
    }
}

#[test]
fn answers_with_as_much_as_is_asked_for() {
    for (length, told) in [(0, 0), (1, 1), (10, 10), (59, 59), (60, 60), (61, 60)] {
        assert!(gives(length, told), "{length}");
    }
}

/// A way in which a call is wrong.
#[derive(Clone, Copy)]
enum Wrong {
    Kind,
    Version,
    Api,
    Slot,
    Index,
}

impl Wrong {
    /// A call that is wrong in this way too.
    fn put(self, asked: Asked) -> Asked {
        match self {
            Wrong::Kind => Asked {
                kind: 0x0008,
                ..asked
            },
            Wrong::Version => Asked {
                version: 2,
                ..asked
            },
            Wrong::Api => Asked { api: 1, ..asked },
            Wrong::Slot => Asked { slot: 3, ..asked },
            Wrong::Index => Asked {
                index: 0xAFF6,
                ..asked
            },
        }
    }
}

/// The faults of a whole block, in their order.
const ORDER: [(Wrong, [u8; 4]); 5] = [
    (Wrong::Kind, OTHER_TYPE),
    (Wrong::Version, WRONG_HEADER),
    (Wrong::Api, [0xDE, 0x80, 0xB4, 0x00]),
    (Wrong::Slot, NO_PLACE),
    (Wrong::Index, NO_INDEX),
];

/// The status of a call that is wrong in two ways.
fn twice_wrong(first: Wrong, second: Wrong) -> Option<[u8; 4]> {
    refused(&first.put(second.put(GOOD)).octets())
}

#[test]
fn tells_the_first_of_two_faults() {
    for (place, (first, status)) in ORDER.iter().enumerate() {
        for (second, _) in &ORDER[place..] {
            assert_eq!(twice_wrong(*first, *second), Some(*status));
        }
    }
}

/// The status of the first octets of a call, this many, with another BlockType or its own.
fn refused_of(length: usize, kind: u16) -> Option<[u8; 4]> {
    let octets = Asked { kind, ..GOOD }.octets();
    refused(octets.get(..length)?)
}

#[test]
fn judges_what_is_there_of_a_block_first() {
    assert_eq!(refused(&[]), Some(OTHER_TYPE));
    for length in 1..4 {
        assert_eq!(refused_of(length, 0x0009), Some(WRONG_HEADER));
        assert_eq!(refused_of(length, 0x0008), Some(WRONG_HEADER));
    }
    for length in 4..64 {
        assert_eq!(refused_of(length, 0x0009), Some(WRONG_HEADER));
        assert_eq!(refused_of(length, 0x0008), Some(OTHER_TYPE));
    }
}

#[test]
fn does_not_look_behind_the_block() {
    let mut octets = [0xFF; 65];
    octets[..64].copy_from_slice(&GOOD.octets());
    assert!(answered(&octets).is_ok());
}

/// The status of the read of this record, with all of it asked for.
fn status_of(slot: u16, subslot: u16, index: u16) -> Option<[u8; 4]> {
    refused(
        &Asked {
            slot,
            subslot,
            index,
            ..GOOD
        }
        .octets(),
    )
}

#[test]
fn reads_no_parameter_record() {
    assert_eq!(status_of(2, 2, 1), Some(NO_ACCESS));
    assert_eq!(status_of(2, 2, 700), Some(NO_ACCESS));
    // they are known at their submodule alone
    assert_eq!(status_of(2, 2, 2), Some(NO_INDEX));
    assert_eq!(status_of(2, 1, 1), Some(NO_INDEX));
    assert_eq!(status_of(1, 2, 1), Some(NO_PLACE));
}

#[test]
fn reads_what_is_plugged_in_from_any_place() {
    assert_eq!(status_of(0, 1, 0xF840), None);
    assert_eq!(status_of(9, 9, 0xF840), None);
    // the difference of a relation is read within the relation alone
    assert_eq!(status_of(0, 1, 0xE002), Some(NO_INDEX));
    assert_eq!(status_of(9, 9, 0xE002), Some(NO_INDEX));
    // the texts stand at the access point alone
    assert_eq!(status_of(0, 1, 0xAFF3), None);
    assert_eq!(status_of(1, 1, 0xAFF3), Some(NO_INDEX));
}
