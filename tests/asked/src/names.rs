//! The records that a station names.

use super::samples::{NAME, named};
use asked_records::{NameFault, NamedRecords, RecordName};

/// Why these records are refused.
fn refused(names: &[RecordName]) -> Option<NameFault> {
    NamedRecords::of(names).err()
}

/// As many records as this, in one subslot.
fn many(count: u16) -> Vec<RecordName> {
    (0..count)
        .map(|index| RecordName { index, ..NAME })
        .collect()
}

#[test]
fn accepts_what_is_in_range() {
    assert_eq!(refused(&[]), None);
    assert_eq!(refused(&many(16)), None);
    for name in [
        RecordName { index: 0, ..NAME },
        RecordName {
            index: 0x7FFF,
            ..NAME
        },
        RecordName {
            greatest_length: 1,
            ..NAME
        },
        RecordName {
            greatest_length: 1308,
            ..NAME
        },
        RecordName {
            is_readable: false,
            ..NAME
        },
        RecordName {
            is_writable: false,
            ..NAME
        },
    ] {
        assert_eq!(refused(&[name]), None, "{name:?}");
    }
}

#[test]
fn refuses_the_first_fault() {
    let mute = RecordName {
        is_readable: false,
        is_writable: false,
        ..NAME
    };
    for (names, fault) in [
        (many(17), NameFault::TooMany),
        (
            vec![RecordName {
                index: 0x8000,
                greatest_length: 0,
                ..NAME
            }],
            NameFault::Index,
        ),
        (
            vec![RecordName {
                greatest_length: 0,
                ..mute
            }],
            NameFault::Length,
        ),
        (
            vec![RecordName {
                greatest_length: 1309,
                ..NAME
            }],
            NameFault::Length,
        ),
        (vec![mute], NameFault::Access),
        (
            vec![
                NAME,
                RecordName { slot: 3, ..NAME },
                RecordName {
                    greatest_length: 5,
                    ..NAME
                },
            ],
            NameFault::Twice,
        ),
        (vec![mute, NAME, NAME], NameFault::Access),
        (vec![NAME, NAME, mute], NameFault::Twice),
    ] {
        assert_eq!(refused(&names), Some(fault), "{names:?}");
    }
}

#[test]
fn numbers_its_faults() {
    let faults = [
        NameFault::TooMany,
        NameFault::Index,
        NameFault::Length,
        NameFault::Access,
        NameFault::Twice,
    ];
    assert_eq!(faults.map(NameFault::number), [1, 2, 3, 4, 5]);
}

#[test]
fn finds_a_record_at_its_place() {
    let other = RecordName {
        subslot: 2,
        greatest_length: 4,
        ..NAME
    };
    let named = named(&[NAME, other]);
    assert_eq!(named.named_at(2, 1, 0x1234), Some(NAME));
    assert_eq!(named.named_at(2, 2, 0x1234), Some(other));
    assert_eq!(named.named_at(2, 1, 0x1235), None);
    assert_eq!(named.named_at(1, 1, 0x1234), None);
    assert_eq!(named.named_at(2, 3, 0x1234), None);
    assert_eq!(named.as_slice(), &[NAME, other]);
    assert_eq!(NamedRecords::new().named_at(2, 1, 0x1234), None);
}
