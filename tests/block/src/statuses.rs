//! PNIOStatus of each fault of each call, octet by octet.

use records::{CallFault, Operation, Status, done};

/// The four octets of a status.
fn octets(status: Status) -> [u8; 4] {
    [status.code, status.decode, status.code1, status.code2]
}

/// The four octets of the status of a fault of a call.
pub(crate) fn told(operation: Operation, fault: CallFault) -> [u8; 4] {
    octets(fault.number(operation))
}

/// Faults of each operation that has blocks, without ErrorCode.
const OF_EACH: [(CallFault, [u8; 3]); 11] = [
    (CallFault::Arguments, [0x81, 0x40, 0x00]),
    (CallFault::BlockHeader, [0x81, 0x40, 0x00]),
    (CallFault::BlockType, [0x81, 0x40, 0x01]),
    (CallFault::BlockMissing, [0x81, 0x40, 0x01]),
    (CallFault::BlockForm, [0x81, 0x40, 0x00]),
    (CallFault::UnknownRelation, [0x81, 0x40, 0x05]),
    (CallFault::UnknownSession, [0x81, 0x40, 0x05]),
    (CallFault::Api, [0x80, 0xB4, 0x00]),
    (CallFault::Place, [0x80, 0xB2, 0x00]),
    (CallFault::Index, [0x80, 0xB0, 0x00]),
    (CallFault::Access, [0x80, 0xB6, 0x00]),
];

/// Each operation with its number and its ErrorCode.
const OPERATIONS: [(Operation, u16, u8); 6] = [
    (Operation::Connect, 0, 0xDB),
    (Operation::Release, 1, 0xDC),
    (Operation::Read, 2, 0xDE),
    (Operation::Write, 3, 0xDF),
    (Operation::Control, 4, 0xDD),
    (Operation::ReadImplicit, 5, 0xDE),
];

#[test]
fn names_each_operation() {
    for (operation, number, _code) in OPERATIONS {
        assert_eq!(Operation::of(number), Some(operation));
    }
    for number in [6, 7, 0x0100, 0xFFFF] {
        assert_eq!(Operation::of(number), None);
    }
}

#[test]
fn tells_the_faults_of_every_call() {
    for (operation, _number, code) in OPERATIONS {
        for (fault, [decode, code1, code2]) in OF_EACH {
            assert_eq!(told(operation, fault), [code, decode, code1, code2]);
        }
    }
}

/// Faults of a Connect.
const OF_CONNECT: [(CallFault, [u8; 4]); 21] = [
    (CallFault::IocrMissing, [0xDB, 0x81, 0x40, 0x02]),
    (CallFault::AlarmCrMissing, [0xDB, 0x81, 0x40, 0x03]),
    (CallFault::AlarmCrRepeated, [0xDB, 0x81, 0x40, 0x03]),
    (CallFault::ArField(1), [0xDB, 0x81, 0x01, 0x01]),
    (CallFault::ArField(10), [0xDB, 0x81, 0x01, 0x0A]),
    (CallFault::ArField(13), [0xDB, 0x81, 0x01, 0x0D]),
    (CallFault::IocrField(2), [0xDB, 0x81, 0x02, 0x02]),
    (CallFault::IocrField(20), [0xDB, 0x81, 0x02, 0x14]),
    (CallFault::ExpectedField(3), [0xDB, 0x81, 0x03, 0x03]),
    (CallFault::ExpectedField(16), [0xDB, 0x81, 0x03, 0x10]),
    (CallFault::AlarmCrField(4), [0xDB, 0x81, 0x04, 0x04]),
    (CallFault::AlarmCrField(10), [0xDB, 0x81, 0x04, 0x0A]),
    (CallFault::LayoutOutside, [0xDB, 0x81, 0x02, 0x18]),
    (CallFault::LayoutOverlap, [0xDB, 0x81, 0x02, 0x18]),
    (CallFault::LayoutUnknown, [0xDB, 0x81, 0x02, 0x17]),
    (CallFault::LayoutMissing, [0xDB, 0x81, 0x02, 0x15]),
    (CallFault::RelationExists, [0xDB, 0x81, 0x40, 0x06]),
    (CallFault::OtherRelationExists, [0xDB, 0x81, 0x40, 0x04]),
    (CallFault::TooManyModules, [0xDB, 0x81, 0x40, 0x04]),
    (CallFault::TooManySubmodules, [0xDB, 0x81, 0x40, 0x04]),
    (CallFault::BlockMissing, [0xDB, 0x81, 0x40, 0x01]),
];

#[test]
fn tells_the_faults_of_a_connect() {
    for (fault, status) in OF_CONNECT {
        assert_eq!(told(Operation::Connect, fault), status);
    }
}

/// Faults of a Write alone.
const OF_WRITE: [(CallFault, [u8; 4]); 4] = [
    (CallFault::WriteLength, [0xDF, 0x80, 0xB1, 0x00]),
    (CallFault::JournalExhausted, [0xDF, 0x80, 0xB5, 0x04]),
    (CallFault::FlashFault, [0xDF, 0x80, 0xB5, 0x05]),
    (CallFault::TooManyRecords, [0xDF, 0x80, 0xB5, 0x06]),
];

/// Faults of Release and Control alone, by ErrorCode.
const OF_OTHERS: [(Operation, CallFault, u8); 3] = [
    (Operation::Release, CallFault::ControlCommand, 0xDC),
    (Operation::Control, CallFault::ControlCommand, 0xDD),
    (Operation::Control, CallFault::Phase, 0xDD),
];

#[test]
fn tells_the_faults_of_other_calls() {
    for (fault, status) in OF_WRITE {
        assert_eq!(told(Operation::Write, fault), status);
    }
    for (operation, fault, code) in OF_OTHERS {
        assert_eq!(told(operation, fault), [code, 0x81, 0x40, 0x06]);
    }
    assert_eq!(octets(done()), [0, 0, 0, 0]);
}
