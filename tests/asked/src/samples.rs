//! The calls and records that the tests use.

use asked_records::{NamedRecords, Question, RecordName, Request};
use block_codec::{IodReadReq, IodWriteReq, RecordHeader};
use frame_codec::{Caller, Endpoint};
use pn_values::Mac;
use rpc_core::CallHeader;
use wire::Uuid;

/// The ARUUID of the relation.
pub fn relation() -> Uuid {
    Uuid::from_bytes([0x11; 16])
}

/// An activity all of whose octets are this one.
pub fn activity(octet: u8) -> Uuid {
    Uuid::from_bytes([octet; 16])
}

/// The header of a request for record 0x1234 in slot 2, subslot 1, with this many octets.
pub fn header(length: u32) -> RecordHeader {
    RecordHeader {
        seq_number: 7,
        ar_uuid: relation(),
        api: 0,
        slot_number: 2,
        subslot_number: 1,
        index: 0x1234,
        record_data_length: length,
    }
}

/// A request to read that many octets.
pub fn read(length: u32) -> IodReadReq {
    IodReadReq {
        header: header(length),
        target_ar_uuid: Uuid::from_bytes([0; 16]),
    }
}

/// A request to write that many octets.
pub fn write(length: u32) -> IodWriteReq {
    IodWriteReq {
        header: header(length),
    }
}

/// A call with this request, of a record of at most 20 octets. All octets of its activity are 5, and its number in that is 9.
pub fn question(request: Request) -> Question {
    Question {
        caller: Caller {
            mac: Mac {
                octets: [2, 0, 0, 0, 0, 1],
            },
            endpoint: Endpoint {
                address: [192, 168, 0, 1],
                port: 49_152,
            },
        },
        header: CallHeader {
            object: activity(1),
            interface: activity(2),
            activity: activity(5),
            sequence: 9,
            operation: 2,
        },
        args_maximum: 400,
        request,
        greatest_length: 20,
    }
}

/// Record 0x1234 in slot 2, subslot 1.
pub const NAME: RecordName = RecordName {
    slot: 2,
    subslot: 1,
    index: 0x1234,
    greatest_length: 20,
    is_readable: true,
    is_writable: true,
};

/// These records.
pub fn named(names: &[RecordName]) -> NamedRecords {
    match NamedRecords::of(names) {
        Ok(named) => named,
        Err(fault) => panic!("{fault:?}"),
    }
}

/// The 64 octets of the header of a response, of this BlockType, with this RecordDataLength and this PNIOStatus (of a Write).
pub fn response_header(kind: u16, length: u32, status: [u8; 4]) -> Vec<u8> {
    let mut octets = Vec::new();
    octets.extend(kind.to_be_bytes());
    // BlockLength 60, version 1.0, SeqNumber 7.
    octets.extend([0, 60, 1, 0, 0, 7]);
    octets.extend([0x11; 16]);
    // API 0, slot 2, subslot 1, padding, Index 0x1234.
    octets.extend([0, 0, 0, 0, 0, 2, 0, 1, 0, 0, 0x12, 0x34]);
    octets.extend(length.to_be_bytes());
    // AdditionalValue1 and AdditionalValue2.
    octets.extend([0; 4]);
    octets.extend(status);
    octets.extend([0; 16]);
    octets
}
