//! The response to a call, octet by octet.

use super::samples::{question, read, response_header, write};
use arrayvec::ArrayVec;
use asked_records::{AskedRecords, Given, Request, Unanswered, put_listed_entry};
use records::{Blocks, Operation};
use rpc_core::Status;

/// PNIOStatus as its four octets.
fn octets(status: Status) -> [u8; 4] {
    [status.code, status.decode, status.code1, status.code2]
}

/// PNIOStatus and the blocks of the response to a call.
fn response(request: Request, given: &Given<'_>) -> ([u8; 4], Vec<u8>) {
    let mut asked = AskedRecords::new();
    let mut blocks = Blocks::new();
    assert_eq!(asked.ask(&question(request), &[]), Some(1));
    let Ok(reply) = asked.answer(1, given, &mut blocks) else {
        panic!("not accepted");
    };
    let response = reply.question.response(reply.status, blocks.as_slice());
    assert_eq!(response.header, question(request).header);
    assert_eq!(response.maximum_count, 400);
    assert_eq!(reply.question.caller, question(request).caller);
    (octets(response.status), response.blocks.to_vec())
}

#[test]
fn reads() {
    for request in [Request::Read(read(3)), Request::ReadImplicit(read(3))] {
        let (status, blocks) = response(request, &Given::Octets(&[0xA1, 0xA2, 0xA3, 0xA4, 0xA5]));
        let mut expected = response_header(0x8009, 3, [0; 4]);
        expected.extend([0xA1, 0xA2, 0xA3]);
        assert_eq!((status, blocks), ([0; 4], expected));
    }
    let (status, blocks) = response(Request::Read(read(400)), &Given::Octets(&[0xA1]));
    let mut expected = response_header(0x8009, 1, [0; 4]);
    expected.push(0xA1);
    assert_eq!((status, blocks), ([0; 4], expected));
}

#[test]
fn writes() {
    let (status, blocks) = response(Request::Write(write(3)), &Given::Done);
    assert_eq!(
        (status, blocks),
        ([0; 4], response_header(0x8008, 3, [0; 4]))
    );
}

#[test]
fn refuses() {
    for (request, code) in [
        (Request::Read(read(3)), 0xDE),
        (Request::ReadImplicit(read(3)), 0xDE),
        (Request::Write(write(3)), 0xDF),
    ] {
        for code1 in 0xA0..=0xAF {
            let given = Given::Refused(code1, 0x37);
            assert_eq!(
                response(request, &given),
                ([code, 0x80, code1, 0x37], Vec::new())
            );
        }
    }
}

#[test]
fn the_device_refuses() {
    for (reason, operation, status) in [
        (Unanswered::Busy, Operation::Read, [0xDE, 0x80, 0xC2, 0]),
        (
            Unanswered::Busy,
            Operation::ReadImplicit,
            [0xDE, 0x80, 0xC2, 0],
        ),
        (Unanswered::Busy, Operation::Write, [0xDF, 0x80, 0xC2, 0]),
        (Unanswered::Late, Operation::Read, [0xDE, 0x80, 0xA7, 0]),
        (Unanswered::Late, Operation::Write, [0xDF, 0x80, 0xA7, 0]),
        (Unanswered::InList, Operation::Write, [0xDF, 0x80, 0xA9, 0]),
    ] {
        assert_eq!(octets(reason.number(operation)), status);
    }
    let mut list: ArrayVec<u8, 70> = ArrayVec::new();
    list.push(0xEE);
    put_listed_entry(&mut list, &write(3));
    let mut expected = vec![0xEE];
    expected.extend(response_header(0x8008, 3, [0xDF, 0x80, 0xA9, 0]));
    assert_eq!(list.as_slice(), expected);
}
