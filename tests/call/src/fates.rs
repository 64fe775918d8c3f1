//! What has to become of a frame at the station 02-00-00-00-00-01 with the address 192.168.0.2, which has answered a call of
//! the activity 0202..02 with the sequence number 5, by offsets in its octets.
use super::numbers::{Order, ones_sum, u16_at, u32_at, udp_sum};

/// What becomes of a frame.
#[derive(Clone, Copy, Debug, PartialEq, Eq)]
pub(crate) enum Fate {
    /// It cannot be read.
    Fault,
    /// It is for another station or another port, or is no request.
    NotMine,
    /// A call of an activity that has been answered under a greater sequence number.
    OldCall,
    /// A response that nothing waits for.
    NoRelation,
    /// One frame of this many octets is sent, with this PNIOStatus. For a reply of ARP the PNIOStatus is 0.
    Answered { status: u32, length: usize },
}

const OWN: [u8; 6] = [2, 0, 0, 0, 0, 1];

const ADDRESS: [u8; 4] = [192, 168, 0, 2];

/// PNIOStatus (IEC 61158-6-10, 5.2.6) of a Read that fails: there is no such relation, another API than 0, no such slot or
/// subslot, no such Index there.
const NO_RELATION: u32 = 0xDE81_4005;

const OTHER_API: u32 = 0xDE80_B400;

const NO_PLACE: u32 = 0xDE80_B200;

const NO_INDEX: u32 = 0xDE80_B000;

/// An answer without blocks: headers of Ethernet, IPv4, UDP and RPC, and five words.
const EMPTY_ANSWER: usize = 14 + 20 + 8 + 80 + 20;

/// What has to become of a frame with EtherType ARP or IPv4, with or without a VLAN tag.
pub(crate) fn fate_of(frame: &[u8]) -> Fate {
    let head = match frame.get(12..14) {
        Some([0x81, 0x00]) => 18,
        _ => 14,
    };
    let Some((link, packet)) = frame.split_at_checked(head) else {
        return Fate::Fault;
    };
    if packet.len() > 1500 {
        return Fate::Fault;
    }
    let is_own = link.starts_with(&OWN);
    match link {
        [.., 0x08, 0x06] => fate_of_arp(is_own || link.starts_with(&[0xFF; 6]), packet),
        [.., 0x08, 0x00] => fate_of_packet(is_own, packet),
        _ => Fate::Fault,
    }
}

/// RFC 826: hardware 1, protocol 0x0800, lengths 6 and 4, a request (1) or a reply (2); then sender and target.
fn fate_of_arp(is_taken: bool, packet: &[u8]) -> Fate {
    let [0, 1, 8, 0, 6, 4, 0, operation, rest @ ..] = packet else {
        return Fate::Fault;
    };
    let Some(target) = rest.get(16..20) else {
        return Fate::Fault;
    };
    match operation {
        1 if is_taken && target == ADDRESS.as_slice() => Fate::Answered {
            status: 0,
            length: 60,
        },
        1 | 2 => Fate::NotMine,
        _ => Fate::Fault,
    }
}

/// RFC 791: version 4, a header of 20 octets, no fragment, protocol 17, a total length that is there, a right checksum.
fn fate_of_packet(is_own: bool, packet: &[u8]) -> Fate {
    let [0x45, _, high, low, _, _, flags, 0, _, 17, ..] = packet else {
        return Fate::Fault;
    };
    let total = usize::from(u16::from_be_bytes([*high, *low]));
    let Some((header, segment)) = packet
        .get(..total)
        .and_then(|whole| whole.split_at_checked(20))
    else {
        return Fate::Fault;
    };
    if flags % 64 != 0 || ones_sum(0, header) != 0xFFFF {
        return Fate::Fault;
    }
    let is_taken = is_own && header.ends_with(&ADDRESS);
    fate_of_segment(is_taken, header, segment)
}

/// RFC 768: a length that is there, a right checksum or none; the port of RPC.
fn fate_of_segment(is_taken: bool, header: &[u8], segment: &[u8]) -> Fate {
    let length = usize::from(u16_at(Order::Big, segment, 4).unwrap_or(0));
    let Some(datagram) = segment.get(..length) else {
        return Fate::Fault;
    };
    let [_, _, high, low, _, _, a, b, pdu @ ..] = datagram else {
        return Fate::Fault;
    };
    let has_checksum = *a != 0 || *b != 0;
    if has_checksum && udp_sum(header, datagram) != 0xFFFF {
        return Fate::Fault;
    }
    if is_taken && u16::from_be_bytes([*high, *low]) == 34964 {
        fate_of_pdu(pdu).unwrap_or(Fate::Fault)
    } else {
        Fate::NotMine
    }
}

/// C706, 12.6.3: a header of 80 octets and a body, which begins with five words. None where a number is not there.
fn fate_of_pdu(pdu: &[u8]) -> Option<Fate> {
    let order = match pdu.get(4)? / 16 {
        0 => Order::Big,
        1 => Order::Little,
        _ => return None,
    };
    let (header, behind) = pdu.split_at_checked(80)?;
    let body = behind.get(..usize::from(u16_at(order, header, 74)?))?;
    let flags = *header.get(2)?;
    let fragment = u16_at(order, header, 76)?;
    let authentication = *header.get(78)?;
    if flags / 4 % 2 == 1 || fragment != 0 || authentication != 0 || body.len() < 20 {
        return None;
    }
    let blocks = blocks_of(order, body);
    match header {
        [4, 0, ..] => fate_of_call(order, header, blocks),
        [4, 2, ..] if blocks.is_some() => Some(Fate::NoRelation),
        _ => None,
    }
}

/// The blocks of a body, where its counts are right: ArgsLength and ActualCount alike and there, Offset 0.
fn blocks_of(order: Order, body: &[u8]) -> Option<&[u8]> {
    let length = u32_at(order, body, 4)?;
    let offset = u32_at(order, body, 12)?;
    let actual = u32_at(order, body, 16)?;
    if offset != 0 || length != actual {
        return None;
    }
    body.get(20..)?.get(..length as usize)
}

/// PNIOStatus if a block of this operation or the counts of blocks are wrong. It is 1 greater if the call has no block of the
/// operation. `None` if the operation does not exist.
fn wrong_block(operation: u16) -> Option<u32> {
    match operation {
        0 => Some(0xDB81_4000),
        1 => Some(0xDC81_4000),
        2 | 5 => Some(0xDE81_4000),
        3 => Some(0xDF81_4000),
        4 => Some(0xDD81_4000),
        _ => None,
    }
}

/// A call, which has to be to the interface of devices.
fn fate_of_call(order: Order, header: &[u8], blocks: Option<&[u8]>) -> Option<Fate> {
    let first: [u8; 8] = match order {
        Order::Big => [0xDE, 0xA0, 0x00, 0x01, 0x6C, 0x97, 0x11, 0xD1],
        Order::Little => [0x01, 0x00, 0xA0, 0xDE, 0x97, 0x6C, 0xD1, 0x11],
    };
    let rest = [0x82, 0x71, 0x00, 0xA0, 0x24, 0x42, 0xDF, 0x7D];
    let is_device =
        header.get(24..32)? == first.as_slice() && header.get(32..40)? == rest.as_slice();
    if !is_device {
        return None;
    }
    let operation = u16_at(order, header, 68)?;
    let wrong = wrong_block(operation)?;
    let Some(blocks) = blocks else {
        return Some(negative(wrong));
    };
    let sequence = u32_at(order, header, 64)?;
    let is_known = header.get(40..56)? == [2; 16].as_slice();
    Some(match sequence {
        0..5 if is_known => Fate::OldCall,
        // The kept answer: the block of the answer, followed by a whole I&M0.
        5 if is_known => positive(60),
        _ if operation == 5 => fate_of_read(wrong, blocks).unwrap_or(negative(wrong)),
        _ => negative(status_without_relation(operation == 2, wrong, blocks)),
    })
}

/// The blocks are one whole IODReadReqHeader.
fn is_read(blocks: &[u8]) -> bool {
    blocks.len() >= 64 && blocks.starts_with(&[0, 9, 0, 60, 1, 0])
}

/// The status of a call that needs a relation, whose blocks are no others than those of a Read: there is no relation.
fn status_without_relation(reads: bool, wrong: u32, blocks: &[u8]) -> u32 {
    match blocks {
        [_] | [_, _] | [_, _, _] => wrong,
        _ if reads && is_read(blocks) => NO_RELATION,
        [0, 9, ..] if reads => wrong,
        _ => wrong | 1,
    }
}

/// IEC 61158-6-10, 5.2.3.4: one block IODReadReqHeader. None where it is not a whole one.
fn fate_of_read(wrong: u32, blocks: &[u8]) -> Option<Fate> {
    match blocks {
        [] => return Some(negative(wrong | 1)),
        [0, 9, _, _, ..] => {}
        [_, _, _, _, ..] => return Some(negative(wrong | 1)),
        _ => return None,
    }
    if !is_read(blocks) {
        return None;
    }
    let slot = u16_at(Order::Big, blocks, 28)?;
    let subslot = u16_at(Order::Big, blocks, 30)?;
    let index = u16_at(Order::Big, blocks, 34)?;
    let most = u32_at(Order::Big, blocks, 36)?;
    if u32_at(Order::Big, blocks, 24)? != 0 {
        return Some(negative(OTHER_API));
    }
    Some(match record_len(slot, subslot, index) {
        Ok(length) => positive(length.min(most as usize)),
        Err(status) => negative(status),
    })
}

/// How many octets a record has at a place of the station, or the status if the record does not exist there.
fn record_len(slot: u16, subslot: u16, index: u16) -> Result<usize, u32> {
    let is_real = matches!(
        (slot, subslot),
        (0, 1) | (0, 0x8000) | (0, 0x8001) | (1, 1) | (2, 1)
    );
    match index {
        0xF840 => Ok(96),
        0xE002 => Err(NO_INDEX),
        _ if !is_real => Err(NO_PLACE),
        0xAFF0 => Ok(60),
        0xAFF1 | 0xAFF3 if (slot, subslot) == (0, 1) => Ok(60),
        0xAFF2 if (slot, subslot) == (0, 1) => Ok(22),
        _ => Err(NO_INDEX),
    }
}

/// An answer with the block IODReadResHeader, followed by this many octets of a record.
fn positive(record: usize) -> Fate {
    Fate::Answered {
        status: 0,
        length: record.saturating_add(EMPTY_ANSWER + 64),
    }
}

/// An answer without blocks.
fn negative(status: u32) -> Fate {
    Fate::Answered {
        status,
        length: EMPTY_ANSWER,
    }
}
