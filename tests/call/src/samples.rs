//! A frame of each kind, as Scapy 2.5.0 builds it: none of its octets comes from this repository.
use super::numbers::Order;
use rattle_std::Vec;
use rattle_std::alloc::{AllocError, Global};

/// A frame in hex, and the order of the octets of the call or response in it.
pub(crate) struct Sample {
    pub(crate) hex: &'static str,
    pub(crate) order: Order,
}

/// A Read Implicit of I&M2 at slot 0, subslot 1, by the activity 0202..02 with the sequence number 6.
pub(crate) const CALL: &str = "0200000000010200000000020800450000c0000040004011b8d9c0a80001c0a80002c350889400ac67a50400200000000000dea000006c9711d18271000104560123d\
        ea000016c9711d1827100a02442df7d020202020202020202020202020202020000000000000001000000060005ffffffff0054000000000000055c00000040000\
        0055c00000000000000400009003c010000060000000000000000000000000000000000000000000000010000aff20000100000000000000000000000000000000\
        0000000000000000000";

/// The same in little endian.
const LITTLE_CALL: &str = "0200000000010200000000020800450000c0000040004011b8d9c0a80001c0a80002c350889400ac718b04002000100000000000a0de976cd11182710001045601230\
        100a0de976cd111827100a02442df7d020202020202020202020202020202020000000001000000060000000500ffffffff5400000000005c050000400000005c0\
        5000000000000400000000009003c010000060000000000000000000000000000000000000000000000010000aff20000100000000000000000000000000000000\
        0000000000000000000";

/// A positive response without blocks.
const RESPONSE: &str = "020000000001020000000002080045000080000040004011b919c0a80001c0a8000288948894006c803a04020a0000000000dea000006c9711d18271000104560123d\
        ea000016c9711d1827100a02442df7d020202020202020202020202020202020000000000000001000000060005ffffffff0014000000000000000000000000000\
        0055c0000000000000000";

/// A datagram of SNMP.
const OTHER_PORT: &str = "020000000001020000000002080045000022000040004011b977c0a80001c0a80002c35000a1000e7e477075626c6963";

/// An ARP request for the station's address.
pub(crate) const ARP: &str =
    "ffffffffffff02000000000208060001080006040001020000000002c0a80001000000000000c0a80002";

/// Datagrams of each kind.
pub(crate) const DATAGRAMS: [Sample; 4] = [
    Sample {
        hex: CALL,
        order: Order::Big,
    },
    Sample {
        hex: LITTLE_CALL,
        order: Order::Little,
    },
    Sample {
        hex: RESPONSE,
        order: Order::Big,
    },
    Sample {
        hex: OTHER_PORT,
        order: Order::Big,
    },
];

/// Without a VLAN tag, and with one of priority 6.
pub(crate) const TAGS: [&[u8]; 2] = [&[], &[0x81, 0x00, 0xC0, 0x00]];

/// The octets of a frame with this tag after both addresses, and the number of octets before its payload.
pub(crate) fn frame(alloc: Global, hex: &str, tag: &[u8]) -> (Vec<u8>, usize) {
    let octets = hex::decode(alloc, hex.as_bytes()).unwrap();
    let (addresses, rest) = octets.as_slice().split_at_checked(12).expect("whole");
    let bytes = joined(alloc, [addresses, tag, rest]).unwrap();
    (bytes, tag.len().saturating_add(14))
}

/// The pieces, one after another.
fn joined(alloc: Global, pieces: [&[u8]; 3]) -> Result<Vec<u8>, AllocError> {
    let mut octets = Vec::new(alloc);
    for piece in pieces {
        octets.extend_from_slice(piece)?;
    }
    Ok(octets)
}
