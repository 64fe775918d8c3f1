//! Numbers in octets, in either order, and the checksums of a packet (RFC 1071).

/// The order of the octets of a number.
#[derive(Clone, Copy, PartialEq, Eq)]
pub(crate) enum Order {
    Big,
    Little,
}

/// The number of two octets at a place.
pub(crate) fn u16_at(order: Order, bytes: &[u8], place: usize) -> Option<u16> {
    match (order, bytes.get(place..)?) {
        (Order::Big, [a, b, ..]) => Some(u16::from_be_bytes([*a, *b])),
        (Order::Little, [a, b, ..]) => Some(u16::from_le_bytes([*a, *b])),
        _ => None,
    }
}

/// The number of four octets at a place.
pub(crate) fn u32_at(order: Order, bytes: &[u8], place: usize) -> Option<u32> {
    match (order, bytes.get(place..)?) {
        (Order::Big, [a, b, c, d, ..]) => Some(u32::from_be_bytes([*a, *b, *c, *d])),
        (Order::Little, [a, b, c, d, ..]) => Some(u32::from_le_bytes([*a, *b, *c, *d])),
        _ => None,
    }
}

/// The number of one, two or four octets at a place, or 0 if the place is past the end.
pub(crate) fn number_at(order: Order, bytes: &[u8], place: usize, size: usize) -> u32 {
    let number = match size {
        1 => bytes.get(place).map(|octet| u32::from(*octet)),
        2 => u16_at(order, bytes, place).map(u32::from),
        _ => u32_at(order, bytes, place),
    };
    number.unwrap_or(0)
}

/// Puts the low octets of a number at a place: one, two or four of them.
pub(crate) fn put(order: Order, bytes: &mut [u8], place: usize, size: usize, number: u32) {
    let [a, b, c, d] = number.to_be_bytes();
    let octets = match (order, size) {
        (_, 1) => [d, 0, 0, 0],
        (Order::Big, 2) => [c, d, 0, 0],
        (Order::Little, 2) => [d, c, 0, 0],
        (Order::Big, _) => [a, b, c, d],
        (Order::Little, _) => [d, c, b, a],
    };
    for (octet, value) in bytes.iter_mut().skip(place).take(size).zip(octets) {
        *octet = value;
    }
}

/// The ones' complement sum of words of two octets, added to this sum of an even number of octets before them.
pub(crate) fn ones_sum(before: u32, bytes: &[u8]) -> u32 {
    let mut sum = before;
    for (place, octet) in bytes.iter().enumerate() {
        let word = u32::from(*octet);
        sum = sum.wrapping_add(if place % 2 == 0 { word * 256 } else { word });
    }
    let sum = (sum % 65536).wrapping_add(sum / 65536);
    (sum % 65536).wrapping_add(sum / 65536)
}

/// The sum of a datagram of these octets in a packet with this header: over both addresses, the protocol 17, its length, and
/// itself (RFC 768).
pub(crate) fn udp_sum(header: &[u8], datagram: &[u8]) -> u32 {
    let addresses = ones_sum(0, header.get(12..20).unwrap_or(&[]));
    let length = (datagram.len() % 65536) as u32;
    ones_sum(addresses.wrapping_add(17).wrapping_add(length), datagram)
}

/// Makes the checksums of a packet right, of the header and of the octets that the datagram's length counts.
pub(crate) fn mend(packet: &mut [u8]) {
    put(Order::Big, packet, 10, 2, 0);
    let sum = ones_sum(0, packet.get(..20).unwrap_or(&[]));
    put(Order::Big, packet, 10, 2, !sum);
    let length = number_at(Order::Big, packet, 24, 2) as usize;
    put(Order::Big, packet, 26, 2, 0);
    let Some(datagram) = packet.get(20..).and_then(|rest| rest.get(..length)) else {
        return;
    };
    let sum = udp_sum(packet, datagram);
    let checksum = if sum == 0xFFFF { 0xFFFF } else { !sum };
    put(Order::Big, packet, 26, 2, checksum);
}
