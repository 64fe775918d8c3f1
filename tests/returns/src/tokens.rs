//! What a frame says, from the offsets of its octets alone: its kind, and the numbers that tell it from others of its kind.
use crate::ends::End;

fn octet(octets: &[u8], at: usize) -> u8 {
    octets.get(at).copied().unwrap_or(0)
}

/// The number in the two octets at an offset.
pub fn number(octets: &[u8], at: usize) -> u16 {
    u16::from_be_bytes([octet(octets, at), octet(octets, at + 1)])
}

/// The number in the four octets at an offset.
pub fn long(octets: &[u8], at: usize) -> u32 {
    u32::from(number(octets, at)) << 16 | u32::from(number(octets, at + 2))
}

fn hex(octets: &[u8], at: usize, count: usize) -> String {
    (at..at + count).map(|at| format!("{:02x}", octet(octets, at))).collect()
}

/// Where the EtherType is: after the tag, if there is one.
pub fn type_at(octets: &[u8]) -> usize {
    if number(octets, 12) == 0x8100 { 16 } else { 12 }
}

/// The IP address that a DCP answer reports, of its blocks.
fn address(body: &[u8]) -> String {
    let mut at = 12;
    while at + 4 <= body.len() {
        if number(body, at) == 0x0102 {
            return hex(body, at + 6, 4);
        }
        let length = usize::from(number(body, at + 2));
        at += 4 + length + length % 2;
    }
    String::from("none")
}

/// An alarm PDU: its SendSeqNum and AckSeqNum follow its kind.
fn alarm(body: &[u8]) -> String {
    let kind = match (octet(body, 6) & 15, number(body, 14)) {
        (1, 0x0001) => "alarm",
        (1, 0x0002) => "low",
        (1, 0x8001) => "taken",
        (1, 0x8002) => "lowtaken",
        (2, _) => "nack",
        (3, _) => "ack",
        (4, _) => return format!("err:{}", octet(body, 17)),
        _ => "pdu",
    };
    let priority = if number(body, 0) == 0xfc01 { "h" } else { "l" };
    format!("{kind}{priority}:{}:{}", number(body, 8), number(body, 10))
}

/// Cyclic data: its CycleCounter, the data, each with its IOPS, and DataStatus.
fn cyclic(body: &[u8], from: End) -> String {
    let counter = number(body, body.len().saturating_sub(4));
    match from {
        End::Device => format!("in:{counter}:{}:{}", hex(body, 5, 3), hex(body, body.len().saturating_sub(2), 1)),
        End::Controller => format!("out:{counter}:{}:{}", hex(body, 2, 3), hex(body, 5, 3)),
    }
}

fn real_time(body: &[u8], from: End) -> String {
    match number(body, 0) {
        0xfefe => String::from("identify"),
        0xfeff => format!("found:{}", address(body)),
        0xfefd if octet(body, 3) == 0 => String::from("set"),
        0xfefd => format!("done:{}", octet(body, 18)),
        0xfc01 | 0xfe01 => alarm(body),
        0x8000..=0xfbff => cyclic(body, from),
        other => format!("frame:{other:04x}"),
    }
}

/// Where the entries of a Write begin that carries a list of records.
pub fn entries(octets: &[u8]) -> Vec<usize> {
    let mut places = Vec::new();
    let is_list = octet(octets, 69) == 1 && number(octets, 110) == 3 && number(octets, 176) == 0xE040;
    let (mut at, end) = (206, 206 + if is_list { long(octets, 178) as usize } else { 0 });
    while at < end {
        places.push(at);
        at += 64 + (long(octets, at + 36) as usize).next_multiple_of(4);
    }
    places
}

/// The records that a Write carries, each with its index: one, or those of a list.
fn records(octets: &[u8]) -> String {
    let spelled = |at| format!("{}:{}", number(octets, at + 34), hex(octets, at + 64, long(octets, at + 36) as usize));
    let records: Vec<String> = entries(octets).into_iter().map(spelled).collect();
    if records.is_empty() { spelled(142) } else { records.join(",") }
}

/// A call or a response: whose it is, by the last octets of its activity, and its sequence number.
fn datagram(octets: &[u8]) -> String {
    let (whose, sequence) = (long(octets, 94), long(octets, 106));
    match (octet(octets, 43), octet(octets, 69), number(octets, 110)) {
        (0, 1, 0) => format!("connect#{whose}:{sequence}"),
        (0, 1, 1) => format!("release#{whose}:{sequence}"),
        (0, 1, 2) => format!("read#{whose}:{sequence}:{}", number(octets, 176)),
        (0, 1, 3) => format!("write#{whose}:{sequence}:{}", records(octets)),
        (0, 1, 4) => format!("end#{whose}:{sequence}"),
        (0, 2, _) => format!("ready#{whose}"),
        (2, 1, _) if long(octets, 122) == 0 => format!("yes#{whose}:{sequence}"),
        (2, 1, _) => format!("no#{whose}:{sequence}"),
        (2, 2, _) => format!("confirm#{whose}"),
        (kind, _, operation) => format!("rpc:{kind}:{operation}"),
    }
}

/// What a frame of this end says.
pub fn token(octets: &[u8], from: End) -> String {
    let at = type_at(octets);
    match number(octets, at) {
        0x8892 => real_time(&octets[at + 2..], from),
        0x0800 => datagram(octets),
        other => format!("type:{other:04x}"),
    }
}

/// Whether a frame is cyclic.
pub fn is_cyclic(octets: &[u8]) -> bool {
    let at = type_at(octets);
    number(octets, at) == 0x8892 && (0x8000..0xfc00).contains(&number(octets, at + 2))
}

/// Whether a frame is a call or a response.
pub fn is_datagram(octets: &[u8]) -> bool {
    number(octets, type_at(octets)) == 0x0800
}

/// The same frame without its tag.
pub fn untagged(octets: &[u8]) -> Vec<u8> {
    match number(octets, 12) {
        0x8100 => [&octets[..12], &octets[16..]].concat(),
        _ => octets.to_vec(),
    }
}

/// The same frame with a tag.
pub fn tagged(octets: &[u8]) -> Vec<u8> {
    match number(octets, 12) {
        0x8100 => octets.to_vec(),
        _ => [&octets[..12], &[0x81, 0x00, 0xc0, 0x00][..], &octets[12..]].concat(),
    }
}
