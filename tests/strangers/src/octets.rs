//! Which frames belong to a relation, at fixed places: the definitions of crates/strangers_law/specs, written once more.
use controller_core::State;

/// By what a relation is known in frames to one of its ends.
#[derive(Clone, Debug)]
pub(crate) struct Marks {
    pub(crate) station: [u8; 6],
    pub(crate) partner: [u8; 6],
    pub(crate) uuid: [u8; 16],
    pub(crate) frame_id: u64,
    pub(crate) own_endpoint: u64,
    pub(crate) their_endpoint: u64,
}

/// Octets from a place on, none if there are not that many.
fn from(place: usize, octets: &[u8]) -> &[u8] {
    octets.get(place..).unwrap_or(&[])
}

/// At most this many octets at a place.
fn part(place: usize, size: usize, octets: &[u8]) -> &[u8] {
    let rest = from(place, octets);
    &rest[..size.min(rest.len())]
}

/// The number of so many octets at a place, the highest octet first; an octet that is not there is 0.
fn number(place: usize, size: usize, octets: &[u8]) -> u64 {
    (place..place + size).fold(0, |sum, at| sum * 256 + octets.get(at).copied().map_or(0, u64::from))
}

/// A frame without its VLAN tag.
fn untagged(frame: &[u8]) -> Vec<u8> {
    if number(12, 2, frame) == 0x8100 {
        [part(0, 12, frame), from(16, frame)].concat()
    } else {
        frame.to_vec()
    }
}

fn is_cyclic_of(marks: &Marks, frame: &[u8]) -> bool {
    number(12, 2, frame) == 0x8892 && number(14, 2, frame) == marks.frame_id && part(6, 6, frame) == marks.partner
}

fn is_alarm_of(marks: &Marks, frame: &[u8]) -> bool {
    number(12, 2, frame) == 0x8892
        && [0xFC01, 0xFE01].contains(&number(14, 2, frame))
        && part(6, 6, frame) == marks.partner
        && number(16, 2, frame) == marks.own_endpoint
        && number(18, 2, frame) == marks.their_endpoint
}

fn is_little(call: &[u8]) -> bool {
    number(4, 1, call) / 16 == 1
}

/// The blocks of a call.
fn args_of(call: &[u8]) -> &[u8] {
    let size = if is_little(call) {
        (84..88).rev().fold(0, |sum, at| sum * 256 + number(at, 1, call))
    } else {
        number(84, 4, call)
    };
    part(100, size as usize, call)
}

/// The activity of a packet: 16 octets, as they are with the highest octet first.
fn activity_of(call: &[u8]) -> Vec<u8> {
    let mut octets = part(40, 16, call).to_vec();
    if is_little(call) && octets.len() >= 8 {
        octets[..4].reverse();
        octets[4..6].reverse();
        octets[6..8].reverse();
    }
    octets
}

fn is_call_of(marks: &Marks, call: &[u8]) -> bool {
    number(0, 2, call) == 0x0400 && part(8, 16, args_of(call)) == marks.uuid
}

/// A datagram of UDP.
fn is_datagram(frame: &[u8]) -> bool {
    number(12, 2, frame) == 0x0800 && number(23, 1, frame) == 17
}

/// Whether a frame belongs to the relation of a device.
pub(crate) fn belongs(marks: &Marks, frame: &[u8]) -> bool {
    let frame = untagged(frame);
    let call = from(42, &frame);
    let is_response = number(0, 2, call) == 0x0402 && activity_of(call) == marks.uuid;
    part(0, 6, &frame) == marks.station
        && (is_cyclic_of(marks, &frame)
            || is_alarm_of(marks, &frame)
            || is_reset(&frame)
            || (is_datagram(&frame) && (is_call_of(marks, call) || is_response)))
}

fn is_dcp_answer(id: u64, service: u64, xid: u64, frame: &[u8]) -> bool {
    number(12, 2, frame) == 0x8892
        && number(14, 2, frame) == id
        && number(16, 1, frame) == service
        && number(18, 4, frame) == xid
}

/// Whether a frame belongs to the relation of a controller in this state, whose calls have this activity.
pub(crate) fn belongs_to(marks: &Marks, state: State, activity: &[u8], frame: &[u8]) -> bool {
    let frame = untagged(frame);
    let call = from(42, &frame);
    let is_awaited = match state {
        State::Looking => is_dcp_answer(0xFEFF, 5, 1, &frame),
        State::Addressing => is_dcp_answer(0xFEFD, 4, 2, &frame),
        _ => false,
    };
    part(0, 6, &frame) == marks.station
        && (is_awaited
            || is_cyclic_of(marks, &frame)
            || is_alarm_of(marks, &frame)
            || (is_datagram(&frame) && (is_call_of(marks, call) || activity_of(call) == activity)))
}

/// Whether a frame is a DCP Set with one of these options and suboptions among its first 16 blocks; any Set if there are none of them.
fn is_set_of(kinds: &[u64], frame: &[u8]) -> bool {
    if number(12, 2, frame) != 0x8892 || number(14, 2, frame) != 0xFEFD || number(16, 2, frame) != 0x0400 {
        return false;
    }
    let mut rest = part(26, number(24, 2, frame) as usize, frame);
    for _ in 0..16 {
        if rest.is_empty() {
            break;
        }
        if kinds.contains(&number(0, 2, rest)) {
            return true;
        }
        rest = from(4 + number(2, 2, rest).div_ceil(2) as usize * 2, rest);
    }
    kinds.is_empty()
}

fn is_reset(frame: &[u8]) -> bool {
    is_set_of(&[0x0505, 0x0506], frame)
}

/// Whether the frame of anybody leaves a device exactly as it is: it is no call and no Set to the device, or while the device has a relation a Set
/// without a Signal, and belongs to no relation of it.
pub(crate) fn is_quiet(marks: &Marks, related: bool, frame: &[u8]) -> bool {
    let bare = untagged(frame);
    let is_setting = is_set_of(if related { &[0x0503] } else { &[] }, &bare);
    let is_call = is_datagram(&bare) && number(36, 2, &bare) == 34964 && number(0, 2, from(42, &bare)) == 0x0400;
    !(part(0, 6, &bare) == marks.station && (is_setting || is_call)) && !(related && belongs(marks, frame))
}

/// The stations that a frame goes to and comes from.
pub(crate) fn ends(frame: &[u8]) -> (&[u8], &[u8]) {
    (part(0, 6, frame), part(6, 6, frame))
}

/// The station that a frame comes from.
pub(crate) fn sender(frame: &[u8]) -> Vec<u8> {
    part(6, 6, &untagged(frame)).to_vec()
}
