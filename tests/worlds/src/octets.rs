//! A start-up, read from the octets that came to the two ends and from those that they sent, as the law of `startup_octets` reads it; and
//! the same octets with one fault planted, which the law then refuses.
use crate::lists::{listing, world};
use crate::otherwise::{RECORDS, as_planned};
use network_world::{End, Move};
use pn_values::demo_identity;
use world_monitor::Net;

/// The ARUUID of the controller.
const RELATION: [u8; 16] = [1; 16];

/// More frames than a start-up has.
const MOST_FRAMES: usize = 100;

/// A frame that came to an end, or no octets, and the frames that it then sent.
#[derive(Clone, Debug, PartialEq)]
pub(crate) struct Turn {
    pub(crate) at_device: bool,
    pub(crate) came: Vec<u8>,
    pub(crate) sent: Vec<Vec<u8>>,
}

/// A parameter record: slot, subslot, index, octets.
pub(crate) type Record = (u64, u64, u64, Vec<u8>);

/// Octets from a place on, none if there are not that many.
fn from(place: usize, octets: &[u8]) -> &[u8] {
    octets.get(place..).unwrap_or(&[])
}

/// At most this many octets at a place.
fn part(place: usize, size: usize, octets: &[u8]) -> &[u8] {
    let rest = from(place, octets);
    &rest[..size.min(rest.len())]
}

/// A number of so many octets at a place, the highest octet first.
fn number(place: usize, size: usize, octets: &[u8]) -> u64 {
    part(place, size, octets)
        .iter()
        .fold(0, |number, octet| number * 256 + u64::from(*octet))
}

/// A number of a call, in the byte order of the call.
fn in_order(place: usize, size: usize, call: &[u8]) -> u64 {
    if number(4, 1, call) / 16 != 1 {
        return number(place, size, call);
    }
    part(place, size, call)
        .iter()
        .rev()
        .fold(0, |number, octet| number * 256 + u64::from(*octet))
}

/// The blocks of a call.
fn args(call: &[u8]) -> &[u8] {
    part(100, in_order(84, 4, call) as usize, call)
}

/// The name of a call: its activity and its sequence number.
fn name(call: &[u8]) -> (u64, u64, u64, u64, &[u8]) {
    (
        in_order(40, 4, call),
        in_order(44, 2, call),
        in_order(46, 2, call),
        in_order(64, 4, call),
        part(48, 8, call),
    )
}

/// The statuses with which a frame answers a call: of the call, and of each record of a list.
fn statuses(call: &[u8], frame: &[u8]) -> Vec<u64> {
    let answer = from(42, frame);
    if number(12, 2, frame) != 0x0800 || number(0, 2, answer) != 0x0402 || name(answer) != name(call)
    {
        return Vec::new();
    }
    let mut all = vec![number(80, 4, answer)];
    let mut rest = from(64, args(answer));
    while !rest.is_empty() && all.len() < 17 {
        all.push(number(44, 4, rest));
        rest = from(64, rest);
    }
    all
}

/// Whether a call has this operation, and its first block this type and the ARUUID.
fn is_of(operation: u64, kind: u64, call: &[u8]) -> bool {
    in_order(68, 2, call) == operation
        && number(0, 2, args(call)) == kind
        && part(8, 16, args(call)) == RELATION
}

/// Whether one frame answers a call, with PNIOStatus 0.
fn is_granted(call: &[u8], sent: &[Vec<u8>]) -> bool {
    let first = sent.iter().filter_map(|frame| statuses(call, frame).first().copied());
    first.collect::<Vec<_>>() == [0]
}

/// The call that came to the device.
fn asked(turn: &Turn) -> Option<&[u8]> {
    let call = from(42, &turn.came);
    let is_call = part(0, 6, &turn.came) == demo_identity().mac.octets
        && number(12, 2, &turn.came) == 0x0800
        && number(0, 2, call) == 0x0400;
    is_call.then_some(call)
}

/// The parameter record after a header, if its index is one.
fn parameter(header: &[u8]) -> Option<Record> {
    let index = number(34, 2, header);
    let octets = part(64, number(36, 4, header) as usize, header).to_vec();
    (index < 0x8000).then_some((number(28, 2, header), number(30, 2, header), index, octets))
}

/// What the blocks of a Write carry.
fn parameters(blocks: &[u8]) -> Vec<Option<Record>> {
    if number(34, 2, blocks) != 0xE040 {
        return vec![parameter(blocks)];
    }
    let mut all = vec![None];
    let mut rest = from(64, blocks);
    while !rest.is_empty() && all.len() < 17 {
        all.push(parameter(rest));
        let size = number(36, 4, rest) as usize;
        rest = from(64 + size.div_ceil(4) * 4, rest);
    }
    all
}

/// The records that the device confirms in a turn.
fn confirmed(turn: &Turn) -> Vec<Record> {
    let Some(call) = asked(turn).filter(|call| turn.at_device && is_of(3, 0x0008, call)) else {
        return Vec::new();
    };
    let told = turn.sent.iter().flat_map(|frame| statuses(call, frame));
    let records = parameters(args(call)).into_iter().zip(told);
    records
        .filter_map(|(record, status)| record.filter(|_| status == 0))
        .collect()
}

/// Whether the device accepts exactly these records in these turns after the first ones, in order. A call that repeats an earlier one can
/// be answered again.
fn are_taken(first: usize, turns: &[Turn], records: &[Record]) -> bool {
    let Some(turn) = turns.get(first) else {
        return records.is_empty();
    };
    let now = confirmed(turn);
    let repeats = asked(turn).is_some_and(|call| {
        let mut earlier = turns[..first].iter().filter(|turn| turn.at_device).filter_map(asked);
        earlier.any(|other| name(other) == name(call))
    });
    (records.starts_with(&now) && are_taken(first + 1, turns, &records[now.len()..]))
        || (repeats && are_taken(first + 1, turns, records))
}

/// The frames that one end sent in these turns.
fn sent_by(at_device: bool, turns: &[Turn]) -> Vec<Vec<u8>> {
    let own = turns.iter().filter(|turn| turn.at_device == at_device);
    own.flat_map(|turn| turn.sent.clone()).collect()
}

/// Whether the device granted a call in a turn.
fn grants(operation: u64, kind: u64, turn: &Turn) -> bool {
    turn.at_device
        && asked(turn).is_some_and(|call| is_of(operation, kind, call) && is_granted(call, &turn.sent))
}

/// Whether these turns are a start-up with these records, after which the device sent this call.
fn is_start_up(turns: &[Turn], records: &[Record], ready: &[u8]) -> bool {
    let is_one = |connect: usize, end: usize| {
        grants(0, 0x0101, &turns[connect])
            && sent_by(false, &turns[..connect]).contains(&turns[connect].came)
            && grants(4, 0x0110, &turns[end])
            && are_taken(connect + 1, &turns[..end], records)
            && sent_by(true, &turns[end..]).contains(&ready.to_vec())
    };
    let ends = |connect: usize| (connect + 1..turns.len()).any(|end| is_one(connect, end));
    is_of(4, 0x0112, from(42, ready)) && (0..turns.len()).any(ends)
}

/// Whether the controller answers a call in this turn, with PNIOStatus 0.
pub(crate) fn answers(turn: &Turn) -> bool {
    !turn.at_device && is_granted(from(42, &turn.came), &turn.sent)
}

/// The law: each call that the controller answers follows a start-up.
pub(crate) fn holds(turns: &[Turn], records: &[Record]) -> bool {
    let each = (0..turns.len()).filter(|place| answers(&turns[*place]));
    each.map(|place| is_start_up(&turns[..place], records, &turns[place].came))
        .all(|is| is)
}

/// All frames that were sent.
fn all_sent(net: &Net) -> Vec<Vec<u8>> {
    let frames = (0..MOST_FRAMES).map_while(|number| net.sent(number));
    frames.map(|frame| frame.as_slice().to_vec()).collect()
}

/// The turns of a start-up in which each frame comes this many times, as soon as it was sent.
fn turns_of(net: &mut Net, times: usize) -> Vec<Turn> {
    let mut turns = Vec::new();
    let mut next = 0;
    while let Some(came) = all_sent(net).get(next).cloned() {
        let at_device = came[6..12] == [2, 0, 0, 0, 0, 2];
        let end = if at_device { End::Device } else { End::Controller };
        for _ in 0..times {
            let before = all_sent(net).len();
            net.play(&[Move::Deliver(end, next)]).expect("memory");
            let sent = all_sent(net).split_off(before);
            let came = came.clone();
            turns.push(Turn { at_device, came, sent });
        }
        next += 1;
    }
    turns
}

/// The records of that catalogue.
pub(crate) fn records() -> Vec<Record> {
    vec![
        (1, 1, 1, vec![0, 0, 0, 0x64]),
        (1, 1, 2, vec![0, 0, 0, 0xC8]),
    ]
}

/// The turns of a start-up with one Write for each record.
fn started() -> Vec<Turn> {
    turns_of(&mut world(as_planned(), RECORDS), 1)
}

/// The place of the turn in which a call of this operation, with this type of block, comes to the device.
fn place_of(turns: &[Turn], operation: u64, kind: u64) -> usize {
    let is = |turn: &Turn| asked(turn).is_some_and(|call| is_of(operation, kind, call));
    turns.iter().position(is).expect("a call")
}

/// The same frame with other octets at a place.
fn patched(frame: &[u8], place: usize, octets: &[u8]) -> Vec<u8> {
    let mut frame = frame.to_vec();
    frame[place..place + octets.len()].copy_from_slice(octets);
    frame
}

// The octets of a start-up are read as one, also if each frame comes twice, and if one Write carries both records.
#[test]
fn start_ups_are_read_in_octets() {
    let each = [
        turns_of(&mut world(as_planned(), RECORDS), 1),
        turns_of(&mut world(as_planned(), RECORDS), 2),
        turns_of(&mut world(as_planned(), &listing()), 1),
        turns_of(&mut world(as_planned(), &listing()), 2),
    ];
    for turns in each {
        assert!(turns.iter().any(answers));
        assert!(holds(&turns, &records()));
        assert!(!holds(&turns, &records()[..1]));
    }
}

// Two records in another order.
#[test]
fn records_that_are_exchanged() {
    let mut turns = started();
    let first = place_of(&turns, 3, 0x0008);
    turns.swap(first, first + 2);
    assert!(!holds(&turns, &records()));
}

// A record is accepted twice, by two calls with names of their own.
#[test]
fn a_record_that_is_accepted_twice() {
    let mut turns = started();
    let first = place_of(&turns, 3, 0x0008);
    let mut again = turns[first].clone();
    again.came = patched(&again.came, 42 + 64, &[0, 0, 0, 77]);
    again.sent = vec![patched(&again.sent[0], 42 + 64, &[0, 0, 0, 77])];
    turns.insert(first + 1, again);
    assert!(!holds(&turns, &records()));
}

// A record that the device refuses, and one of a list.
#[test]
fn a_record_that_is_refused() {
    let mut turns = started();
    let first = place_of(&turns, 3, 0x0008);
    turns[first].sent[0] = patched(&turns[first].sent[0], 42 + 80, &[0xDF, 0x80, 0xB0, 0x00]);
    assert!(!holds(&turns, &records()));
    let mut turns = turns_of(&mut world(as_planned(), &listing()), 1);
    let first = place_of(&turns, 3, 0x0008);
    turns[first].sent[0] = patched(&turns[first].sent[0], 42 + 100 + 64 + 44, &[0xDF, 0x80, 0xB0, 0x00]);
    assert!(!holds(&turns, &records()));
}

// PrmEnd before the last record, and one that is refused.
#[test]
fn parameters_that_end_too_early() {
    let mut turns = started();
    let end = place_of(&turns, 4, 0x0110);
    turns.swap(end, end - 2);
    assert!(!holds(&turns, &records()));
    let mut turns = started();
    turns[end].sent[0] = patched(&turns[end].sent[0], 42 + 80, &[0xDD, 0x81, 0x3E, 0x01]);
    assert!(!holds(&turns, &records()));
}

// An ApplicationReady that the device did not send.
#[test]
fn a_call_that_nobody_sent() {
    let mut turns = started();
    let end = place_of(&turns, 4, 0x0110);
    turns[end].sent.truncate(1);
    assert!(!holds(&turns, &records()));
}

// A Connect that is refused, and one that the controller did not send.
#[test]
fn a_relation_that_was_not_asked_for() {
    let mut turns = started();
    let connect = place_of(&turns, 0, 0x0101);
    turns[connect].sent[0] = patched(&turns[connect].sent[0], 42 + 80, &[0xDB, 0x81, 0x01, 0x05]);
    assert!(!holds(&turns, &records()));
    let mut turns = started();
    turns[connect - 1].sent.clear();
    assert!(!holds(&turns, &records()));
}

// The controller answers a call that is no ApplicationReady, or one of another relation.
#[test]
fn another_call_that_is_answered() {
    for (place, octets) in [(42 + 100, [0x01, 0x10]), (42 + 100 + 8, [7, 7])] {
        let mut turns = started();
        let end = place_of(&turns, 4, 0x0110);
        let call = patched(&turns[end].sent[1], place, &octets);
        turns[end].sent[1] = call.clone();
        let answered = turns.iter().position(answers).expect("an answer");
        turns[answered].came = call;
        assert!(turns.iter().any(answers));
        assert!(!holds(&turns, &records()));
    }
}
