//! The station of these tests in each phase, and whether frames left it as it was.
use super::frames::{ACK, ALARM_ACK, ASKED, BLOCKS, OUTPUTS, call};
use device_core::{Event, Note};
use flash_model::MemoryFlash;
use frame_codec::{Bytes, Outbox};
use relations::Phase;
use test_stations::{
    CONNECT, CONTROL, PRM_END, READ, Station, frame, octets, plugged, response, station, step,
};

/// Without a relation, and in each phase of one.
pub(crate) const PHASES: [Option<Phase>; 4] = [
    None,
    Some(Phase::Started),
    Some(Phase::Awaiting),
    Some(Phase::Exchanging),
];

/// A station with an address, in this phase of a relation that these blocks of a Connect made.
pub(crate) fn asked_for(blocks: &[u8], phase: Option<Phase>) -> Station {
    let mut device = station(plugged(), MemoryFlash::blank()).expect("starts");
    let mut outbox = Outbox::new();
    let frames = [
        call(CONNECT, 0, blocks),
        call(CONTROL, 1, &PRM_END),
        response(),
    ];
    for bytes in &frames {
        if device.phase() == phase {
            break;
        }
        let _ = step(&mut device, &frame(bytes.as_slice()), &mut outbox);
    }
    if device.phase() == phase {
        device
    } else {
        panic!("is in another phase")
    }
}

pub(crate) fn at(phase: Option<Phase>) -> Station {
    asked_for(&BLOCKS, phase)
}

/// A station is in this phase of a relation.
pub(crate) fn is_in(device: &Station, phase: Option<Phase>) {
    assert_eq!(device.phase(), phase);
}

/// The front of a frame.
pub(crate) fn front(bytes: &[u8], length: usize) -> Bytes {
    octets(bytes.get(..length).expect("is longer"))
}

/// The application raises an alarm of the module in slot 1.
pub(crate) fn alarm() -> Event<'static> {
    Event::alarm(1, 1, &[0xAA])
}

/// Nothing is sent for a frame, and this becomes of it.
pub(crate) fn is_noted(device: &mut Station, bytes: &Bytes, note: Note) {
    let mut outbox = Outbox::new();
    let came = step(device, &frame(bytes.as_slice()), &mut outbox);
    assert_eq!(came, note, "{:?}", bytes.as_slice());
    assert_eq!(outbox.len(), 0);
}

/// A station takes an event; what it sends is in the box.
pub(crate) fn takes(device: &mut Station, event: &Event<'_>, outbox: &mut Outbox) {
    assert_eq!(step(device, event, outbox), Note::Done);
}

/// Hands a call in. How many octets the one answer has, and its status.
fn served(device: &mut Station, bytes: &Bytes) -> (usize, [u8; 4]) {
    let mut outbox = Outbox::new();
    let _ = step(device, &frame(bytes.as_slice()), &mut outbox);
    let mut status = [0xFF; 4];
    match outbox.as_slice() {
        [sent, ..] if sent.len() >= 126 => {
            status.copy_from_slice(&sent.as_slice()[122..126]);
            (sent.len(), status)
        }
        _ => (0, status),
    }
}

/// The one answer to a call has this many octets, and this status.
pub(crate) fn is_served(device: &mut Station, bytes: &Bytes, (length, status): (usize, [u8; 4])) {
    assert_eq!(served(device, bytes), (length, status));
}

/// Two boxes hold the same frames.
fn are_sent_alike(outbox: &Outbox, wanted: &Outbox) {
    assert_eq!(outbox.len(), wanted.len());
    for (sent, other) in outbox.as_slice().iter().zip(wanted.as_slice()) {
        assert_eq!(sent.as_slice(), other.as_slice());
    }
}

/// Two stations answer an event alike, and show the same after it.
fn is_alike((device, other): (&mut Station, &mut Station), event: &Event<'_>) {
    let (mut outbox, mut wanted) = (Outbox::new(), Outbox::new());
    let note = step(device, event, &mut outbox);
    assert_eq!(note, step(other, event, &mut wanted));
    are_sent_alike(&outbox, &wanted);
    is_in(device, other.phase());
    assert_eq!(device.output(2, 1), other.output(2, 1));
    let date = device.running().im2.as_bytes();
    assert_eq!(date, other.running().im2.as_bytes());
}

/// The rest of the start-up of a relation, by these calls, and what is exchanged in it.
fn further_events([connect, end, ready, read]: &[Bytes; 4]) -> [Event<'_>; 13] {
    [
        alarm(),
        frame(&ACK),
        frame(&ALARM_ACK),
        frame(&OUTPUTS),
        Event::input(1, 1, &[0x12, 0x34]),
        frame(connect),
        frame(end),
        frame(ready),
        frame(read),
        alarm(),
        frame(&ACK),
        frame(&ALARM_ACK),
        frame(&OUTPUTS),
    ]
}

/// A station that met broken frames goes on, through the rest of the start-up, an alarm and the end of its relation by silence, as one
/// in this phase does that met none.
pub(crate) fn is_untouched(mut device: Station, phase: Option<Phase>) {
    let mut other = at(phase);
    let calls = [call(CONNECT, 0, &BLOCKS), call(CONTROL, 1, &PRM_END), response(), call(READ, 2, &ASKED)];
    for event in &further_events(&calls) {
        is_alike((&mut device, &mut other), event);
    }
    is_in(&device, Some(Phase::Exchanging));
    for _ in 0..97 {
        is_alike((&mut device, &mut other), &Event::Tick);
    }
    is_in(&device, None);
}
