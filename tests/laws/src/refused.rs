//! An event with another note than 'done' changes nothing and sends nothing (`Device::step`: `refused`).
use crate::plant::station;
use device_core::{Event, Note};
use flash_model::Sector;
use frame_codec::Outbox;
use test_stations::{BLOCKS, CONNECT, PRM_END, Station, call, frame, set_pump};

/// What a device shows, and its flash.
#[derive(Clone, Debug, PartialEq)]
struct Shown {
    text: String,
    flash: Vec<u8>,
}

/// An event: what the device showed before and after it, its note, and how many frames were sent.
#[derive(Clone, Debug)]
struct Entry {
    before: Shown,
    after: Shown,
    note: Note,
    sent: usize,
}

fn holds(entry: &Entry) -> bool {
    entry.note == Note::Done || entry.sent == 0 && entry.before == entry.after
}

fn shown(device: &Station) -> Shown {
    let (running, stored) = (device.running(), device.stored());
    let settings = [running, stored].map(|one| (one.name.as_bytes().to_vec(), one.suite.address(), one.im1.as_bytes().to_vec()));
    let relation = (device.phase(), device.left(), device.taken().len(), device.diagnoses().len(), device.lamp());
    let outputs = [2, 3].map(|slot| device.output(slot, 1).map(<[u8]>::to_vec));
    let flash = [Sector::First, Sector::Second].map(|sector| device.flash().sector(sector).to_vec()).concat();
    Shown { text: format!("{settings:?} {relation:?} {outputs:?}"), flash }
}

/// Events at a device, among them a frame to another station, octets that are no frame, a broken Set, an input that does not exist, and calls of
/// a relation that it does not have.
fn run() -> Vec<Entry> {
    let mut device = station();
    let mut elsewhere = [0; 60];
    elsewhere[..14].copy_from_slice(&[2, 0, 0, 0, 0, 7, 2, 0, 0, 0, 0, 2, 0x88, 0x92]);
    let (connect, end, set) = (call(CONNECT, 7, 1, &BLOCKS), call(4, 7, 2, &PRM_END), set_pump(b'2'));
    let events = [
        frame(&elsewhere),
        frame(&[1, 2, 3]),
        Event::input(9, 1, &[1, 2]),
        Event::alarm(1, 1, &[1]),
        Event::ready(),
        Event::diagnosis(9, 1, 0x8000, 6, true),
        frame(&connect),
        frame(&end),
        Event::Tick,
        frame(&set),
    ];
    let mut entries = Vec::new();
    for event in events {
        let (before, mut outbox) = (shown(&device), Outbox::new());
        let note = device.step(&event, &mut outbox);
        entries.push(Entry { before, after: shown(&device), note, sent: outbox.len() });
    }
    entries
}

/// The place of the first refused event.
fn refused(entries: &[Entry]) -> usize {
    entries.iter().position(|entry| entry.note != Note::Done).expect("one is refused")
}

#[test]
fn it_holds_of_a_run() {
    let entries = run();
    assert!(entries.iter().all(holds));
    assert!(entries.iter().filter(|entry| entry.note != Note::Done).count() > 4);
    assert!(entries.iter().any(|entry| entry.note == Note::Done && entry.before != entry.after));
}

#[test]
fn a_refused_event_that_sends() {
    let mut entries = run();
    let place = refused(&entries);
    entries[place].sent = 1;
    assert!(!holds(&entries[place]));
}

// It changes what the device shows, or an octet of its flash.
#[test]
fn a_refused_event_that_changes_something() {
    let entries = run();
    let mut other = entries[refused(&entries)].clone();
    other.after.text.push('1');
    assert!(!holds(&other));
    let mut other = entries[refused(&entries)].clone();
    other.after.flash[0] ^= 1;
    assert!(!holds(&other));
    let last = entries.last().expect("an event");
    assert!(last.note == Note::Done && !holds(&Entry { note: Note::Refused, ..last.clone() }));
}
