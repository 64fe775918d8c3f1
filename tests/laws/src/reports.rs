//! The diagnoses that a controller accepts are a prefix of those that its device reported, with at most the last one missing; and while data
//! is exchanged and nothing is unconfirmed, both have the same list (`both_ends::worlds_take_alarms`: `reports`, `reported_last`, `list`).
use crate::plant::{Done, Entry, Fault, Plant, is_of_device, number, payload};
use controller_core::State;
use network_world::End;
use relations::Phase;

/// Data of low priority in a frame: SendSeqNum, and the block.
fn data(frame: &[u8]) -> Option<(u16, &[u8])> {
    let (kind, octets) = payload(frame);
    let is_data = kind == 0x8892 && number(octets, 0) == 0xFE01 && octets.get(6)? & 15 == 1;
    let block = octets.get(14..14 + usize::from(number(octets, 12)))?;
    is_data.then(|| (number(octets, 8), block))
}

/// The change that an alarm of the device reports, with the number of its frame.
fn change(frame: &[u8]) -> Option<(u16, Fault, bool)> {
    let (sequence, block) = data(frame).filter(|(_, block)| is_of_device(frame) && number(block, 0) == 0x0002)?;
    let fault = (number(block, 12), number(block, 14), number(block, 28), number(block, 32));
    Some((sequence, fault, number(block, 6) == 1))
}

/// The number of an AlarmAck of the controller.
fn confirmation(frame: &[u8]) -> Option<u16> {
    data(frame).filter(|(_, block)| !is_of_device(frame) && number(block, 0) == 0x8002).map(|(sequence, _)| sequence)
}

/// What both ends did so far.
#[derive(Default)]
struct Known {
    made: usize,
    reported: Vec<(u16, Fault, bool)>,
    accepted: Vec<(u16, Fault, bool)>,
    sent: Vec<u16>,
    confirmed: Vec<u16>,
    existed: Vec<Fault>,
}

impl Known {
    fn see(&mut self, entry: &Entry) {
        if entry.shown.existing != self.existed {
            self.made += 1;
            self.existed = entry.shown.existing.clone();
        }
        for change in entry.sent.iter().filter_map(|frame| change(frame)) {
            if self.reported.iter().all(|other| other.0 != change.0) {
                self.reported.push(change);
            }
        }
        for sequence in entry.sent.iter().filter_map(|frame| confirmation(frame)) {
            if !self.sent.contains(&sequence) {
                self.sent.push(sequence);
                self.accepted.extend(change(&entry.came));
            }
        }
        if entry.done == Done::Delivered(End::Device)
            && let Some(sequence) = confirmation(&entry.came)
            && !self.confirmed.contains(&sequence)
        {
            self.confirmed.push(sequence);
        }
    }

    fn are_a_prefix(&self) -> bool {
        self.reported.starts_with(&self.accepted) && self.reported.len() <= self.accepted.len() + 1
    }

    fn are_equal(&self, entry: &Entry) -> bool {
        let are_related = entry.shown.phase == Some(Phase::Exchanging) && entry.shown.state == State::Exchanging;
        !are_related || self.confirmed.len() < self.made || entry.shown.listed == entry.shown.existing
    }
}

/// The first entry after which the law does not hold.
fn broken(entries: &[Entry]) -> Option<usize> {
    let mut known = Known::default();
    entries.iter().position(|entry| {
        known.see(entry);
        !known.are_a_prefix() || !known.are_equal(entry)
    })
}

const FIRST: Fault = (1, 1, 0x8000, 6);
const SECOND: Fault = (2, 1, 3, 7);

/// Two diagnoses appear, and the first one disappears. The last alarm is under way, and comes after an interval.
fn run() -> Vec<Entry> {
    let mut plant = Plant::exchanging();
    for (fault, appears) in [(FIRST, true), (SECOND, true), (FIRST, false)] {
        let from = plant.count;
        plant.diagnosis(fault, appears);
        plant.deliver_all(from);
    }
    assert_eq!(plant.shown().listed, [SECOND]);
    assert_eq!(plant.shown().existing, [SECOND]);
    plant.cycle();
    plant.entries
}

/// The entries with which the controller accepts an alarm.
fn accepts(entries: &[Entry]) -> Vec<usize> {
    let is = |entry: &Entry| change(&entry.came).is_some() && entry.sent.iter().any(|frame| confirmation(frame).is_some());
    (0..entries.len()).filter(|place| is(&entries[*place])).collect()
}

#[test]
fn it_holds_of_a_run() {
    let entries = run();
    assert_eq!(accepts(&entries).len(), 3);
    assert_eq!(broken(&entries), None);
}

#[test]
fn a_diagnosis_that_stays() {
    let mut entries = run();
    let last = entries.len() - 1;
    entries[last].shown.listed = vec![FIRST, SECOND];
    assert_eq!(broken(&entries), Some(last));
}

#[test]
fn a_diagnosis_that_is_not_listed() {
    let mut entries = run();
    let last = entries.len() - 1;
    entries[last].shown.listed.clear();
    assert_eq!(broken(&entries), Some(last));
}

#[test]
fn a_list_in_another_order() {
    let mut entries = run();
    let both = entries.iter().rposition(|entry| entry.shown.listed == [FIRST, SECOND]).expect("both are listed");
    let place = (0..=both).rev().find(|place| entries[*place].shown.existing == [FIRST, SECOND]).expect("both exist");
    entries[place].shown.listed = vec![SECOND, FIRST];
    assert_eq!(broken(&entries), Some(place));
}

// It comes a second time, and the controller sends an AlarmAck with another number.
#[test]
fn an_alarm_that_is_accepted_twice() {
    let mut entries = run();
    let place = accepts(&entries)[0];
    let mut again = entries[place].clone();
    for frame in &mut again.sent {
        if confirmation(frame).is_some() {
            let at = frame.len() - payload(frame).1.len();
            frame[at + 8] ^= 0x40;
        }
    }
    entries.insert(place + 1, again);
    assert_eq!(broken(&entries), Some(place + 1));
}

#[test]
fn alarms_in_another_order() {
    let mut entries = run();
    let places = accepts(&entries);
    let (first, second) = (entries[places[0]].came.clone(), entries[places[1]].came.clone());
    entries[places[0]].came = second;
    entries[places[1]].came = first;
    assert_eq!(broken(&entries), Some(places[0]));
}

// The first two alarms are not accepted, and the third one is reported all the same.
#[test]
fn two_alarms_that_are_missing() {
    let mut entries = run();
    for place in &accepts(&entries)[..2] {
        entries[*place].sent.clear();
    }
    assert!(broken(&entries).is_some());
}

#[test]
fn an_alarm_that_the_device_did_not_report() {
    let mut entries = run();
    let place = accepts(&entries)[0];
    let came = entries[place].came.clone();
    entries.iter_mut().for_each(|entry| entry.sent.retain(|frame| *frame != came));
    assert_eq!(broken(&entries), Some(place));
}
