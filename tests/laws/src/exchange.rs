//! A device that exchanges data sends a frame of inputs with the last unit of each interval, with the value that its application gave last,
//! and zeros before; it sends the ERR for data hold with the unit that completes the data hold time without an accepted frame, and not
//! before, and has no relation afterwards (`end_laws::device_exchange_is_kept`: `interval`, `given`, `hold`).
use crate::plant::{Done, Entry, INTERVAL, Plant, is_of_device, number, payload};
use network_world::End;

/// The data hold time: three intervals.
const HOLD: usize = 3 * INTERVAL;

/// The input in a frame of inputs.
fn brings(frame: &[u8]) -> Option<[u8; 2]> {
    let (kind, data) = payload(frame);
    let is_inputs = kind == 0x8892 && number(data, 0) == 0xC001 && is_of_device(frame);
    is_inputs.then(|| [data[5], data[6]])
}

/// Whether a frame is the ERR of a device whose data hold time is over (PNIOStatus CF 81 FD 05).
fn is_silent(frame: &[u8]) -> bool {
    let (kind, data) = payload(frame);
    kind == 0x8892 && number(data, 0) == 0xFE01 && is_of_device(frame) && data.get(14..18) == Some(&[0xCF, 0x81, 0xFD, 0x05])
}

fn is_outputs(frame: &[u8]) -> bool {
    let (kind, data) = payload(frame);
    kind == 0x8892 && number(data, 0) == 0xC000 && !is_of_device(frame)
}

/// The first entry after which the law does not hold, of the entries from one on with which a frame of inputs is sent.
fn broken(entries: &[Entry]) -> Option<usize> {
    let (mut units, mut silent, mut given, mut is_over) = (0, 0, [0, 0], false);
    entries.iter().position(|entry| {
        let inputs: Vec<[u8; 2]> = entry.sent.iter().filter_map(|frame| brings(frame)).collect();
        let is_ended = entry.sent.iter().any(|frame| is_silent(frame));
        match entry.done {
            Done::Unit(End::Device) => (units, silent) = (units + 1, silent + 1),
            Done::Input(value) => given = value,
            Done::Delivered(End::Device) if is_outputs(&entry.came) => silent = 0,
            _ => (),
        }
        let is_unit = entry.done == Done::Unit(End::Device);
        let ends_now = is_unit && !is_over && silent == HOLD;
        is_over |= ends_now;
        let due: &[[u8; 2]] = if is_unit && !is_over && units % INTERVAL == 0 { &[given] } else { &[] };
        inputs != due || is_ended != ends_now || entry.shown.phase.is_none() != is_over
    })
}

/// Values are given in some intervals. Then the controller is stopped, and its Release is lost.
fn run() -> Vec<Entry> {
    let mut plant = Plant::exchanging();
    for _ in 0..INTERVAL {
        plant.tick(End::Controller);
        plant.tick(End::Device);
        if plant.entries.last().is_some_and(|entry| entry.sent.iter().any(|frame| brings(frame).is_some())) {
            break;
        }
    }
    let begins = plant.entries.len();
    for value in [None, Some([1, 2]), None, Some([3, 4])] {
        if let Some(value) = value {
            plant.input(value);
        }
        plant.cycle();
    }
    plant.stop();
    for _ in 0..HOLD + INTERVAL {
        plant.unit();
    }
    plant.entries.split_off(begins)
}

/// The entries with which a frame of inputs is sent, and the one with the ERR.
fn inputs(entries: &[Entry]) -> Vec<usize> {
    (0..entries.len()).filter(|place| entries[*place].sent.iter().any(|frame| brings(frame).is_some())).collect()
}

fn end(entries: &[Entry]) -> usize {
    entries.iter().position(|entry| entry.sent.iter().any(|frame| is_silent(frame))).expect("it ends")
}

#[test]
fn it_holds_of_a_run() {
    let entries = run();
    assert_eq!(broken(&entries), None);
    assert!(inputs(&entries).len() > 4);
    assert_eq!(entries.last().and_then(|entry| entry.shown.phase), None);
}

#[test]
fn a_frame_that_is_missing_or_sent_twice() {
    let place = inputs(&run())[2];
    let mut entries = run();
    let frame = entries[place].sent.remove(0);
    assert_eq!(broken(&entries), Some(place));
    entries[place].sent = vec![frame.clone(), frame];
    assert_eq!(broken(&entries), Some(place));
}

#[test]
fn a_frame_that_is_early() {
    let mut entries = run();
    let place = inputs(&entries)[2];
    let before = (0..place).rev().find(|place| entries[*place].done == Done::Unit(End::Device)).expect("a unit");
    entries[before].sent = std::mem::take(&mut entries[place].sent);
    assert_eq!(broken(&entries), Some(before));
}

#[test]
fn a_value_that_was_not_given_last() {
    let mut entries = run();
    let place = *inputs(&entries).iter().find(|place| entries[**place].sent.iter().any(|frame| brings(frame) == Some([1, 2]))).expect("it is sent");
    for frame in &mut entries[place].sent {
        let at = frame.len() - payload(frame).1.len();
        frame[at + 5] = 0;
    }
    assert_eq!(broken(&entries), Some(place));
}

#[test]
fn an_end_that_is_early_or_late_or_missing() {
    let place = end(&run());
    let units: Vec<usize> = run().iter().enumerate().filter(|(_, entry)| entry.done == Done::Unit(End::Device)).map(|(place, _)| place).collect();
    let at = units.iter().position(|unit| *unit == place).expect("it ends with a unit");
    let mut early = run();
    early[units[at - 1]].sent.extend(run()[place].sent.clone());
    assert_eq!(broken(&early), Some(units[at - 1]));
    let mut late = run();
    late[place].sent.clear();
    assert_eq!(broken(&late), Some(place));
    let mut kept = run();
    let phase = kept[place - 1].shown.phase;
    kept[place].shown.phase = phase;
    assert_eq!(broken(&kept), Some(place));
}
