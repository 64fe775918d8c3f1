//! The inputs that a controller shows: all zeros, or those of one frame that the device sent, with the value that its application had given
//! in this relation when it was sent, and zeros if it was bad (`inputs_law::worlds_show_given_inputs`).
use crate::plant::{Done, Entry, Plant, is_of_device, number, payload};
use network_world::End;

/// The place of the input in the octets after the EtherType and the FrameID, and of its IOPS: three IOPS of slot 0 are before it.
const INPUT: usize = 2 + 3;

/// What a frame of inputs brings.
fn brings(frame: &[u8]) -> Option<Vec<u8>> {
    let (kind, data) = payload(frame);
    let is_inputs = kind == 0x8892 && number(data, 0) == 0xC001 && is_of_device(frame);
    let value = data.get(INPUT..INPUT + 3)?;
    is_inputs.then(|| if value[2] & 0x80 != 0 { value[..2].to_vec() } else { vec![0, 0] })
}

/// The first entry after which the law does not hold.
fn broken(entries: &[Entry]) -> Option<usize> {
    let (mut given, mut is_good) = ([0, 0], true);
    let (mut sent, mut accepted): (Vec<(Vec<u8>, Vec<u8>)>, Vec<Vec<u8>>) = (Vec::new(), Vec::new());
    let mut was_related = false;
    entries.iter().position(|entry| {
        let is_related = entry.shown.phase.is_some();
        if is_related && !was_related {
            given = [0, 0];
        }
        match &entry.done {
            Done::Input(value) if is_related => given = *value,
            Done::InputStatus(now) => is_good = *now,
            _ => (),
        }
        was_related = is_related;
        let now = if is_good { given.to_vec() } else { vec![0, 0] };
        sent.extend(entry.sent.iter().filter(|frame| is_of_device(frame)).map(|frame| (frame.clone(), now.clone())));
        if entry.done == Done::Delivered(End::Controller)
            && let Some(value) = brings(&entry.came)
        {
            let is_given = sent.iter().any(|(frame, given)| *frame == entry.came && *given == value);
            accepted.extend(is_given.then_some(value));
        }
        !entry.shown.input.iter().all(|octet| *octet == 0) && !accepted.contains(&entry.shown.input)
    })
}

/// Three values, one of them bad, and then a good one again.
fn run() -> Vec<Entry> {
    let mut plant = Plant::exchanging();
    plant.cycle();
    for value in [[0x12, 0x34], [0x56, 0x78]] {
        plant.input(value);
        plant.cycle();
        assert_eq!(plant.shown().input, value);
    }
    plant.input_status(false);
    plant.cycle();
    assert_eq!(plant.shown().input, [0, 0]);
    plant.input_status(true);
    plant.input([0x9A, 0xBC]);
    plant.cycle();
    assert_eq!(plant.shown().input, [0x9A, 0xBC]);
    plant.entries
}

/// The first entry with this input.
fn first(entries: &[Entry], value: [u8; 2]) -> usize {
    entries.iter().position(|entry| entry.shown.input == value).expect("it is shown")
}

#[test]
fn it_holds_of_a_run() {
    assert_eq!(broken(&run()), None);
}

#[test]
fn an_input_that_was_not_given() {
    let mut entries = run();
    let place = first(&entries, [0x12, 0x34]);
    entries[place].shown.input = vec![0x12, 0x35];
    assert_eq!(broken(&entries), Some(place));
}

#[test]
fn octets_of_two_frames() {
    let mut entries = run();
    let place = first(&entries, [0x56, 0x78]);
    entries[place].shown.input = vec![0x12, 0x78];
    assert_eq!(broken(&entries), Some(place));
}

#[test]
fn an_input_before_its_frame_came() {
    let mut entries = run();
    let place = first(&entries, [0x12, 0x34]) - 1;
    entries[place].shown.input = vec![0x12, 0x34];
    assert_eq!(broken(&entries), Some(place));
}

// The device sends, and the controller shows, a value that the application gave after the frame.
#[test]
fn a_value_that_is_given_later() {
    let mut entries = run();
    let given = entries.iter().position(|entry| entry.done == Done::Input([0x12, 0x34])).expect("it is given");
    let place = first(&entries, [0x12, 0x34]);
    let late = entries.remove(given);
    entries.insert(place, late);
    assert_eq!(broken(&entries), Some(place - 1));
}

#[test]
fn a_value_of_an_earlier_relation() {
    let mut entries = run();
    let given = entries.iter().position(|entry| entry.done == Done::Input([0x12, 0x34])).expect("it is given");
    let place = first(&entries, [0x12, 0x34]);
    let early = entries.remove(given);
    entries.insert(0, early);
    assert_eq!(entries[0].shown.phase, Some(relations::Phase::Exchanging));
    entries[0].shown.phase = None;
    assert_eq!(broken(&entries), Some(place));
}

#[test]
fn a_frame_that_the_device_did_not_send() {
    let mut entries = run();
    let place = first(&entries, [0x12, 0x34]);
    let came = entries[place].came.clone();
    entries.iter_mut().for_each(|entry| entry.sent.retain(|frame| *frame != came));
    assert_eq!(broken(&entries), Some(place));
}

// The application says that the input is bad, and the device sends its value as a good one.
#[test]
fn a_bad_input_that_is_shown() {
    let mut entries = run();
    let place = first(&entries, [0x56, 0x78]);
    let given = entries.iter().position(|entry| entry.done == Done::Input([0x56, 0x78])).expect("it is given");
    let mut bad = entries[given].clone();
    (bad.done, bad.sent) = (Done::InputStatus(false), Vec::new());
    entries.insert(given, bad);
    assert_eq!(broken(&entries), Some(place + 1));
}
