//! From the response to its Connect on, a controller sends a frame of outputs with the last unit of each interval, and at no other event. It has
//! for each output the value that its application gave last, and zeros before, with IOPS as the application says, and the count of units as its
//! counter (`exchange_law::controller_exchanges`: `events`, `interval`, `carries`).
use crate::plant::{INTERVAL, PLAN, is_of_device, number, payload, station};
use configurator::plan_from_json;
use controller_core::{Controller, Event, State};
use device_core::Event as AtDevice;
use exchange_law::{Happening, Witness, controller_exchanges};
use frame_codec::Outbox;
use rattle_std::alloc::Global;
use test_stations::{Station, frame, octets};
use uuid::Uuid;

/// The places of a frame with a tag: the data, with each output and its IOPS, then an IOCS for each of the four submodules that send; the counter.
const DATA: usize = 20;
const OUTPUTS: [(u16, usize); 2] = [(2, DATA), (3, DATA + 3)];
const IOCS: usize = DATA + 6;
const SENDERS: usize = 4;
const COUNTER: usize = DATA + 40;

/// What happens to a controller.
#[derive(Clone, Debug, PartialEq)]
enum Came {
    Frame(Vec<u8>),
    Unit,
    Given(u16, [u8; 2]),
    Said(u16, bool),
    Stopped,
}

/// What is told of it: the frames of cyclic data that are sent, and whether there is a relation then.
#[derive(Clone, Debug, PartialEq)]
struct Told {
    came: Came,
    outputs: Vec<Vec<u8>>,
    is_related: bool,
}

fn is_cyclic(frame: &[u8]) -> bool {
    let (kind, data) = payload(frame);
    kind == 0x8892 && matches!(number(data, 0), 0x8000..=0xBBFF | 0xC000..=0xF7FF)
}

fn told(came: Came, frames: &Outbox, state: State) -> Told {
    let all = frames.as_slice().iter().map(|frame| frame.as_slice().to_vec());
    let is_related = matches!(state, State::Writing | State::Ending | State::Waiting | State::Exchanging);
    Told { came, outputs: all.filter(|frame| is_cyclic(frame)).collect(), is_related }
}

/// What a witness learns.
struct Diary(Vec<Told>);

impl Witness for Diary {
    fn tell(&mut self, event: &Event, frames: &Outbox, state: State) {
        let pair = |value: &[u8]| [value[0], value[1]];
        let came = match event {
            Event::Frame(octets) => Came::Frame(octets.as_slice().to_vec()),
            Event::Tick => Came::Unit,
            Event::Give(slot, _, value) => Came::Given(*slot, pair(value.as_slice())),
            Event::Status(slot, _, is_good) => Came::Said(*slot, *is_good),
            _ => Came::Stopped,
        };
        self.0.push(told(came, frames, state));
    }

    fn pass(&mut self, units: u32, state: State) {
        for _ in 0..units {
            self.0.push(told(Came::Unit, &Outbox::new(), state));
        }
    }
}

/// What a witness learns of a controller to which all this happens.
fn learned(happenings: &[Happening]) -> Vec<Told> {
    let mut diary = Diary(Vec::new());
    controller_exchanges(&mut fresh(), happenings, &mut diary);
    diary.0
}

/// The first entry at which the law does not hold.
fn broken(entries: &[Told]) -> Option<usize> {
    let (mut related, mut units, mut given, mut good) = (None, 0_u16, [None, None], [true, true]);
    entries.iter().position(|entry| {
        let is_unit = entry.came == Came::Unit;
        units = units.wrapping_add(u16::from(is_unit));
        for (place, (slot, _)) in OUTPUTS.iter().enumerate() {
            match &entry.came {
                Came::Given(to, value) if to == slot => given[place] = Some(*value),
                Came::Said(to, is_good) if to == slot => good[place] = *is_good,
                _ => (),
            }
        }
        let is_due = is_unit && entry.is_related && related.is_some_and(|passed: usize| (passed + 1) % INTERVAL == 0);
        related = if entry.is_related { Some(related.map_or(0, |passed| passed + usize::from(is_unit))) } else { None };
        let carries = |frame: &Vec<u8>| {
            number(frame, COUNTER) == units
                && frame[IOCS..IOCS + SENDERS].iter().all(|status| *status == 0x80)
                && OUTPUTS.iter().zip(given).zip(good).all(|(((_, at), value), is_good)| {
                    let iops = if value.is_some() && is_good { 0x80 } else { 0 };
                    frame[*at..*at + 2] == value.unwrap_or([0, 0]) && frame[*at + 2] == iops
                })
        };
        entry.outputs.len() != usize::from(is_due) || !entry.outputs.iter().all(carries)
    })
}

/// A device and its controller, and what is told of the controller.
struct Run {
    device: Station,
    controller: Controller,
    entries: Vec<Told>,
}

fn fresh() -> Controller {
    let plan = plan_from_json(Global, PLAN.as_bytes()).ok().expect("a plan");
    Controller::new(plan, Uuid::from_bytes([1; 16]), Uuid::from_bytes([2; 16]))
}

fn event(came: &Came) -> Event {
    match came {
        Came::Frame(came) => Event::Frame(octets(came)),
        Came::Unit => Event::Tick,
        Came::Given(slot, value) => Event::Give(*slot, 1, octets(value)),
        Came::Said(slot, is_good) => Event::Status(*slot, 1, *is_good),
        Came::Stopped => Event::Stop,
    }
}

impl Run {
    fn happens(&mut self, came: Came) {
        let mut sent = Outbox::new();
        self.controller.step(&event(&came), &mut sent);
        self.entries.push(told(came, &sent, self.controller.state()));
        self.carry(&sent);
    }

    /// These frames come to the other end.
    fn carry(&mut self, sent: &Outbox) {
        for one in sent.as_slice() {
            let bytes = one.as_slice().to_vec();
            if is_of_device(&bytes) {
                self.happens(Came::Frame(bytes));
            } else {
                let mut next = Outbox::new();
                self.device.step(&frame(&bytes), &mut next);
                self.carry(&next);
            }
        }
    }

    fn units(&mut self, count: usize) {
        for _ in 0..count {
            self.happens(Came::Unit);
            let mut sent = Outbox::new();
            self.device.step(&AtDevice::Tick, &mut sent);
            self.carry(&sent);
        }
    }
}

/// A start, some intervals with values and statuses, an end, and the time after it.
fn run() -> Vec<Told> {
    let mut run = Run { device: station(), controller: fresh(), entries: Vec::new() };
    run.units(5);
    run.happens(Came::Given(2, [7, 7]));
    let mut sent = Outbox::new();
    run.controller.send_opening(&mut sent);
    run.carry(&sent);
    run.units(3 * INTERVAL);
    for came in [Came::Given(3, [1, 2]), Came::Said(2, false), Came::Given(2, [3, 4]), Came::Said(2, true), Came::Given(3, [5, 6])] {
        run.happens(came);
        run.units(INTERVAL + 7);
    }
    run.happens(Came::Stopped);
    run.units(2 * INTERVAL);
    run.entries
}

/// The entries with which a frame is sent.
fn sending(entries: &[Told]) -> Vec<usize> {
    (0..entries.len()).filter(|place| !entries[*place].outputs.is_empty()).collect()
}

#[test]
fn it_holds_of_a_run_that_a_witness_learns() {
    let entries = run();
    assert_eq!(broken(&entries), None);
    assert_eq!(sending(&entries).len(), 9);
    let comes: Vec<Happening> = entries.iter().map(|entry| Happening::Comes(event(&entry.came))).collect();
    assert_eq!(learned(&comes), entries);
}

#[test]
fn units_that_pass_at_once() {
    // Each interval of the run as one leap: units that follow one another with nothing between them.
    let entries = run();
    let mut leaps = Vec::new();
    for (place, entry) in entries.iter().enumerate() {
        match (&entry.came, leaps.last_mut()) {
            (Came::Unit, Some(Happening::Leaps(units))) if entries[place - 1].outputs.is_empty() => *units += 1,
            (Came::Unit, _) => leaps.push(Happening::Leaps(1)),
            (came, _) => leaps.push(Happening::Comes(event(came))),
        }
    }
    assert!(leaps.len() < entries.len() / 4);
    assert_eq!(learned(&leaps), entries);
    // No more units pass than until the next one that sends.
    assert_eq!(learned(&[Happening::Leaps(100_000)]).len(), 32_000);
}

#[test]
fn a_frame_that_is_missing_sent_twice_or_early() {
    let place = sending(&run())[3];
    let mut entries = run();
    let frame = entries[place].outputs.remove(0);
    assert_eq!(broken(&entries), Some(place));
    entries[place].outputs = vec![frame.clone(), frame.clone()];
    assert_eq!(broken(&entries), Some(place));
    let before = (0..place).rev().find(|place| entries[*place].came == Came::Unit).expect("a unit");
    entries[place].outputs.clear();
    entries[before].outputs = vec![frame];
    assert_eq!(broken(&entries), Some(before));
}

#[test]
fn frames_at_another_interval() {
    // Each second frame is missing, as of a controller that waits twice as long.
    let mut entries = run();
    let places = sending(&entries);
    for place in places.iter().step_by(2) {
        entries[*place].outputs.clear();
    }
    assert_eq!(broken(&entries), Some(places[0]));
}

#[test]
fn a_frame_without_a_unit_or_without_a_relation() {
    let mut entries = run();
    let places = sending(&entries);
    let frame = entries[places[0]].outputs[0].clone();
    let given = entries.iter().position(|entry| matches!(entry.came, Came::Said(..))).expect("a status");
    entries[given].outputs = vec![frame.clone()];
    assert_eq!(broken(&entries), Some(given));
    let mut entries = run();
    let last = entries.len() - 1;
    assert!(!entries[last].is_related);
    entries[last].outputs = vec![frame];
    assert_eq!(broken(&entries), Some(last));
}

#[test]
fn another_value_status_or_counter() {
    // The first frame with the last value for slot 3, and the frame before it.
    let (value, entries) = (OUTPUTS[1].1, run());
    let places = sending(&entries);
    let at = places.iter().position(|place| entries[*place].outputs[0][value..value + 2] == [5, 6]).expect("a frame");
    let (place, before) = (places[at], entries[places[at - 1]].outputs[0].clone());
    let changes: [&dyn Fn(&mut Vec<u8>); 7] = [
        &|frame| frame[value..value + 2].copy_from_slice(&before[value..value + 2]),
        &|frame| frame[value..value + 2].fill(0),
        &|frame| frame[value + 2] = 0,
        &|frame| frame[value + 2] = 0x81,
        &|frame| frame[IOCS] = 0,
        &|frame| frame[IOCS + SENDERS - 1] = 0,
        &|frame| frame[COUNTER..COUNTER + 2].copy_from_slice(&before[COUNTER..COUNTER + 2]),
    ];
    for change in changes {
        let mut entries = run();
        change(&mut entries[place].outputs[0]);
        assert_eq!(broken(&entries), Some(place));
    }
}

#[test]
fn an_iops_that_is_good_where_the_application_says_bad_or_gave_nothing() {
    let mut entries = run();
    let places = sending(&entries);
    // No value was given for slot 3 yet.
    entries[places[0]].outputs[0][OUTPUTS[1].1 + 2] = 0x80;
    assert_eq!(broken(&entries), Some(places[0]));
    let mut entries = run();
    let said = entries.iter().position(|entry| entry.came == Came::Said(2, false)).expect("a status");
    let bad = *places.iter().find(|place| **place > said).expect("a frame");
    assert_eq!(entries[bad].outputs[0][OUTPUTS[0].1 + 2], 0);
    entries[bad].outputs[0][OUTPUTS[0].1 + 2] = 0x80;
    assert_eq!(broken(&entries), Some(bad));
}
