//! The outputs that a device shows, read from octets, as the law of `startup_octets` reads them, over schedules from seeds that
//! `startup_octets::play` plays; and the same entries with one fault planted, which the law then refuses.
use crate::witness::{flash, makings, setup, world};
use frame_codec::Frame;
use network_world::{End, Move};
use rattle_std::alloc::Global;
use startup_octets::{Shown, Witness, play};
use test_stations::octets;
use world_monitor::{Choice, Net, Schedule};

/// How many schedules are played, and how many moves each has.
const SEEDS: u64 = 150;
const MOVES: usize = 700;

/// The outputs of the catalogue, by slot, and the places of their two octets in a frame without its tag. After each is its IOPS.
const PLACES: [(u16, usize); 2] = [(2, 16), (3, 19)];

/// The MAC address of the controller, and the units of 31.25 microseconds between two of its frames.
const CONTROLLER: [u8; 6] = [2, 0, 0, 0, 0, 2];
const UNITS: usize = 32;

/// An output: its octets, if any are shown.
type Value = Option<Vec<u8>>;

/// A move that can be made again: of a schedule, of a value with three octets, or of a status.
#[derive(Clone, Copy)]
enum Made {
    Of(Choice),
    TooLong(u16),
    Rated(u16, bool),
}

/// What a witness learned of a turn.
#[derive(Clone)]
struct Entry {
    at_device: bool,
    came: Vec<u8>,
    sent: Vec<Vec<u8>>,
    said: Option<Made>,
    shown: Vec<Value>,
}

/// What the application gave last for each output, and whether it is good.
#[derive(Clone, Debug, PartialEq)]
struct Said {
    given: [Value; 2],
    good: [bool; 2],
}

#[derive(Default)]
struct Diary {
    entries: Vec<Entry>,
}

impl Witness for Diary {
    fn tell(
        &mut self,
        at_device: bool,
        came: &[u8],
        sent: &[Frame],
        _said: Option<&Move>,
        shown: &Shown<'_>,
    ) {
        let outputs = shown.outputs.as_slice().iter();
        self.entries.push(Entry {
            at_device,
            came: came.to_vec(),
            sent: sent.iter().map(|frame| frame.as_slice().to_vec()).collect(),
            said: None,
            shown: outputs.map(|one| one.as_ref().map(|octets| octets.as_slice().to_vec())).collect(),
        });
    }
}

impl Made {
    fn to_move(self) -> Move {
        match self {
            Made::Of(choice) => choice.to_move(),
            Made::TooLong(slot) => Move::Give(slot, 1, octets(&[1, 2, 3])),
            Made::Rated(slot, is_good) => Move::OutputStatus(slot, 1, is_good),
        }
    }
}

impl Said {
    fn nothing() -> Said {
        Said {
            given: [None, None],
            good: [true, true],
        }
    }

    fn hear(&mut self, made: Made) {
        for (which, (slot, _)) in PLACES.into_iter().enumerate() {
            match made {
                Made::Of(Choice::Give(given, value)) if given == slot => self.given[which] = Some(value.to_vec()),
                Made::Rated(rated, is_good) if rated == slot => self.good[which] = is_good,
                _ => (),
            }
        }
    }

    fn values(&self) -> Vec<Value> {
        (0..2)
            .map(|which| match &self.given[which] {
                Some(value) if self.good[which] => Some(value.clone()),
                _ => Some(vec![0, 0]),
            })
            .collect()
    }
}

/// A frame without its tag.
fn untagged(frame: &[u8]) -> Vec<u8> {
    if frame.len() > 16 && frame[12..14] == [0x81, 0] {
        [&frame[..12], &frame[16..]].concat()
    } else {
        frame.to_vec()
    }
}

/// What a cyclic frame of the relation carries for the outputs.
fn carried(frame: &[u8]) -> Option<Vec<Value>> {
    let frame = untagged(frame);
    if frame.len() < 60 || frame[12..16] != [0x88, 0x92, 0xC0, 0x00] {
        return None;
    }
    let value = |place: usize| match frame[place + 2] {
        0x80 => frame[place..place + 2].to_vec(),
        _ => vec![0, 0],
    };
    Some(PLACES.iter().map(|(_, place)| Some(value(*place))).collect())
}

fn are_zeros(shown: &[Value]) -> bool {
    shown.iter().flatten().flatten().all(|octet| *octet == 0)
}

/// The place of the first entry whose outputs the law refuses.
fn broken(entries: &[Entry]) -> Option<usize> {
    let mut said = Said::nothing();
    // Each frame that the controller sent, with what was given then; and all outputs that a frame which came may bring.
    let (mut sent, mut brought): (Vec<(Vec<u8>, Vec<Value>)>, Vec<Vec<Value>>) = (Vec::new(), Vec::new());
    entries.iter().position(|entry| {
        if let Some(made) = entry.said {
            said.hear(made);
        }
        if entry.at_device && let Some(values) = carried(&entry.came) {
            let given = sent.iter().any(|(frame, given)| *frame == entry.came && *given == values);
            brought.extend(given.then_some(values));
        }
        if !entry.at_device {
            sent.extend(entry.sent.iter().map(|frame| (frame.clone(), said.values())));
        }
        !are_zeros(&entry.shown) && !brought.contains(&entry.shown)
    })
}

/// The place of the first entry after which the outputs are neither as before nor zeros nor those of the frame that comes.
fn changed(entries: &[Entry]) -> Option<usize> {
    (1..entries.len()).find(|&place| {
        let (before, entry) = (&entries[place - 1], &entries[place]);
        let brought = if entry.at_device { carried(&entry.came) } else { None };
        entry.shown != before.shown && !are_zeros(&entry.shown) && brought.as_ref() != Some(&entry.shown)
    })
}

/// The moves of a schedule from a seed, with values that are too long and statuses among them.
fn moves(seed: u64) -> Vec<Made> {
    let (mut net, mut schedule) = (world(None), Schedule::new(seed));
    (0..MOVES)
        .map(|number| {
            let count = (0..).take_while(|count| net.sent(*count).is_some()).count();
            let slot = 2 + (number / 29 % 2) as u16;
            let made = match number % 29 {
                7 => Made::Rated(slot, (number as u64 + seed) % 3 != 0),
                13 => Made::TooLong(slot),
                _ => Made::Of(schedule.choose(count, number as u16)),
            };
            net.play(&[made.to_move()]).expect("memory");
            made
        })
        .collect()
}

/// Plays these moves, and returns what the witness learned.
fn learned(made: &[Made]) -> Vec<Entry> {
    let moves: Vec<Move> = made.iter().map(|made| made.to_move()).collect();
    let mut diary = Diary::default();
    play(Global, makings(), flash(None), setup([1; 16]), &moves, &mut diary)
        .ok()
        .expect("it starts");
    for (entry, made) in diary.entries[1..].iter_mut().zip(made) {
        entry.said = Some(*made);
    }
    diary.entries
}

/// The entries of a schedule in which outputs are shown that are not zeros.
fn showing() -> Vec<Entry> {
    (0..SEEDS)
        .map(|seed| learned(&moves(seed)))
        .find(|entries| entries.iter().filter(|entry| !are_zeros(&entry.shown)).count() > MOVES / 10)
        .expect("a schedule that shows outputs")
}

// After each turn of each schedule the law holds. In many of them outputs are shown that are not zeros, and of both submodules.
#[test]
fn outputs_are_those_of_one_frame() {
    let (mut showing, mut both) = (0, 0);
    for seed in 0..SEEDS {
        let entries = learned(&moves(seed));
        assert_eq!(entries.len(), MOVES + 1);
        assert_eq!((broken(&entries), changed(&entries)), (None, None), "seed {seed}");
        let of = |which: usize, entry: &Entry| !are_zeros(&entry.shown[which..=which]);
        showing += usize::from(entries.iter().any(|entry| of(0, entry) || of(1, entry)));
        both += usize::from(entries.iter().any(|entry| of(0, entry) && of(1, entry)));
    }
    assert!(showing as u64 > SEEDS / 10 && both as u64 > SEEDS / 20);
}

/// Moves that are made in a world as they are written down.
struct Row {
    net: Net,
    made: Vec<Made>,
}

impl Row {
    fn make(&mut self, made: Made) {
        self.net.play(&[made.to_move()]).expect("memory");
        self.made.push(made);
    }

    /// The frame of this number comes to the end that did not send it.
    fn deliver(&mut self, number: usize) {
        let frame = self.net.sent(number).expect("a frame").as_slice();
        let end = if frame[6..12] == CONTROLLER { End::Device } else { End::Controller };
        self.make(Made::Of(Choice::Deliver(end, number)));
    }

    fn count(&self) -> usize {
        (0..).take_while(|count| self.net.sent(*count).is_some()).count()
    }

    /// A millisecond passes, and the frames that both ends then send come to the other one. Returns what the frame of outputs has from
    /// 16 on, without its tag.
    fn cycle(&mut self) -> Vec<u8> {
        let before = self.count();
        for _ in 0..UNITS {
            self.make(Made::Of(Choice::Tick(End::Device)));
            self.make(Made::Of(Choice::Tick(End::Controller)));
        }
        let mut outputs = Vec::new();
        for number in before..self.count() {
            self.deliver(number);
            let frame = self.net.sent(number).expect("a frame").as_slice();
            if carried(frame).is_some() {
                outputs.push(untagged(frame)[16..22].to_vec());
            }
        }
        assert_eq!(outputs.len(), 1);
        outputs.remove(0)
    }
}

// A row worked out by hand: data is exchanged. Before any value the frame has zeros with IOPS that are bad; a value that is given is in
// the next frame, with a good IOPS, and is shown when that comes; a value of another length changes nothing; a value that is said to be
// bad is shown as zeros.
#[test]
fn a_value_is_brought() {
    let mut row = Row {
        net: world(None),
        made: Vec::new(),
    };
    let mut number = 0;
    while number < row.count() {
        row.deliver(number);
        number += 1;
    }
    assert_eq!(row.cycle(), [0, 0, 0, 0, 0, 0]);
    row.make(Made::Of(Choice::Give(2, [5, 6])));
    assert_eq!(row.cycle(), [5, 6, 0x80, 0, 0, 0]);
    row.make(Made::TooLong(2));
    row.make(Made::Of(Choice::Give(3, [7, 8])));
    assert_eq!(row.cycle(), [5, 6, 0x80, 7, 8, 0x80]);
    row.make(Made::Rated(2, false));
    assert_eq!(row.cycle(), [5, 6, 0, 7, 8, 0x80]);
    let entries = learned(&row.made);
    assert_eq!((broken(&entries), changed(&entries)), (None, None));
    let mut shown: Vec<Vec<Value>> = entries.into_iter().map(|entry| entry.shown).collect();
    shown.dedup();
    let both = |one: [u8; 2], other: [u8; 2]| vec![Some(one.to_vec()), Some(other.to_vec())];
    assert_eq!(shown, [both([0, 0], [0, 0]), both([5, 6], [0, 0]), both([5, 6], [7, 8]), both([0, 0], [7, 8])]);
}

// One octet of a shown output is another; outputs of two frames are mixed; outputs are shown before their frame came; the frame was never
// sent; and a value is shown that was not yet given.
#[test]
fn lies_about_outputs() {
    let entries = showing();
    assert_eq!(broken(&entries), None);
    let first = entries.iter().position(|entry| !are_zeros(&entry.shown)).expect("shows");
    let mut lies = entries.clone();
    if let Some(octets) = &mut lies[first].shown[0] {
        octets[0] ^= 0x55;
    }
    assert_eq!(broken(&lies), Some(first));

    let mut lies = entries.clone();
    lies[first - 1].shown = entries[first].shown.clone();
    assert_eq!((broken(&lies), changed(&lies)), (Some(first - 1), Some(first - 1)));

    let came = entries[first].came.clone();
    let mut lies = entries.clone();
    for entry in &mut lies {
        entry.sent.retain(|frame| *frame != came);
    }
    assert_eq!(broken(&lies), Some(first));

    let mut lies = entries.clone();
    for entry in &mut lies {
        if let Some(Made::Of(Choice::Give(slot, _))) = entry.said {
            entry.said = Some(Made::TooLong(slot));
        }
    }
    assert_eq!(broken(&lies), Some(first));
}
