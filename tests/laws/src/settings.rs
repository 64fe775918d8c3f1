//! A restart finds the settings of the Sets that were answered, of which only the last may be missing, and only if it was not answered; it
//! has no relation, answers Identify from those settings, and changes no octet of the flash (`device_core::cycle_with`: `headline`; the
//! same for the reference host: `device_abi::play`: `ends`; an image of this device starts: `device_core::cycle`: `left`, `refused`,
//! `Journal::commit`: `kept`).
use asked_records::NamedRecords;
use crate::plant::{as_planned, payload};
use device_abi::{Operation, play};
use device_core::{Device, Event, Sink};
use device_station::Port;
use flash_model::{FlashFault, MemoryFlash, Order, Sector};
use frame_codec::{Frame, Outbox};
use pn_values::demo_identity;
use relations::{DeviceOptions, Phase};
use test_stations::{IDENTIFY, Station, frame, no_modules, set_pump, start};

/// A Set of the name "pump-" and a digit, and its answer: the BlockError, if the device answered.
#[derive(Clone, Debug)]
struct Set {
    digit: u8,
    answer: Option<u8>,
}

/// What a start finds.
#[derive(Clone, Debug)]
struct Found {
    name: Vec<u8>,
    phase: Option<Phase>,
    identified: Vec<u8>,
    before: Vec<u8>,
    after: Vec<u8>,
}

/// A cycle: the name at its beginning, its Sets, and what the start after it finds, or nothing if it is refused.
#[derive(Clone, Debug)]
struct Cycle {
    first: Vec<u8>,
    sets: Vec<Set>,
    found: Option<Found>,
}

fn name_of(digit: u8) -> Vec<u8> {
    [b"pump-", &[digit][..]].concat()
}

/// Whether the law holds.
fn holds(cycle: &Cycle) -> bool {
    let Some(found) = &cycle.found else {
        return false;
    };
    let confirmed = cycle.sets.iter().rfind(|set| set.answer == Some(0)).map_or(cycle.first.clone(), |set| name_of(set.digit));
    let last = cycle.sets.last().filter(|set| set.answer.is_none_or(|error| error != 0));
    let is_name = found.name == confirmed || last.is_some_and(|set| found.name == name_of(set.digit));
    is_name && found.phase.is_none() && found.identified == found.name && found.before == found.after
}

/// The BlockError in the frames that answer a Set.
fn answer(frames: &[Vec<u8>]) -> Option<u8> {
    frames.iter().find_map(|frame| payload(frame).1.get(18).copied())
}

/// The NameOfStation in the answer to Identify.
fn identified(frames: &[Vec<u8>]) -> Vec<u8> {
    let (_, octets) = payload(frames.first().expect("an answer"));
    let mut rest = &octets[12..];
    while rest.len() > 4 {
        let size = usize::from(rest[3]);
        if rest[..2] == [2, 2] {
            return rest[6..4 + size].to_vec();
        }
        rest = &rest[4 + size.next_multiple_of(2)..];
    }
    Vec::new()
}

/// The frames that a device sends at an event: none if it loses its power in it.
fn stepped(device: &mut Station, event: &Event<'_>) -> Vec<Vec<u8>> {
    let mut outbox = Outbox::new();
    device.step(event, &mut outbox);
    if device.is_lost() {
        return Vec::new();
    }
    outbox.as_slice().iter().map(|frame| frame.as_slice().to_vec()).collect()
}

fn image<const S: usize>(flash: &MemoryFlash<S>) -> Vec<u8> {
    [&flash.sector(Sector::First)[..], &flash.sector(Sector::Second)[..]].concat()
}

/// A device that has the name "pump-1" is given others. In the last Set power is lost in this call of the flash.
fn cycle(after: u32, mask: [u8; 8]) -> Cycle {
    let mut device = start(MemoryFlash::blank()).expect("a station");
    stepped(&mut device, &frame(&set_pump(b'1')));
    let mut sets = Vec::new();
    for digit in [b'2', b'3', b'4'] {
        if digit == b'4' {
            device.arm(Order::Cut { after, mask });
        }
        let sent = stepped(&mut device, &frame(&set_pump(digit)));
        sets.push(Set { digit, answer: answer(&sent) });
    }
    let mut flash = device.into_flash();
    let before = image(&flash);
    flash.power_up();
    let found = start(flash).map(|mut device| Found {
        name: device.running().name.as_bytes().to_vec(),
        phase: device.phase(),
        identified: identified(&stepped(&mut device, &frame(&IDENTIFY))),
        before,
        after: image(device.flash()),
    });
    Cycle { first: name_of(b'1'), sets, found }
}

/// A cycle whose last Set is not answered and not carried out.
fn cut() -> Cycle {
    let cycle = cycle(0, [0; 8]);
    let answers: Vec<Option<u8>> = cycle.sets.iter().map(|set| set.answer).collect();
    assert_eq!(answers, [Some(0), Some(0), None]);
    assert_eq!(cycle.found.as_ref().map(|found| found.name.clone()), Some(name_of(b'3')));
    cycle
}

/// The cycle with another outcome.
fn with(change: impl Fn(&mut Found)) -> Cycle {
    let mut cycle = cut();
    change(cycle.found.as_mut().expect("it starts"));
    cycle
}

// Wherever power is lost, and also if the whole of the last call reaches the flash.
#[test]
fn it_holds_of_cycles() {
    let mut kept = 0;
    for after in 0..4 {
        for mask in [[0; 8], [0x55; 8], [0xFF; 8]] {
            let cycle = cycle(after, mask);
            assert!(holds(&cycle), "{after} {mask:?}");
            kept += usize::from(cycle.found.expect("it starts").name == name_of(b'4'));
        }
    }
    assert!(kept > 0);
}

#[test]
fn a_restart_with_an_older_name() {
    for older in [name_of(b'2'), name_of(b'1'), Vec::new()] {
        assert!(!holds(&with(|found| (found.name, found.identified) = (older.clone(), older.clone()))));
    }
}

#[test]
fn a_name_that_was_never_set() {
    assert!(!holds(&with(|found| (found.name, found.identified) = (name_of(b'9'), name_of(b'9')))));
}

// The last Set was answered 'done', and its name is lost.
#[test]
fn an_answered_name_that_is_lost() {
    let mut cycle = cut();
    cycle.sets[2].answer = Some(0);
    assert!(!holds(&cycle));
}

#[test]
fn a_relation_after_a_restart() {
    assert!(!holds(&with(|found| found.phase = Some(Phase::Exchanging))));
}

#[test]
fn another_name_in_the_answer_to_identify() {
    assert!(!holds(&with(|found| found.identified = name_of(b'2'))));
}

#[test]
fn an_octet_that_changes_when_power_comes_back() {
    assert!(!holds(&with(|found| found.after[512] ^= 1)));
}

// A start that refuses what the device itself left.
#[test]
fn an_image_that_is_refused() {
    let mut cycle = cut();
    cycle.found = None;
    assert!(!holds(&cycle));
}

// ---- the reference host

/// The frames that a host sent.
struct Sent(Vec<Vec<u8>>);

impl Sink for Sent {
    fn take(&mut self, frame: &Frame) {
        self.0.push(frame.as_slice().to_vec());
    }
}

type Chip = MemoryFlash<4096>;

/// A port that starts from a chip.
fn booted(chip: &Chip) -> Port {
    let mut port = Port::new(demo_identity(), as_planned(), DeviceOptions::default(), NamedRecords::new(), false);
    for sector in [Sector::First, Sector::Second] {
        port.fill(sector, &chip.sector(sector)[..]).ok().expect("a sector");
    }
    port.boot().ok().expect("it starts");
    port
}

/// A host sets three names one after another; the chip call after this number of calls fails, and the host is cut off.
fn host(after: u32, mask: [u8; 8]) -> (Result<(), FlashFault>, Cycle) {
    let mut chip = Chip::blank();
    let mut port = booted(&chip);
    chip.fuse(after, mask);
    let mut sent = Sent(Vec::new());
    let digits = [b'2', b'3', b'4'];
    let asked = digits.map(set_pump);
    let mut operations: Vec<Operation> = asked.iter().map(|octets| Operation::Happens(frame(octets))).collect();
    operations.push(Operation::Happens(Event::Tick));
    let done = play(&mut port, &mut chip, &operations, &mut sent);
    // The Sets are answered in order; those that were not handed in are not part of the cycle.
    let given = digits.iter().enumerate().take_while(|(place, _)| *place <= sent.0.len());
    let sets = given.map(|(place, digit)| Set { digit: *digit, answer: sent.0.get(place..=place).and_then(answer) }).collect();
    let before = image(&chip);
    chip.power_up();
    let mut device = Device::boot(demo_identity(), no_modules(), chip).ok().expect("it starts");
    let mut outbox = Outbox::new();
    let name = device.running().name.as_bytes().to_vec();
    device.step(&frame(&IDENTIFY), &mut outbox);
    let frames: Vec<Vec<u8>> = outbox.as_slice().iter().map(|frame| frame.as_slice().to_vec()).collect();
    let found = Found { name, phase: device.phase(), identified: identified(&frames), before, after: image(device.flash()) };
    (done, Cycle { first: Vec::new(), sets, found: Some(found) })
}

#[test]
fn it_holds_of_hosts() {
    for after in 0..9 {
        for mask in [[0; 8], [0x55; 8], [0xFF; 8]] {
            let (done, cycle) = host(after, mask);
            assert!(holds(&cycle), "{after} {mask:?} {cycle:?}");
            assert_eq!(done.is_ok(), cycle.sets.iter().all(|set| set.answer == Some(0)));
        }
    }
}

// The host sends the answer before the calls of the chip are done: the answer is out, and the name is lost.
#[test]
fn a_host_that_answers_first() {
    let (_, mut cycle) = host(3, [0; 8]);
    let last = cycle.sets.last_mut().expect("a Set");
    assert_eq!(last.answer, None);
    last.answer = Some(0);
    assert!(!holds(&cycle));
}

// The host leaves a call of an earlier commit out: an older name is on the chip.
#[test]
fn a_host_that_leaves_a_call_out() {
    let (_, mut cycle) = host(8, [0; 8]);
    assert!(cycle.sets.iter().filter(|set| set.answer == Some(0)).count() > 1);
    cycle.found.as_mut().expect("it starts").name = name_of(b'2');
    cycle.found.as_mut().expect("it starts").identified = name_of(b'2');
    assert!(!holds(&cycle));
}
