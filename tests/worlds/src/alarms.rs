//! Alarms, read from the octets of frames as the law of `startup_octets` reads them, in schedules from seeds; and the same turns with one
//! fault planted, which the law then refuses.
use crate::world;
use network_world::End;
use rattle_std::alloc::Global;
use world_monitor::{Choice, Net, Schedule};

/// An alarm, as a frame carries it and as the controller shows it.
#[derive(Clone, Debug, PartialEq)]
struct Alarm {
    kind: u64,
    api: u64,
    slot: u64,
    subslot: u64,
    module: u64,
    submodule: u64,
    specifier: u64,
    octets: Vec<u8>,
}

/// What an application raises.
#[derive(Clone, Debug, PartialEq)]
struct Raise {
    kind: u64,
    api: u64,
    slot: u64,
    subslot: u64,
    octets: Vec<u8>,
}

/// A move, the frame that it brought, or no octets, the frames that were then sent, and the alarm that the controller shows.
#[derive(Clone)]
struct Entry {
    choice: Choice,
    came: Vec<u8>,
    sent: Vec<Vec<u8>>,
    shown: Option<Alarm>,
}

/// A reader that takes octets from the front of a frame.
struct Reader<'a>(&'a [u8]);

impl<'a> Reader<'a> {
    fn take(&mut self, size: usize) -> Option<&'a [u8]> {
        let (front, rest) = self.0.split_at_checked(size)?;
        self.0 = rest;
        Some(front)
    }

    fn number(&mut self, size: usize) -> Option<u64> {
        let octets = self.take(size)?;
        Some(octets.iter().fold(0, |number, octet| number << 8 | u64::from(*octet)))
    }
}

/// The type and the contents of the block in a frame of high priority with data.
fn block(frame: &[u8]) -> Option<(u64, &[u8])> {
    let mut reader = Reader(frame);
    reader.take(12)?;
    let mut ether_type = reader.number(2)?;
    if ether_type == 0x8100 {
        reader.take(2)?;
        ether_type = reader.number(2)?;
    }
    let frame_id = reader.number(2)?;
    reader.take(4)?;
    let pdu_type = reader.number(1)?;
    if ether_type != 0x8892 || frame_id != 0xFC01 || pdu_type != 0x11 {
        return None;
    }
    reader.take(5)?;
    let size = reader.number(2)?;
    let mut body = Reader(reader.take(size as usize)?);
    let (kind, size) = (body.number(2)?, body.number(2)?);
    Some((kind, body.take(size as usize)?))
}

/// The alarm in the contents of a block.
fn alarm(contents: &[u8]) -> Option<Alarm> {
    let mut reader = Reader(contents);
    assert_eq!(reader.number(2)?, 0x0100);
    let found = Alarm {
        kind: reader.number(2)?,
        api: reader.number(4)?,
        slot: reader.number(2)?,
        subslot: reader.number(2)?,
        module: reader.number(4)?,
        submodule: reader.number(4)?,
        specifier: reader.number(2)?,
        octets: Vec::new(),
    };
    assert_eq!(reader.number(2)?, 1);
    let octets = reader.0.to_vec();
    Some(Alarm { octets, ..found })
}

/// Whether one of these frames carries a block of this type.
fn any_carries(kind: u64, frames: &[Vec<u8>]) -> bool {
    frames.iter().any(|frame| block(frame).is_some_and(|block| block.0 == kind))
}

/// What the device's application raised, where the device sent an alarm.
fn raises(entries: &[Entry]) -> Vec<Raise> {
    let raised = entries.iter().filter(|entry| any_carries(0x0001, &entry.sent));
    raised
        .filter_map(|entry| match entry.choice {
            Choice::Alarm(octets) => Some(Raise {
                kind: 2,
                api: 0,
                slot: 1,
                subslot: 1,
                octets: octets.to_vec(),
            }),
            _ => None,
        })
        .collect()
}

/// The alarms in the frames that came to the controller, where it sent an AlarmAck.
fn accepted(entries: &[Entry]) -> Vec<Alarm> {
    let answered = entries.iter().filter(|entry| {
        matches!(entry.choice, Choice::Deliver(End::Controller, _))
            && any_carries(0x8001, &entry.sent)
    });
    answered
        .map(|entry| {
            let (kind, contents) = block(&entry.came).expect("a block");
            assert_eq!(kind, 0x0001);
            alarm(contents).expect("an alarm")
        })
        .collect()
}

fn raise_of(alarm: &Alarm) -> Raise {
    Raise {
        kind: alarm.kind,
        api: alarm.api,
        slot: alarm.slot,
        subslot: alarm.subslot,
        octets: alarm.octets.clone(),
    }
}

/// Whether the accepted alarms are a prefix of the raised ones, with at most the last one missing, and the controller shows the last one
/// that it accepted, after each entry.
fn holds(entries: &[Entry]) -> bool {
    let raised = raises(entries);
    let taken: Vec<Raise> = accepted(entries).iter().map(raise_of).collect();
    let mut last = None;
    let mut shows_last = true;
    for entry in entries {
        last = accepted(std::slice::from_ref(entry)).pop().or(last);
        shows_last &= entry.shown == last;
    }
    raised.starts_with(&taken) && raised.len() <= taken.len() + 1 && shows_last
}

/// The alarm that the controller shows.
fn shown(net: &Net) -> Option<Alarm> {
    net.controller().alarm().map(|alarm| Alarm {
        kind: u64::from(alarm.alarm_type),
        api: u64::from(alarm.api),
        slot: u64::from(alarm.slot_number),
        subslot: u64::from(alarm.subslot_number),
        module: u64::from(alarm.module_ident_number),
        submodule: u64::from(alarm.submodule_ident_number),
        specifier: u64::from(alarm.alarm_specifier),
        octets: alarm.alarm_data.octets().to_vec(),
    })
}

/// Makes a move, after this many frames were sent.
fn make(net: &mut Net, choice: Choice, count: &mut usize) -> Entry {
    let came = match choice {
        Choice::Deliver(_, number) => net.sent(number).map(|frame| frame.as_slice().to_vec()),
        _ => None,
    };
    net.play(&[choice.to_move()]).expect("memory");
    let first = *count;
    let new = (first..).map_while(|number| net.sent(number).map(|frame| frame.as_slice().to_vec()));
    let sent: Vec<Vec<u8>> = new.collect();
    *count += sent.len();
    Entry {
        choice,
        came: came.unwrap_or_default(),
        sent,
        shown: shown(net),
    }
}

/// The entries of a start-up, and of a schedule from this seed after it.
fn played(seed: u64) -> Vec<Entry> {
    let mut net = world(Global);
    let mut count = 1;
    let (device, controller) = (End::Device, End::Controller);
    let start_up = [
        (device, 0),
        (controller, 1),
        (device, 2),
        (controller, 3),
        (device, 4),
        (controller, 5),
        (device, 6),
        (controller, 7),
        (controller, 8),
        (device, 9),
    ];
    let mut entries: Vec<Entry> = start_up
        .into_iter()
        .map(|(end, number)| make(&mut net, Choice::Deliver(end, number), &mut count))
        .collect();
    let mut schedule = Schedule::new(seed);
    for raised in 0..400 {
        let choice = schedule.choose(count, raised);
        entries.push(make(&mut net, choice, &mut count));
    }
    entries
}

/// The place of the first entry at which an alarm is accepted.
fn place_of(entries: &[Entry]) -> usize {
    let is = |entry: &Entry| !accepted(std::slice::from_ref(entry)).is_empty();
    entries.iter().position(is).expect("an alarm")
}

/// The entries of a schedule with at least this many accepted alarms.
fn entries_with(count: usize) -> Vec<Entry> {
    (0..).map(played).find(|entries| accepted(entries).len() >= count).expect("a schedule")
}

/// A frame in which the last octet of the alarm is another one.
fn other_octet(frame: &[u8]) -> Vec<u8> {
    let (_, contents) = block(frame).expect("a block");
    let end = contents.as_ptr() as usize - frame.as_ptr() as usize + contents.len();
    let mut frame = frame.to_vec();
    frame[end - 1] ^= 1;
    frame
}

// The law holds in schedules that lose, repeat and reorder frames, and raise alarms while others are unconfirmed.
#[test]
fn alarms_are_read_in_octets() {
    let mut counts = (0, 0, 0);
    for seed in 0..100 {
        let entries = played(seed);
        assert!(holds(&entries));
        let again = entries.iter().filter(|entry| {
            matches!(entry.choice, Choice::Deliver(End::Controller, _))
                && block(&entry.came).is_some_and(|block| block.0 == 0x0001)
        });
        counts.0 += raises(&entries).len();
        counts.1 += accepted(&entries).len();
        counts.2 += again.count();
    }
    // Some alarms were lost, and some came more than once.
    assert!(counts.1 > 50 && counts.0 > counts.1 && counts.2 > counts.1, "{counts:?}");
}

// An alarm with another octet, one that is shown too late, and one that is accepted twice, in another order, or not at all.
#[test]
fn other_alarms_are_refused() {
    let entries = entries_with(3);
    assert!(holds(&entries));
    let first = place_of(&entries);
    let second = first + 1 + place_of(&entries[first + 1..]);
    let mut other = entries.clone();
    other[first].came = other_octet(&other[first].came);
    assert!(!holds(&other));
    let mut late = entries.clone();
    late[first].shown = None;
    assert!(!holds(&late));
    let mut twice = entries.clone();
    twice.insert(first + 1, entries[first].clone());
    assert!(!holds(&twice));
    let mut exchanged = entries.clone();
    exchanged.swap(first, second);
    assert!(!holds(&exchanged));
    let mut missing = entries.clone();
    for place in [first, second] {
        missing[place].sent.clear();
    }
    assert!(!holds(&missing));
}

// An alarm that nobody raised, and one that the device did not send.
#[test]
fn an_alarm_that_nobody_raised() {
    let entries = entries_with(1);
    let is_raise = |entry: &Entry| !raises(std::slice::from_ref(entry)).is_empty();
    let raise = entries.iter().position(is_raise).expect("a raise");
    let mut unraised = entries.clone();
    unraised.remove(raise);
    assert!(!holds(&unraised));
    let mut unsent = entries.clone();
    unsent[raise].sent.clear();
    assert!(!holds(&unsent));
}
