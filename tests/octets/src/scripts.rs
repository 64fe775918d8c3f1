//! Random scripts, given to the device over a flash in memory.
use crate::judge::{Given, Settings, Told, Verdict, judge, judge_with};
use arrayvec::ArrayVec;
use device_core::{Caller, Device, Event, Octets};
use flash_model::{MemoryFlash, Order};
use frame_codec::{Endpoint, Outbox};
use pn_values::{Mac, demo_identity};
use relations::DeviceOptions;
use test_stations::{
    BLOCKS, CONNECT, END, IDENTIFY, PRM_END, READ, RELEASE, Station, WRITE, call, frame, mend,
    plugged,
};

/// How many events a cycle has.
const EVENTS: usize = 16;

/// The operation of a Read Implicit.
const READ_IMPLICIT: u8 = 5;

/// The MAC address of the device of these tests.
pub(crate) const OWN: [u8; 6] = [2, 0, 0, 0, 0, 1];

/// Numbers that are the same each time (xorshift).
pub(crate) struct Random(u64);

impl Random {
    pub(crate) fn new(seed: u64) -> Random {
        Random(seed.wrapping_mul(0x9E37_79B9_7F4A_7C15) | 1)
    }

    /// A number below this one.
    pub(crate) fn below(&mut self, most: u64) -> u64 {
        self.0 ^= self.0 << 13;
        self.0 ^= self.0 >> 7;
        self.0 ^= self.0 << 17;
        self.0 % most
    }

    fn octet(&mut self) -> u8 {
        u8::try_from(self.below(256)).expect("is an octet")
    }

    fn one_of<T: Clone>(&mut self, values: &[T]) -> T {
        let place = usize::try_from(self.below(values.len() as u64)).expect("is a place");
        values[place].clone()
    }
}

fn block(kind: [u8; 2], contents: &[u8]) -> Vec<u8> {
    let size = u16::try_from(contents.len())
        .expect("is short")
        .to_be_bytes();
    let padding = vec![0; contents.len() % 2];
    [&kind, &size, contents, padding.as_slice()].concat()
}

/// A block of a Set, mostly one that can be done.
fn set_block(random: &mut Random) -> Vec<u8> {
    let qualifier = [0, u8::from(random.below(3) > 0)];
    let name = format!("pump-{}", random.below(4));
    match random.below(10) {
        0..3 => block([2, 2], &[&qualifier[..], name.as_bytes()].concat()),
        3 => block([2, 2], &[&qualifier[..], b"Not A Name"].concat()),
        4..6 => block(
            [1, 2],
            &[
                &qualifier[..],
                &[
                    192,
                    168,
                    0,
                    random.one_of(&[2, 2, 2, 9]),
                    255,
                    255,
                    255,
                    0,
                    0,
                    0,
                    0,
                    0,
                ],
            ]
            .concat(),
        ),
        6 => block([5, 3], &[0, 0, 1, 0]),
        7 => block([5, 6], &[0, random.one_of(&[2, 3, 4, 5, 8])]),
        8 => block([5, 5], &[0, 0]),
        _ => block([random.octet() % 6, random.octet() % 8], &qualifier),
    }
}

/// The frame of a Set of these blocks.
fn set_of(random: &mut Random, blocks: &[u8]) -> Vec<u8> {
    let size = u16::try_from(blocks.len()).expect("is short").to_be_bytes();
    let tag: &[u8] = if random.below(4) == 0 {
        &[0x81, 0, 0xC0, 0]
    } else {
        &[]
    };
    let xid = [0, 0, random.octet(), random.octet()];
    [
        &OWN[..],
        &[2, 0, 0, 0, 0, 2],
        tag,
        &[0x88, 0x92, 0xFE, 0xFD, 4, 0],
        &xid,
        &[0, 0],
        &size,
        blocks,
    ]
    .concat()
}

/// A Set of some blocks; now and then one that is broken or for another station.
fn set(random: &mut Random) -> Vec<u8> {
    let blocks: Vec<u8> = (0..=random.below(3))
        .flat_map(|_| set_block(random))
        .collect();
    let mut bytes = set_of(random, &blocks);
    match random.below(12) {
        0 => bytes[5] = 9,
        1 => bytes.truncate(bytes.len() - 1),
        2 => {
            let place = bytes.len() - 1 - usize::try_from(random.below(8)).expect("is a place");
            bytes[place] = random.octet();
        }
        _ => {}
    }
    bytes
}

/// One record of a Write of the relation.
fn write(number: u8, place: [u8; 4], index: u16, record: &[u8]) -> Vec<u8> {
    let size = u32::try_from(record.len()).expect("is short").to_be_bytes();
    let header = [
        &[0, 8, 0, 60, 1, 0, 0, number][..],
        &[0x11; 16],
        &[0; 4],
        &place,
        &[0; 2],
        &index.to_be_bytes(),
        &size,
        &[0; 24],
    ]
    .concat();
    [header, record.to_vec()].concat()
}

/// A record with a text of identification, or another one.
fn record(random: &mut Random, number: u8) -> Vec<u8> {
    let which = random.one_of(&[1_u8, 2, 3, 4, 4]);
    let size: usize = if which == 2 { 16 } else { 54 };
    let text = vec![
        if which == 4 {
            random.octet()
        } else {
            b'a' + random.octet() % 26
        };
        size
    ];
    let length = u8::try_from(size + 2).expect("is short");
    let octets = [&[0, 0x20 + which, 0, length, 1, 0][..], &text].concat();
    let place = if random.below(8) == 0 {
        [0, 1, 0, 1]
    } else {
        [0, 0, 0, 1]
    };
    match random.below(8) {
        0 => write(number, [0, 1, 0, 1], 0x7B, &[1]),
        1 => write(
            number,
            place,
            0xAFF0 + u16::from(which),
            &octets[..octets.len() - 1],
        ),
        _ => write(number, place, 0xAFF0 + u16::from(which), &octets),
    }
}

/// The blocks of a Write: one record, or a list.
fn written(random: &mut Random, number: u8) -> Vec<u8> {
    if random.below(2) == 0 {
        return record(random, number);
    }
    let mut entries = Vec::new();
    for entry in 0..=u8::try_from(random.below(3)).expect("is small") {
        entries.extend(record(random, entry));
        entries.resize(entries.len().next_multiple_of(4), 0);
    }
    let mut blocks = write(number, [0xFF; 4], 0xE040, &entries);
    blocks[24..28].fill(0xFF);
    blocks
}

/// A call of one of five activities, with a number that is mostly the next one.
fn any_call(random: &mut Random, next: &mut u16) -> Vec<u8> {
    let activity = random.one_of(&[7_u8, 7, 7, 8, 9, 10, 11]);
    *next += 1;
    let sequence = if random.below(6) == 0 {
        u16::try_from(random.below(4)).expect("is small")
    } else {
        *next
    };
    let number = u8::try_from(sequence % 250).expect("is small");
    let blocks = written(random, number);
    let mut bytes = match random.below(12) {
        0..3 => call(CONNECT, activity, sequence, &BLOCKS),
        3 => call(RELEASE, activity, sequence, &END),
        4 => call(4, activity, sequence, &PRM_END),
        5 => call(READ, activity, sequence, &blocks[..64]),
        _ => call(WRITE, activity, sequence, &blocks),
    };
    match random.below(16) {
        // an Offset that is not 0, another address, a checksum of IPv4 that is wrong
        0 => bytes.as_mut_slice()[137] = 1,
        1 => {
            bytes.as_mut_slice()[33] = 7;
            mend(&mut bytes);
        }
        2 => bytes.as_mut_slice()[24] ^= 1,
        _ => {}
    }
    bytes.as_slice().to_vec()
}

/// A Read Implicit of one of these activities, with a number that is the next one or that of a call before it.
fn read_implicit(random: &mut Random, next: &mut u16) -> Vec<u8> {
    let activity = random.one_of(&[7_u8, 8, 9, 10, 11, 12]);
    *next += u16::try_from(random.below(2)).expect("is small");
    let blocks = write(0, [0, 0, 0, 1], 0xAFF0, &[]);
    call(READ_IMPLICIT, activity, *next, &blocks).as_slice().to_vec()
}

/// An event of a script, as octets. Mostly a script begins with the address of the calls and a Connect.
fn given(random: &mut Random, place: usize, before: &[Told], next: &mut u16) -> Given {
    match (place, random.below(16)) {
        (0, _) => return Given::Frame(IDENTIFY.to_vec()),
        (1, 0..12) => {
            let suite = block(
                [1, 2],
                &[0, 1, 192, 168, 0, 2, 255, 255, 255, 0, 0, 0, 0, 0],
            );
            return Given::Frame(set_of(random, &suite));
        }
        (2, 0..12) => return Given::Frame(call(CONNECT, 7, 9, &BLOCKS).as_slice().to_vec()),
        _ => {}
    }
    match random.below(16) {
        0..5 => Given::Frame(set(random)),
        5..11 => Given::Frame(any_call(random, next)),
        11..14 if !before.is_empty() => random.one_of(before).given,
        14 => Given::Call(any_call(random, next)[42..].to_vec()),
        15 => Given::Frame(IDENTIFY.to_vec()),
        _ => Given::Other,
    }
}

pub(crate) fn event(given: &Given) -> Event<'_> {
    match given {
        Given::Frame(octets) => frame(octets),
        Given::Call(octets) => {
            let caller = Caller {
                mac: Mac {
                    octets: [2, 0, 0, 0, 0, 2],
                },
                endpoint: Endpoint {
                    address: [192, 168, 0, 1],
                    port: 0x8894,
                },
            };
            Event::Call(caller, [192, 168, 0, 2], Octets::of(octets))
        }
        Given::Other => Event::Tick,
    }
}

/// What a device has stored.
pub(crate) fn stored(device: &Station) -> Settings {
    let settings = device.stored();
    let suite = &settings.suite;
    Settings {
        name: settings.name.as_bytes().to_vec(),
        suite: [suite.address(), suite.mask(), suite.gateway()].concat(),
        texts: [
            settings.im1.as_bytes().to_vec(),
            settings.im2.as_bytes().to_vec(),
            settings.im3.as_bytes().to_vec(),
            settings.im4.as_bytes().to_vec(),
        ],
    }
}

/// One event: what a device sends at it, nothing once its power is lost.
fn told(device: &mut Station, given: Given) -> Told {
    let mut outbox = Outbox::new();
    let _ = device.step(&event(&given), &mut outbox);
    let frames = if device.is_lost() {
        &[]
    } else {
        outbox.as_slice()
    };
    Told {
        given,
        sent: frames
            .iter()
            .map(|frame| frame.as_slice().to_vec())
            .collect(),
    }
}

/// A cycle: the settings before it, what was told, and the settings after it.
pub(crate) struct Cycle {
    pub(crate) first: Settings,
    pub(crate) transcript: Vec<Told>,
    pub(crate) settings: Settings,
}

/// A life of so many cycles from a blank chip on. In some of them a call of the flash fails or loses power.
pub(crate) fn life(random: &mut Random, cycles: usize) -> Vec<Cycle> {
    life_over(random, cycles, 3, None)
}

/// A life in which no call of the flash fails.
pub(crate) fn unbroken_life(random: &mut Random, cycles: usize) -> Vec<Cycle> {
    life_over(random, cycles, 1, None)
}

/// A life in which every other event is a Read Implicit, of a device that stores the answers to these or does not.
fn life_of_reads(random: &mut Random, cycles: usize, reads_not_kept: bool) -> Vec<Cycle> {
    life_over(random, cycles, 1, Some(reads_not_kept))
}

/// A life over a flash of one of the first kinds: none of its calls fails, one loses power, or one fails. With Read Implicit, if it is said
/// whether the device stores the answers to them.
fn life_over(
    random: &mut Random,
    cycles: usize,
    kinds: u64,
    reads_not_kept: Option<bool>,
) -> Vec<Cycle> {
    let options = DeviceOptions {
        reads_not_kept: reads_not_kept.unwrap_or(false),
        ..DeviceOptions::default()
    };
    let mut flash = MemoryFlash::<768>::blank();
    let mut lived = Vec::new();
    for _ in 0..cycles {
        let mut device = Device::boot_with(demo_identity(), plugged(), options, flash)
            .ok()
            .expect("starts");
        let first = stored(&device);
        let mut transcript = Vec::new();
        let mut next = 10;
        let orders = random.below(kinds);
        for place in 0..EVENTS {
            if random.below(EVENTS as u64) == 0 && orders > 0 {
                let mask = random.one_of(&[[0; 8], [0x55; 8], [0xFF; 8]]);
                let after = u32::try_from(random.below(5)).expect("is small");
                device.arm(if orders == 1 {
                    Order::Cut { after, mask }
                } else {
                    Order::Fault { after, mask }
                });
            }
            let given = if reads_not_kept.is_some() && place > 2 && random.below(2) == 0 {
                Given::Frame(read_implicit(random, &mut next))
            } else {
                given(random, place, &transcript, &mut next)
            };
            transcript.push(told(&mut device, given));
        }
        flash = device.into_flash();
        flash.power_up();
        let again = Device::boot_with(demo_identity(), plugged(), options, flash)
            .ok()
            .expect("starts again");
        lived.push(Cycle {
            first,
            transcript,
            settings: stored(&again),
        });
        flash = again.into_flash();
    }
    lived
}

#[test]
fn the_device_is_explained_by_its_octets() {
    let mut found = ArrayVec::<Verdict, 8_192>::new();
    for seed in 0..300 {
        for cycle in life(&mut Random::new(seed), 6) {
            let verdict = judge(&OWN, &cycle.first, &cycle.transcript, &cycle.settings);
            assert!(
                matches!(
                    verdict,
                    Verdict::Confirmed | Verdict::Stopped | Verdict::CutOff
                ),
                "seed {seed}: {verdict:?}: {:?} from {:?} by {:02x?}",
                cycle.settings,
                cycle.first,
                cycle.transcript
            );
            found.push(verdict);
        }
    }
    // Each of the three ways to explain settings is needed.
    for verdict in [Verdict::Confirmed, Verdict::Stopped, Verdict::CutOff] {
        assert!(found.contains(&verdict), "{verdict:?} does not come");
    }
}

#[test]
fn reads_that_are_not_stored_take_no_place() {
    let mut mistaken = 0;
    for seed in 0..200 {
        for cycle in life_of_reads(&mut Random::new(seed), 3, true) {
            let verdict = |reads_not_kept| {
                judge_with(
                    reads_not_kept,
                    &OWN,
                    &cycle.first,
                    &cycle.transcript,
                    &cycle.settings,
                )
            };
            assert_eq!(verdict(true), Verdict::Confirmed, "seed {seed}");
            mistaken += usize::from(verdict(false) != Verdict::Confirmed);
        }
        for cycle in life_of_reads(&mut Random::new(seed), 3, false) {
            assert_eq!(
                judge(&OWN, &cycle.first, &cycle.transcript, &cycle.settings),
                Verdict::Confirmed,
                "seed {seed}"
            );
        }
    }
    // A reader of the other rule finds another stored answer, or an answer that is owed.
    assert!(mistaken > 40, "{mistaken}");
}
