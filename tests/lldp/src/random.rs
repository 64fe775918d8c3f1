//! Random frames: a machine of neighbours and a second reader with a list of one agree on each.

use super::reader::told;
use super::{STATION, octets};
use lldp::{Heard, Neighbours};

/// Ticks in a second.
const SECOND: u64 = 32_000;

/// Numbers that look random, the same in each run (xorshift).
struct Random(u64);

impl Random {
    fn next(&mut self) -> u64 {
        self.0 ^= self.0 << 13;
        self.0 ^= self.0 >> 7;
        self.0 ^= self.0 << 17;
        self.0
    }

    fn below(&mut self, most: u64) -> u64 {
        self.next() % most
    }
}

/// A TLV of this type with up to a few octets; some lengths are wrong.
fn put_tlv(random: &mut Random, frame: &mut Vec<u8>, kind: u8) {
    let size = match random.below(8) {
        0 => random.below(3),
        1 => 250 + random.below(10),
        _ => 2 + random.below(12),
    };
    let told = if random.below(40) == 0 { size + 1 } else { size };
    frame.push(kind << 1 | (told >> 8) as u8);
    frame.push(told as u8);
    let start = frame.len();
    frame.extend((0..size).map(|_| random.next() as u8));
    if kind == 127 && size == 10 {
        frame[start..start + 4].copy_from_slice(&[0, 0x0e, 0xcf, 5]);
    }
    if kind == 1 && random.below(2) == 0 && size > 0 {
        frame[start] = 4;
    }
    if kind == 3 && size >= 2 && random.below(2) == 0 {
        frame[start] = 0;
        frame[start + 1] = random.below(4) as u8;
    }
}

/// A frame that is mostly LLDP.
fn frame(random: &mut Random) -> Vec<u8> {
    let mut frame = octets("0180c200000e02000000");
    frame.extend([random.below(2) as u8, random.below(2) as u8]);
    if random.below(4) == 0 {
        frame.extend(octets("8100e000"));
    }
    frame.extend(octets("88cc"));
    for kind in [1, 2, 3] {
        if random.below(30) != 0 {
            put_tlv(random, &mut frame, kind);
        }
    }
    for _ in 0..random.below(5) {
        let kind = match random.below(12) {
            0 => random.below(4) as u8,
            1 => random.below(128) as u8,
            2..=5 => 127,
            _ => 4 + random.below(5) as u8,
        };
        put_tlv(random, &mut frame, kind);
    }
    if random.below(2) == 0 {
        frame.extend([0, 0]);
    }
    if random.below(10) == 0 {
        let place = random.below(frame.len() as u64) as usize;
        frame[place] = random.next() as u8;
    }
    if random.below(10) == 0 {
        let size = random.below(frame.len() as u64 + 1) as usize;
        frame.truncate(size);
    }
    frame
}

/// Where the lifetime of a message is, if its TLVs are where they should be.
fn lifetime_at(frame: &[u8]) -> Option<usize> {
    let mut place = if frame.get(12..14)? == [0x81, 0] { 18 } else { 14 };
    for _ in 0..2 {
        place += 2 + usize::from(*frame.get(place + 1)?);
    }
    (frame.len() >= place + 4).then_some(place + 2)
}

/// The next frame: one of random octets, the one before again, also with another octet or a lifetime of 0, or another one.
fn next_frame(random: &mut Random, round: u64, last: &[u8]) -> Vec<u8> {
    if round % 16 == 0 {
        return (0..random.below(1520)).map(|_| random.next() as u8).collect();
    }
    if last.is_empty() || random.below(3) != 0 {
        return frame(random);
    }
    let mut again = last.to_vec();
    match (random.below(4), lifetime_at(&again)) {
        (0 | 1, _) => {
            let place = random.below(again.len() as u64) as usize;
            again[place] = random.below(4) as u8;
        }
        (2, Some(place)) => again[place..place + 2].fill(0),
        _ => {}
    }
    again
}

/// What a station knows of its neighbour: ChassisID, PortID and MAC address.
type Known = (Vec<u8>, Vec<u8>, [u8; 6]);

fn known(neighbours: &Neighbours) -> Option<Known> {
    neighbours.neighbour().map(|neighbour| {
        (
            neighbour.chassis.as_slice().to_vec(),
            neighbour.port.as_slice().to_vec(),
            neighbour.mac.octets,
        )
    })
}

/// After how many ticks the neighbour is forgotten, if nothing is heard.
fn ticks_until_forgotten(mut neighbours: Neighbours) -> u64 {
    let mut ticks = 0;
    while neighbours.neighbour().is_some() {
        let quiet = neighbours.due_in() - 1;
        neighbours.pass(quiet);
        let _ = neighbours.tick();
        ticks += u64::from(quiet) + 1;
    }
    ticks
}

/// What a frame does to what is known, and the lifetime of what is known then, if the frame told one.
fn expected(before: &Option<Known>, frame: &[u8]) -> (Heard, Option<Known>, Option<u16>) {
    match told(STATION.octets, frame) {
        None => (Heard::Nothing, before.clone(), None),
        Some((chassis, port, _, 0)) => match before {
            Some(known) if known.0 == chassis && known.1 == port => (Heard::Changed, None, None),
            _ => (Heard::Same, before.clone(), None),
        },
        Some((chassis, port, mac, lifetime)) => {
            let after = Some((chassis, port, mac));
            let effect = if *before == after { Heard::Same } else { Heard::Changed };
            (effect, after, Some(lifetime))
        }
    }
}

#[test]
fn both_readers_read_the_same() {
    let number = |name, other| std::env::var(name).map_or(other, |text| text.parse().expect("a number"));
    let rounds = number("ROUNDS", 200_000);
    let mut random = Random(number("SEED", 0x9e37_79b9_7f4a_7c15));
    let (mut read, mut forgotten, mut timed) = (0_u64, 0_u64, 0_u64);
    let mut neighbours = Neighbours::new(STATION);
    let mut before = None;
    let mut last = Vec::new();
    for round in 0..rounds {
        let frame = next_frame(&mut random, round, &last);
        let (effect, after, lifetime) = expected(&before, &frame);
        assert_eq!((neighbours.hear(&frame), known(&neighbours)), (effect, after.clone()), "{frame:02x?}");
        read += u64::from(lifetime.is_some());
        forgotten += u64::from(before.is_some() && after.is_none());
        // Long lifetimes take many leaps: most of them are not counted out. Half of the short ones go on, and may be ended by a
        // lifetime of 0.
        let is_counted = random.below(2) == 0;
        before = match lifetime {
            Some(lifetime) if (lifetime < 30 && is_counted) || round % 1000 == 1 => {
                let short = std::mem::replace(&mut neighbours, Neighbours::new(STATION));
                assert_eq!(ticks_until_forgotten(short), u64::from(lifetime) * SECOND, "{frame:02x?}");
                timed += 1;
                None
            }
            _ => after,
        };
        last = frame;
    }
    assert!(read > rounds / 5, "many of the frames are messages: {read} of {rounds}");
    assert!(forgotten > 10 && timed > rounds / 100, "{forgotten} forgotten, {timed} lifetimes");
}
