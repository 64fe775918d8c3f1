//! A flood: frames of a real exchange with other octets at random places. Those that do not belong to the relation, by their octets alone, come
//! to one of two pairs of ends that are alike, and both pairs go on alike.
use crate::octets::{belongs, belongs_to};
use crate::plant::{ACTIVITY, Plant, at, at_controller, at_device, by, bytes};
use controller_core::{Event as ControllerEvent, State};
use device_core::{Event, Octets};
use test_stations::mend;

/// How many frames are made.
const FRAMES: usize = 30_000;

/// Numbers that look random (splitmix64).
pub(crate) struct Random(pub(crate) u64);

impl Random {
    pub(crate) fn below(&mut self, bound: usize) -> usize {
        self.0 = self.0.wrapping_add(0x9E37_79B9_7F4A_7C15);
        let mut mixed = self.0;
        mixed = (mixed ^ (mixed >> 30)).wrapping_mul(0xBF58_476D_1CE4_E5B9);
        mixed = (mixed ^ (mixed >> 27)).wrapping_mul(0x94D0_49BB_1331_11EB);
        ((mixed ^ (mixed >> 31)) % bound as u64) as usize
    }
}

/// A frame with up to three other octets, most of them where the definitions look.
pub(crate) fn other(frame: &[u8], random: &mut Random) -> Vec<u8> {
    const PLACES: [usize; 14] = [0, 6, 12, 14, 16, 18, 20, 22, 43, 46, 82, 111, 143, 150];
    let mut octets = bytes(frame);
    for _ in 0..random.below(4) {
        let place = if random.below(3) == 0 { random.below(octets.len()) } else { PLACES[random.below(14)] + random.below(2) };
        let with = [0, 1, 2, 4, 9, 0x80, 0xC0, 0xFE, random.below(256) as u8][random.below(9)];
        if let Some(octet) = octets.as_mut_slice().get_mut(place) {
            *octet = with;
        }
    }
    if octets.len() > 42 && octets[12..14] == [0x08, 0x00] {
        octets.as_mut_slice()[40..42].copy_from_slice(&[0, 0]);
        mend(&mut octets);
    }
    octets.as_slice().to_vec()
}

// Two pairs of ends exchange data with each other's frames alike, and one of them is flooded.
#[test]
fn a_flood_changes_nothing() {
    let mut random = Random(67);
    let (mut flooded, mut alone) = (Plant::new(), Plant::new());
    let mut frames: Vec<Vec<u8>> = flooded.start().into_iter().map(|came| came.frame).collect();
    alone.start();
    for _ in 0..64 {
        frames.extend(flooded.tick().into_iter().map(|came| came.frame));
        alone.tick();
    }
    let mut strange = [0; 2];
    let mut own = 0;
    for count in 0..FRAMES {
        let frame = other(&frames[random.below(frames.len())].clone(), &mut random);
        if belongs(&at_device(), &frame) {
            own += 1;
        } else {
            strange[0] += 1;
            at(&mut flooded.device, &Event::Frame(Octets::of(&frame)));
        }
        if !belongs_to(&at_controller(), State::Exchanging, &ACTIVITY, &frame) {
            strange[1] += 1;
            assert!(by(&mut flooded.controller, &ControllerEvent::Frame(bytes(&frame))).is_empty());
        }
        if count % 8 == 0 {
            let (one, same) = (flooded.tick(), alone.tick());
            let octets = |came: Vec<crate::plant::Came>| -> Vec<Vec<u8>> { came.into_iter().map(|came| came.frame).collect() };
            assert_eq!(octets(one), octets(same), "frame {count}");
            assert_eq!(flooded.device.phase(), alone.device.phase());
            assert_eq!(flooded.device.output(2, 1), alone.device.output(2, 1));
            assert_eq!(flooded.controller.state(), alone.controller.state());
            assert_eq!(flooded.controller.value(1, 1), alone.controller.value(1, 1));
        }
    }
    assert_eq!(alone.controller.state(), State::Exchanging);
    assert!(own > 1_000 && strange.iter().all(|count| *count > 10_000), "{own} {strange:?}");
}
