//! Random fragments, against a second joiner that keeps what came in a map.

use super::writer::{Packet, fragment};
use super::{Did, calls, did};

/// A call of which fragments are missing, as the second joiner keeps it.
struct Missing {
    activity: u8,
    sequence: u32,
    parts: Vec<Vec<u8>>,
    began: u64,
    done: bool,
}

/// The second joiner.
#[derive(Default)]
struct Second {
    now: u64,
    missing: Vec<Missing>,
}

impl Second {
    fn pass(&mut self, ticks: u64) {
        self.now += ticks;
        let now = self.now;
        self.missing.retain(|call| now - call.began < 64_000);
    }

    fn begin(&mut self, activity: u8, sequence: u32) {
        self.missing.retain(|call| call.activity != activity);
        // A finished call makes room, or else the one that began first.
        if self.missing.len() == 4 {
            let finished = self.missing.iter().position(|call| call.done);
            self.missing.remove(finished.unwrap_or(0));
        }
        self.missing.push(Missing {
            activity,
            sequence,
            parts: Vec::new(),
            began: self.now,
            done: false,
        });
    }

    fn hear(&mut self, packet: &Packet, last: bool) -> Did {
        let is_it =
            |call: &Missing| call.activity == packet.activity && call.sequence == packet.sequence;
        if packet.number == 0 && !self.missing.iter().any(is_it) {
            self.begin(packet.activity, packet.sequence);
        }
        let Some(place) = self.missing.iter().position(is_it) else {
            return Did::Dropped(None);
        };
        let call = &mut self.missing[place];
        let length: usize = call.parts.iter().map(Vec::len).sum();
        let next = usize::from(packet.number) == call.parts.len();
        if next && length + packet.body.len() > 4152 {
            self.missing.remove(place);
            return Did::Dropped(None);
        }
        if next && last {
            call.done = true;
            return Did::Joined(packet.whole(&[call.parts.concat(), packet.body.clone()].concat()));
        }
        if next {
            call.parts.push(packet.body.clone());
        }
        let before = u16::try_from(call.parts.len())
            .expect("a number")
            .checked_sub(1);
        let fack = before.map(|number| packet.fack(number));
        if next {
            Did::Waits(fack)
        } else {
            Did::Dropped(fack)
        }
    }
}

/// The next number of a sequence that looks random (Marsaglia's xorshift).
fn next(state: &mut u64) -> u64 {
    *state ^= *state << 13;
    *state ^= *state >> 7;
    *state ^= *state << 17;
    *state
}

#[test]
fn random_fragments_are_joined_alike() {
    let mut seed = 0x2545_F491_4F6C_DD1D_u64;
    let (mut joins, mut facks) = (0, 0);
    for _ in 0..200 {
        let mut joiner = calls();
        let mut second = Second::default();
        for turn in 0..300_u64 {
            let dice = next(&mut seed);
            if dice % 16 == 0 {
                let ticks = next(&mut seed) % 20_000;
                joiner.elapse(u32::try_from(ticks).expect("ticks"));
                second.pass(ticks);
            }
            // Several calls may begin in one tick.
            if dice % 3 == 0 {
                joiner.tick();
                second.pass(1);
            }
            let activity = u8::try_from(dice / 16 % 6).expect("an activity");
            let number = u16::try_from(dice / 256 % 4).expect("a number");
            let sequence = u32::try_from(dice / 1024 % 2).expect("a sequence");
            let length = usize::try_from(next(&mut seed) % 1500).expect("a length") + 1;
            let last = number == 3 || dice % 1024 == 5;
            let fill = u8::try_from(turn % 256).expect("an octet");
            let packet = fragment(activity, sequence, number, &vec![fill; length], last);
            let got = did(&mut joiner, &packet.octets());
            joins += usize::from(matches!(got, Did::Joined(_)));
            facks += usize::from(matches!(got, Did::Waits(Some(_)) | Did::Dropped(Some(_))));
            assert_eq!(got, second.hear(&packet, last));
        }
    }
    assert!(joins > 200 && facks > 5000, "{joins} {facks}");
}
