//! The life of a device over a flash in memory, told to a witness: the same events give the same frames and the same settings as
//! `scripts::life`, which calls the device itself.
use crate::judge::{Given, Told, Verdict, judge};
use crate::scripts::{Cycle, OWN, Random, event, stored, unbroken_life};
use asked_records::NamedRecords;
use device_core::Event;
use flash_model::MemoryFlash;
use frame_codec::Outbox;
use octets_law::{Product, Witness, live};
use pn_values::{Identity, Real, demo_identity};
use rattle_std::Vec as Events;
use rattle_std::alloc::Global;
use relations::DeviceOptions;
use test_stations::plugged;

struct Pump;

impl Product for Pump {
    fn identity(&self) -> Identity {
        demo_identity()
    }

    fn real(&self) -> Real {
        plugged()
    }

    fn named(&self) -> NamedRecords {
        NamedRecords::new()
    }
}

/// What a witness was told.
struct Diary(Vec<Told>);

impl Witness for Diary {
    fn tell(&mut self, event: &Event<'_>, frames: &Outbox) {
        let given = match event {
            Event::Frame(octets) => Given::Frame(octets.as_slice().to_vec()),
            Event::Call(_, _, call) => Given::Call(call.as_slice().to_vec()),
            _ => Given::Other,
        };
        self.0.push(Told { given, sent: frames.as_slice().iter().map(|frame| frame.as_slice().to_vec()).collect() });
    }
}

/// The events of these cycles.
fn events(cycles: &[Cycle]) -> Vec<Events<Event<'_>>> {
    cycles
        .iter()
        .map(|cycle| {
            let mut events = Events::new(Global);
            for told in &cycle.transcript {
                events.push(event(&told.given)).expect("there is memory");
            }
            events
        })
        .collect()
}

#[test]
fn a_witness_is_told_the_life_of_a_device() {
    for seed in 0..40 {
        let cycles = unbroken_life(&mut Random::new(seed), 4);
        let mut diary = Diary(Vec::new());
        let power_up = |mut flash: MemoryFlash<768>| {
            flash.power_up();
            flash
        };
        let device = live(&Pump, DeviceOptions::default(), MemoryFlash::<768>::blank(), &events(&cycles), &mut diary, power_up).ok().expect("starts");
        let expected: Vec<Told> = cycles.iter().flat_map(|cycle| cycle.transcript.clone()).collect();
        assert_eq!(diary.0, expected, "seed {seed}");
        assert_eq!(Some(stored(&device)), cycles.last().map(|cycle| cycle.settings.clone()), "seed {seed}");
        for cycle in &cycles {
            assert_eq!(judge(&OWN, &cycle.first, &cycle.transcript, &cycle.settings), Verdict::Confirmed, "seed {seed}");
        }
    }
}
