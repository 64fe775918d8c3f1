//! Worlds in which submodules are pulled and plugged: schedules from seeds, in which the laws of both ends are computed after each move
//! (`world_monitor`), those of records after a plug and of places among them. The network loses, repeats and reorders frames.
use crate::otherwise::{RECORDS, make};
use network_world::End;
use rattle_std::alloc::Global;
use world_monitor::{Choice, PlaceTally, Schedule, Watched, fresh_world};

/// How many schedules are played of each plan, and how many moves each has beside those that bring all frames.
const SEEDS: u64 = 40;
const MOVES: usize = 800;

/// More frames than follow one another without a move of the applications or a unit of time.
const MOST_FRAMES: usize = 1_000;

/// Units after which each request and each unconfirmed alarm was sent again.
const RESEND: usize = 32_001;

/// The slots whose submodules are pulled and plugged, with the number of their records. The plan writes two in the slots 1 and 4.
const SLOTS: [u16; 3] = [1, 4, 5];

/// The ident number of an input with two records, and of a submodule that the plan does not have.
const INPUT: u32 = 16;
const OTHER: u32 = 17;

/// The catalogue of `otherwise` with inputs in the slots 4 and 5 too, of which slot 4 gets two records, and with these keys.
fn catalogue(keys: &str) -> String {
    let slots = r#"{"Slot":3,"ModuleItemTarget":"OUT2"},{"Slot":4,"ModuleItemTarget":"IN2","Records":[{"Subslot":1,"Index":1,"Data":"0000002c"},{"Subslot":1,"Index":2,"Data":"00000058"}]},{"Slot":5,"ModuleItemTarget":"IN2"}]"#;
    let pairs = [
        (r#""PhysicalSlots":[0,1,2,3]"#, r#""PhysicalSlots":[0,1,2,3,4,5]"#.to_string()),
        (r#""AllowedInSlots":[1,2,3]"#, r#""AllowedInSlots":[1,2,3,4,5]"#.to_string()),
        (r#"{"Slot":3,"ModuleItemTarget":"OUT2"}]"#, format!("{slots}{keys}")),
        (r#""DataHoldFactor":3"#, r#""DataHoldFactor":7680"#.to_string()),
    ];
    let mut text = RECORDS.to_string();
    for (old, new) in pairs {
        assert!(text.contains(old), "{old}");
        text = text.replace(old, &new);
    }
    text
}

/// A world of which the moves are drawn.
struct Drawn {
    watched: Watched,
    schedule: Schedule,
    /// The frames that are not cyclic, and how many frames were looked at.
    single: Vec<usize>,
    count: usize,
}

impl Drawn {
    fn new(catalogue: &str, seed: u64) -> Drawn {
        let fresh = fresh_world(Global, catalogue, None).expect("there is a world");
        let watched = Watched::new(Global, fresh).expect("memory");
        let mut drawn = Drawn { watched, schedule: Schedule::new(seed), single: Vec::new(), count: 0 };
        drawn.look();
        drawn
    }

    fn look(&mut self) {
        while self.count < self.watched.count() {
            if !self.watched.kind(self.count).is_cyclic() {
                self.single.push(self.count);
            }
            self.count += 1;
        }
    }

    fn make(&mut self, choice: Choice) {
        make(&mut self.watched, choice);
        self.look();
    }

    /// The last frames come to the end that did not send them, and those that are sent then, until none is sent any more.
    fn deliver_all(&mut self, last: usize) {
        let first = self.single.len().saturating_sub(last);
        let mut place = first;
        while place < self.single.len() {
            assert!(place - first < MOST_FRAMES, "the frames do not end");
            let number = self.single[place];
            self.make(Choice::Deliver(self.watched.other_end(number), number));
            place += 1;
        }
    }

    /// As much time passes at both ends as each request and alarm needs to be sent again, and cyclic frames come.
    fn pass(&mut self) {
        for _ in 0..RESEND {
            let from = self.count;
            self.make(Choice::Tick(End::Device));
            self.make(Choice::Tick(End::Controller));
            for number in from..self.count {
                if self.watched.kind(number).is_cyclic() {
                    self.make(Choice::Deliver(self.watched.other_end(number), number));
                }
            }
        }
    }

    fn below(&mut self, limit: usize) -> usize {
        self.schedule.below(limit as u64) as usize
    }

    /// Something is pulled or plugged: mostly what the plan expects.
    fn change(&mut self) {
        let slot = SLOTS[self.below(SLOTS.len())];
        let choice = match self.below(16) {
            0..=3 => Choice::Pull(slot),
            4 => Choice::PullModule(slot),
            5 => Choice::Plug(slot, OTHER, 0),
            // It refuses the second record.
            6 => Choice::Plug(slot, INPUT, 1),
            _ => Choice::Plug(slot, INPUT, 2),
        };
        self.make(choice);
    }

    /// A frame comes to an end: mostly one of the last ones to the end that did not send it.
    fn deliver(&mut self) {
        let back = match self.below(12) {
            0 => self.below(self.single.len()),
            _ => self.below(4).min(self.single.len() - 1),
        };
        let number = self.single[self.single.len() - 1 - back];
        let end = match self.below(10) {
            0 => End::Device,
            1 => End::Controller,
            _ => self.watched.other_end(number),
        };
        self.make(Choice::Deliver(end, number));
    }

    fn draw(&mut self) {
        match self.below(100) {
            0..=3 => self.change(),
            4..=6 => {
                let choice = self.schedule.choose(self.watched.count(), self.watched.raised());
                self.make(choice);
            }
            7 => self.make(Choice::Read(0xAFF0)),
            8 => self.make(Choice::Tick(End::Device)),
            9 => self.make(Choice::Tick(End::Controller)),
            10..=17 => self.deliver_all(8),
            _ => self.deliver(),
        }
    }
}

/// The counts of all schedules of a plan with these keys, and how many schedules end with both ends exchanging data.
fn played(keys: &str, is_early: bool, writes: bool) -> (PlaceTally, u64) {
    let catalogue = catalogue(keys);
    let (mut all, mut whole) = (PlaceTally::default(), 0);
    for seed in 0..SEEDS {
        let mut drawn = Drawn::new(&catalogue, seed);
        // In a fourth of the schedules submodules are pulled and plugged before data is exchanged too, if that is asked.
        if !is_early || seed % 4 != 0 {
            drawn.deliver_all(1);
            assert!(drawn.watched.told().is_exchanging());
        }
        for turn in 0..MOVES {
            drawn.draw();
            if writes && turn % 50 == 49 {
                drawn.make(Choice::Write(1, [0, turn as u8]));
            }
        }
        if seed % 20 == 1 {
            drawn.pass();
        }
        drawn.deliver_all(6);
        assert!(drawn.watched.are_kept());
        all.add(&drawn.watched.place_tally());
        whole += u64::from(drawn.watched.told().is_exchanging());
    }
    println!("{keys}: {all:?}, {whole} of {SEEDS} schedules up to their end");
    (all, whole)
}

/// Each law of places spoke of places that were good again after a plug, or of others while one was.
fn is_at_stake(all: &PlaceTally) {
    assert!(all.reported > 200 && all.renewed > 100, "{all:?}");
    assert!(all.ready > 100 && all.untouched > 100 && all.amiss > 100, "{all:?}");
}

// Parameters after a plug: places become good again, with their records.
#[test]
fn plugs_break_no_law() {
    let (all, whole) = played(r#","ParametersAfterPlug":true"#, true, false);
    is_at_stake(&all);
    assert!(all.parametrized > 50, "{all:?}");
    assert!(whole > SEEDS / 4, "{whole}");
}

// The plan goes on after a refused record: places become good without it, and the law of records does not speak of them.
#[test]
fn refused_records_break_no_law() {
    let (all, _) = played(r#","ParametersAfterPlug":true,"ContinueOnRefusedRecord":true"#, false, false);
    is_at_stake(&all);
    assert_eq!(all.parametrized, 0);
}

// The application of the controller writes records of slot 1, so that the law of records speaks of slot 4 alone.
#[test]
fn writes_of_the_application_break_no_law() {
    let (all, _) = played(r#","ParametersAfterPlug":true"#, true, true);
    is_at_stake(&all);
    assert!(all.parametrized > 20, "{all:?}");
}

// Without parameters after a plug no place is good again, and both ends agree of what is plugged.
#[test]
fn without_parameters_no_place_is_good_again() {
    let (all, _) = played("", true, false);
    assert!(all.reported > 200 && all.amiss > 100, "{all:?}");
    assert_eq!((all.renewed, all.parametrized, all.ready), (0, 0, 0));
}
