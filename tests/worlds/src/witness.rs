//! `startup_octets::play` over schedules from seeds: its witness learns what a world of the same moves shows, and the law of a start-up,
//! read from octets (`octets`), holds of it.
use crate::octets::{Turn, answers, holds, records};
use crate::otherwise::{RECORDS, as_planned, station};
use asked_records::{NamedRecords, RecordName};
use both_ends::begin_world;
use configurator::plan_from_json;
use controller_messages::{ControllerOptions, Setup};
use device_core::Device;
use flash_model::{Flash, MemoryFlash, Order, Sector};
use frame_codec::Frame;
use network_world::{End, Move};
use pn_values::demo_identity;
use rattle_std::alloc::Global;
use relations::DeviceOptions;
use settings_journal::BootFault;
use startup_octets::{PlayFault, Shown, Station, Witness, play};
use uuid::Uuid;
use world_monitor::{Choice, Net, Schedule};

/// How many schedules are played, and how many moves each has.
const SEEDS: u64 = 200;
const MOVES: usize = 600;

/// What a witness learned: the turns, and whether each is that of a move.
#[derive(Default)]
struct Diary {
    turns: Vec<Turn>,
    of_moves: Vec<bool>,
}

impl Witness for Diary {
    fn tell(
        &mut self,
        at_device: bool,
        came: &[u8],
        sent: &[Frame],
        said: Option<&Move>,
        _shown: &Shown<'_>,
    ) {
        self.turns.push(Turn {
            at_device,
            came: came.to_vec(),
            sent: sent.iter().map(|frame| frame.as_slice().to_vec()).collect(),
        });
        self.of_moves.push(said.is_some());
    }
}

/// What a device is, in which this is plugged as the catalogue says.
pub(crate) fn makings() -> Station {
    Station {
        identity: demo_identity(),
        real: as_planned(),
        options: DeviceOptions::default(),
        named: NamedRecords::new(),
    }
}

/// The same, with an application that answers the record with this index of submodule 1 in slot 1.
fn naming(index: u16) -> Station {
    let name = RecordName {
        slot: 1,
        subslot: 1,
        index,
        greatest_length: 4,
        is_readable: true,
        is_writable: true,
    };
    Station {
        named: NamedRecords::of(&[name]).ok().expect("a name"),
        ..makings()
    }
}

/// The flash of the station "pump-1", which loses power at the call after this number of calls, if one is given.
pub(crate) fn flash(cut: Option<u32>) -> MemoryFlash<768> {
    let mut flash = station(as_planned()).into_flash();
    if let Some(after) = cut {
        flash.arm(Order::Cut {
            after,
            mask: [0x55; 8],
        });
    }
    flash
}

/// The set-up of the catalogue, with this ARUUID.
pub(crate) fn setup(relation: [u8; 16]) -> Setup {
    let plan = plan_from_json(Global, RECORDS.as_bytes());
    Setup {
        plan: plan.ok().expect("a plan"),
        ar: Uuid::from_bytes(relation),
        activity: Uuid::from_bytes([2; 16]),
        options: ControllerOptions::default(),
    }
}

/// A world in which nothing has happened yet.
pub(crate) fn world(cut: Option<u32>) -> Net {
    let Station {
        identity,
        real,
        options,
        named,
    } = makings();
    let device = Device::boot_named(identity, real, options, named, flash(cut));
    begin_world(Global, device.ok().expect("a station"), setup([1; 16]))
}

/// The frames that were sent after the first ones.
fn sent_since(net: &Net, count: usize) -> Vec<Vec<u8>> {
    let frames = (count..).map_while(|number| net.sent(number));
    frames.map(|frame| frame.as_slice().to_vec()).collect()
}

/// A schedule from a seed, and the turns of its moves, after the opening frame.
fn scheduled(seed: u64, cut: Option<u32>) -> (Vec<Choice>, Vec<Turn>) {
    let (mut net, mut schedule) = (world(cut), Schedule::new(seed));
    let mut all = sent_since(&net, 0);
    let mut turns = vec![Turn {
        at_device: false,
        came: Vec::new(),
        sent: all.clone(),
    }];
    let mut choices = Vec::new();
    for _ in 0..MOVES {
        let choice = schedule.choose(all.len(), choices.len() as u16);
        net.play(&[choice.to_move()]).expect("memory");
        let came = match choice {
            Choice::Deliver(_, number) => all.get(number).cloned().unwrap_or_default(),
            _ => Vec::new(),
        };
        let sent = sent_since(&net, all.len());
        all.extend(sent.clone());
        turns.push(Turn {
            at_device: choice.end() == End::Device,
            came,
            sent,
        });
        choices.push(choice);
    }
    (choices, turns)
}

/// Plays these choices with this station, and returns what the witness learned.
fn learned_with(station: Station, choices: &[Choice], cut: Option<u32>) -> Diary {
    let moves: Vec<Move> = choices.iter().map(|choice| choice.to_move()).collect();
    let mut diary = Diary::default();
    play(Global, station, flash(cut), setup([1; 16]), &moves, &mut diary)
        .ok()
        .expect("it starts");
    diary
}

/// The same, with the station whose application answers no records.
fn learned(choices: &[Choice], cut: Option<u32>) -> Diary {
    learned_with(makings(), choices, cut)
}

/// Whether each frame that came was sent before.
fn are_delivered(turns: &[Turn]) -> bool {
    let mut sent: Vec<&Vec<u8>> = Vec::new();
    turns.iter().all(|turn| {
        let is_known = turn.came.is_empty() || sent.contains(&&turn.came);
        sent.extend(&turn.sent);
        is_known
    })
}

/// The power of one schedule in four is lost in a call of the flash.
fn cut_of(seed: u64) -> Option<u32> {
    (seed % 4 == 3).then_some(seed as u32 / 4 % 6)
}

// The witness learns each turn of each schedule, and the law holds of them; with one record less, or with two exchanged, it does not
// hold wherever a start-up completes, which is so in a third of the schedules and more.
#[test]
fn start_ups_are_learned() {
    let mut completed = 0;
    for seed in 0..SEEDS {
        let (choices, turns) = scheduled(seed, cut_of(seed));
        let diary = learned(&choices, cut_of(seed));
        assert_eq!(diary.turns, turns, "seed {seed}");
        assert!(!diary.of_moves[0] && diary.of_moves[1..].iter().all(|is| *is));
        assert!(are_delivered(&diary.turns), "seed {seed}");
        let turns = &diary.turns[1..];
        assert!(holds(turns, &records()), "seed {seed}");
        if turns.iter().any(answers) {
            completed += 1;
            let [first, second] = [records()[0].clone(), records()[1].clone()];
            assert!(!holds(turns, &[first.clone()]), "seed {seed}");
            assert!(!holds(turns, &[second, first]), "seed {seed}");
        }
    }
    assert!(completed > SEEDS / 3, "{completed} start-ups");
}

// A frame that came and was never sent is noticed, and so is a turn that is left out.
#[test]
fn lies_about_turns() {
    let (_, turns) = scheduled(1, None);
    let came = turns.iter().position(|turn| !turn.came.is_empty()).expect("a frame");
    let mut lies = turns.clone();
    lies[came].came[20] ^= 1;
    assert!(are_delivered(&turns) && !are_delivered(&lies));
    let answered = turns.iter().position(answers).expect("a start-up");
    let ready = turns.iter().position(|turn| turn.sent.contains(&turns[answered].came));
    let mut lies = turns.clone();
    lies.remove(ready.expect("it was sent"));
    assert!(!are_delivered(&lies) && !holds(&lies[1..], &records()));
}

// A record that the application answers, and that nobody reads or writes, changes no turn.
#[test]
fn names_alone_change_nothing() {
    for seed in 0..8 {
        let (choices, turns) = scheduled(seed, None);
        let diary = learned_with(naming(0x7FFF), &choices, None);
        assert_eq!(diary.turns, turns, "seed {seed}");
    }
}

// What cannot be played: an ARUUID of zeros, a plan of which the application of the device answers a record, and a flash that no device
// wrote. The witness learns nothing.
#[test]
fn what_is_not_played() {
    let mut diary = Diary::default();
    let unnamed = play(Global, makings(), flash(None), setup([0; 16]), &[], &mut diary);
    assert_eq!(unnamed.err(), Some(PlayFault::CannotMeet));
    let own = play(Global, naming(2), flash(None), setup([1; 16]), &[], &mut diary);
    assert_eq!(own.err(), Some(PlayFault::CannotMeet));
    let mut foreign = MemoryFlash::<768>::blank();
    foreign.program(Sector::First, 0, b"PNS\x01\xff\xfe\x06pump-1").expect("a flash");
    foreign.program(Sector::First, 511, &[0]).expect("a flash");
    let unstarted = play(Global, makings(), foreign, setup([1; 16]), &[], &mut diary);
    assert_eq!(unstarted.err(), Some(PlayFault::NoStart(BootFault::Foreign)));
    assert!(diary.turns.is_empty());
}
