//! Worlds whose device is not what the plan says: a record of another length or of none, a module that is not plugged, another module. How
//! a start-up ends was worked out by hand, each frame by its kind; in schedules the laws of both ends are computed after each move
//! (`world_monitor`), and in none of them is data exchanged.
use arrayvec::ArrayVec;
use configurator::plan_from_json;
use controller_core::{Cause, Controller, State};
use pn_values::{ParameterRecord, Real, RealModule, RealSubmodule, demo_identity};
use device_core::Device;
use flash_model::MemoryFlash;
use frame_codec::Outbox;
use network_world::World;
use rattle_std::alloc::Global;
use relations::{DeviceOptions, Phase};
use test_stations::{Station, frame, no_modules, set_pump, step};
use uuid::Uuid;
use world_monitor::{Choice, Fresh, Kind, Schedule, Watched};

/// A station with an input in slot 1, which is given two records of four octets, and outputs in slots 2 and 3.
pub(crate) const RECORDS: &str = r#"{"DeviceIdentity":{"VendorID":291,"DeviceID":1110},"DeviceAccessPointItem":{"ModuleIdentNumber":1,"PhysicalSlots":[0,1,2,3],"DNS_CompatibleName":"pn-demo","MinDeviceInterval":32,"VirtualSubmoduleItem":[{"Subslot":1,"SubmoduleIdentNumber":1},{"Subslot":32768,"SubmoduleIdentNumber":2},{"Subslot":32769,"SubmoduleIdentNumber":3}],"ModuleItemRef":[{"ModuleItemTarget":"IN2","AllowedInSlots":[1,2,3]},{"ModuleItemTarget":"OUT2","AllowedInSlots":[1,2,3]}]},"ModuleItem":[{"ID":"IN2","ModuleIdentNumber":16,"VirtualSubmoduleItem":[{"Subslot":1,"SubmoduleIdentNumber":16,"IOData":{"Input":[{"DataType":"Unsigned16"}]},"ParameterRecordDataItem":[{"Index":1,"Length":4},{"Index":2,"Length":4}]}]},{"ID":"OUT2","ModuleIdentNumber":32,"VirtualSubmoduleItem":[{"Subslot":1,"SubmoduleIdentNumber":32,"IOData":{"Output":[{"DataType":"Unsigned16"}]}}]}],"Project":{"NameOfStation":"pump-1","IPAddress":"192.168.0.2","SubnetMask":"255.255.255.0","Gateway":"0.0.0.0","Controller":{"NameOfStation":"plc","MAC":"02-00-00-00-00-02","IPAddress":"192.168.0.1"},"SendClockFactor":32,"ReductionRatio":1,"DataHoldFactor":3,"Slots":[{"Slot":1,"ModuleItemTarget":"IN2","Records":[{"Subslot":1,"Index":1,"Data":"00000064"},{"Subslot":1,"Index":2,"Data":"000000c8"}]},{"Slot":2,"ModuleItemTarget":"OUT2"},{"Slot":3,"ModuleItemTarget":"OUT2"}]}}"#;

/// How many schedules are played of each world, and how many moves each has.
const SEEDS: u64 = 40;
const MOVES: usize = 1_000;

/// More frames than a start-up has.
const MOST_FRAMES: usize = 100;

/// Up to the Connect and the positive answer to it.
const CONNECTED: [Kind; 6] = [
    Kind::Identify,
    Kind::Found,
    Kind::Set,
    Kind::SetDone,
    Kind::Connect,
    Kind::Positive,
];

pub(crate) fn module(slot: u16, ident: u32, submodules: &[(u16, u32)]) -> RealModule {
    let mut module = RealModule {
        slot,
        ident,
        ..RealModule::default()
    };
    for &(subslot, ident) in submodules {
        module.submodules.push(RealSubmodule {
            subslot,
            ident,
            ..RealSubmodule::default()
        });
    }
    module
}

/// What the catalogue says, but for the records of slot 1, which are these: each by its index and its length.
pub(crate) fn plugged(records: &[(u16, u16)]) -> Real {
    let mut modules = ArrayVec::new();
    modules.push(module(0, 1, &[(1, 1), (0x8000, 2), (0x8001, 3)]));
    let mut input = module(1, 16, &[(1, 16)]);
    input.submodules[0].input = 2;
    for &(index, length) in records {
        input.submodules[0]
            .parameters
            .push(ParameterRecord { index, length });
    }
    modules.push(input);
    for slot in [2, 3] {
        let mut output = module(slot, 32, &[(1, 32)]);
        output.submodules[0].output = 2;
        modules.push(output);
    }
    Real { modules }
}

/// What the catalogue says.
pub(crate) fn as_planned() -> Real {
    plugged(&[(1, 4), (2, 4)])
}

/// The station "pump-1" with these modules.
pub(crate) fn station(real: Real) -> Station {
    station_with(real, DeviceOptions::default())
}

/// The station "pump-1" with these modules and options.
pub(crate) fn station_with(real: Real, options: DeviceOptions) -> Station {
    let mut named: Station = Device::boot(demo_identity(), no_modules(), MemoryFlash::blank())
        .ok()
        .expect("a station");
    step(&mut named, &frame(&set_pump(b'1')), &mut Outbox::new());
    let mut device = Device::unstarted(demo_identity(), real, options, named.into_flash());
    device.load().ok().expect("a station");
    device
}

/// The station "pump-1" in which this is plugged, and a controller of the plan of the catalogue.
pub(crate) fn world(real: Real) -> Watched {
    let device = station(real);
    let plan = plan_from_json(Global, RECORDS.as_bytes())
        .ok()
        .expect("a plan");
    let records = plan.records().len();
    let controller = Controller::new(plan, Uuid::from_bytes([1; 16]), Uuid::from_bytes([2; 16]));
    let fresh = Fresh {
        net: World::new(Global, device, controller),
        records,
    };
    Watched::new(Global, fresh).expect("memory")
}

/// A move is made, and all laws hold after it.
pub(crate) fn make(watched: &mut Watched, choice: Choice) {
    let broken = watched.make(choice).expect("memory");
    assert!(broken.is_none(), "{choice:?} breaks {broken:?}");
}

/// Each frame comes to the other end as soon as it was sent, up to the last one: these are sent.
pub(crate) fn starts_up(watched: &mut Watched, rest: &[Kind]) {
    let mut number = 0;
    while number < watched.count() {
        assert!(number < MOST_FRAMES, "the start-up does not end");
        let end = watched.other_end(number);
        make(watched, Choice::Deliver(end, number));
        number += 1;
    }
    let sent: Vec<Kind> = (0..number).map(|number| watched.kind(number)).collect();
    assert_eq!(sent, [&CONNECTED[..], rest].concat());
}

/// In schedules from seeds no law is broken and no data exchanged, and some of them come to this end.
pub(crate) fn never_exchanges(fresh: impl Fn() -> Watched, cause: Cause) {
    let mut ended = 0;
    for seed in 0..SEEDS {
        let (mut watched, mut schedule) = (fresh(), Schedule::new(seed));
        for _ in 0..MOVES {
            let choice = schedule.choose(watched.count(), watched.raised());
            make(&mut watched, choice);
        }
        assert!(watched.are_kept());
        assert_eq!(watched.tally().exchanging, 0);
        match watched.told().state {
            State::Looking | State::Addressing | State::Connecting | State::Writing => {}
            state => {
                assert_eq!(state, State::Ended(cause));
                ended += 1;
            }
        }
    }
    assert!(
        ended * 2 > SEEDS,
        "{ended} of {SEEDS} schedules come to the end"
    );
}

/// The second record is refused: the controller is over, and the device has the first one and waits for what does not come.
fn refuses_the_second(real: fn() -> Real) {
    let mut watched = world(real());
    starts_up(
        &mut watched,
        &[Kind::Write, Kind::Positive, Kind::Write, Kind::Negative],
    );
    assert_eq!(watched.told().state, State::Ended(Cause::Refused));
    assert_eq!(watched.told().phase, Some(Phase::Started));
    assert_eq!(watched.told().taken, 1);
    never_exchanges(|| world(real()), Cause::Refused);
}

/// A module differs: the controller sends a Release at once.
fn differs(real: fn() -> Real) {
    let mut watched = world(real());
    starts_up(&mut watched, &[Kind::Release, Kind::Positive]);
    assert_eq!(watched.told().state, State::Ended(Cause::ModuleDiff));
    assert_eq!(watched.told().phase, None);
    never_exchanges(|| world(real()), Cause::ModuleDiff);
}

// Beside the others: the same station as the plan says starts up, and is given both records.
#[test]
fn a_station_as_planned_starts_up() {
    let mut watched = world(as_planned());
    let rest = [
        Kind::Write,
        Kind::Positive,
        Kind::Write,
        Kind::Positive,
        Kind::PrmEnd,
        Kind::Positive,
        Kind::Ready,
        Kind::Confirm,
    ];
    starts_up(&mut watched, &rest);
    assert!(watched.told().is_exchanging());
    assert_eq!(watched.told().taken, 2);
}

#[test]
fn a_record_of_another_length_is_refused() {
    refuses_the_second(|| plugged(&[(1, 4), (2, 3)]));
}

#[test]
fn a_record_that_there_is_not_is_refused() {
    refuses_the_second(|| plugged(&[(1, 4), (3, 4)]));
}

// Not even the first one is accepted, and the second is not written.
#[test]
fn the_first_record_of_another_length_ends_it() {
    let real = || plugged(&[(1, 5), (2, 4)]);
    let mut watched = world(real());
    starts_up(&mut watched, &[Kind::Write, Kind::Negative]);
    assert_eq!(watched.told().state, State::Ended(Cause::Refused));
    assert_eq!(watched.told().taken, 0);
    never_exchanges(|| world(real()), Cause::Refused);
}

#[test]
fn a_module_that_is_not_plugged() {
    differs(|| {
        let mut real = as_planned();
        real.modules.remove(3);
        real
    });
}

#[test]
fn another_module() {
    differs(|| {
        let mut real = as_planned();
        real.modules[1].ident = 17;
        real
    });
}

#[test]
fn another_submodule() {
    differs(|| {
        let mut real = as_planned();
        real.modules[2].submodules[0].ident = 33;
        real
    });
}

#[test]
fn nothing_plugged() {
    differs(no_modules);
}
