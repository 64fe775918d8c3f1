//! A device and a controller whose time passes by leaps, beside a device and a controller with a Tick event for each unit.
//!
//! That a leap does what as many Tick events do is proved (`Device::elapse`, `Controller::elapse`). What no clause says is
//! here: `due` is exact. With no unit before it is anything sent, ended or switched off, and with that unit something is.
#![cfg(test)]

use configurator::plan_from_json;
use controller_core::{Cause, Controller, ControllerOptions, State};
use device_core::{Device, Event, Note};
use flash_model::MemoryFlash;
use frame_codec::Outbox;
use pn_values::{ParameterRecord, Real, RealModule, RealSubmodule, demo_identity};
use rattle_std::alloc::Global;
use relations::Phase;
use test_stations::{Station, frame, no_modules, octets, set_pump};
use uuid::Uuid;

/// The number of units if nothing will ever happen.
const NEVER: u32 = u32::MAX;

/// The catalogue of the demo station. In place of `#C`, `#R` and `#H` are SendClockFactor, ReductionRatio and
/// DataHoldFactor.
const PUMP: &str = r#"{"DeviceIdentity":{"VendorID":291,"DeviceID":1110},"DeviceAccessPointItem":{"ModuleIdentNumber":1,"PhysicalSlots":[0,1,2,3],"DNS_CompatibleName":"pn-demo","MinDeviceInterval":1,"VirtualSubmoduleItem":[{"Subslot":1,"SubmoduleIdentNumber":1},{"Subslot":32768,"SubmoduleIdentNumber":2},{"Subslot":32769,"SubmoduleIdentNumber":3}],"ModuleItemRef":[{"ModuleItemTarget":"IN2","AllowedInSlots":[1,2,3]},{"ModuleItemTarget":"OUT2","AllowedInSlots":[1,2,3]}]},"ModuleItem":[{"ID":"IN2","ModuleIdentNumber":16,"VirtualSubmoduleItem":[{"Subslot":1,"SubmoduleIdentNumber":16,"IOData":{"Input":[{"DataType":"Unsigned16"}]}}]},{"ID":"OUT2","ModuleIdentNumber":32,"VirtualSubmoduleItem":[{"Subslot":1,"SubmoduleIdentNumber":32,"IOData":{"Output":[{"DataType":"Unsigned16"}]}}]}],"Project":{"NameOfStation":"pump-1","IPAddress":"192.168.0.2","SubnetMask":"255.255.255.0","Gateway":"0.0.0.0","Controller":{"NameOfStation":"plc","MAC":"02-00-00-00-00-02","IPAddress":"192.168.0.1"},"SendClockFactor":#C,"ReductionRatio":#R,"DataHoldFactor":#H,"Slots":[{"Slot":1,"ModuleItemTarget":"IN2"},{"Slot":2,"ModuleItemTarget":"OUT2"}]}}"#;

/// A Set that makes the lamp flash.
const SIGNAL: [u8; 34] =
    *b"\x02\x00\x00\x00\x00\x01\x02\x00\x00\x00\x00\x02\x88\x92\xfe\xfd\x04\x00\x00\x00\x00\x09\x00\x00\x00\x08\
    \x05\x03\x00\x04\x00\x00\x01\x00";

/// Numbers that look random: a linear congruential generator.
struct Random(u64);

impl Random {
    /// A number below this one.
    fn below(&mut self, bound: u32) -> u32 {
        self.0 = self
            .0
            .wrapping_mul(6_364_136_223_846_793_005)
            .wrapping_add(1_442_695_040_888_963_407);
        ((self.0 >> 33) % u64::from(bound.max(1))) as u32
    }
}

fn copied(real: &Real) -> Real {
    let mut modules = no_modules().modules;
    for module in real.modules.as_slice() {
        let mut copy = RealModule {
            slot: module.slot,
            ident: module.ident,
            ..RealModule::default()
        };
        for submodule in module.submodules.as_slice() {
            let mut part = RealSubmodule {
                subslot: submodule.subslot,
                ident: submodule.ident,
                input: submodule.input,
                output: submodule.output,
                ..RealSubmodule::default()
            };
            for parameter in submodule.parameters.as_slice() {
                let parameter: ParameterRecord = *parameter;
                part.parameters.try_push(parameter).expect("room");
            }
            copy.submodules.try_push(part).expect("room");
        }
        modules.try_push(copy).expect("room");
    }
    Real { modules }
}

/// The station "pump-1", and a controller of its plan with these options.
fn ends(catalogue: &str, ar: u8, options: ControllerOptions) -> (Station, Controller) {
    let plan = plan_from_json(Global, catalogue.as_bytes()).expect("a plan");
    let real = copied(plan.real());
    let mut named: Station =
        Device::boot(demo_identity(), no_modules(), MemoryFlash::blank()).ok().expect("starts");
    let _ = named.step(&frame(&set_pump(b'1')), &mut Outbox::new());
    let device = Device::boot(demo_identity(), real, named.into_flash()).ok().expect("starts");
    let uuid = |octet| Uuid::from_bytes([octet; 16]);
    (device, Controller::new_with(plan, uuid(ar), uuid(ar ^ 0x80), options))
}

fn same_frames(one: &Outbox, other: &Outbox) -> bool {
    one.len() == other.len()
        && one.as_slice().iter().zip(other.as_slice()).all(|(a, b)| a.as_slice() == b.as_slice())
}

fn events_of(outbox: &Outbox) -> impl Iterator<Item = Event<'_>> {
    outbox.as_slice().iter().map(|sent| frame(sent.as_slice()))
}

/// How often each kind of thing happened, so that the test shows that it tried them all.
#[derive(Debug, Default)]
struct Seen {
    units: u64,
    leaps: u64,
    long_leaps: u64,
    device_frames: u64,
    controller_frames: u64,
    lamp_off: u64,
    device_ended: u64,
    data_hold: u64,
    alarm_retries: u64,
    no_progress: u64,
    exchanging: u64,
    alarms: u64,
    readies: u64,
    never: u64,
}

/// A device whose time passes by leaps, and one with a Tick event for each unit.
struct Devices {
    leaping: Station,
    ticking: Station,
}

impl Devices {
    fn are_same(&self) {
        assert_eq!(self.leaping.phase(), self.ticking.phase());
        assert_eq!(self.leaping.lamp(), self.ticking.lamp());
        assert_eq!(self.leaping.ar(), self.ticking.ar());
        assert_eq!(self.leaping.due(), self.ticking.due());
        for (slot, subslot) in [(1, 1), (2, 1), (0, 1), (3, 1)] {
            assert_eq!(self.leaping.output(slot, subslot), self.ticking.output(slot, subslot));
        }
    }

    fn step(&mut self, event: &Event<'_>) -> (Note, Outbox) {
        let (mut one, mut other) = (Outbox::new(), Outbox::new());
        let note = self.leaping.step(event, &mut one);
        assert_eq!(note, self.ticking.step(event, &mut other));
        assert!(same_frames(&one, &other));
        self.are_same();
        (note, one)
    }

    /// A leap of at most `due` units, and as many Tick events.
    fn elapse(&mut self, units: u32, seen: &mut Seen) -> Outbox {
        let due = self.leaping.due();
        assert!(0 < due && units <= due);
        let (mut one, mut other) = (Outbox::new(), Outbox::new());
        for unit in 1..=units {
            assert_eq!(self.ticking.due(), if due == NEVER { NEVER } else { due - (unit - 1) });
            let (phase, lamp) = (self.ticking.phase(), self.ticking.lamp());
            assert_eq!(self.ticking.step(&Event::Tick, &mut other), Note::Done);
            let is_off = lamp == 1;
            let happens = other.len() != 0 || self.ticking.phase() != phase || is_off;
            assert_eq!(happens, unit == due, "unit {unit} of {due}");
            seen.lamp_off += u64::from(is_off);
            seen.device_ended += u64::from(self.ticking.phase() != phase);
        }
        if units == 0 {
            other.clear();
        }
        assert_eq!(self.leaping.elapse(units, &mut one), Note::Done);
        assert!(same_frames(&one, &other));
        self.are_same();
        seen.device_frames += one.len() as u64;
        one
    }
}

/// The same of a controller.
struct Controllers {
    leaping: Controller,
    ticking: Controller,
}

impl Controllers {
    fn are_same(&self) {
        assert_eq!(self.leaping.state(), self.ticking.state());
        assert_eq!(self.leaping.due(), self.ticking.due());
        for (slot, subslot) in [(1, 1), (2, 1), (0, 1)] {
            assert_eq!(self.leaping.value(slot, subslot), self.ticking.value(slot, subslot));
        }
    }

    fn step(&mut self, event: &controller_core::Event) -> Outbox {
        let (mut one, mut other) = (Outbox::new(), Outbox::new());
        self.leaping.step(event, &mut one);
        self.ticking.step(event, &mut other);
        assert!(same_frames(&one, &other));
        self.are_same();
        one
    }

    fn elapse(&mut self, units: u32, seen: &mut Seen) -> Outbox {
        let due = self.leaping.due();
        assert!(0 < due && units <= due);
        let (mut one, mut other) = (Outbox::new(), Outbox::new());
        for unit in 1..=units {
            let state = self.ticking.state();
            self.ticking.step(&controller_core::Event::Tick, &mut other);
            let happens = other.len() != 0 || self.ticking.state() != state;
            assert_eq!(happens, unit == due, "unit {unit} of {due}");
            match self.ticking.state() {
                State::Ended(Cause::DataHold) if self.ticking.state() != state => seen.data_hold += 1,
                State::Ended(Cause::AlarmRetries) if self.ticking.state() != state => seen.alarm_retries += 1,
                State::Ended(Cause::NoProgress) if self.ticking.state() != state => seen.no_progress += 1,
                _ => {}
            }
        }
        if units == 0 {
            other.clear();
        }
        self.leaping.elapse(units, &mut one);
        assert!(same_frames(&one, &other));
        self.are_same();
        seen.controller_frames += one.len() as u64;
        one
    }
}

/// Which frames the network loses for a while, in per cent, to the device and to the controller; and whether alarms and
/// calls are lost, and cyclic frames are not.
struct Losses {
    to_device: u32,
    to_controller: u32,
    acyclic: bool,
}

fn is_cyclic(octets: &[u8]) -> bool {
    matches!(octets, [_, _, _, _, _, _, _, _, _, _, _, _, 0x81, 0x00, _, _, 0x88, 0x92, 0x80..=0xF7, ..])
}

impl Losses {
    fn next(random: &mut Random) -> Losses {
        let of = |random: &mut Random| [0, 0, 0, 30, 100][random.below(5) as usize];
        Losses {
            to_device: of(random),
            to_controller: of(random),
            acyclic: random.below(4) == 0,
        }
    }

    fn none() -> Losses {
        Losses {
            to_device: 0,
            to_controller: 0,
            acyclic: false,
        }
    }

    fn loses(&self, event: &Event<'_>, per_cent: u32, random: &mut Random) -> bool {
        let Event::Frame(bytes) = event else {
            return false;
        };
        (self.acyclic && !is_cyclic(bytes.as_slice()) && random.below(100) < 80) || random.below(100) < per_cent
    }
}

struct Net {
    devices: Devices,
    controllers: Controllers,
    random: Random,
    losses: Losses,
    seen: Seen,
}

impl Net {
    fn new(catalogue: &str, ar: u8, seed: u64, options: ControllerOptions) -> Net {
        let (leaping, leaping_controller) = ends(catalogue, ar, options);
        let (ticking, ticking_controller) = ends(catalogue, ar, options);
        Net {
            devices: Devices { leaping, ticking },
            controllers: Controllers {
                leaping: leaping_controller,
                ticking: ticking_controller,
            },
            random: Random(seed),
            losses: Losses::none(),
            seen: Seen::default(),
        }
    }

    /// Frames come to the device, and what it answers to the controller, and so on, up to a limit.
    fn to_device(&mut self, outbox: &Outbox, left: u32) {
        for event in events_of(outbox) {
            if left == 0 || self.losses.loses(&event, self.losses.to_device, &mut self.random) {
                continue;
            }
            let (_, answers) = self.devices.step(&event);
            self.to_controller(&answers, left - 1);
        }
    }

    fn to_controller(&mut self, outbox: &Outbox, left: u32) {
        for event in events_of(outbox) {
            if left == 0 || self.losses.loses(&event, self.losses.to_controller, &mut self.random) {
                continue;
            }
            let Event::Frame(bytes) = event else {
                continue;
            };
            let before = self.controllers.leaping.state();
            let answers = self.controllers.step(&controller_core::Event::Frame(octets(bytes.as_slice())));
            if before != State::Exchanging && self.controllers.leaping.state() == State::Exchanging {
                self.seen.exchanging += 1;
            }
            self.to_device(&answers, left - 1);
        }
    }

    /// The application of an end does something.
    fn act(&mut self) {
        match self.random.below(9) {
            0 => {
                let (_, sent) = self.devices.step(&frame(&SIGNAL));
                self.to_controller(&sent, 4);
            }
            1 | 2 => {
                let (note, sent) = self.devices.step(&Event::alarm(1, 1, &[1, 2, 3]));
                self.seen.alarms += u64::from(note == Note::Done);
                self.to_controller(&sent, 4);
            }
            3 => {
                let value = [self.random.below(256) as u8, 7];
                let _ = self.devices.step(&Event::input(1, 1, &value));
            }
            4 => {
                let value = [self.random.below(256) as u8, 9];
                let _ = self.controllers.step(&controller_core::Event::Give(2, 1, octets(&value)));
            }
            5 if self.random.below(20) == 0 => {
                let sent = self.controllers.step(&controller_core::Event::Stop);
                self.to_device(&sent, 4);
            }
            _ => self.losses = Losses::next(&mut self.random),
        }
    }

    /// Units pass, by leaps of a random length that is at most what is due at either end.
    fn pass(&mut self, mut units: u32) {
        while 0 < units {
            let due = self.devices.leaping.due().min(self.controllers.leaping.due());
            self.seen.never += u64::from(due == NEVER);
            let most = due.min(units);
            let leap = if self.random.below(3) == 0 { self.random.below(most + 1) } else { most };
            let sent = self.devices.elapse(leap, &mut self.seen);
            let other = self.controllers.elapse(leap, &mut self.seen);
            if matches!(self.devices.leaping.phase(), Some(Phase::Awaiting)) && sent.len() > 0 {
                self.seen.readies += 1;
            }
            self.seen.units += u64::from(leap);
            self.seen.leaps += 1;
            self.seen.long_leaps += u64::from(leap > 1000);
            self.to_controller(&sent, 4);
            self.to_device(&other, 4);
            units -= leap;
        }
    }
}

/// A start-up, exchanges and ends, for at least this many units.
fn run(catalogue: &str, seed: u64, units: u64) -> Seen {
    let mut total = Seen::default();
    let (mut random, mut choices) = (Random(seed), Random(seed + 1_000));
    while total.units < units {
        // Each second controller has no patience.
        let most = [100, 3_000, 100_000][choices.below(3) as usize];
        let options = match choices.below(2) {
            0 => ControllerOptions::default(),
            _ => ControllerOptions {
                patience: 1 + choices.below(most),
                waiting_patience: choices.below(most),
            },
        };
        let mut net = Net::new(catalogue, 1 + random.below(100) as u8, u64::from(random.below(1 << 30)), options);
        let mut opening = Outbox::new();
        opening.put_copy(&net.controllers.leaping.opening());
        let _ = net.controllers.ticking.opening();
        if random.below(2) == 0 {
            net.losses = Losses::next(&mut net.random);
        }
        net.to_device(&opening, 12);
        let rounds = 20 + random.below(100);
        for _ in 0..rounds {
            net.act();
            let bound = [4, 100, 3_000, 40_000][random.below(4) as usize];
            net.pass(random.below(bound));
            // After an end another pair of stations starts soon.
            let is_over = matches!(net.controllers.leaping.state(), State::Ended(_));
            if is_over && net.devices.leaping.phase().is_none() && random.below(4) == 0 {
                break;
            }
        }
        let seen = net.seen;
        total = Seen {
            units: total.units + seen.units,
            leaps: total.leaps + seen.leaps,
            long_leaps: total.long_leaps + seen.long_leaps,
            device_frames: total.device_frames + seen.device_frames,
            controller_frames: total.controller_frames + seen.controller_frames,
            lamp_off: total.lamp_off + seen.lamp_off,
            device_ended: total.device_ended + seen.device_ended,
            data_hold: total.data_hold + seen.data_hold,
            alarm_retries: total.alarm_retries + seen.alarm_retries,
            no_progress: total.no_progress + seen.no_progress,
            exchanging: total.exchanging + seen.exchanging,
            alarms: total.alarms + seen.alarms,
            readies: total.readies + seen.readies,
            never: total.never + seen.never,
        };
    }
    total
}

/// The plan with these times.
fn catalogue(clock: &str, ratio: &str, hold: &str) -> std::string::String {
    PUMP.replace("#C", clock).replace("#R", ratio).replace("#H", hold)
}

fn tries(clock: &str, ratio: &str, hold: &str, seed: u64, units: u64) {
    let seen = run(&catalogue(clock, ratio, hold), seed, units);
    println!("{seen:?}");
    // Each kind of thing was tried.
    assert!(seen.exchanging > 0 && seen.device_ended > 0 && seen.alarms > 0);
    assert!(seen.data_hold > 0 && seen.readies > 0 && seen.never > 0);
    assert!(seen.no_progress > 0);
}

#[test]
fn leaps_are_ticks_at_one_millisecond() {
    tries("32", "1", "3", 1, 4_000_000);
}

#[test]
fn leaps_are_ticks_at_each_unit() {
    tries("1", "1", "255", 2, 1_000_000);
}

#[test]
fn leaps_are_ticks_at_half_a_second() {
    tries("32", "512", "7", 3, 6_000_000);
}
