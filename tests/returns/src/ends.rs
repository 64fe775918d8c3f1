//! Both ends, and the frames between them: a device over a flash, the controller that is there now, and those of its frames that may
//! still come. The host of the controller makes a new one for each relation, with a new ARUUID and a new activity.
use crate::faults::{Fault, Memory};
use crate::held::{ControllerEnd, DeviceEnd, Sending, Station};
use crate::tokens::{is_cyclic, is_datagram, number, token, type_at};
use arrayvec::ArrayVec;
use configurator::plan_from_json;
use controller_core::{Controller, ControllerOptions, Event as ControllerEvent, State};
use device_core::{Caller, Device, Event as DeviceEvent, Octets};
use flash_model::{MemoryFlash, Order};
use frame_codec::{Endpoint, Outbox};
use pn_values::{Identity, Mac, Real, RealModule, RealSubmodule, demo_identity};
use rattle_std::alloc::Global;
use relations::{DeviceOptions, Phase};
use test_stations::{frame, octets};
use uuid::Uuid;

/// An end.
#[derive(Clone, Copy, Debug, PartialEq, Eq)]
pub enum End {
    /// The device.
    Device,
    /// The controller.
    Controller,
}

/// A frame that may still come.
pub struct Sent {
    /// Its number among all that were sent to the other end.
    pub number: usize,
    /// The end that it goes to.
    pub to: End,
    /// The number of the controller of whose relation it is.
    pub whose: u32,
    /// Its octets.
    pub octets: Vec<u8>,
}

/// The station that is there.
#[derive(Clone, Copy, PartialEq, Eq)]
pub enum Plant {
    /// That of the plan.
    Planned,
    /// Another module is plugged in slot 3.
    WrongModule,
    /// Another device, of another type, has the name too, and answers first.
    NameTaken,
    /// It has another name.
    OtherName,
}

/// What decides how a world begins.
#[derive(Clone, Copy)]
pub struct Options {
    /// The station that is there.
    pub plant: Plant,
    /// The options of the device.
    pub device: DeviceOptions,
    /// The patience of each controller.
    pub patience: ControllerOptions,
    /// Whether the services are beside both ends.
    pub is_served: bool,
    /// Whether frames of an earlier relation may come after the next one began.
    pub is_late: bool,
    /// Whether each relation has numbers of its own.
    pub is_numbered: bool,
    /// What is wrong with an end.
    pub fault: Option<Fault>,
}

/// How long the host waits until it makes a new controller after the end of one: a second.
pub const PAUSE: u32 = 32_000;

/// The maximum number of frames that may still come.
const MOST: usize = 40;

/// Both ends, and what is between them.
pub struct World {
    plan: String,
    options: Options,
    device_end: DeviceEnd,
    pub is_on: bool,
    controller_end: ControllerEnd,
    /// The number of the controller that is there now.
    pub turn: u32,
    /// The units at the controller since its end.
    pub rest: u32,
    pub flight: Vec<Sent>,
    /// All frames that were sent to the other end: where to, of whose relation, and their octets.
    sent: Vec<(End, u32, Vec<u8>)>,
    /// The number of frames that were sent to the other end.
    pub count: usize,
    /// What the frames of this move say.
    pub said: Vec<String>,
    /// Whether what the frames say is written down.
    pub is_told: bool,
    /// The units of this move that both ends had before.
    pub passed: u64,
    /// The number of the last controller whose relation began.
    relation: u32,
    has_failed: bool,
    memory: Memory,
    /// How often power came back.
    starts: u16,
}

/// The options of a device at a start: a host that counts its starts gives other numbers at each, far from those of strangers.
fn numbered_from(options: Options, starts: u16) -> DeviceOptions {
    DeviceOptions { numbers_from: options.is_numbered.then_some(1_000 + 200 * starts), ..options.device }
}

/// The modules that are plugged.
fn real_of(plan: &str, plant: Plant) -> Real {
    let mut real = modules_of(plan);
    if plant == Plant::WrongModule {
        real.modules[3].ident = 33;
    }
    real
}

/// The ARUUID of the controller with this number.
pub fn ar_of(number: u32) -> Uuid {
    numbered(0xA0, number)
}

/// A UUID that ends with a number.
pub fn numbered(first: u8, number: u32) -> Uuid {
    let mut octets = [first; 16];
    octets[12..].copy_from_slice(&number.to_be_bytes());
    Uuid::from_bytes(octets)
}

/// The number with which a UUID ends.
fn number_of(uuid: &Uuid) -> u32 {
    u32::from_be_bytes(uuid.as_bytes()[12..].try_into().expect("four octets"))
}

/// The controller with this number.
fn end_of(plan: &str, number: u32, options: Options) -> ControllerEnd {
    let plan = plan_from_json(Global, plan.as_bytes()).expect("a plan");
    let patience = match options.fault {
        Some(Fault::ControllerWaitsForEver) => ControllerOptions { waiting_patience: 0, ..options.patience },
        _ => options.patience,
    };
    ControllerEnd::new(plan, ar_of(number), numbered(0xB0, number), patience, options.is_served)
}

/// A controller of a plan.
pub fn controller_of(plan: &str, ar: Uuid, activity: Uuid, patience: ControllerOptions) -> Controller {
    let plan = plan_from_json(Global, plan.as_bytes()).expect("a plan");
    Controller::new_with(plan, ar, activity, patience)
}

fn copied_parts(parts: &[RealSubmodule]) -> ArrayVec<RealSubmodule, 4> {
    let copied = parts.iter().map(|part| RealSubmodule {
        subslot: part.subslot,
        ident: part.ident,
        input: part.input,
        output: part.output,
        parameters: part.parameters.iter().copied().collect(),
    });
    copied.collect()
}

/// The modules that a plan expects.
pub fn modules_of(plan: &str) -> Real {
    let plan = plan_from_json(Global, plan.as_bytes()).expect("a plan");
    let modules = plan.real().modules.as_slice().iter().map(|module| RealModule {
        slot: module.slot,
        ident: module.ident,
        submodules: copied_parts(module.submodules.as_slice()),
    });
    Real { modules: modules.collect() }
}

/// A station of this identity that has a name, over a flash that keeps it.
pub fn station_of(identity: fn() -> Identity, real: Real, name: &str, options: DeviceOptions) -> Station {
    let nothing = Real { modules: ArrayVec::new() };
    let mut device: Station = Device::boot(identity(), nothing, MemoryFlash::blank()).ok().expect("a station");
    let set = set_name(identity().mac, name);
    let _ = device.step(&frame(&set), &mut Outbox::new());
    Device::boot_with(identity(), real, options, device.into_flash()).ok().expect("a station")
}

/// The permanent Set of a name, by an engineering tool.
pub fn set_name(to: Mac, name: &str) -> Vec<u8> {
    let size = name.len() as u16;
    let mut block = vec![2, 2, 0, size as u8 + 2, 0, 1];
    block.extend_from_slice(name.as_bytes());
    if size % 2 == 1 {
        block.push(0);
    }
    dcp_set(to, &block)
}

/// The permanent Set of an IP suite, by an engineering tool.
pub fn set_suite(to: Mac, address: [u8; 4]) -> Vec<u8> {
    let mut block = vec![1, 2, 0, 14, 0, 1];
    block.extend_from_slice(&address);
    block.extend_from_slice(&[255, 255, 255, 0, 0, 0, 0, 0]);
    dcp_set(to, &block)
}

fn dcp_set(to: Mac, block: &[u8]) -> Vec<u8> {
    let mut octets = to.octets.to_vec();
    octets.extend_from_slice(&[2, 0, 0, 0, 0, 0x0A, 0x88, 0x92, 0xFE, 0xFD, 4, 0, 0, 0, 0, 9, 0, 0]);
    octets.extend_from_slice(&(block.len() as u16).to_be_bytes());
    octets.extend_from_slice(block);
    octets
}

impl World {
    /// A device with its modules and name, and the first controller.
    pub fn new(plan: &str, options: Options) -> World {
        let real = real_of(plan, options.plant);
        let name = if options.plant == Plant::OtherName { "pump-3" } else { "pump-1" };
        let device = station_of(demo_identity, real, name, numbered_from(options, 0));
        let mut world = World {
            plan: plan.to_string(),
            options,
            device_end: DeviceEnd::new(device, options.is_served),
            is_on: true,
            controller_end: end_of(plan, 0, options),
            turn: 0,
            rest: 0,
            flight: Vec::new(),
            sent: Vec::new(),
            count: 0,
            said: Vec::new(),
            is_told: true,
            passed: 0,
            relation: 0,
            has_failed: false,
            memory: Memory::default(),
            starts: 0,
        };
        world.make_controller();
        world
    }

    /// The device.
    pub fn device(&self) -> &Station {
        &self.device_end.device
    }

    /// The controller that is there now.
    pub fn controller(&self) -> &Controller {
        self.controller_end.controller()
    }

    /// What is wrong.
    pub fn fault(&self) -> Option<Fault> {
        self.options.fault
    }

    /// What a fault remembers.
    pub fn memory(&mut self) -> &mut Memory {
        &mut self.memory
    }

    /// The host makes a new controller in place of the one that is there. Its opening frame is sent.
    pub fn make_controller(&mut self) {
        self.turn += 1;
        self.rest = 0;
        self.controller_end = end_of(&self.plan, self.turn, self.options);
        let opening = self.controller().opening().as_slice().to_vec();
        self.send(End::Controller, opening);
    }

    /// The number of the controller of the device's relation; 0 without a relation.
    pub fn owner(&self) -> u32 {
        if self.is_on { self.device().ar().map_or(0, number_of) } else { 0 }
    }

    /// Whether both ends exchange data, in one relation.
    pub fn are_exchanging(&self) -> bool {
        self.is_on
            && self.device().phase() == Some(Phase::Exchanging)
            && self.controller().state() == State::Exchanging
            && self.device().ar() == Some(&self.controller().ar())
    }

    /// Whether the controller has ended.
    pub fn is_ended(&self) -> bool {
        matches!(self.controller().state(), State::Ended(_))
    }

    /// Whether the device waits for its application.
    pub fn is_preparing(&self) -> bool {
        self.is_on && self.device().phase() == Some(Phase::Preparing)
    }

    /// A frame of an end that goes to the other one may come. What goes to another station is not seen.
    fn send(&mut self, from: End, octets: Vec<u8>) {
        let is_ours = match from {
            End::Controller => true,
            End::Device => octets[..6] == self.controller().plan().controller().mac.octets,
        };
        if !is_ours || self.is_dropped(from, &octets) {
            return;
        }
        if self.is_told {
            self.said.push(token(&octets, from));
        }
        let (to, whose) = match from {
            End::Controller => (End::Device, self.turn),
            End::Device => (End::Controller, self.owner().max(self.relation)),
        };
        self.sent.push((to, whose, octets.clone()));
        self.flight.push(Sent { number: self.count, to, whose, octets });
        self.count += 1;
        self.make_room();
    }

    /// A frame that was sent some time ago comes once more, if it may. Returns whether it does.
    pub fn come_again(&mut self, number: usize) -> bool {
        let (to, whose, octets) = self.sent[number].clone();
        let may_come = self.options.is_late || whose >= self.relation;
        if may_come {
            self.come(to, &octets);
        }
        may_come
    }

    /// The oldest cyclic frame, or else the oldest frame, is lost if there are too many.
    fn make_room(&mut self) {
        if self.flight.len() > MOST {
            let place = self.flight.iter().position(|sent| is_cyclic(&sent.octets)).unwrap_or(0);
            self.flight.remove(place);
        }
    }

    /// What was sent goes on its way; what the services beside this end sent comes to the other end at once. If power was lost
    /// meanwhile, nothing was sent.
    fn send_all(&mut self, from: End, sending: Sending) {
        if from == End::Device {
            self.look_at_flash();
        }
        if from == End::Controller || self.is_on {
            for octets in sending.own {
                self.send(from, octets);
            }
            self.pass_on(from, sending.beside);
        }
        self.look_at_relation();
    }

    /// Frames of the services beside an end come to the other one, which is a station like others to them. Its answers are not seen.
    fn pass_on(&mut self, from: End, frames: Vec<Vec<u8>>) {
        for heard in frames {
            let sending = match from {
                End::Device => self.controller_end.step(&ControllerEvent::Frame(octets(&heard))),
                End::Controller if self.is_on => self.device_end.step(&DeviceEvent::Frame(Octets::of(&heard))),
                End::Controller => Sending::default(),
            };
            for octets in sending.own {
                self.send(if from == End::Device { End::Controller } else { End::Device }, octets);
            }
        }
    }

    /// A call of the flash failed, or lost power: it is said, before what is sent.
    fn look_at_flash(&mut self) {
        let has_failed = self.device().left() == 0;
        if self.is_on && has_failed && !self.has_failed {
            self.said.push(String::from("struck"));
        }
        self.has_failed = has_failed;
        if self.device().is_lost() {
            self.is_on = false;
        }
    }

    /// If the next relation began, and frames of an earlier one do not come any more, these are lost.
    fn look_at_relation(&mut self) {
        let owner = self.owner();
        if owner > self.relation && owner <= self.turn {
            self.relation = owner;
            if !self.options.is_late {
                self.flight.retain(|sent| sent.whose >= owner);
            }
        }
    }

    /// An event at the device, if it has power.
    pub fn at_device(&mut self, event: &DeviceEvent<'_>) {
        if self.is_on {
            let sending = self.device_end.step(event);
            self.send_all(End::Device, sending);
        }
    }

    /// An event at the controller.
    pub fn at_controller(&mut self, event: &ControllerEvent) {
        let sending = self.controller_end.step(event);
        self.send_all(End::Controller, sending);
    }

    /// A frame of the other end comes to an end.
    pub fn come(&mut self, end: End, heard: &[u8]) {
        if self.options.plant == Plant::NameTaken && number(heard, type_at(heard) + 2) == 0xFEFE {
            self.answer_as_other(heard);
        }
        self.hear(end, heard);
    }

    /// The other device that has the name answers an Identify.
    fn answer_as_other(&mut self, heard: &[u8]) {
        let identity = || Identity { mac: Mac { octets: [2, 0, 0, 0, 0, 8] }, device_id: 0x0999, ..demo_identity() };
        let mut other = station_of(identity, Real { modules: ArrayVec::new() }, "pump-1", DeviceOptions::default());
        let mut outbox = Outbox::new();
        let _ = other.step(&DeviceEvent::Frame(Octets::of(heard)), &mut outbox);
        for sent in outbox.as_slice() {
            self.send(End::Device, sent.as_slice().to_vec());
        }
    }

    /// These octets come to an end.
    pub fn hear(&mut self, end: End, heard: &[u8]) {
        match (end, self.bend(end, heard)) {
            (End::Device, Some(heard)) => self.hear_at_device(&heard),
            (End::Controller, Some(heard)) => self.at_controller(&ControllerEvent::Frame(octets(&heard))),
            (_, None) => {}
        }
    }

    /// These octets come to the device.
    pub fn hear_at_device(&mut self, heard: &[u8]) {
        self.at_device(&DeviceEvent::Frame(Octets::of(heard)));
    }

    /// A call comes to the device as one that was joined from fragments.
    pub fn hear_joined(&mut self, heard: &[u8]) {
        let end = 34 + usize::from(number(heard, 38));
        if !is_datagram(heard) || end < 42 || end > heard.len() {
            return self.come(End::Device, heard);
        }
        let Some(heard) = self.bend(End::Device, heard) else {
            return;
        };
        let heard = heard.as_slice();
        let caller = Caller {
            mac: Mac { octets: heard[6..12].try_into().expect("six octets") },
            endpoint: Endpoint { address: heard[26..30].try_into().expect("four octets"), port: number(heard, 34) },
        };
        let to = heard[30..34].try_into().expect("four octets");
        self.at_device(&DeviceEvent::Call(caller, to, Octets::of(&heard[42..end])));
    }

    /// Units pass at the device, one by one or by leaps.
    pub fn pass_at_device(&mut self, units: u32, by_leaps: bool) {
        let is_missed = units > 1_000 && self.fault() == Some(Fault::UnitIsMissed);
        let units = units - u32::from(is_missed);
        let mut passed = 0;
        while passed < units && self.is_on {
            let before = self.before();
            let some = if by_leaps { self.device_end.due().clamp(1, units - passed) } else { 1 };
            let sending = if by_leaps { self.device_end.elapse(some) } else { self.device_end.step(&DeviceEvent::Tick) };
            self.send_all(End::Device, sending);
            passed += some;
            self.date(before, passed);
        }
    }

    /// Units pass at the controller. Since its end the host counts them too.
    pub fn pass_at_controller(&mut self, units: u32, by_leaps: bool) {
        let mut passed = 0;
        while passed < units {
            let before = self.before();
            let some = if by_leaps { self.controller_end.due().clamp(1, units - passed) } else { 1 };
            if self.is_ended() {
                self.rest = self.rest.saturating_add(some);
            }
            let sending = if by_leaps { self.controller_end.elapse(some) } else { self.controller_end.step(&ControllerEvent::Tick) };
            self.send_all(End::Controller, sending);
            passed += some;
            self.date(before, passed);
        }
    }

    /// What a unit may change: the number of tokens, the owner of the device's relation, and whether the controller has ended.
    fn before(&self) -> (usize, u32, bool) {
        (self.said.len(), self.owner(), self.is_ended())
    }

    /// Says at which unit of this move frames were sent, or an end left its relation.
    fn date(&mut self, before: (usize, u32, bool), passed: u32) {
        let (said, owner, is_ended) = before;
        let has_left = owner != self.owner() || is_ended != self.is_ended();
        if self.is_told && (self.said.len() > said || has_left) {
            self.said.insert(said, format!("@{}", self.passed + u64::from(passed)));
        }
        if self.is_told && has_left {
            self.said.push(String::from("left"));
        }
    }

    /// The units up to the next one with which anything happens at an end.
    pub fn due(&self) -> u32 {
        let device = if self.is_on { self.device_end.due() } else { u32::MAX };
        device.min(self.controller_end.due())
    }

    /// The device loses its power.
    pub fn power_off(&mut self) {
        self.is_on = false;
    }

    /// Power comes back: the device starts from what its flash has. An order that is armed stays armed.
    pub fn power_on(&mut self) {
        if self.is_on {
            return;
        }
        if self.fault() == Some(Fault::SettingsAreLost) {
            let blank = station_of(demo_identity, modules_of(&self.plan), "pump-1", self.options.device);
            self.device_end = DeviceEnd::new(blank, self.options.is_served);
            self.is_on = true;
            return;
        }
        let scratch = station_of(demo_identity, Real { modules: ArrayVec::new() }, "x", self.options.device);
        let device = std::mem::replace(&mut self.device_end, DeviceEnd::new(scratch, false)).device;
        let up = |mut flash: MemoryFlash<768>| {
            flash.power_up();
            flash
        };
        self.starts += 1;
        let device = match self.options.is_numbered {
            true => {
                let real = real_of(&self.plan, self.options.plant);
                Device::boot_with(demo_identity(), real, numbered_from(self.options, self.starts), up(device.into_flash()))
            }
            false => device_core::restart(device, up),
        };
        let device = device.ok().expect("a station");
        self.device_end = DeviceEnd::new(device, self.options.is_served);
        self.is_on = true;
        self.has_failed = false;
    }

    /// The flash fails, or loses power, in a later call.
    pub fn arm(&mut self, order: Order) {
        self.device_end.device.arm(order);
    }

    /// From here on the flash does not fail any more.
    pub fn disarm(&mut self) {
        self.arm(Order::ReadFault { after: u32::MAX });
    }
}
