//! Both ends and the frames that are under way, with rounds as `rounds_law::Net` makes them. Units in which nothing is under way pass at
//! once, by leaps of both ends: they do what as many rounds do.
use crate::otherwise::{as_planned, station};
use controller_core::{Controller, Event, State};
use controller_messages::Setup;
use device_core::Device;
use flash_model::{MemoryFlash, Sector};
use frame_codec::Outbox;
use pn_values::demo_identity;
use relations::{DeviceOptions, Phase};
use test_stations::{Station, frame as heard, octets, set_address, step};

/// The octets of a frame.
pub(crate) type Octets = Vec<u8>;

/// Both ends. What is under way to each can be changed at will.
pub(crate) struct Ends {
    pub(crate) device: Station,
    pub(crate) controller: Controller,
    pub(crate) to_device: Vec<Octets>,
    pub(crate) to_controller: Vec<Octets>,
}

fn append(frames: &mut Vec<Octets>, outbox: &Outbox) {
    let sent = outbox.as_slice().iter();
    frames.extend(sent.map(|frame| frame.as_slice().to_vec()));
}

/// A station of the plan without a relation, with the plan's IP suite or without one.
pub(crate) fn device(has_address: bool) -> Station {
    let mut device = station(as_planned());
    if has_address {
        step(&mut device, &set_address(), &mut Outbox::new());
    }
    device
}

/// The same device, which has lost its power and has it back. A call of the flash may have been torn by that.
pub(crate) fn restarted(device: Station) -> Station {
    let flash = device.into_flash();
    let bytes = |sector| flash.sector(sector).try_into().expect("its size");
    let whole = MemoryFlash::from_sectors(bytes(Sector::First), bytes(Sector::Second));
    let (identity, options) = (demo_identity(), DeviceOptions::default());
    let mut device = Device::unstarted(identity, as_planned(), options, whole);
    device.load().expect("it starts again");
    device
}

impl Ends {
    /// A start: the Identify of a controller of this set-up is under way.
    pub(crate) fn start(device: Station, setup: Setup) -> Ends {
        let mut ends = Ends {
            device,
            controller: Controller::new_with(setup.plan, setup.ar, setup.activity, setup.options),
            to_device: Vec::new(),
            to_controller: Vec::new(),
        };
        ends.open();
        ends
    }

    /// The controller is started again, with this set-up.
    pub(crate) fn start_again(&mut self, setup: Setup) {
        self.controller = Controller::new_with(setup.plan, setup.ar, setup.activity, setup.options);
        self.open();
    }

    fn open(&mut self) {
        let opening = self.controller.opening();
        self.to_device.push(opening.as_slice().to_vec());
    }

    /// A round: everything that is under way arrives, and then a unit passes at either end.
    pub(crate) fn round(&mut self) {
        self.lossy_round(|_| false);
    }

    /// A round in which some of the frames are lost, the answers of the device within the round among them.
    pub(crate) fn lossy_round(&mut self, mut is_lost: impl FnMut(&Octets) -> bool) {
        let mut outbox = Outbox::new();
        let mut arriving = std::mem::take(&mut self.to_controller);
        let mut to_device = std::mem::take(&mut self.to_device);
        to_device.retain(|frame| !is_lost(frame));
        for frame in to_device {
            let _ = step(&mut self.device, &heard(&frame), &mut outbox);
            append(&mut arriving, &outbox);
        }
        arriving.retain(|frame| !is_lost(frame));
        for frame in arriving {
            self.controller
                .step(&Event::Frame(octets(&frame)), &mut outbox);
            append(&mut self.to_device, &outbox);
        }
        self.pass(1);
    }

    /// Units pass at both ends.
    fn pass(&mut self, units: u32) {
        let mut outbox = Outbox::new();
        let _ = self.device.elapse(units, &mut outbox);
        append(&mut self.to_controller, &outbox);
        self.controller.elapse(units, &mut outbox);
        append(&mut self.to_device, &outbox);
    }

    /// A round, or at most this many if nothing is under way and nothing happens before the last one. Returns how many.
    pub(crate) fn go(&mut self, most: usize) -> usize {
        if !self.to_device.is_empty() || !self.to_controller.is_empty() {
            self.round();
            return 1;
        }
        let due = self.device.due().min(self.controller.due());
        let units = due.min(most.try_into().unwrap_or(u32::MAX));
        self.pass(units);
        units as usize
    }

    /// All that is under way is lost.
    pub(crate) fn lose_all(&mut self) {
        self.to_device.clear();
        self.to_controller.clear();
    }

    /// The device loses its power and has it back.
    pub(crate) fn restart_device(self) -> Ends {
        Ends {
            device: restarted(self.device),
            ..self
        }
    }

    /// Whether the controller has ended.
    pub(crate) fn is_ended(&self) -> bool {
        matches!(self.controller.state(), State::Ended(_))
    }

    /// Both ends exchange data, perhaps in different relations.
    pub(crate) fn exchange(&self) -> bool {
        self.controller.state() == State::Exchanging
            && self.device.phase() == Some(Phase::Exchanging)
    }

    /// Both ends have the same relation, if the device has one.
    pub(crate) fn are_related(&self) -> bool {
        self.device.ar() == Some(&self.controller.ar())
    }
}
