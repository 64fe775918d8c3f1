//! Each end alone, or with the services beside it: what it sends, and what these send.
use controller_core::{Controller, ControllerOptions, Event as ControllerEvent};
use controller_station::{ServedController, ServedOutbox};
use device_core::{Device, Event as DeviceEvent};
use device_station::{DeviceServices, StationOutbox, due_beside, elapse_beside, step_beside};
use flash_model::MemoryFlash;
use frame_codec::{Frame, Outbox};
use uuid::Uuid;

/// A device over the smallest flash.
pub type Station = Device<MemoryFlash<768>, 768>;

/// The frames that an end sends, and those of the services beside it.
#[derive(Default)]
pub struct Sending {
    pub own: Vec<Vec<u8>>,
    pub beside: Vec<Vec<u8>>,
}

fn octets_of(frames: &[Frame]) -> Vec<Vec<u8>> {
    frames.iter().map(|frame| frame.as_slice().to_vec()).collect()
}

/// A device, and perhaps the services beside it.
pub struct DeviceEnd {
    pub device: Station,
    services: Option<DeviceServices>,
    outbox: StationOutbox,
    alone: Outbox,
}

impl DeviceEnd {
    /// A device at its start.
    pub fn new(device: Station, is_served: bool) -> DeviceEnd {
        let services = is_served.then(|| DeviceServices::new(device.identity(), device.running()));
        DeviceEnd { device, services, outbox: StationOutbox::new(), alone: Outbox::new() }
    }

    /// An event.
    pub fn step(&mut self, event: &DeviceEvent) -> Sending {
        match &mut self.services {
            Some(services) => {
                let _ = step_beside(&mut self.device, services, event, &mut self.outbox);
            }
            None => {
                let _ = self.device.step(event, &mut self.alone);
            }
        }
        self.sending()
    }

    /// The units up to the next one with which anything happens.
    pub fn due(&self) -> u32 {
        self.services.as_ref().map_or_else(|| self.device.due(), |services| due_beside(&self.device, services))
    }

    /// Units of time pass.
    pub fn elapse(&mut self, units: u32) -> Sending {
        match &mut self.services {
            Some(services) => {
                let _ = elapse_beside(&mut self.device, services, units, &mut self.outbox);
            }
            None => {
                let _ = self.device.elapse(units, &mut self.alone);
            }
        }
        self.sending()
    }

    fn sending(&self) -> Sending {
        match &self.services {
            Some(_) => Sending { own: octets_of(self.outbox.device()), beside: octets_of(self.outbox.services()) },
            None => Sending { own: octets_of(self.alone.as_slice()), beside: Vec::new() },
        }
    }
}

/// A controller, alone or with the services beside it.
pub enum ControllerEnd {
    Alone(Box<Controller>, Outbox),
    Served(Box<ServedController>, ServedOutbox),
}

impl ControllerEnd {
    /// A controller at its start.
    pub fn new(plan: plans::Plan, ar: Uuid, activity: Uuid, patience: ControllerOptions, is_served: bool) -> ControllerEnd {
        if is_served {
            return ControllerEnd::Served(Box::new(ServedController::new_with(plan, ar, activity, patience)), ServedOutbox::new());
        }
        ControllerEnd::Alone(Box::new(Controller::new_with(plan, ar, activity, patience)), Outbox::new())
    }

    pub fn controller(&self) -> &Controller {
        match self {
            ControllerEnd::Alone(controller, _) => controller,
            ControllerEnd::Served(served, _) => served.controller(),
        }
    }

    /// An event.
    pub fn step(&mut self, event: &ControllerEvent) -> Sending {
        match self {
            ControllerEnd::Alone(controller, outbox) => controller.step(event, outbox),
            ControllerEnd::Served(served, outbox) => served.step(event, outbox),
        }
        self.sending()
    }

    /// The units up to the next one with which anything happens.
    pub fn due(&self) -> u32 {
        match self {
            ControllerEnd::Alone(controller, _) => controller.due(),
            ControllerEnd::Served(served, _) => served.due(),
        }
    }

    /// Units of time pass.
    pub fn elapse(&mut self, units: u32) -> Sending {
        match self {
            ControllerEnd::Alone(controller, outbox) => controller.elapse(units, outbox),
            ControllerEnd::Served(served, outbox) => served.elapse(units, outbox),
        }
        self.sending()
    }

    fn sending(&self) -> Sending {
        match self {
            ControllerEnd::Alone(_, outbox) => Sending { own: octets_of(outbox.as_slice()), beside: Vec::new() },
            ControllerEnd::Served(_, outbox) => Sending { own: octets_of(outbox.controller()), beside: octets_of(outbox.services()) },
        }
    }
}
