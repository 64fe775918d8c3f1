//! A device and a controller of the demo station, and all frames between them.
use crate::octets::Marks;
use configurator::plan_from_json;
use controller_core::{Controller, Event as ControllerEvent, State};
use device_core::{Device, Event, Octets};
use flash_model::MemoryFlash;
use frame_codec::{Bytes, Outbox};
use pn_values::demo_identity;
use rattle_std::alloc::Global;
use strangers_law::{step_controller, step_device};
use test_stations::{octets, plugged, set_pump};
use uuid::Uuid;

/// The catalogue of the demo station, without records.
const PUMP: &str = r#"{"DeviceIdentity":{"VendorID":291,"DeviceID":1110},"DeviceAccessPointItem":{"ModuleIdentNumber":1,"PhysicalSlots":[0,1,2,3],"DNS_CompatibleName":"pn-demo","MinDeviceInterval":32,"VirtualSubmoduleItem":[{"Subslot":1,"SubmoduleIdentNumber":1},{"Subslot":32768,"SubmoduleIdentNumber":2},{"Subslot":32769,"SubmoduleIdentNumber":3}],"ModuleItemRef":[{"ModuleItemTarget":"IN2","AllowedInSlots":[1,2,3]},{"ModuleItemTarget":"OUT2","AllowedInSlots":[1,2,3]}]},"ModuleItem":[{"ID":"IN2","ModuleIdentNumber":16,"VirtualSubmoduleItem":[{"Subslot":1,"SubmoduleIdentNumber":16,"IOData":{"Input":[{"DataType":"Unsigned16"}]}}]},{"ID":"OUT2","ModuleIdentNumber":32,"VirtualSubmoduleItem":[{"Subslot":1,"SubmoduleIdentNumber":32,"IOData":{"Output":[{"DataType":"Unsigned16"}]}}]}],"Project":{"NameOfStation":"pump-1","IPAddress":"192.168.0.2","SubnetMask":"255.255.255.0","Gateway":"0.0.0.0","Controller":{"NameOfStation":"plc","MAC":"02-00-00-00-00-02","IPAddress":"192.168.0.1"},"SendClockFactor":32,"ReductionRatio":1,"DataHoldFactor":3,"Slots":[{"Slot":1,"ModuleItemTarget":"IN2"},{"Slot":2,"ModuleItemTarget":"OUT2"}]}}"#;

pub(crate) const DEVICE: [u8; 6] = [2, 0, 0, 0, 0, 1];
pub(crate) const CONTROLLER: [u8; 6] = [2, 0, 0, 0, 0, 2];
pub(crate) const RELATION: [u8; 16] = [1; 16];
pub(crate) const ACTIVITY: [u8; 16] = [2; 16];

pub(crate) type Pump = Device<MemoryFlash<768>, 768>;

/// Both ends.
pub(crate) struct Plant {
    pub(crate) device: Pump,
    pub(crate) controller: Controller,
}

/// A frame that came to an end, and the controller's state before.
pub(crate) struct Came {
    pub(crate) at_device: bool,
    pub(crate) related: bool,
    pub(crate) state: State,
    pub(crate) frame: Vec<u8>,
}

/// By what the relation is known to its device: the FrameID of outputs is 0xC000, that of inputs 0xC001, and both endpoints of alarms are 1.
pub(crate) fn at_device() -> Marks {
    Marks { station: DEVICE, partner: CONTROLLER, uuid: RELATION, frame_id: 0xC000, own_endpoint: 1, their_endpoint: 1 }
}

/// By what it is known to its controller, once the device has answered its Connect.
pub(crate) fn at_controller() -> Marks {
    Marks { station: CONTROLLER, partner: DEVICE, uuid: RELATION, frame_id: 0xC001, own_endpoint: 1, their_endpoint: 1 }
}

/// The octets of a frame as an event of the controller has them.
pub(crate) fn bytes(frame: &[u8]) -> Bytes {
    octets(frame)
}

/// The frames that a device sends at an event.
pub(crate) fn at(device: &mut Pump, event: &Event<'_>) -> Vec<Vec<u8>> {
    let mut outbox = Outbox::new();
    let _ = step_device(device, event, &mut outbox);
    outbox.as_slice().iter().map(|frame| frame.as_slice().to_vec()).collect()
}

/// The frames that a controller sends at an event.
pub(crate) fn by(controller: &mut Controller, event: &ControllerEvent) -> Vec<Vec<u8>> {
    let mut outbox = Outbox::new();
    step_controller(controller, event, &mut outbox);
    outbox.as_slice().iter().map(|frame| frame.as_slice().to_vec()).collect()
}

impl Plant {
    pub(crate) fn new() -> Plant {
        let plan = plan_from_json(Global, PUMP.as_bytes()).ok().expect("a plan");
        let mut real = plugged();
        real.modules[1].submodules[0].input = 2;
        real.modules[2].submodules[0].output = 2;
        let mut device = Device::boot(demo_identity(), real, MemoryFlash::blank()).ok().expect("starts");
        at(&mut device, &Event::Frame(Octets::of(&set_pump(b'1'))));
        Plant { device, controller: Controller::new(plan, Uuid::from_bytes(RELATION), Uuid::from_bytes(ACTIVITY)) }
    }

    /// A frame comes to its end. Returns what is then sent.
    pub(crate) fn one(&mut self, frame: &[u8]) -> Vec<Vec<u8>> {
        if frame[6..12] == CONTROLLER {
            at(&mut self.device, &Event::Frame(Octets::of(frame)))
        } else {
            by(&mut self.controller, &ControllerEvent::Frame(bytes(frame)))
        }
    }

    /// These frames come to their ends, and all that is then sent.
    pub(crate) fn deliver(&mut self, frames: Vec<Vec<u8>>) -> Vec<Came> {
        let mut waiting = frames;
        let mut came = Vec::new();
        while !waiting.is_empty() {
            let frame = waiting.remove(0);
            came.push(Came {
                at_device: frame[6..12] == CONTROLLER,
                related: self.device.phase().is_some(),
                state: self.controller.state(),
                frame: frame.clone(),
            });
            waiting.extend(self.one(&frame));
        }
        came
    }

    /// A unit of time passes at both ends.
    pub(crate) fn tick(&mut self) -> Vec<Came> {
        let mut sent = by(&mut self.controller, &ControllerEvent::Tick);
        sent.extend(at(&mut self.device, &Event::Tick));
        self.deliver(sent)
    }

    /// A start-up from the controller's opening frame on.
    pub(crate) fn start(&mut self) -> Vec<Came> {
        let opening = self.controller.opening().as_slice().to_vec();
        self.deliver(vec![opening])
    }
}
