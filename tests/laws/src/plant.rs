//! A device with an input in slot 1 and outputs in slots 2 and 3, its controller, and what is seen of each move of both.
use configurator::plan_from_json;
use controller_core::{Controller, State};
use device_core::{Device, Local};
use flash_model::MemoryFlash;
use frame_codec::Outbox;
use network_world::{End, Move, World};
use pn_values::{Real, RealModule, RealSubmodule, demo_identity};
use rattle_std::alloc::Global;
use relations::{DeviceOptions, Phase};
use test_stations::{Station, frame, no_modules, octets, set_pump, step};
use uuid::Uuid;

/// The catalogue of the station, with no records.
pub(crate) const PLAN: &str = r#"{"DeviceIdentity":{"VendorID":291,"DeviceID":1110},"DeviceAccessPointItem":{"ModuleIdentNumber":1,"PhysicalSlots":[0,1,2,3],"DNS_CompatibleName":"pn-demo","MinDeviceInterval":32,"VirtualSubmoduleItem":[{"Subslot":1,"SubmoduleIdentNumber":1},{"Subslot":32768,"SubmoduleIdentNumber":2},{"Subslot":32769,"SubmoduleIdentNumber":3}],"ModuleItemRef":[{"ModuleItemTarget":"IN2","AllowedInSlots":[1,2,3]},{"ModuleItemTarget":"OUT2","AllowedInSlots":[1,2,3]}]},"ModuleItem":[{"ID":"IN2","ModuleIdentNumber":16,"VirtualSubmoduleItem":[{"Subslot":1,"SubmoduleIdentNumber":16,"IOData":{"Input":[{"DataType":"Unsigned16"}]}}]},{"ID":"OUT2","ModuleIdentNumber":32,"VirtualSubmoduleItem":[{"Subslot":1,"SubmoduleIdentNumber":32,"IOData":{"Output":[{"DataType":"Unsigned16"}]}}]}],"Project":{"NameOfStation":"pump-1","IPAddress":"192.168.0.2","SubnetMask":"255.255.255.0","Gateway":"0.0.0.0","Controller":{"NameOfStation":"plc","MAC":"02-00-00-00-00-02","IPAddress":"192.168.0.1"},"SendClockFactor":32,"ReductionRatio":1,"DataHoldFactor":3,"Slots":[{"Slot":1,"ModuleItemTarget":"IN2"},{"Slot":2,"ModuleItemTarget":"OUT2"},{"Slot":3,"ModuleItemTarget":"OUT2"}]}}"#;

/// Units of 31.25 microseconds of an interval.
pub(crate) const INTERVAL: usize = 32;

/// A diagnosis: slot, subslot, ChannelNumber, ChannelErrorType.
pub(crate) type Fault = (u16, u16, u16, u16);

/// A move, as the laws speak of it.
#[derive(Clone, Debug, PartialEq)]
pub(crate) enum Done {
    Delivered(End),
    Unit(End),
    /// The device's application gives its input this value, or says whether it is good.
    Input([u8; 2]),
    InputStatus(bool),
    /// A diagnosis appears or disappears at the device.
    Changed(Fault, bool),
    Stopped,
}

/// What both ends show.
#[derive(Clone, Debug, PartialEq)]
pub(crate) struct Shown {
    pub(crate) phase: Option<Phase>,
    pub(crate) state: State,
    /// The input that the controller shows.
    pub(crate) input: Vec<u8>,
    /// The diagnoses of the device, and those that the controller lists.
    pub(crate) existing: Vec<Fault>,
    pub(crate) listed: Vec<Fault>,
}

/// A move, the frame that it brought, the frames that were then sent, and what both ends show after it.
#[derive(Clone, Debug)]
pub(crate) struct Entry {
    pub(crate) done: Done,
    pub(crate) came: Vec<u8>,
    pub(crate) sent: Vec<Vec<u8>>,
    pub(crate) shown: Shown,
}

type Net = World<MemoryFlash<768>, 768>;

/// Both ends, and what was seen of them.
pub(crate) struct Plant {
    net: Net,
    pub(crate) entries: Vec<Entry>,
    pub(crate) count: usize,
}

fn module(slot: u16, ident: u32, plugged: &[(u16, u32, u16, u16)]) -> RealModule {
    let mut module = RealModule { slot, ident, ..RealModule::default() };
    for &(subslot, ident, input, output) in plugged {
        module.submodules.push(RealSubmodule { subslot, ident, input, output, ..RealSubmodule::default() });
    }
    module
}

/// What the plan says.
pub(crate) fn as_planned() -> Real {
    let mut real = no_modules();
    real.modules.push(module(0, 1, &[(1, 1, 0, 0), (0x8000, 2, 0, 0), (0x8001, 3, 0, 0)]));
    real.modules.push(module(1, 16, &[(1, 16, 2, 0)]));
    real.modules.push(module(2, 32, &[(1, 32, 0, 2)]));
    real.modules.push(module(3, 32, &[(1, 32, 0, 2)]));
    real
}

/// The station "pump-1", in which this is plugged.
pub(crate) fn station() -> Station {
    let mut named: Station = Device::boot(demo_identity(), no_modules(), MemoryFlash::blank()).ok().expect("a station");
    step(&mut named, &frame(&set_pump(b'1')), &mut Outbox::new());
    Device::boot_with(demo_identity(), as_planned(), DeviceOptions::default(), named.into_flash()).ok().expect("a station")
}

/// The EtherType of a frame, and the octets after it; without its tag.
pub(crate) fn payload(frame: &[u8]) -> (u16, &[u8]) {
    let at = if number(frame, 12) == 0x8100 { 16 } else { 12 };
    (number(frame, at), frame.get(at + 2..).unwrap_or(&[]))
}

/// The number in two octets, 0 if they are not there.
pub(crate) fn number(octets: &[u8], at: usize) -> u16 {
    let octet = |at: usize| octets.get(at).copied().unwrap_or(0);
    u16::from_be_bytes([octet(at), octet(at + 1)])
}

/// Whether the device sent this frame.
pub(crate) fn is_of_device(frame: &[u8]) -> bool {
    frame.get(6..12) == Some(&demo_identity().mac.octets[..])
}

impl Plant {
    /// Both ends exchange data: each frame came to the other end as soon as it was sent.
    pub(crate) fn exchanging() -> Plant {
        let plan = plan_from_json(Global, PLAN.as_bytes()).ok().expect("a plan");
        let controller = Controller::new(plan, Uuid::from_bytes([1; 16]), Uuid::from_bytes([2; 16]));
        let mut plant = Plant { net: World::new(Global, station(), controller), entries: Vec::new(), count: 1 };
        plant.deliver_all(0);
        let shown = plant.shown();
        assert_eq!((shown.phase, shown.state), (Some(Phase::Exchanging), State::Exchanging));
        plant
    }

    pub(crate) fn shown(&self) -> Shown {
        let (device, controller) = (self.net.device(), self.net.controller());
        let faults = |all: &[diagnosis::Diagnosis]| all.iter().map(|one| (one.slot, one.subslot, one.channel, one.error)).collect();
        Shown {
            phase: device.phase(),
            state: controller.state(),
            input: controller.value(1, 1).map_or(Vec::new(), <[u8]>::to_vec),
            existing: faults(device.diagnoses()),
            listed: faults(controller.diagnoses()),
        }
    }

    pub(crate) fn frame(&self, number: usize) -> &[u8] {
        self.net.sent(number).expect("a frame").as_slice()
    }

    fn make(&mut self, done: Done, came: Vec<u8>, one: Move) {
        self.net.play(&[one]).expect("memory");
        let first = self.count;
        let new = (first..).map_while(|number| self.net.sent(number).map(|frame| frame.as_slice().to_vec()));
        let sent: Vec<Vec<u8>> = new.collect();
        self.count += sent.len();
        let shown = self.shown();
        self.entries.push(Entry { done, came, sent, shown });
    }

    /// The frame with this number comes to the end that did not send it.
    pub(crate) fn deliver(&mut self, number: usize) {
        let came = self.frame(number).to_vec();
        let end = if is_of_device(&came) { End::Controller } else { End::Device };
        self.make(Done::Delivered(end), came, Move::Deliver(end, number));
    }

    /// The frames from this number on come, and those that are sent then.
    pub(crate) fn deliver_all(&mut self, from: usize) {
        let mut number = from;
        while number < self.count {
            self.deliver(number);
            number += 1;
        }
    }

    pub(crate) fn input(&mut self, value: [u8; 2]) {
        self.make(Done::Input(value), Vec::new(), Move::Application(Local::Input(1, 1, octets(&value))));
    }

    pub(crate) fn input_status(&mut self, is_good: bool) {
        self.make(Done::InputStatus(is_good), Vec::new(), Move::Application(Local::Status(1, 1, is_good)));
    }

    pub(crate) fn diagnosis(&mut self, fault: Fault, appears: bool) {
        let (slot, subslot, channel, error) = fault;
        self.make(Done::Changed(fault, appears), Vec::new(), Move::Application(Local::Diagnosis(slot, subslot, channel, error, appears)));
    }

    pub(crate) fn stop(&mut self) {
        self.make(Done::Stopped, Vec::new(), Move::Stop);
    }

    /// A unit passes at both ends; the frames that are sent are lost.
    pub(crate) fn unit(&mut self) {
        self.tick(End::Device);
        self.tick(End::Controller);
    }

    pub(crate) fn tick(&mut self, end: End) {
        self.make(Done::Unit(end), Vec::new(), Move::Tick(end));
    }

    /// An interval passes at both ends, and the frames that are sent come.
    pub(crate) fn cycle(&mut self) {
        let from = self.count;
        for _ in 0..INTERVAL {
            self.unit();
        }
        self.deliver_all(from);
    }
}
