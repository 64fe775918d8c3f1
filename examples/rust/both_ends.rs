// A device and its controller in one program, without a wire: the controller starts the device by the plan of
// `examples/catalogue/pump.json`, and an output comes back as an input: `cargo run --example both_ends --features controller,configurator`.

use nandutable::configurator::plan_from_json;
use nandutable::controller::{self, ServedController, ServedOutbox, State};
use nandutable::{
    Device, Event, Global, Identity, IoStation, Mac, MemoryFlash, Octets, Real, RealModule,
    RealSubmodule, StationOutbox, Uuid,
};

const CATALOGUE: &[u8] = include_bytes!("../catalogue/pump.json");
const DEVICE: [u8; 6] = [0x02, 0, 0, 0, 0, 0x01];
const CONTROLLER: [u8; 6] = [0x02, 0, 0, 0, 0, 0x02];
/// 30 seconds in units of 31.25 microseconds.
const LONGEST: u32 = 30 * 32_000;

type Station = IoStation<MemoryFlash<4096>, 4096>;

fn identity() -> Identity {
    Identity {
        mac: Mac { octets: DEVICE },
        station_type: b"pn-demo".iter().copied().collect(),
        vendor_id: 0x0123,
        device_id: 0x0456,
        instance: 1,
        order_id: [b' '; 20],
        serial_number: [b' '; 16],
        hardware_revision: 0,
        software_revision: *b"V\0\0\0",
        profile_id: 0,
        profile_specific_type: 0,
    }
}

fn submodule(subslot: u16, ident: u32, input: u16, output: u16) -> RealSubmodule {
    RealSubmodule {
        subslot,
        ident,
        input,
        output,
        ..RealSubmodule::default()
    }
}

fn module<const N: usize>(slot: u16, ident: u32, submodules: [RealSubmodule; N]) -> RealModule {
    RealModule {
        slot,
        ident,
        submodules: submodules.into_iter().collect(),
    }
}

/// The modules of the catalogue.
fn modules() -> Real {
    let interface = submodule(0x8000, 2, 0, 0);
    let port = submodule(0x8001, 3, 0, 0);
    let modules = [
        module(0, 1, [submodule(1, 1, 0, 0), interface, port]),
        module(1, 16, [submodule(1, 16, 2, 0)]),
        module(2, 32, [submodule(1, 32, 0, 2)]),
    ];
    Real {
        modules: modules.into_iter().collect(),
    }
}

/// A DCP Set of the name, to be kept.
fn set_name(name: &[u8]) -> Vec<u8> {
    let length = name.len() as u8;
    let header = [0xFE, 0xFD, 4, 0, 0, 0, 0, 7, 0, 0, 0, length + 6];
    let block = [2, 2, 0, length + 2, 0, 1];
    [
        &DEVICE[..],
        &CONTROLLER,
        &[0x88, 0x92],
        &header,
        &block,
        name,
    ]
    .concat()
}

/// Both ends, and the frames that are on their way.
struct World {
    station: Station,
    controller: ServedController,
    to_device: Vec<Vec<u8>>,
    to_controller: Vec<Vec<u8>>,
    sent: StationOutbox,
    served: ServedOutbox,
}

impl World {
    fn device(&mut self, event: &Event<'_>) {
        let _ = self.station.step(event, &mut self.sent);
        for frame in self.sent.device().iter().chain(self.sent.services()) {
            self.to_controller.push(frame.as_slice().to_vec());
        }
    }

    fn controller(&mut self, event: &controller::Event) {
        self.controller.step(event, &mut self.served);
        for place in 0..self.served.len() {
            if let Some(frame) = self.served.get(place) {
                self.to_device.push(frame.as_slice().to_vec());
            }
        }
    }

    /// A unit of time: what was sent arrives, the device's application gives its output back as its input, and a unit passes.
    fn unit(&mut self) {
        for octets in std::mem::take(&mut self.to_device) {
            self.device(&Event::Frame(Octets::of(&octets)));
        }
        for octets in std::mem::take(&mut self.to_controller) {
            self.controller(&controller::Event::Frame(octets.into_iter().collect()));
        }
        let output = self.station.device().output(2, 1);
        if let Some(&[high, low]) = output {
            self.device(&Event::input(1, 1, &[high, low]));
        }
        self.device(&Event::Tick);
        self.controller(&controller::Event::Tick);
    }
}

fn main() -> Result<(), String> {
    let plan = plan_from_json(Global, CATALOGUE).map_err(|fault| fault.to_string())?;
    let Ok(device) = Device::boot(identity(), modules(), MemoryFlash::blank()) else {
        return Err("the chip fails, or no device wrote it".into());
    };
    let relation = Uuid::from_bytes(*b"\x01 the relation  ");
    let activity = Uuid::from_bytes(*b"\x02 its calls     ");
    let mut world = World {
        station: IoStation::new(device),
        controller: ServedController::new(plan, relation, activity),
        to_device: vec![set_name(b"pump-1")],
        to_controller: Vec::new(),
        sent: StationOutbox::new(),
        served: ServedOutbox::new(),
    };
    let opening = world.controller.opening();
    world.to_device.push(opening.as_slice().to_vec());
    world.controller(&controller::Event::Give(
        2,
        1,
        [0x00, 0xFF].into_iter().collect(),
    ));
    let mut state = None;
    for _ in 0..LONGEST {
        world.unit();
        let now = world.controller.controller().state();
        if state != Some(now) {
            println!("{now:?}");
            state = Some(now);
        }
        if now == State::Exchanging
            && world.controller.controller().value(1, 1) == Some(&[0x00, 0xFF])
        {
            println!("the output came back as an input");
            return Ok(());
        }
    }
    Err("the output did not come back within 30 seconds".into())
}
