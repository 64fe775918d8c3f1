//! States of both ends that random losses, restarts, power failures and other controllers lead to.
use super::draws::Draws;
use super::ends::{Ends, Octets, device, restarted};
use crate::lists::counting;
use configurator::plan_from_json;
use controller_messages::{ControllerOptions, Setup};
use flash_model::Order;
use pn_values::demo_identity;
use rattle_std::alloc::Global;
use uuid::Uuid;

/// No relation lasts longer without its controller: the activity time of each plan here. Its data hold time is shorter.
pub(crate) const SILENCE: usize = 1_920_000;

/// A controller that has ended is started again after this pause.
pub(crate) const PAUSE: usize = SILENCE + 4;

/// The plan of a catalogue, the options of its controller, and what the bound depends on.
pub(crate) struct Case {
    pub(crate) catalogue: String,
    pub(crate) options: ControllerOptions,
    /// How many Writes a start has.
    pub(crate) writes: usize,
    /// The data hold time.
    pub(crate) hold: usize,
}

impl Case {
    /// This many records, with a Write for each, a data hold factor, a reduction ratio, and the patience of the controller.
    pub(crate) fn new(count: usize, hold: usize, ratio: usize, patience: [u32; 2]) -> Case {
        let catalogue = counting(count)
            .replace(r#""MultipleWriteSupported":true,"#, "")
            .replace(
                r#""DataHoldFactor":3"#,
                &format!(r#""DataHoldFactor":{hold}"#),
            )
            .replace(
                r#""ReductionRatio":1"#,
                &format!(r#""ReductionRatio":{ratio}"#),
            );
        Case {
            catalogue,
            options: ControllerOptions {
                patience: patience[0],
                waiting_patience: patience[1],
            },
            writes: count,
            hold: hold * 32 * ratio,
        }
    }

    /// A random one.
    pub(crate) fn draw(draws: &mut Draws) -> Case {
        let (count, hold) = (draws.below(8), draws.of(&[3, 4, 8]));
        let mut patience = || 40 + draws.below(1_961) as u32;
        let both = [patience(), patience()];
        Case::new(count, hold, draws.of(&[1, 2, 4]), both)
    }

    /// The set-up with the ARUUID and the calls of this number.
    pub(crate) fn setup(&self, number: u8) -> Setup {
        self.setup_of(&self.catalogue, number)
    }

    /// The same for another controller, with another MAC address and other IP suites.
    fn other(&self, number: u8) -> Setup {
        let other = self
            .catalogue
            .replace("02-00-00-00-00-02", "02-00-00-00-00-09")
            .replace("192.168.0.1\"", "192.168.0.9\"")
            .replace("192.168.0.2\"", "192.168.0.7\"");
        self.setup_of(&other, number)
    }

    fn setup_of(&self, catalogue: &str, number: u8) -> Setup {
        let plan = plan_from_json(Global, catalogue.as_bytes());
        Setup {
            plan: plan.expect("a plan"),
            ar: Uuid::from_bytes([number; 16]),
            activity: Uuid::from_bytes([0x80 + number; 16]),
            options: self.options,
        }
    }

    /// The units until the controller exchanges data or has ended: a second until its Identify is sent again, and the patience of each
    /// state.
    fn ahead_limit(&self) -> usize {
        let options = self.options;
        32_001 + (4 * options.patience as usize + options.waiting_patience as usize)
    }

    /// The units until it has ended then, unless both serve: the relation of the device ends before data is exchanged, or while it is, and
    /// then the data hold time of the controller.
    fn parting_limit(&self) -> usize {
        SILENCE + SILENCE + self.hold + 5
    }

    /// The units of a start.
    fn start_up_limit(&self) -> usize {
        self.writes + 5
    }

    /// The bound of the law, as its definition says.
    pub(crate) fn anywhere_limit(&self) -> usize {
        self.ahead_limit() + (self.parting_limit() + (PAUSE + self.start_up_limit()))
    }

    /// The bound of the law for any pause, as its definition says: the device may refuse a start while its relation lasts.
    pub(crate) fn again_limit(&self, pause: usize) -> usize {
        let rest = SILENCE + pause + 2 + self.start_up_limit();
        self.ahead_limit() + (self.parting_limit() + rest)
    }
}

/// A state, and how it came about.
pub(crate) struct Found {
    pub(crate) case: Case,
    pub(crate) ends: Ends,
    /// The number of the last start.
    pub(crate) number: u8,
    /// The controllers were started one after another, and nothing is under way.
    pub(crate) is_plain: bool,
    pub(crate) story: String,
}

/// What random events do to both ends.
struct Wandering {
    draws: Draws,
    story: String,
    /// Each frame that a controller sent, or the device.
    from_controller: Vec<Octets>,
    from_device: Vec<Octets>,
}

impl Wandering {
    fn tell(&mut self, what: &str) {
        self.story.push_str(what);
        self.story.push_str("; ");
    }

    /// The set-up of this number, one in this many times that of another controller.
    fn setup(&mut self, case: &Case, number: u8, others: usize) -> Setup {
        if self.draws.one_in(others) {
            self.tell(&format!("start {number} of another controller"));
            case.other(number)
        } else {
            self.tell(&format!("start {number}"));
            case.setup(number)
        }
    }

    /// A random number of rounds, in which frames are lost and the device loses its power, in some of them in a call of the flash.
    fn wander(&mut self, mut ends: Ends) -> Ends {
        let most = self.draws.of(&[3, 12, 12, 12, 40, 200]);
        let (rounds, losses) = (self.draws.below(most), self.draws.of(&[0, 6, 12, 25]));
        self.tell(&format!("{rounds} rounds, one frame of {losses} lost"));
        for round in 0..rounds {
            if self.draws.one_in(30) {
                let mask = [self.draws.below(256) as u8; 8];
                let after = self.draws.below(4) as u32;
                ends.device.arm(Order::Cut { after, mask });
            }
            ends.lossy_round(|frame| {
                let is_of_device = frame[6..12] == demo_identity().mac.octets;
                let sent = if is_of_device {
                    &mut self.from_device
                } else {
                    &mut self.from_controller
                };
                sent.push(frame.clone());
                losses > 0 && self.draws.one_in(losses)
            });
            if ends.device.is_lost() || self.draws.one_in(60) {
                self.tell(&format!("restart in round {round}"));
                ends = ends.restart_device();
            }
        }
        // The power stays from here on.
        let (after, mask) = (u32::MAX, [0; 8]);
        ends.device.arm(Order::Cut { after, mask });
        if self.draws.one_in(3) {
            self.silent(&mut ends);
        }
        ends
    }

    /// For a random time each frame is lost.
    fn silent(&mut self, ends: &mut Ends) {
        let most = self.draws.of(&[2, 60, 1_000, 33_000, SILENCE]);
        let mut rest = self.draws.below(most);
        self.tell(&format!("{rest} units without a frame"));
        while rest > 0 {
            ends.lose_all();
            rest -= ends.go(rest);
        }
    }

    /// Some frames of these, in any order, repeated or not.
    fn some(&mut self, frames: &[Octets]) -> Vec<Octets> {
        let count = self.draws.below(6).min(frames.len());
        let chosen = (0..count).map(|_| frames[self.draws.below(frames.len())].clone());
        chosen.collect()
    }
}

/// The state of a seed.
pub(crate) fn found(seed: u64) -> Found {
    let mut draws = Draws::new(seed);
    let case = Case::draw(&mut draws);
    let mut device = device(draws.one_in(2));
    let mut wandering = Wandering {
        draws,
        story: format!("seed {seed}: "),
        from_controller: Vec::new(),
        from_device: Vec::new(),
    };
    let mut number = 1;
    for _ in 0..wandering.draws.below(3) {
        let setup = wandering.setup(&case, number, 3);
        device = wandering.wander(Ends::start(device, setup)).device;
        number += 1;
    }
    // Only frames of the last controller may be under way.
    wandering.from_controller.clear();
    wandering.tell(&format!("start {number}"));
    let mut ends = wandering.wander(Ends::start(device, case.setup(number)));
    let from_controller = std::mem::take(&mut wandering.from_controller);
    let was_away = wandering.draws.one_in(3);
    if was_away {
        // It has no time and hears nothing, while another one, or another start of it, uses the device.
        wandering.tell("it is away");
        number += 1;
        let setup = wandering.setup(&case, number, 2);
        let device = if wandering.draws.one_in(4) {
            ends.device
        } else {
            restarted(ends.device)
        };
        let device = wandering.wander(Ends::start(device, setup)).device;
        ends = Ends { device, ..ends };
    }
    ends.lose_all();
    if wandering.draws.one_in(2) {
        let from_device = std::mem::take(&mut wandering.from_device);
        ends.to_device = wandering.some(&from_controller);
        ends.to_controller = wandering.some(&from_device);
    }
    let is_plain = !was_away && ends.to_device.is_empty() && ends.to_controller.is_empty();
    let (running, link) = (ends.device.running(), ends.device.phase());
    wandering.tell(&format!(
        "the controller: {:?}, {} units left; the device: {link:?}, the same relation: {}, its address: {:?}; under way: {} and {}",
        ends.controller.state(),
        ends.controller.left(),
        ends.are_related(),
        running.suite.address(),
        ends.to_device.len(),
        ends.to_controller.len(),
    ));
    Found {
        case,
        ends,
        number,
        is_plain,
        story: wandering.story,
    }
}
