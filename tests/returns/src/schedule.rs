//! A schedule from a seed: moves, and what both ends tell after each of them.
use crate::draws::Draws;
use crate::ends::{End, Options, Sent, World, set_suite};
use crate::good::{come_back, run};
use crate::strangers::{Strangers, damaged};
use crate::tokens::untagged;
use arrayvec::ArrayVec;
use controller_core::{Event as ControllerEvent, State};
use device_core::Event as DeviceEvent;
use flash_model::Order;
use lldp::Neighbour;
use pn_values::{Mac, demo_identity};
use test_stations::octets;

/// What a schedule is played with.
#[derive(Clone, Copy)]
pub struct Play<'a> {
    pub plan: &'a str,
    pub options: Options,
    pub seed: u64,
    pub moves: u64,
    /// The units of an interval.
    pub interval: u32,
}

/// A schedule that is being played.
struct Schedule<'a> {
    play: Play<'a>,
    world: World,
    strangers: &'a mut Strangers,
    draws: Draws,
    /// How many moves are left of a start: all frames are lost, a new controller is made, and then nothing is lost.
    start: u8,
}

/// A move: what it was, what the frames say that it sent to the other end, what both ends show after it, and the address of the device.
pub struct Line<'a> {
    pub made: &'a str,
    pub said: &'a [String],
    pub seen: &'a str,
    pub address: [u8; 4],
}

/// Plays a schedule: `judge` gets each move, and ends it by an error.
pub fn play(play: Play<'_>, strangers: &mut Strangers, mut judge: impl FnMut(&Line<'_>) -> Result<(), String>) -> Result<(), String> {
    strangers.begin();
    let world = World::new(play.plan, play.options);
    let mut schedule = Schedule { play, world, strangers, draws: Draws::new(play.seed), start: 0 };
    schedule.tell("begin", &mut judge)?;
    for number in 0..play.moves {
        // Each second schedule begins with a start-up in which nothing is lost.
        let made = if number == 0 && play.seed.is_multiple_of(2) { schedule.progress(true) } else { schedule.make() };
        schedule.tell(&made, &mut judge)?;
    }
    Ok(())
}

impl Schedule<'_> {
    fn tell(&mut self, made: &str, judge: &mut impl FnMut(&Line<'_>) -> Result<(), String>) -> Result<(), String> {
        let said = std::mem::take(&mut self.world.said);
        judge(&Line { made, said: &said, seen: &self.world.seen(), address: self.world.address() })
    }

    /// Makes a move, and says which.
    fn make(&mut self) -> String {
        if self.start > 0 {
            return self.start_again();
        }
        if !self.world.is_on && self.draws.one_in(4) {
            self.world.power_on();
            return String::from("on");
        }
        if self.world.is_ended() && self.draws.one_in(5) {
            self.world.make_controller();
            return String::from("restart");
        }
        if self.world.is_preparing() && self.draws.one_in(4) {
            return self.ready();
        }
        match self.draws.below(1000) {
            0..420 => self.deliver(),
            420..460 => self.lose(),
            460..560 => self.pass(),
            560..630 => self.run(),
            630..640 => self.again(),
            640..780 => self.use_ends(),
            780..790 => self.damage(),
            790..970 => self.stranger(),
            970..996 => self.rare(),
            996 => {
                self.start = 2;
                self.lose_all()
            }
            _ => {
                let is_kept = self.draws.one_in(2);
                self.progress(is_kept)
            }
        }
    }

    fn ready(&mut self) -> String {
        self.world.at_device(&DeviceEvent::ready());
        String::from("ready")
    }

    /// The place of a frame that may come: mostly the oldest, or else any.
    fn place(&mut self) -> usize {
        if self.draws.below(4) != 0 { 0 } else { self.draws.below(self.world.flight.len()) }
    }

    fn deliver(&mut self) -> String {
        if self.world.flight.is_empty() {
            return self.pass();
        }
        let place = self.place();
        let is_kept = self.draws.one_in(6);
        let mut heard = self.world.flight[place].octets.clone();
        let Sent { number, to, .. } = self.world.flight[place];
        if self.draws.one_in(4) {
            heard = untagged(&heard);
        }
        if !is_kept {
            self.world.flight.remove(place);
        }
        if self.draws.one_in(20) {
            // It comes back to the end that sent it.
            let end = if to == End::Device { End::Controller } else { End::Device };
            self.world.hear(end, &heard);
            return format!("back {number} {}", u8::from(is_kept));
        }
        if to == End::Device && self.draws.one_in(8) {
            self.world.hear_joined(&heard);
        } else {
            self.world.come(to, &heard);
        }
        format!("deliver {number} {}", u8::from(is_kept))
    }

    fn lose(&mut self) -> String {
        if self.world.flight.is_empty() {
            return self.run();
        }
        let place = self.place();
        format!("lose {}", self.world.flight.remove(place).number)
    }

    /// A frame comes once more long after it was sent: one of the last hundred, or any.
    fn again(&mut self) -> String {
        let count = self.world.count;
        let last = if self.draws.one_in(2) { count } else { count.min(100) };
        let number = count - 1 - self.draws.below(last);
        if self.world.come_again(number) {
            return format!("again {number}");
        }
        self.run()
    }

    /// For how long time passes: mostly for less than an interval, now and then for as long as a timer lasts, and that more often while no
    /// data is exchanged.
    fn units(&mut self) -> u32 {
        let interval = self.play.interval;
        let drawn = if self.world.are_exchanging() { self.draws.below(40) } else { 16 + self.draws.below(24) };
        let most = match drawn {
            0..25 => interval / 4 + 1,
            25..30 => interval,
            30..32 => 4 * interval,
            32 => 4_000,
            33..37 => 33_000,
            37 => 100_000.min(interval * 400),
            38 => 400_000.min(interval * 400),
            _ => 2_000_000.min(interval * 480),
        };
        1 + self.draws.below(most as usize) as u32
    }

    fn pass(&mut self) -> String {
        let units = self.units();
        let by_leaps = units > 5_000 || self.draws.one_in(2);
        if self.draws.one_in(2) {
            self.world.pass_at_device(units, by_leaps);
            return format!("units device {units}");
        }
        self.world.pass_at_controller(units, by_leaps);
        format!("units controller {units}")
    }

    fn run(&mut self) -> String {
        let most = if self.world.are_exchanging() || self.draws.one_in(4) { self.play.interval * 2 } else { 3 };
        let units = 1 + self.draws.below(most as usize) as u32;
        run(&mut self.world, units);
        format!("run {units}")
    }

    /// What the applications do.
    fn use_ends(&mut self) -> String {
        let value = self.draws.value();
        let spelled = format!("{:02x}{:02x}", value[0], value[1]);
        match self.draws.below(11) {
            0..3 => {
                let slot = 2 + self.draws.below(2) as u16;
                self.world.at_controller(&ControllerEvent::Give(slot, 1, octets(&value)));
                format!("give {slot} {spelled}")
            }
            3 => {
                let (slot, is_good) = (2 + self.draws.below(2) as u16, !self.draws.one_in(3));
                self.world.at_controller(&ControllerEvent::Status(slot, 1, is_good));
                format!("rate {slot} {}", u8::from(is_good))
            }
            4..6 => {
                self.world.at_device(&DeviceEvent::input(1, 1, &value));
                format!("input {spelled}")
            }
            6 => {
                let is_good = !self.draws.one_in(3);
                self.world.at_device(&DeviceEvent::status(1, 1, is_good));
                format!("status {}", u8::from(is_good))
            }
            7..9 => {
                self.world.at_device(&DeviceEvent::alarm(1, 1, &value));
                format!("alarm {spelled}")
            }
            9 => {
                let (channel, appears) = (1 + self.draws.below(5) as u16, self.draws.one_in(2));
                self.world.at_device(&DeviceEvent::diagnosis(1, 1, channel, 1, appears));
                format!("diagnosis {channel} {}", u8::from(appears))
            }
            _ => self.request(value),
        }
    }

    /// The application of the controller reads or writes a record: I&M0, a parameter, or one that does not exist.
    fn request(&mut self, value: [u8; 2]) -> String {
        let (slot, index) = self.draws.of(&[(0, 0xAFF0), (1, 1), (1, 2), (1, 7)]);
        if index == 0xAFF0 || self.draws.one_in(4) {
            self.world.at_controller(&ControllerEvent::Read(slot, 1, index));
            return format!("read {index}");
        }
        let octets = octets(&[0, 0, value[0], value[1]]);
        self.world.at_controller(&ControllerEvent::Write(slot, 1, index, octets));
        format!("write {index}:0000{:02x}{:02x}", value[0], value[1])
    }

    fn stranger(&mut self) -> String {
        let end = if self.draws.below(5) < 3 { End::Device } else { End::Controller };
        if end == End::Device && self.draws.one_in(12) {
            return self.meet();
        }
        let is_addressing = self.world.controller().state() == State::Addressing;
        let stranger = self.strangers.one(&mut self.draws, end, self.world.owner(), is_addressing);
        if end == End::Device && self.draws.one_in(8) {
            self.world.hear_joined(&untagged(&stranger.octets));
        } else {
            self.world.hear(end, &stranger.octets);
        }
        format!("stranger {}", stranger.name)
    }

    /// A frame that is under way is damaged. The frame itself may still come.
    fn damage(&mut self) -> String {
        if self.world.flight.is_empty() {
            return self.stranger();
        }
        let place = self.place();
        let to = self.world.flight[place].to;
        let stranger = damaged(&mut self.draws, &self.world.flight[place].octets);
        self.world.hear(to, &stranger.octets);
        format!("stranger {}", stranger.name)
    }

    /// The services beside the device know another neighbour.
    fn meet(&mut self) -> String {
        let neighbour = if self.draws.one_in(3) {
            None
        } else {
            let text = |octets: &[u8]| -> ArrayVec<u8, 255> { octets.iter().copied().collect() };
            Some(Neighbour { chassis: text(b"switch-1"), port: text(b"port-001"), mac: Mac { octets: [2, 0, 0, 0, 0, 0x0A] } })
        };
        self.world.at_device(&DeviceEvent::Neighbour(neighbour));
        String::from("stranger x-neighbour")
    }

    fn rare(&mut self) -> String {
        match self.draws.below(12) {
            0..3 => {
                self.world.power_off();
                String::from("off")
            }
            3..5 => {
                self.world.at_controller(&ControllerEvent::Stop);
                String::from("stop")
            }
            5..8 => {
                self.world.make_controller();
                String::from("restart")
            }
            8 => self.arm(),
            9 => {
                let address = [192, 168, 0, if self.draws.one_in(2) { 2 } else { 77 }];
                self.world.hear(End::Device, &set_suite(demo_identity().mac, address));
                format!("engineer {:02x}", address[3])
            }
            _ => self.lose_all(),
        }
    }

    /// The cable is out for a moment.
    fn lose_all(&mut self) -> String {
        self.world.flight.clear();
        String::from("lose all")
    }

    /// A later call of the flash loses power, or fails.
    fn arm(&mut self) -> String {
        let (after, mask) = (self.draws.below(3) as u32, self.draws.draw().to_be_bytes());
        let is_cut = self.draws.below(3) != 0;
        let order = if is_cut { Order::Cut { after, mask } } else { Order::Fault { after, mask } };
        if self.world.is_on {
            self.world.arm(order);
            return format!("arm {}", if is_cut { "cut" } else { "fault" });
        }
        self.pass()
    }

    fn start_again(&mut self) -> String {
        self.start -= 1;
        if self.start == 0 {
            return self.progress(true);
        }
        self.world.make_controller();
        String::from("restart")
    }

    /// From here on all is delivered, until both exchange data. What is under way comes too, or is lost.
    fn progress(&mut self, is_kept: bool) -> String {
        if !is_kept {
            self.world.flight.clear();
        }
        let back = come_back(&mut self.world);
        format!("progress {} {back}", if is_kept { "kept" } else { "lost" })
    }
}
