//! Both ends, and what is under way between them.
use super::controller::{Accepted, Cause, State};
use super::device::{Armed, Phase};
use super::said::{Call, Says};
use super::{Controller, Device, LIMIT, NONE, OTHER, PLANNED, Plant, RIVAL, SECOND, Setting, TALKER};
use std::collections::BTreeMap;

/// At most this number of frames is under way: then the oldest cyclic one, or else the oldest, is lost.
const MOST_UNDER_WAY: usize = 40;

/// A frame that was sent to the other end.
#[derive(Clone)]
struct Sent {
    says: Says,
    is_to_device: bool,
    /// The number of the controller of whose relation it is.
    whose: u32,
}

/// What is known of a move beside its words: the tokens of the frames that the product sent, and the address that its device has now.
#[derive(Clone, Copy)]
pub struct Made<'a> {
    pub said: &'a [String],
    pub address: [u8; 4],
}

/// Both ends, and what is under way between them.
#[derive(Clone)]
pub struct World {
    pub setting: Setting,
    pub device: Device,
    pub controller: Controller,
    /// What was counted: data of an earlier relation that an end accepted.
    pub late: BTreeMap<&'static str, u64>,
    sent: Vec<Sent>,
    under_way: Vec<usize>,
    /// The number of the controller that is there now, and of the last one whose relation began.
    turn: u32,
    relation: u32,
    /// The tokens of this move, and the units of it that both ends had before.
    said: Vec<String>,
    passed: u64,
    /// The tokens of this move that the product gave.
    given: Vec<String>,
}

impl World {
    pub fn new(setting: &Setting) -> World {
        let mut world = World {
            setting: setting.clone(),
            device: Device::new(setting),
            controller: Controller::new(setting, 0),
            late: BTreeMap::new(),
            sent: Vec::new(),
            under_way: Vec::new(),
            turn: 0,
            relation: 0,
            said: Vec::new(),
            passed: 0,
            given: Vec::new(),
        };
        world.make_controller();
        world
    }

    /// Whether both ends exchange data, in one relation.
    pub fn are_exchanging(&self) -> bool {
        self.device.phase() == Some(Phase::Exchanging)
            && self.controller.state == State::Exchanging
            && self.device.owner() == self.controller.number
    }

    /// Whether this is a start: the device has no relation, or no power, and nothing is under way but the Identify of a new controller.
    pub fn is_start(&self) -> bool {
        let is_free = !self.device.is_on || self.device.link.is_none() && !self.device.has_failed;
        let is_asking =
            self.under_way.iter().all(|number| self.sent[*number].says == Says::Identify && self.sent[*number].whose == self.turn);
        is_free && self.controller.state == State::Looking && is_asking && self.under_way.len() == 1
    }

    fn make_controller(&mut self) {
        self.turn += 1;
        self.controller = Controller::new(&self.setting, self.turn);
        self.send_to_device(vec![Says::Identify]);
    }

    // The network.

    fn send(&mut self, says: Says, is_to_device: bool, whose: u32) {
        self.said.push(says.to_string());
        self.under_way.push(self.sent.len());
        self.sent.push(Sent { says, is_to_device, whose });
        if self.under_way.len() > MOST_UNDER_WAY {
            let place = self.under_way.iter().position(|number| self.sent[*number].says.is_cyclic()).unwrap_or(0);
            self.under_way.remove(place);
        }
    }

    fn send_to_device(&mut self, frames: Vec<Says>) {
        for says in frames {
            self.send(says, true, self.turn);
        }
        self.look_at_relation();
    }

    /// What the device sends, whose relation had this owner before. What it sends to a stranger is not seen, and without power it sends
    /// nothing.
    fn send_to_controller(&mut self, frames: Vec<Says>, before: u32) {
        if !self.device.is_on {
            return;
        }
        let owner = self.device.owner();
        let is_foreign = before.max(owner) >= TALKER && frames.iter().any(|says| !says.is_for_anybody());
        for says in frames {
            if !is_foreign && says.whose() < TALKER {
                self.send(says, false, owner.max(self.relation));
            }
        }
        self.look_at_relation();
    }

    fn look_at_relation(&mut self) {
        let owner = self.device.owner();
        if self.relation < owner && owner <= self.turn {
            self.relation = owner;
            let (sent, is_late) = (&self.sent, self.setting.is_late);
            self.under_way.retain(|number| is_late || sent[*number].whose >= owner);
        }
    }

    /// A frame of the partner comes.
    fn deliver(&mut self, number: usize) {
        let Sent { says, is_to_device, whose } = self.sent[number].clone();
        if self.setting.plant == Plant::Taken && says == Says::Identify {
            // The other device answers first.
            self.send(Says::Found(NONE, true), false, self.device.owner().max(self.relation));
            self.look_at_relation();
        }
        let is_refused = self.setting.is_numbered && !matches!(says, Says::Inputs(..));
        if is_to_device {
            let (owner, accepted) = (self.device.owner(), self.device.accepted());
            self.hear_at_device(&says, owner < TALKER && !(is_refused && whose != owner));
            self.count_if(whose != owner && self.device.accepted() > accepted, "outputs of an earlier relation counted");
            return;
        }
        let is_partner = !(is_refused && whose != self.controller.number);
        let (frames, accepted) = self.controller.hear(&says, is_partner);
        let what = match accepted {
            Accepted::Nothing => "",
            Accepted::Inputs => "inputs of an earlier relation counted",
            Accepted::Alarm => "alarms of an earlier relation counted",
            Accepted::Report => "reports of an earlier relation counted",
        };
        self.count_if(!what.is_empty() && whose != self.controller.number, what);
        self.send_to_device(frames);
    }

    fn count_if(&mut self, is_counted: bool, what: &'static str) {
        if is_counted {
            *self.late.entry(what).or_default() += 1;
        }
    }

    fn hear_at_device(&mut self, says: &Says, is_partner: bool) {
        let before = self.device.owner();
        let (was_armed, is_struck) = (self.device.armed.is_some(), self.is_struck());
        let frames = self.device.hear(says, is_partner, is_struck);
        self.look_at_flash(was_armed);
        self.send_to_controller(frames, before);
    }

    /// Whether a call of the flash fails here, by the token that the product gave.
    fn is_struck(&self) -> bool {
        self.given.get(self.said.len()).is_some_and(|said| said == "struck")
    }

    fn look_at_flash(&mut self, was_armed: bool) {
        if was_armed && self.device.armed.is_none() {
            self.said.push(String::from("struck"));
        }
    }

    // Time.

    fn device_units(&mut self, units: u32) {
        let mut passed = 0;
        while passed < units && self.device.is_on {
            let some = self.device.due().min(units - passed);
            self.device.pass(some - 1);
            let (owner, said) = (self.device.owner(), self.said.len());
            let frames = self.device.tick();
            self.send_to_controller(frames, owner);
            passed += some;
            self.date(said, owner != self.device.owner(), passed);
        }
    }

    fn controller_units(&mut self, units: u32) {
        let mut passed = 0;
        while passed < units {
            let some = self.controller.due().min(units - passed);
            let (is_ended, said) = (self.controller.is_ended(), self.said.len());
            self.controller.rest += if is_ended { some } else { 0 };
            self.controller.pass(some - 1);
            let frames = self.controller.tick();
            self.send_to_device(frames);
            passed += some;
            self.date(said, is_ended != self.controller.is_ended(), passed);
        }
    }

    /// Says at which unit of a move frames were sent, or an end left its relation.
    fn date(&mut self, said: usize, has_left: bool, passed: u32) {
        if self.said.len() > said || has_left {
            self.said.insert(said, format!("@{}", self.passed + u64::from(passed)));
        }
        if has_left {
            self.said.push(String::from("left"));
        }
    }

    // Time in which nothing is lost.

    fn get_ready(&mut self) {
        let owner = self.device.owner();
        let frames = self.device.get_ready();
        self.send_to_controller(frames, owner);
    }

    /// The first frame that is under way to an end comes, if there is one with a number below this.
    fn take_one(&mut self, is_to_device: bool, below: usize) -> bool {
        let found = self.under_way.iter().position(|number| self.sent[*number].is_to_device == is_to_device && *number < below);
        let Some(place) = found else {
            return false;
        };
        let number = self.under_way.remove(place);
        self.deliver(number);
        self.get_ready();
        true
    }

    fn settle(&mut self) {
        if self.controller.is_ended() && self.controller.rest >= SECOND {
            self.make_controller();
        }
        self.get_ready();
        let sent = self.sent.len();
        while self.take_one(true, sent) {}
        while self.take_one(false, usize::MAX) {}
    }

    fn until_next(&self, most: u64) -> u32 {
        if !self.under_way.is_empty() {
            return 1;
        }
        let units = (most.min(1_000_000) as u32).min(self.controller.due()).min(self.device.due());
        let rest = if self.controller.is_ended() { SECOND.saturating_sub(self.controller.rest).max(1) } else { units };
        units.min(rest).max(1)
    }

    fn run(&mut self, units: u64) {
        self.passed = 0;
        while self.passed < units {
            self.settle();
            let some = self.until_next(units - self.passed);
            self.device_units(some);
            self.controller_units(some);
            self.passed += u64::from(some);
        }
        self.settle();
        self.passed = 0;
    }

    /// Nothing is lost from here on: the units until both exchange data, if they do, and what the line says of them.
    fn come_back(&mut self, is_kept: bool, found: [u8; 4]) -> (Option<u64>, String) {
        if !is_kept {
            self.under_way.clear();
        }
        self.power_on(found);
        self.device.armed = None;
        let (address, before, mut units) = (self.device.suite, self.sent.len(), 0);
        let back = loop {
            self.settle();
            if self.are_exchanging() {
                break Some(units);
            }
            if units >= LIMIT {
                break None;
            }
            let some = self.until_next(LIMIT - units);
            self.device_units(some);
            self.controller_units(some);
            units += u64::from(some);
        };
        self.said.clear();
        let told = back.map_or(String::from("never"), |units| units.to_string());
        (back, format!("{} {told} {} {}", super::said::hex(&address), self.sent.len() - before, self.turn))
    }

    fn power_on(&mut self, found: [u8; 4]) {
        if !self.device.is_on {
            let is_stored = self.device.stored.contains(&found);
            let address = if is_stored { found } else { self.device.stored[0] };
            self.device.start(address);
        }
    }

    // Moves.

    /// Makes the move of these words. Returns what the program must print of it, and of time in which nothing is lost the units until both
    /// exchange data, if they do.
    pub fn make(&mut self, move_of: &str, made: &Made<'_>) -> (String, Option<Option<u64>>) {
        let words: Vec<&str> = move_of.split(' ').collect();
        self.said.clear();
        self.given = made.said.to_vec();
        if words[0] == "progress" {
            let (back, told) = self.come_back(words[1] == "kept", octets(words[2]).try_into().expect("an address"));
            return (format!("{} {} {told} = {}", words[0], words[1], self.made()), Some(back));
        }
        if words[0] == "begin" {
            self.said.push(Says::Identify.to_string());
        }
        self.make_one(&words, made);
        (format!("{move_of} = {}", self.made()), None)
    }

    fn made(&self) -> String {
        format!("{} = {}; {}", self.said.join(" "), self.device.seen(), self.controller.seen())
    }

    fn make_one(&mut self, words: &[&str], made: &Made<'_>) {
        let owner = self.device.owner();
        match words {
            ["deliver", number, is_kept] => {
                let number = self.take(number, is_kept == &"1");
                self.deliver(number);
            }
            // A frame that comes back to the end that sent it says nothing to it.
            ["back", number, is_kept] => {
                self.take(number, is_kept == &"1");
            }
            ["again", number] => self.deliver(parsed(number)),
            ["lose", "all"] => self.under_way.clear(),
            ["lose", number] => {
                self.take(number, false);
            }
            ["units", "device", units] => self.device_units(parsed(units)),
            ["units", "controller", units] => self.controller_units(parsed(units)),
            ["run", units] => self.run(parsed(units)),
            ["ready"] => self.get_ready(),
            ["off"] => self.device.is_on = false,
            ["on"] => self.power_on(made.address),
            ["restart"] => self.make_controller(),
            ["arm", what] => self.device.armed = Some(if *what == "cut" { Armed::Cut } else { Armed::Fault }),
            ["engineer", last] => self.engineer(if *last == "4d" { OTHER } else { PLANNED }),
            ["alarm", value] => {
                let frames = self.device.raise(two(value));
                self.send_to_controller(frames, owner);
            }
            ["diagnosis", channel, appears] => {
                let frames = self.device.change(parsed(channel), *appears == "1");
                self.send_to_controller(frames, owner);
            }
            ["input", value] => self.device.give(two(value)),
            ["status", is_good] => self.device.rate(*is_good == "1"),
            ["stranger", rest @ ..] => self.hear_stranger(rest),
            _ => self.make_at_controller(words),
        }
    }

    fn make_at_controller(&mut self, words: &[&str]) {
        let frames = match words {
            ["stop"] => self.controller.quit(Cause::Stopped),
            ["read", index] => self.controller.request(Call::Read(parsed(index))),
            ["write", record] => self.controller.request(Call::Write(records(record))),
            ["give", slot, value] => {
                self.controller.give(parsed::<usize>(slot) - 2, two(value));
                Vec::new()
            }
            ["rate", slot, is_good] => {
                self.controller.rate(parsed::<usize>(slot) - 2, *is_good == "1");
                Vec::new()
            }
            _ => Vec::new(),
        };
        self.send_to_device(frames);
    }

    fn take(&mut self, number: &str, is_kept: bool) -> usize {
        let number = parsed(number);
        if !is_kept {
            self.under_way.retain(|other| *other != number);
        }
        number
    }

    /// An engineering tool sets an address for good. Its answer is not seen.
    fn engineer(&mut self, suite: [u8; 4]) {
        if self.device.is_on {
            let (was_armed, is_struck) = (self.device.armed.is_some(), self.is_struck());
            self.device.store(suite, suite, is_struck);
            self.look_at_flash(was_armed);
        }
    }

    /// What a stranger says moves nothing, but the device keeps its answer to a call, and a rival may get the relation. Its outputs have the
    /// first number, which no relation has whose numbers go round.
    fn hear_stranger(&mut self, words: &[&str]) {
        let says = match words {
            [what, ..] if what.starts_with("x-") => return,
            ["rival", token] => rival(token),
            [what, whose, number] => Says::Call(call(what), parsed(whose), parsed(number)),
            _ => return,
        };
        self.hear_at_device(&says, self.device.owner() >= RIVAL && !self.setting.is_numbered);
    }
}

/// A number of a move.
fn parsed<T: std::str::FromStr>(word: &str) -> T {
    word.parse().ok().expect("a number")
}

/// Octets of hex digits.
fn octets(word: &str) -> Vec<u8> {
    (0..word.len() / 2).map(|at| u8::from_str_radix(&word[2 * at..2 * at + 2], 16).expect("hex digits")).collect()
}

fn two(word: &str) -> [u8; 2] {
    octets(word).try_into().expect("two octets")
}

fn records(word: &str) -> Vec<super::Record> {
    let record = |record: &str| {
        let (index, value) = record.split_once(':').expect("an index");
        (parsed(index), octets(value))
    };
    word.split(',').map(record).collect()
}

fn call(word: &str) -> Call {
    match word {
        "connect" => Call::Connect,
        "release" => Call::Release,
        "end" => Call::End,
        // A record that no relation takes.
        _ => Call::Write(vec![(0, Vec::new())]),
    }
}

/// A frame of a controller that asks for a relation of its own, from its token.
fn rival(token: &str) -> Says {
    let (what, rest) = token.split_once(['#', ':']).expect("what it is");
    let parts: Vec<&str> = rest.splitn(3, ':').collect();
    let output = |word: &str| (two(&word[..4]), &word[4..] == "80");
    match what {
        "out" => Says::Outputs(parsed(parts[0]), [output(parts[1]), output(parts[2])]),
        "write" => Says::Call(Call::Write(records(parts[2])), parsed(parts[0]), parsed(parts[1])),
        "confirm" => Says::Confirm(parsed(parts[0])),
        _ => Says::Call(call(what), parsed(parts[0]), parsed(parts[1])),
    }
}
