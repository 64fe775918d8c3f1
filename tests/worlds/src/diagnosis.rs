//! Diagnosis at both ends: a device at which diagnoses appear and disappear, and its controller, over a network that loses, repeats and
//! reorders frames. A model that shares no line with the sources reads the octets of the frames and says after each move what the device
//! has, which change it reports next and with which octets, and what is in the list of the controller. It is made from the rules alone.
use crate::otherwise::{RECORDS, as_planned, module, station};
use configurator::plan_from_json;
use controller_core::{Controller, Diagnosis, State};
use device_core::Local;
use network_world::{End, Move, World};
use pn_values::demo_identity;
use rattle_std::alloc::Global;
use relations::Phase;
use test_stations::octets;
use uuid::Uuid;
use world_monitor::Net;

/// How many schedules are played, and how many moves each has after the start-up.
const SEEDS: u64 = 40;
const MOVES: usize = 1_000;

/// The units after which an unacknowledged alarm is sent again.
const RESEND: usize = 3_200;

/// The slot of a module that is plugged in the device and is not in the plan.
const ELSEWHERE: u16 = 4;

/// Slot, subslot, channel and ChannelErrorType.
type Fault = (u16, u16, u16, u16);

/// Numbers from a seed: a linear congruence of Knuth, of which the upper bits are drawn.
struct Draws(u64);

impl Draws {
    fn below(&mut self, limit: usize) -> usize {
        self.0 = self.0.wrapping_mul(6_364_136_223_846_793_005).wrapping_add(1_442_695_040_888_963_407);
        usize::try_from(self.0 >> 33).expect("31 bits") % limit
    }

    fn number(&mut self, limit: u16) -> u16 {
        u16::try_from(self.below(usize::from(limit))).expect("16 bits")
    }
}

/// An alarm PDU of low priority that has data: its number, and what follows the lengths.
#[derive(Clone, Debug, PartialEq)]
struct Said {
    of_device: bool,
    number: u16,
    block: Vec<u8>,
}

fn two(octets: &[u8], at: usize) -> u16 {
    u16::from_be_bytes([octets[at], octets[at + 1]])
}

/// What a frame says, if it is data of low priority: an alarm of the device, or an AlarmAck of its controller.
fn said(frame: &[u8]) -> Option<Said> {
    let at = if two(frame, 12) == 0x8100 { 16 } else { 12 };
    if two(frame, at) != 0x8892 || two(frame, at + 2) != 0xFE01 {
        return None;
    }
    let pdu = &frame[at + 4..];
    if pdu[4] & 15 != 1 {
        return None;
    }
    let length = usize::from(two(pdu, 10));
    Some(Said {
        of_device: frame[6..12] == demo_identity().mac.octets,
        number: two(pdu, 6),
        block: pdu[12..12 + length].to_vec(),
    })
}

/// Whether a frame carries data of each cycle.
fn is_cyclic(frame: &[u8]) -> bool {
    let at = if two(frame, 12) == 0x8100 { 16 } else { 12 };
    two(frame, at) == 0x8892 && (0x8000..0xFC00).contains(&two(frame, at + 2))
}

/// The octets of an AlarmNotification that reports a change, but for the sequence in its specifier.
fn alarm(fault: Fault, appears: bool, flags: u16) -> Vec<u8> {
    let ident: u32 = match (fault.0, fault.1) {
        (0, 1) => 1,
        (0, 0x8000) => 2,
        (0, 0x8001) => 3,
        (1, _) => 16,
        _ => 32,
    };
    let module: u32 = if fault.0 == 0 { 1 } else { ident };
    let mut octets = vec![0, 2, 0, 0, 1, 0];
    octets.extend([0, if appears { 1 } else { 0x0C }]);
    octets.extend([0; 4]);
    octets.extend(fault.0.to_be_bytes());
    octets.extend(fault.1.to_be_bytes());
    octets.extend(module.to_be_bytes());
    octets.extend(ident.to_be_bytes());
    octets.extend(flags.to_be_bytes());
    octets.extend([0x80, 0]);
    octets.extend(fault.2.to_be_bytes());
    octets.extend([if appears { 0x08 } else { 0x10 }, 0]);
    octets.extend(fault.3.to_be_bytes());
    let length = u16::try_from(octets.len() - 4).expect("an alarm is short");
    octets[2..4].copy_from_slice(&length.to_be_bytes());
    octets
}

/// What both ends have to know.
#[derive(Default)]
struct Model {
    existing: Vec<Fault>,
    exchanges: bool,
    /// Every change at a submodule of the relation since data is exchanged, and its alarm: those that were reported, then those that wait.
    changes: Vec<(Fault, bool, Vec<u8>)>,
    reported: usize,
    acknowledged: usize,
    told: usize,
    listed: Vec<Fault>,
    /// The number and the octets of each alarm, in the order in which they were first sent, and the numbers of AlarmAcks.
    alarms: Vec<Said>,
    acks: Vec<u16>,
    refused: usize,
    full: usize,
    resent: usize,
}

impl Model {
    /// The flags of a change: whether a diagnosis exists at its submodule, and whether one exists in the relation.
    fn flags(&self, fault: Fault) -> u16 {
        let here = self.existing.iter().any(|other| (other.0, other.1) == (fault.0, fault.1));
        let any = self.existing.iter().any(|other| other.0 != ELSEWHERE);
        (if here { 0x2800 } else { 0 }) | if any { 0x8000 } else { 0 }
    }

    fn waits(&mut self, fault: Fault, appears: bool) {
        let flags = self.flags(fault);
        self.changes.push((fault, appears, alarm(fault, appears, flags)));
    }

    /// The next change is reported, if no other is unacknowledged.
    fn report(&mut self) {
        if self.reported == self.acknowledged && self.reported < self.changes.len() {
            let sequence = u16::try_from(self.reported).expect("few changes") & 0x7FF;
            let octets = &mut self.changes[self.reported].2;
            let specifier = two(octets, 24) | sequence;
            octets[24..26].copy_from_slice(&specifier.to_be_bytes());
            self.reported += 1;
        }
    }

    /// A diagnosis appears or disappears at the device.
    fn change(&mut self, fault: Fault, appears: bool) {
        let plugged = match fault.0 {
            0 => [1, 0x8000, 0x8001].contains(&fault.1),
            1..=4 => fault.1 == 1,
            _ => false,
        };
        let fits = fault.2 <= 0x8000 && fault.3 != 0;
        let exists = self.existing.contains(&fault);
        let full = self.exchanges && self.changes.len() - self.reported == 32;
        if !plugged || !fits || appears == exists || (appears && self.existing.len() == 32) || full {
            self.refused += 1;
            self.full += usize::from(full);
            return;
        }
        if appears {
            self.existing.push(fault);
        } else {
            self.existing.retain(|other| *other != fault);
        }
        if self.exchanges && fault.0 != ELSEWHERE {
            self.waits(fault, appears);
            self.report();
        }
    }

    /// Data is exchanged from now on: what exists is reported.
    fn begins(&mut self) {
        self.exchanges = true;
        for fault in self.existing.clone() {
            if fault.0 != ELSEWHERE {
                self.waits(fault, true);
            }
        }
        self.report();
    }

    /// A frame comes to an end. A number counts once, in order.
    fn comes(&mut self, end: End, said: &Said) {
        match (end, said.of_device) {
            (End::Controller, true) => {
                let place = self.alarms.iter().position(|alarm| alarm.number == said.number);
                if place == Some(self.told) {
                    let (fault, appears, _) = &self.changes[self.told];
                    if *appears {
                        self.listed.push(*fault);
                    } else {
                        self.listed.retain(|other| other != fault);
                    }
                    self.told += 1;
                }
            }
            (End::Device, false) => {
                let place = self.acks.iter().position(|number| *number == said.number);
                if place == Some(self.acknowledged) && self.acknowledged < self.reported {
                    self.acknowledged += 1;
                    self.report();
                }
            }
            _ => {}
        }
    }

    /// A frame was sent: data of low priority is new, or it was sent before.
    fn sent(&mut self, said: Said) {
        if !said.of_device {
            if !self.acks.contains(&said.number) {
                self.acks.push(said.number);
            }
            return;
        }
        if let Some(before) = self.alarms.iter().find(|alarm| alarm.number == said.number) {
            assert_eq!(*before, said);
            self.resent += 1;
            return;
        }
        let place = self.alarms.len();
        assert!(place < self.reported, "a change was reported too soon: {said:?}");
        assert_eq!(said.block, self.changes[place].2, "change {place}");
        self.alarms.push(said);
    }
}

fn faults(diagnoses: &[Diagnosis]) -> Vec<Fault> {
    diagnoses.iter().map(|one| (one.slot, one.subslot, one.channel, one.error)).collect()
}

/// Both ends, and the model of them.
struct Both {
    net: Net,
    count: usize,
    model: Model,
    low: Vec<usize>,
    moves: usize,
}

impl Both {
    fn new() -> Both {
        let mut real = as_planned();
        real.modules.push(module(ELSEWHERE, 32, &[(1, 32)]));
        let plan = plan_from_json(Global, RECORDS.as_bytes()).ok().expect("a plan");
        let controller = Controller::new(plan, Uuid::from_bytes([1; 16]), Uuid::from_bytes([2; 16]));
        let mut both = Both {
            net: World::new(Global, station(real), controller),
            count: 0,
            model: Model::default(),
            low: Vec::new(),
            moves: 0,
        };
        both.count_frames();
        both
    }

    fn frame(&self, number: usize) -> &[u8] {
        self.net.sent(number).expect("a frame").as_slice()
    }

    /// The frames that were sent since are looked at.
    fn count_frames(&mut self) {
        while self.net.sent(self.count).is_some() {
            if let Some(said) = said(self.frame(self.count)) {
                self.low.push(self.count);
                self.model.sent(said);
            }
            self.count += 1;
        }
    }

    fn exchanges(&self) -> bool {
        self.net.device().phase() == Some(Phase::Exchanging) && self.net.controller().state() == State::Exchanging
    }

    /// A move is made, and the model says what both ends know after it. It is not told of what comes after either end has left.
    fn make(&mut self, one: Move) {
        self.moves += 1;
        let came = match &one {
            Move::Deliver(end, number) => Some((*end, said(self.frame(*number)))),
            _ => None,
        };
        if let Move::Application(Local::Diagnosis(slot, subslot, channel, error, appears)) = &one {
            self.model.change((*slot, *subslot, *channel, *error), *appears);
        }
        if let Some((end, Some(said))) = came {
            self.model.comes(end, &said);
        }
        self.net.play(&[one]).expect("memory");
        if !self.model.exchanges && self.net.device().phase() == Some(Phase::Exchanging) {
            self.model.begins();
        }
        self.count_frames();
        assert_eq!(faults(self.net.device().diagnoses()), self.model.existing);
        if self.exchanges() {
            assert_eq!(self.model.alarms.len(), self.model.reported);
            assert_eq!(faults(self.net.controller().diagnoses()), self.model.listed);
            assert_eq!(self.net.controller().diagnoses_left_out(), 0);
            assert!(self.model.told <= self.model.reported && self.model.reported <= self.model.told + 1);
            if self.model.acknowledged == self.model.changes.len() {
                self.agree();
            }
        }
    }

    /// The list of the controller is that of the device at the submodules of the relation.
    fn agree(&self) {
        let here: Vec<Fault> = self.model.existing.iter().copied().filter(|fault| fault.0 != ELSEWHERE).collect();
        assert_eq!(self.model.listed, here);
    }

    /// Each frame comes to both ends as soon as it was sent, until none is sent any more.
    fn deliver_all(&mut self, from: usize) {
        let mut number = from;
        while number < self.count {
            self.make(Move::Deliver(End::Device, number));
            self.make(Move::Deliver(End::Controller, number));
            number += 1;
        }
    }

    /// Units pass at both ends; of the frames that are sent only cyclic ones come.
    fn pass(&mut self, units: usize) {
        for _ in 0..units {
            let mut number = self.count;
            for end in [End::Device, End::Controller] {
                self.make(Move::Tick(end));
            }
            while number < self.count {
                if is_cyclic(self.frame(number)) {
                    self.make(Move::Deliver(End::Device, number));
                    self.make(Move::Deliver(End::Controller, number));
                }
                number += 1;
            }
        }
    }

    fn drawn_fault(&self, draws: &mut Draws, appears: bool) -> Fault {
        if !appears && draws.below(8) != 0 && !self.model.existing.is_empty() {
            return self.model.existing[draws.below(self.model.existing.len())];
        }
        let places = [(0, 1), (0, 0x8000), (0, 0x8001), (1, 1), (2, 1), (3, 1), (ELSEWHERE, 1), (1, 2), (9, 1)];
        let (slot, subslot) = places[draws.below(places.len())];
        let channels = [0, 1, 2, 0x7FFF, 0x8000, 0x8001];
        (slot, subslot, channels[draws.below(channels.len())], draws.number(5))
    }

    /// A change, a frame of low priority that comes, or is repeated, or one of the others, or a unit that passes.
    fn draw(&mut self, draws: &mut Draws) {
        let end = if draws.below(2) == 0 { End::Device } else { End::Controller };
        match draws.below(20) {
            0..=5 => {
                let appears = draws.below(2) == 0;
                let (slot, subslot, channel, error) = self.drawn_fault(draws, appears);
                self.make(Move::Application(Local::Diagnosis(slot, subslot, channel, error, appears)));
            }
            6..=12 if !self.low.is_empty() => {
                let back = draws.below(4).min(self.low.len() - 1);
                let number = self.low[self.low.len() - 1 - back];
                self.make(Move::Deliver(end, number));
            }
            13..=15 => {
                let back = draws.below(8).min(self.count - 1);
                self.make(Move::Deliver(end, self.count - 1 - back));
            }
            16 => {
                let number = draws.below(self.count);
                self.make(Move::Deliver(end, number));
            }
            17 => self.make(Move::Application(Local::Alarm(1, 1, octets(&[7])))),
            18 if draws.below(15) == 0 => self.pass(RESEND),
            _ => self.pass(1),
        }
    }
}

/// A schedule from a seed: both ends start up, with some diagnoses at the device, then moves are drawn, and at last all frames come.
fn played(seed: u64) -> Both {
    let mut draws = Draws(seed);
    let mut both = Both::new();
    for _ in 0..draws.below(12) {
        let (slot, subslot, channel, error) = both.drawn_fault(&mut draws, true);
        both.make(Move::Application(Local::Diagnosis(slot, subslot, channel, error, true)));
    }
    while !both.exchanges() {
        let from = both.count;
        both.deliver_all(if both.moves < 20 { 0 } else { from });
        if !both.exchanges() {
            both.pass(1);
        }
    }
    for _ in 0..MOVES {
        if !both.exchanges() {
            return both;
        }
        both.draw(&mut draws);
    }
    both
}

#[test]
fn changes_are_told_in_order_and_once() {
    let (mut moves, mut reported, mut resent, mut refused, mut full, mut whole) = (0, 0, 0, 0, 0, 0);
    for seed in 1..=SEEDS {
        let mut both = played(seed);
        if both.exchanges() {
            whole += 1;
            for _ in 0..40 {
                let from = both.low.last().copied().unwrap_or(0);
                both.deliver_all(from);
            }
            if both.exchanges() {
                assert_eq!(both.model.acknowledged, both.model.changes.len());
                both.agree();
            }
        }
        moves += both.moves;
        reported += both.model.reported;
        resent += both.model.resent;
        refused += both.model.refused;
        full += both.model.full;
    }
    println!("{moves} moves, {reported} changes reported, {resent} sent again, {refused} refused, {full} of them while 32 wait, {whole} schedules up to their end");
    assert!(moves > 10_000 && reported > 1_000 && resent > 50 && refused > 1_000 && full > 100 && whole > 20);
}
