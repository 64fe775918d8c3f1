//! A controller among stations of other makers. The frames that come and those that are wanted were built by Scapy's own layers
//! (`tests/interoperation/scapy_makers.py`, whose output is `makers.txt`): no encoder of this repository takes part. Beside it
//! the library for C plays the same scenario.

use super::PUMP;
use super::operations::{asked, taken};
use configurator::plan_from_json;
use controller_abi::{Port, serve};
use controller_core::{
    Answer, Controller, ControllerOptions, Event, Priority, RecordService, State,
};
use frame_codec::Outbox;
use rpc_core::Status;
use rattle_std::alloc::Global;
use test_stations::octets;
use uuid::Uuid;

/// The header of the library for C.
const HEADER: &str = include_str!("../../../include/nandutable_controller.h");

/// The scenarios.
const SCENARIOS: &str = include_str!("makers.txt");

/// How many scenarios there are, so that a file that was cut off is found.
const COUNT: usize = 51;

/// The ARUUID and the activity of the controller, as Scapy's station expects them.
const AR: &str = "11111111-2222-3333-4444-555555555555";
const ACTIVITY: &str = "66666666-7777-8888-9999-aaaaaaaaaaaa";

/// The octets of a text in hex.
fn octets_of(text: &str) -> std::vec::Vec<u8> {
    (0..text.len())
        .step_by(2)
        .map(|place| u8::from_str_radix(&text[place..place + 2], 16).expect("hex"))
        .collect()
}

/// The same in hex.
fn hex_of(octets: &[u8]) -> std::string::String {
    octets.iter().map(|octet| format!("{octet:02x}")).collect()
}

/// The same; `-` for none.
fn digits_of(octets: &[u8]) -> std::string::String {
    match octets {
        [] => "-".into(),
        octets => hex_of(octets),
    }
}

/// The octets that an operation reports.
fn told_octets(op: &c_layout::Op) -> &[u8] {
    &op.octets[..op.length as usize]
}

/// How many diagnoses found no room, and those that are listed; `-` for none.
fn diagnoses_words(left_out: u32, listed: std::vec::Vec<std::string::String>) -> std::string::String {
    match listed.as_slice() {
        [] => format!("{left_out} -"),
        listed => format!("{left_out} {}", listed.join(", ")),
    }
}

/// The words of an alarm that the library for C reports: those of a scenario without the API and both idents.
fn reported_words(wanted: &str) -> std::string::String {
    let words: std::vec::Vec<&str> = wanted.split(' ').collect();
    match words.as_slice() {
        [number, kind, _, slot, subslot, _, _, specifier, user_structure, data] => {
            format!("{number} {kind} {slot} {subslot} {specifier} {user_structure} {data}")
        }
        _ => wanted.into(),
    }
}

/// A status in hex.
fn status_of(status: Status) -> std::string::String {
    hex_of(&[status.code, status.decode, status.code1, status.code2])
}

/// A controller in a scenario, and what it has sent since the last line that something came by.
/// The name of this number of `enum pn_known` in the header, in small letters.
fn known_name(number: u32) -> std::string::String {
    HEADER
        .lines()
        .filter_map(|line| line.trim().strip_prefix("PN_KNOWN_")?.split_once(" = "))
        .find(|(_, rest)| rest.starts_with(&number.to_string()))
        .expect("has a name")
        .0
        .to_lowercase()
}

struct Scene {
    name: std::string::String,
    controller: Controller,
    /// The same controller, as a host in C drives it.
    port: Port,
    sent: std::collections::VecDeque<std::string::String>,
    /// What the library for C returned for a request of the application, until it is compared.
    number: Option<u32>,
    /// CycleCounter of the last input.
    counter: u16,
}

/// An operation at a slot, a subslot and an index.
fn placed(what: u32, slot: u16, subslot: u16, index: u16) -> c_layout::Op {
    let mut op = asked(what);
    op.slot = u32::from(slot);
    op.subslot = u32::from(subslot);
    op.index = u32::from(index);
    op
}

impl Scene {
    fn new(name: &str, catalogue: &str) -> Scene {
        let plan = plan_from_json(Global, catalogue.as_bytes())
            .ok()
            .expect("there is a plan");
        let again = plan_from_json(Global, catalogue.as_bytes())
            .ok()
            .expect("there is a plan");
        let ar = Uuid::parse_str(AR).expect("a UUID");
        let activity = Uuid::parse_str(ACTIVITY).expect("a UUID");
        let mut port = Port::unstarted(again, ar, activity, ControllerOptions::default());
        port.start();
        assert_eq!(taken(&mut port).len(), 1, "{name}");
        Scene {
            name: name.into(),
            controller: Controller::new(plan, ar, activity),
            port,
            sent: std::collections::VecDeque::new(),
            number: None,
            counter: 0,
        }
    }

    /// An event comes. All frames that were wanted before were sent, and no other.
    fn step(&mut self, event: &Event) {
        let mut outbox = Outbox::new();
        self.controller.step(event, &mut outbox);
        let sent: std::vec::Vec<_> = outbox
            .as_slice()
            .iter()
            .map(|frame| frame.as_slice().to_vec())
            .collect();
        // Only the announcements of the address, and LLDP, come after them.
        let played = self.play(event);
        assert!(played.starts_with(&sent), "{}", self.name);
        let is_announcement = |frame: &std::vec::Vec<u8>| matches!(frame[12..14], [0x08, 0x06] | [0x88, 0xcc]);
        assert!(played.iter().skip(sent.len()).all(is_announcement), "{}", self.name);
        for frame in sent {
            self.sent.push_back(hex_of(&frame));
        }
    }

    /// What the library for C sends for the event.
    fn play(&mut self, event: &Event) -> std::vec::Vec<std::vec::Vec<u8>> {
        let (mut op, given) = match event {
            Event::Frame(bytes) => (asked(3), bytes.as_slice()),
            Event::Read(slot, subslot, index) => (placed(30, *slot, *subslot, *index), &[][..]),
            Event::Write(slot, subslot, index, bytes) => (placed(31, *slot, *subslot, *index), bytes.as_slice()),
            Event::Stop => (asked(13), &[][..]),
            _ => (asked(4), &[][..]),
        };
        op.units = 1;
        let answer = serve(&mut self.port, &mut op, given);
        match event {
            // A request that cannot be made now is refused by its number, and ignored by the controller.
            Event::Read(..) | Event::Write(..) => self.number = Some(answer),
            _ => assert_eq!(answer, 0, "{}", self.name),
        }
        taken(&mut self.port)
    }

    /// What the library for C reports by this operation about what `number` and `is_low` name; `None` if it returns this number.
    fn told(&mut self, what: u32, number: u32, none: u32) -> Option<c_layout::Op> {
        let mut op = asked(what);
        (op.number, op.is_low) = (number, number);
        let answer = serve(&mut self.port, &mut op, &[]);
        assert!(answer == 0 || answer == none, "{}: {answer}", self.name);
        (answer == 0).then_some(op)
    }

    /// The answer to the last request of the application, as the library for C reports it.
    fn told_answer(&mut self) -> std::string::String {
        match self.told(32, 0, 27) {
            Some(op) => format!("{:08x} {}", op.status, digits_of(told_octets(&op))),
            None => "-".into(),
        }
    }

    /// The last alarm of high priority, as the library for C reports it.
    fn told_alarm(&mut self) -> std::string::String {
        match self.told(12, 0, 9) {
            Some(op) => format!("{} {} {} {} {}", op.alarm_type, op.slot, op.subslot, op.specifier, hex_of(told_octets(&op))),
            None => "-".into(),
        }
    }

    /// The last alarm of a priority, as the library for C reports it: all but the API and both idents.
    fn told_report(&mut self, is_low: bool) -> std::string::String {
        let Some(op) = self.told(34, u32::from(is_low), 9) else {
            return "-".into();
        };
        let user_structure = match op.structure {
            65536 => "-".into(),
            number => number.to_string(),
        };
        let data = digits_of(told_octets(&op));
        format!("{} {} {} {} {} {user_structure} {data}", op.sequence, op.alarm_type, op.slot, op.subslot, op.specifier)
    }

    /// Nothing is left that was sent and not wanted, and no number that was not compared.
    fn is_done(&self) {
        assert!(self.sent.is_empty(), "{}: also sent {:?}", self.name, self.sent);
        assert!(self.number.is_none(), "{}: returned {:?}", self.name, self.number);
    }

    /// The state, in words.
    fn state(&self) -> std::string::String {
        match self.controller.state() {
            State::Looking => "looking".into(),
            State::Addressing => "addressing".into(),
            State::Connecting => "connecting".into(),
            State::Writing => "writing".into(),
            State::Ending => "ending".into(),
            State::Waiting => "waiting".into(),
            State::Exchanging => "exchanging".into(),
            State::Ended(cause) => format!("ended {}", cause.number()),
        }
    }

    /// The status with which a call was refused last, in hex.
    fn refusal(&self) -> std::string::String {
        match self.controller.refusal() {
            Some(status) => status_of(status),
            None => "-".into(),
        }
    }

    /// The last record that was refused: its number and the status, in hex.
    fn refused_record(&self) -> std::string::String {
        match self.controller.refused_record() {
            Some(record) => format!("{} {}", record.number, status_of(record.status)),
            None => "-".into(),
        }
    }

    /// What the last request of the application was answered with, in words.
    fn answer(&self) -> std::string::String {
        let Some(Answer { request, status }) = self.controller.answer() else {
            return "-".into();
        };
        let service = match request.service {
            RecordService::Read => "read",
            RecordService::Write => "write",
        };
        let record = digits_of(self.controller.record());
        format!(
            "{service} {} {} {} {} {} {record}",
            request.slot,
            request.subslot,
            request.index,
            request.sequence,
            hex_of(&[status.code, status.decode, status.code1, status.code2])
        )
    }

    /// Intervals pass, and after each this cyclic frame comes, with the next CycleCounter.
    fn run(&mut self, intervals: u32, input: &str) {
        let mut frame = octets_of(input);
        let place = frame.len() - 4;
        for _ in 0..intervals {
            for _ in 0..32 {
                self.step(&Event::Tick);
            }
            self.counter = self.counter.wrapping_add(32);
            frame[place..place + 2].copy_from_slice(&self.counter.to_be_bytes());
            self.step(&Event::Frame(octets(&frame)));
        }
        self.forget_outputs();
    }

    /// Frames of outputs are not compared: those with the FrameID that these stations choose, behind a VLAN tag.
    fn forget_outputs(&mut self) {
        self.sent
            .retain(|frame| frame.get(24..28) != Some("8100") || frame.get(32..40) != Some("88928123"));
    }

    /// A request of the application: slot, subslot and index, and the octets of a Write.
    fn ask(&mut self, rest: &str) {
        let words: std::vec::Vec<&str> = rest.split(' ').collect();
        let number = |place: usize| words[place].parse::<u16>().expect("a number");
        let (slot, subslot, index) = (number(0), number(1), number(2));
        self.is_done();
        match words.get(3) {
            None => self.step(&Event::Read(slot, subslot, index)),
            Some(&"-") => self.step(&Event::Write(slot, subslot, index, octets(&[]))),
            Some(hex) => self.step(&Event::Write(slot, subslot, index, octets(&octets_of(hex)))),
        }
    }

    /// The last alarm, in words.
    fn alarm(&self) -> std::string::String {
        match self.controller.alarm() {
            Some(alarm) => format!(
                "{} {} {} {} {}",
                alarm.alarm_type,
                alarm.slot_number,
                alarm.subslot_number,
                alarm.alarm_specifier,
                hex_of(alarm.alarm_data.octets())
            ),
            None => "-".into(),
        }
    }

    /// The diagnoses that it lists, in words.
    fn diagnoses(&self) -> std::string::String {
        let listed = self.controller.diagnoses().iter();
        let words = listed.map(|one| format!("{} {} {} {}", one.slot, one.subslot, one.channel, one.error));
        diagnoses_words(self.controller.diagnoses_left_out(), words.collect())
    }

    /// The same as the library for C reports it.
    fn told_diagnoses(&mut self) -> std::string::String {
        let all = self.told(35, 0, 0).expect("a number");
        let mut words = std::vec::Vec::new();
        for place in 0..all.count {
            let one = self.told(36, place, 9).expect("a diagnosis");
            words.push(format!("{} {} {} {}", one.slot, one.subslot, one.channel, one.error));
        }
        assert!(self.told(36, all.count, 9).is_none(), "{}", self.name);
        assert!(self.told(36, u32::MAX, 9).is_none(), "{}", self.name);
        diagnoses_words(all.left_out, words)
    }

    /// The last alarm of a priority, in words.
    fn report(&self, priority: Priority) -> std::string::String {
        let Some(report) = self.controller.report(priority) else {
            assert!(self.controller.accepted(priority).is_none(), "{}", self.name);
            return "-".into();
        };
        assert!(report.priority == priority, "{}", self.name);
        let number = self.controller.accepted(priority).expect("a number");
        let user_structure = match report.user_structure {
            Some(number) => number.to_string(),
            None => "-".into(),
        };
        let alarm = report.notification;
        let data = digits_of(alarm.alarm_data.octets());
        format!(
            "{number} {} {} {} {} {} {} {} {user_structure} {data}",
            alarm.alarm_type,
            alarm.api,
            alarm.slot_number,
            alarm.subslot_number,
            alarm.module_ident_number,
            alarm.submodule_ident_number,
            alarm.alarm_specifier,
        )
    }

    /// What is known of a place of the plan, by its name in the header. The library for C says the same.
    fn place(&mut self, slot: u16, subslot: u16) -> std::string::String {
        let known = self.controller.place(slot, subslot);
        let mut op = placed(38, slot, subslot, 0);
        let answer = serve(&mut self.port, &mut op, &[]);
        match known {
            Some(state) => assert_eq!((answer, op.phase), (0, state.number()), "{}", self.name),
            None => assert_eq!((answer, op.phase), (9, 0), "{}", self.name),
        }
        known.map_or("-".into(), |state| known_name(state.number()))
    }

    /// So many units, of which cyclic frames are not looked at.
    fn pass(&mut self, units: u32) {
        for _ in 0..units {
            self.step(&Event::Tick);
        }
        self.sent
            .retain(|frame| !frame.starts_with("0200000000010200000000028100c00088928123"));
    }

    /// A line of the scenario.
    fn line(&mut self, word: &str, rest: &str) {
        let name = self.name.clone();
        match word {
            "in" => {
                self.is_done();
                self.step(&Event::Frame(octets(&octets_of(rest))));
            }
            "tick" => {
                self.is_done();
                for _ in 0..rest.parse::<u32>().expect("a number") {
                    self.step(&Event::Tick);
                }
            }
            "pass" => {
                self.is_done();
                self.pass(rest.parse().expect("a number"));
            }
            "report" => {
                let (priority, wanted) = rest.split_once(' ').expect("a priority");
                let is_low = priority == "low";
                let priority = if is_low { Priority::Low } else { Priority::High };
                assert_eq!(self.report(priority), wanted, "{name}");
                assert_eq!(self.told_report(is_low), reported_words(wanted), "{name}");
            }
            "out" => assert_eq!(self.sent.pop_front().as_deref(), Some(rest), "{name}"),
            "state" => assert_eq!(self.state(), rest, "{name}"),
            "deviates" => assert_eq!(self.controller.deviates(), rest == "yes", "{name}"),
            "refusal" => {
                assert_eq!(self.refusal(), rest, "{name}");
                let told = self.told(20, 0, 25).map_or("-".into(), |told| format!("{:08x}", told.status));
                assert_eq!(told, rest, "{name}");
            }
            "refused" => {
                assert_eq!(self.refused_record(), rest, "{name}");
                let told = self.told(33, 0, 25).map_or("-".into(), |told| format!("{} {:08x}", told.number, told.status));
                assert_eq!(told, rest, "{name}");
            }
            "alarm" => {
                assert_eq!(self.alarm(), rest, "{name}");
                assert_eq!(self.told_alarm(), rest, "{name}");
            }
            "diagnoses" => {
                assert_eq!(self.diagnoses(), rest, "{name}");
                assert_eq!(self.told_diagnoses(), rest, "{name}");
            }
            "place" => {
                let words: std::vec::Vec<&str> = rest.split(' ').collect();
                let number = |place: usize| words[place].parse::<u16>().expect("a number");
                assert_eq!(self.place(number(0), number(1)), words[2], "{name}: {rest}");
            }
            "answer" => {
                assert_eq!(self.answer(), rest, "{name}");
                let words: std::vec::Vec<&str> = rest.rsplitn(3, ' ').collect();
                let wanted = match words.as_slice() {
                    [record, status, _] => format!("{status} {record}"),
                    _ => rest.into(),
                };
                assert_eq!(self.told_answer(), wanted, "{name}");
            }
            "number" => assert_eq!(self.number.take(), rest.parse().ok(), "{name}"),
            "can" => assert_eq!(self.controller.can_request(), rest == "yes", "{name}"),
            "read" | "write" => self.ask(rest),
            "run" => {
                self.is_done();
                let (intervals, input) = rest.split_once(' ').expect("a number and a frame");
                self.run(intervals.parse().expect("a number"), input);
            }
            "outputs" => self.forget_outputs(),
            "stop" => {
                self.is_done();
                self.step(&Event::Stop);
            }
            _ => panic!("{name}: {word}"),
        }
    }
}

#[test]
fn the_controller_takes_stations_of_other_makers() {
    let mut scenes = 0;
    let mut scene: Option<Scene> = None;
    for line in SCENARIOS.lines() {
        if line.is_empty() || line.starts_with('#') {
            continue;
        }
        let (word, rest) = line.split_once(' ').unwrap_or((line, ""));
        if word == "scenario" {
            if let Some(scene) = &scene {
                scene.is_done();
            }
            scene = Some(Scene::new(rest, PUMP));
            scenes += 1;
        } else if word == "catalogue" {
            let name = scene.as_ref().expect("a scenario").name.clone();
            scene = Some(Scene::new(&name, rest));
        } else {
            scene.as_mut().expect("a scenario").line(word, rest);
        }
    }
    scene.expect("a scenario").is_done();
    assert_eq!(scenes, COUNT);
}
