//! A controller as a DCP station: tools find it, read what it is, and get each Set refused.
//!
//! `stdin` has scripts one after another, each after a line `script NAME`: those that begin with `small` show one thing each, the others
//! were drawn at random, a controller alone that starts against a device of the field with tools about. Their lines: `config` reads a
//! catalogue; `alone` starts a controller without services and without a device; `hear` brings it the octets of a frame, of which the first
//! 1,519 count; `elapse` lets units pass; `stop` stops it. After each of these, `stdout` has each frame that it sends, in order, and its
//! state. A last line says how the script ends: `status 0`, or `status 5` for a catalogue that is refused. `stdout` comes from a
//! reference model that was written from the rules alone and shares no line with this repository.
#![cfg(test)]

use configurator::plan_from_json;
use controller_core::{Cause, Event, State};
use controller_station::{ServedController, ServedOutbox};
use frame_codec::{Bytes, Frame, Outbox};
use plans::Plan;
use rattle_std::alloc::Global;
use test_stations::octets;
use uuid::Uuid;

mod requests;
mod untouched;

/// The scripts.
const SCRIPTS: &str = include_str!("../stdin");

/// What they print.
const PRINTED: &str = include_str!("../stdout");

/// The scripts of a table, or what they print, by their names.
fn each(scripts: &str) -> impl Iterator<Item = (&str, &str)> {
    scripts.split("script ").skip(1).map(|script| script.split_once('\n').expect("a name"))
}

/// The octets that these hexadecimal digits spell.
fn spelled(digits: &str) -> Vec<u8> {
    (0..digits.len())
        .step_by(2)
        .map(|place| u8::from_str_radix(&digits[place..place + 2], 16).expect("a digit"))
        .collect()
}

/// The digits of these octets.
fn digits(octets: &[u8]) -> String {
    octets.iter().map(|octet| format!("{octet:02x}")).collect()
}

/// The first 1,519 octets that these digits spell.
fn heard(digits: &str) -> Bytes {
    let all = spelled(digits);
    octets(&all[..all.len().min(1519)])
}

/// The plan of a catalogue, if it has one.
fn plan(catalogue: &str) -> Option<Plan> {
    plan_from_json(Global, catalogue.as_bytes()).ok()
}

/// The identifier that a word of a line spells.
fn identifier(word: &str) -> Uuid {
    Uuid::parse_str(word).expect("an identifier")
}

/// The word of a state.
fn word(state: State) -> String {
    match state {
        State::Looking => "looking".into(),
        State::Addressing => "addressing".into(),
        State::Connecting => "connecting".into(),
        State::Writing => "writing".into(),
        State::Ending => "ending".into(),
        State::Waiting => "waiting".into(),
        State::Exchanging => "exchanging".into(),
        State::Ended(cause) => format!("ended {}", Cause::number(cause)),
    }
}

/// Whether a frame is one of the services beside the controller: ARP, IPv4 of ICMP, or LLDP. They are off in the scripts.
fn is_of_services(frame: &Frame) -> bool {
    frame.as_slice()[12..14] != [0x88, 0x92]
}

/// A controller alone: what an event prints, and its state.
struct Alone {
    served: ServedController,
    outbox: ServedOutbox,
}

impl Alone {
    fn new(plan: Plan, ar: &str, activity: &str) -> Alone {
        Alone {
            served: ServedController::new(plan, identifier(ar), identifier(activity)),
            outbox: ServedOutbox::new(),
        }
    }

    /// The lines of the frames that wait in the outbox. What is beside the controller sends DCP answers alone here.
    fn frames(&self) -> String {
        let own = self.outbox.controller().iter();
        let beside = self.outbox.services().iter().filter(|frame| !is_of_services(frame));
        own.chain(beside).map(|frame| format!("out {}\n", digits(frame.as_slice()))).collect()
    }

    /// The line of the state.
    fn state(&self) -> String {
        format!("state {}\n", word(self.served.controller().state()))
    }

    /// The lines of what one event sends.
    fn step(&mut self, event: &Event) -> String {
        self.served.step(event, &mut self.outbox);
        self.frames()
    }

    /// What a line prints.
    fn line(&mut self, line: &str) -> String {
        let (name, rest) = line.split_once(' ').unwrap_or((line, ""));
        let text = match name {
            "hear" => self.step(&Event::Frame(heard(rest))),
            "elapse" => (0..rest.parse().expect("a number")).map(|_: u32| self.step(&Event::Tick)).collect(),
            "stop" => self.step(&Event::Stop),
            _ => panic!("{line}"),
        };
        text + &self.state()
    }
}

/// What a script of a controller alone prints, and how it ends.
fn printed(script: &str) -> String {
    let mut text = String::from("boot ok\n");
    let (mut read, mut alone) = (None, None);
    for line in script.lines() {
        if let Some(catalogue) = line.strip_prefix("config ") {
            read = plan(catalogue);
            if read.is_none() {
                return text + "status 5\n";
            }
            text += "plan ok\n";
        } else if let Some(names) = line.strip_prefix("alone ") {
            let (ar, activity) = names.split_once(' ').expect("two identifiers");
            let mut started = Alone::new(read.take().expect("a plan"), ar, activity);
            started.served.send_opening(&mut started.outbox);
            text += &(started.frames() + &started.state());
            alone = Some(started);
        } else {
            text += &alone.as_mut().expect("a controller").line(line);
        }
    }
    text + "status 0\n"
}

/// What a script in which the controller meets the demo device prints.
fn both_printed(script: &str) -> String {
    let mut text = Vec::new();
    script_runner::run(Global, &mut script.as_bytes(), &mut text).expect("a script");
    String::from_utf8(text).expect("text") + "status 0\n"
}

/// The scripts whose plan has what a plan of today does not hold: other APIs than 0, records of slot 0, longer records, or more of them, more
/// submodules in a slot, or a start with modules missing. Of them only the answers to tools are compared, in `requests`.
const LATER: [&str; 19] = [
    "dcp-s0001", "dcp-s0002", "dcp-s0004", "dcp-s0005", "dcp-s0007", "dcp-s0008", "dcp-s0009",
    "dcp-s0011", "dcp-s0014", "dcp-s0015", "dcp-s0016", "dcp-s0018", "dcp-s0019", "dcp-s0020",
    "dcp-s0023", "dcp-s0024", "dcp-s0026", "dcp-s0027", "dcp-s0029",
];

#[test]
fn each_script_prints_what_the_model_prints() {
    let mut whole = 0;
    for ((name, lines), (same, wanted)) in each(SCRIPTS).zip(each(PRINTED)) {
        assert_eq!(name, same);
        if LATER.contains(&name) {
            continue;
        }
        let text = if lines.contains("\nstart ") { both_printed(lines) } else { printed(lines) };
        assert!(text == wanted, "{name}\n{text}\nwanted\n{wanted}");
        whole += 1;
    }
    assert_eq!(whole, 35);
}
