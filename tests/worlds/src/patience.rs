//! How long a controller stays in each state: it ends at the unit at which its patience is over, and not one unit earlier or later.
use crate::otherwise::{RECORDS, as_planned, station};
use configurator::plan_from_json;
use controller_core::{Cause, Controller, ControllerOptions, Event, State};
use device_core::Event as DeviceEvent;
use frame_codec::{Bytes, Outbox};
use rattle_std::alloc::Global;
use relations::Phase;
use test_stations::{Station, frame, octets, step};
use uuid::Uuid;

/// More units than any patience here.
const LONG: u32 = 1_000_000;

/// An unanswered request is sent again after this time.
const SECOND: u32 = 32_000;

const OPTIONS: ControllerOptions = ControllerOptions {
    patience: 70_000,
    waiting_patience: 200_000,
};

/// A station, a controller of its plan, and what the controller sent last.
struct Ends {
    device: Station,
    controller: Controller,
    sent: Vec<Bytes>,
}

impl Ends {
    fn new(options: ControllerOptions) -> Ends {
        let plan = plan_from_json(Global, RECORDS.as_bytes()).ok().expect("a plan");
        let controller = Controller::new_with(plan, Uuid::from_bytes([1; 16]), Uuid::from_bytes([2; 16]), options);
        let sent = vec![octets(controller.opening().as_slice())];
        Ends {
            device: station(as_planned()),
            controller,
            sent,
        }
    }

    /// An event at the controller, and the number of frames that it sends.
    fn tell(&mut self, event: &Event) -> usize {
        let mut outbox = Outbox::new();
        self.controller.step(event, &mut outbox);
        self.sent = outbox.as_slice().iter().map(|sent| octets(sent.as_slice())).collect();
        outbox.len()
    }

    /// The device hears what the controller sent last, and the controller what the device answers to it.
    fn turn(&mut self) {
        let mut answers = Outbox::new();
        for sent in std::mem::take(&mut self.sent) {
            let _ = step(&mut self.device, &frame(sent.as_slice()), &mut answers);
            for answer in answers.as_slice() {
                self.tell(&Event::Frame(octets(answer.as_slice())));
            }
        }
    }

    /// Turns until the controller is in this state.
    fn until(&mut self, state: State) {
        for _ in 0..20 {
            if self.controller.state() == state {
                return;
            }
            self.turn();
        }
        panic!("it never comes to {state:?}");
    }

    /// Until the controller waits: the device says that it is ready, which is lost.
    fn until_waiting(&mut self) {
        self.until(State::Ending);
        let mut answers = Outbox::new();
        let prm_end = self.sent.pop().expect("a PrmEnd");
        let _ = step(&mut self.device, &frame(prm_end.as_slice()), &mut answers);
        let answer = octets(answers.as_slice()[0].as_slice());
        self.tell(&Event::Frame(answer));
        assert_eq!(self.controller.state(), State::Waiting);
    }

    /// Units pass at the controller. What it sends then is lost.
    fn pass(&mut self, units: u32) {
        let last = self.sent.clone();
        for _ in 0..units {
            self.tell(&Event::Tick);
        }
        self.sent = last;
    }

    /// The number of units until the controller is in another state, and of the frames that the last of them sends. 0 if it is in
    /// the same state for a long time.
    fn lasts(&mut self) -> (u32, usize) {
        let state = self.controller.state();
        for unit in 1..=LONG {
            let sent = self.tell(&Event::Tick);
            if self.controller.state() != state {
                return (unit, sent);
            }
        }
        (0, 0)
    }
}

#[test]
fn without_a_patience_each_state_lasts() {
    for state in [State::Looking, State::Addressing, State::Connecting, State::Writing, State::Ending] {
        let mut ends = Ends::new(ControllerOptions::default());
        ends.until(state);
        assert_eq!(ends.controller.left(), 0);
        assert_eq!(ends.lasts(), (0, 0), "{state:?}");
    }
    let mut ends = Ends::new(ControllerOptions::default());
    ends.until_waiting();
    assert_eq!(ends.lasts(), (0, 0));
}

#[test]
fn each_state_ends_at_its_unit() {
    let ended = State::Ended(Cause::NoProgress);
    // The state, the unit with which it ends, and the frames that are then sent.
    for (state, unit, sent) in [
        (State::Looking, 0, 0),
        (State::Addressing, 70_000, 0),
        (State::Connecting, 70_000, 1),
        (State::Writing, 70_000, 1),
        (State::Ending, 70_000, 1),
    ] {
        let mut ends = Ends::new(OPTIONS);
        ends.until(state);
        assert_eq!(ends.lasts(), (unit, sent), "{state:?}");
        assert_eq!(ends.controller.state(), if unit == 0 { state } else { ended });
    }
    let mut ends = Ends::new(OPTIONS);
    ends.until_waiting();
    assert_eq!(ends.controller.left(), 200_000);
    assert_eq!(ends.lasts(), (200_000, 1));
    assert_eq!(ends.controller.state(), ended);
    assert_eq!(Cause::NoProgress.number(), 8);
}

// A wait for ApplicationReady without a limit, beside states with one; and the other way round.
#[test]
fn the_two_patiences_are_apart() {
    let mut ends = Ends::new(ControllerOptions { patience: 5, waiting_patience: 0 });
    ends.until_waiting();
    assert_eq!(ends.lasts(), (0, 0));
    let mut ends = Ends::new(ControllerOptions { patience: 0, waiting_patience: 5 });
    ends.until(State::Ending);
    assert_eq!(ends.lasts(), (0, 0));
    let mut ends = Ends::new(ControllerOptions { patience: 0, waiting_patience: 1 });
    ends.until_waiting();
    assert_eq!(ends.lasts(), (1, 1));
}

// All Writes together are one state: the second one begins with what the first one left. PrmEnd is another state.
#[test]
fn a_write_gives_no_new_time() {
    let mut ends = Ends::new(OPTIONS);
    ends.until(State::Writing);
    assert_eq!(ends.controller.left(), 70_000);
    ends.pass(60_000);
    ends.turn();
    assert_eq!(ends.controller.state(), State::Writing);
    assert_eq!(ends.controller.left(), 10_000);
    ends.pass(9_999);
    ends.turn();
    assert_eq!(ends.controller.state(), State::Ending);
    assert_eq!(ends.controller.left(), 70_000);
    let mut ends = Ends::new(OPTIONS);
    ends.until(State::Writing);
    ends.pass(60_000);
    ends.turn();
    assert_eq!(ends.lasts(), (10_000, 1));
}

// The Release is that of a stop, octet for octet: the device ends its relation. It is sent again each second until it is answered.
#[test]
fn the_device_is_released() {
    let mut ends = Ends::new(OPTIONS);
    ends.until_waiting();
    assert!(ends.device.phase().is_some());
    let mut stopped = Ends::new(ControllerOptions::default());
    stopped.until_waiting();
    assert_eq!(stopped.tell(&Event::Stop), 1);
    assert_eq!(ends.lasts(), (200_000, 1));
    let release = ends.sent.clone();
    assert_eq!(release[0].as_slice(), stopped.sent[0].as_slice());
    for round in 0..3 {
        for _ in 1..SECOND {
            assert_eq!(ends.tell(&Event::Tick), 0, "round {round}");
        }
        assert_eq!(ends.tell(&Event::Tick), 1, "round {round}");
        assert_eq!(ends.sent[0].as_slice(), release[0].as_slice());
    }
    let mut answers = Outbox::new();
    let _ = step(&mut ends.device, &frame(release[0].as_slice()), &mut answers);
    assert_eq!(ends.device.phase(), None);
    ends.tell(&Event::Frame(octets(answers.as_slice()[0].as_slice())));
    for _ in 0..2 * SECOND {
        assert_eq!(ends.tell(&Event::Tick), 0);
    }
    assert_eq!(ends.controller.state(), State::Ended(Cause::NoProgress));
}

// In a relation that exchanges data no patience counts.
#[test]
fn data_is_exchanged_without_a_limit() {
    let mut ends = Ends::new(OPTIONS);
    ends.until(State::Exchanging);
    ends.turn();
    assert_eq!(ends.device.phase(), Some(Phase::Exchanging));
    assert_eq!(ends.controller.left(), 0);
    let mut answers = Outbox::new();
    for _ in 0..300_000 {
        let _ = step(&mut ends.device, &DeviceEvent::Tick, &mut answers);
        let inputs: Vec<Bytes> = answers.as_slice().iter().map(|sent| octets(sent.as_slice())).collect();
        ends.tell(&Event::Tick);
        for sent in std::mem::take(&mut ends.sent) {
            let _ = step(&mut ends.device, &frame(sent.as_slice()), &mut answers);
        }
        for input in inputs {
            ends.tell(&Event::Frame(input));
        }
        assert_eq!(ends.controller.state(), State::Exchanging);
    }
}

// A device that lost power after PrmEnd never says that it is ready, and one whose address is gone never answers the Set: the time
// that passes at once is that of single units.
#[test]
fn leaps_end_at_the_same_unit() {
    for state in [State::Addressing, State::Connecting, State::Writing, State::Ending] {
        let mut ends = Ends::new(OPTIONS);
        ends.until(state);
        let (mut outbox, mut passed) = (Outbox::new(), 0);
        while ends.controller.state() == state {
            let due = ends.controller.due();
            ends.controller.elapse(due, &mut outbox);
            passed += due;
        }
        assert_eq!(passed, 70_000, "{state:?}");
    }
}
