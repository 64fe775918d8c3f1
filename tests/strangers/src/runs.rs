//! Runs with strangers: a start-up, an exchange with an alarm and a stop, and between its moves floods of frames of strangers at both ends. Both
//! ends show and send the same as without these frames.
use crate::floods::{Random, other};
use crate::octets::{belongs_to, ends, is_quiet, sender};
use crate::plant::{ACTIVITY, CONTROLLER, Came, DEVICE, Plant, at, at_controller, at_device, by, bytes};
use crate::rows::{exchange, strange};
use controller_core::{Event as ControllerEvent, State};
use device_core::{Event, Octets};
use flash_model::Sector;
use pn_values::IpSuite;

/// How many frames of strangers are made before each move.
const BEFORE_EACH: usize = 24;

/// A station that is neither end.
const OTHER: [u8; 6] = [2, 0, 0, 0, 0, 9];

/// What comes to the ends beside the moves.
struct Strangers {
    random: Random,
    /// The frames that they make theirs of: those of a run, and of other stations.
    models: Vec<Vec<u8>>,
    /// How many came to the device and to the controller, how many of a kind, and how many the device answered.
    came: [usize; 2],
    unread: usize,
    answered: usize,
}

impl Strangers {
    fn new(models: Vec<Vec<u8>>) -> Strangers {
        Strangers { random: Random(71), models, came: [0; 2], unread: 0, answered: 0 }
    }

    /// The next frame: one of a model, with other octets and often of another station, or octets of any number.
    fn frame(&mut self) -> Vec<u8> {
        if self.random.below(8) == 0 {
            self.unread += 1;
            let length = self.random.below(1520);
            return (0..length).map(|_| self.random.below(256) as u8).collect();
        }
        let mut frame = self.models[self.random.below(self.models.len())].clone();
        if self.random.below(2) == 0 {
            frame[6..12].copy_from_slice(&OTHER);
        }
        other(&frame, &mut self.random)
    }

    /// A frame comes to each end to which it is a stranger's. What the device answers to a station that is neither end comes to both ends too:
    /// it is a stranger's frame there.
    fn come(&mut self, plant: &mut Plant, frame: &[u8]) {
        if is_quiet(&at_device(), plant.device.phase().is_some(), frame) {
            self.came[0] += 1;
            for answer in at(&mut plant.device, &Event::Frame(Octets::of(frame))) {
                let (to, from) = ends(&answer);
                assert_eq!((to, from), (sender(frame).as_slice(), &DEVICE[..]));
                self.answered += 1;
                if to != DEVICE && to != CONTROLLER {
                    assert!(is_quiet(&at_device(), plant.device.phase().is_some(), &answer));
                    assert!(at(&mut plant.device, &Event::Frame(Octets::of(&answer))).is_empty());
                    assert!(!belongs_to(&at_controller(), plant.controller.state(), &ACTIVITY, &answer));
                    assert!(by(&mut plant.controller, &ControllerEvent::Frame(bytes(&answer))).is_empty());
                }
            }
        }
        if !belongs_to(&at_controller(), plant.controller.state(), &ACTIVITY, frame) {
            self.came[1] += 1;
            assert!(by(&mut plant.controller, &ControllerEvent::Frame(bytes(frame))).is_empty());
        }
    }

    fn flood(&mut self, plant: &mut Plant) {
        for _ in 0..BEFORE_EACH {
            let frame = self.frame();
            self.come(plant, &frame);
        }
    }
}

/// The octets of an IP suite.
fn octets_of(suite: &IpSuite) -> [[u8; 4]; 3] {
    [suite.address(), suite.mask(), suite.gateway()]
}

/// All that both ends show.
fn shown(plant: &Plant) -> String {
    let (device, controller) = (&plant.device, &plant.controller);
    format!(
        "{:?}",
        (
            (device.left(), device.lamp(), device.phase(), device.ar(), device.is_lost()),
            [device.running(), device.stored()].map(|settings| (settings.name.as_bytes(), octets_of(&settings.suite), settings.im1.as_bytes())),
            (device.taken().len(), device.passed_on(), device.parameters_end(), device.output(2, 1), device.provider(2, 1)),
            (device.neighbour().is_some(), device.diagnoses(), device.due()),
            (controller.state(), controller.left(), controller.deviates(), controller.refusal(), controller.can_request()),
            (controller.value(1, 1), controller.provider(1, 1), controller.record(), controller.due()),
            (controller.alarm().map(|alarm| (alarm.slot_number, alarm.alarm_specifier)), controller.diagnoses(), controller.diagnoses_left_out()),
        )
    )
}

/// One move of both ends: frames that wait, or a unit at both, or what the application says.
enum Next {
    Frame(Vec<u8>),
    Unit,
    Input(u8),
    Alarm,
    Output(u8),
    Stop,
}

fn made(plant: &mut Plant, next: &Next) -> Vec<Vec<u8>> {
    match next {
        Next::Frame(frame) => plant.one(frame),
        Next::Unit => {
            let mut sent = by(&mut plant.controller, &ControllerEvent::Tick);
            sent.extend(at(&mut plant.device, &Event::Tick));
            sent
        }
        Next::Input(value) => at(&mut plant.device, &Event::input(1, 1, &[0, *value])),
        Next::Alarm => at(&mut plant.device, &Event::alarm(1, 1, &[7])),
        Next::Output(value) => by(&mut plant.controller, &ControllerEvent::Give(2, 1, bytes(&[0, *value]))),
        Next::Stop => by(&mut plant.controller, &ControllerEvent::Stop),
    }
}

// Two plants make the same moves, and one of them is flooded before each.
#[test]
fn floods_leave_runs() {
    let models = exchange(&mut Plant::new());
    let strangers: Vec<Vec<u8>> = strange(&models).into_iter().map(|(_, frame)| frame).collect();
    let frames = models.into_iter().map(|came: Came| came.frame).chain(strangers.into_iter().cycle().take(60)).collect();
    let mut strangers = Strangers::new(frames);
    let (mut flooded, mut alone) = (Plant::new(), Plant::new());
    let mut waiting = vec![alone.controller.opening().as_slice().to_vec()];
    let mut exchanged = 0;
    for count in 0..1_800_u32 {
        let next = match count {
            600 | 900 => Next::Alarm,
            1_700 => Next::Stop,
            _ if !waiting.is_empty() => Next::Frame(waiting.remove(0)),
            _ if count % 5 == 1 => Next::Input(count as u8),
            _ if count % 5 == 3 => Next::Output(count as u8),
            _ => Next::Unit,
        };
        strangers.flood(&mut flooded);
        let sent = made(&mut alone, &next);
        assert_eq!(made(&mut flooded, &next), sent, "move {count}");
        assert_eq!(shown(&flooded), shown(&alone), "move {count}");
        for sector in [Sector::First, Sector::Second] {
            assert_eq!(flooded.device.flash().sector(sector), alone.device.flash().sector(sector), "move {count}");
        }
        waiting.extend(sent);
        if alone.controller.state() == State::Exchanging {
            exchanged += 1;
        }
    }
    assert!(exchanged > 1_000 && alone.device.phase().is_none());
    assert!(strangers.came.iter().all(|count| *count > 30_000), "{:?}", strangers.came);
    assert!(strangers.answered > 1_000 && strangers.unread > 4_000, "{} {}", strangers.answered, strangers.unread);
}
