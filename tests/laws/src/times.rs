//! Both ends exchange data again within a stated number of units: after a start (`rounds_law::both_ends_start`), and after the device lost
//! its power while it exchanged data (`rounds_law::both_ends_come_back`); and a relation whose controller is silent ends within its data
//! hold time (`strangers_law::silent_relations_end`).
use crate::plant::{INTERVAL, PLAN, station};
use configurator::plan_from_json;
use controller_core::State;
use controller_messages::{ControllerOptions, Setup};
use flash_model::MemoryFlash;
use network_world::End;
use rattle_std::alloc::Global;
use relations::Phase;
use rounds_law::Net;
use uuid::Uuid;

/// The units of a start without Writes, of a device that has no IP suite.
const START: usize = 5;

/// The data hold time of the controller, and the pause after which it is started again.
const HOLD: usize = 3 * INTERVAL;
const PAUSE: usize = 10;

/// What is seen of a unit: whether power was lost in it, whether the device has a relation, and whether both exchange data after it.
#[derive(Clone, Copy, Debug, PartialEq)]
struct Unit {
    is_struck: bool,
    is_related: bool,
    exchanges: bool,
}

/// Whether both exchange data within this number of units from the first one on, and from each loss of power on within this other number.
fn are_back(units: &[Unit], start: usize, comes_back: usize) -> bool {
    let is_within = |from: usize, most: usize| units.iter().skip(from).take(most + 1).any(|unit| unit.exchanges);
    let struck = (0..units.len()).filter(|place| units[*place].is_struck);
    is_within(0, start) && struck.into_iter().all(|place| is_within(place + 1, comes_back))
}

/// Whether the relation has ended after this number of units without a frame of its controller.
fn has_ended(units: &[Unit], most: usize) -> bool {
    units.iter().take(most + 1).any(|unit| !unit.is_related)
}

type Both = Net<MemoryFlash<768>, 768>;

fn setup(number: u8) -> Setup {
    Setup {
        plan: plan_from_json(Global, PLAN.as_bytes()).ok().expect("a plan"),
        ar: Uuid::from_bytes([number; 16]),
        activity: Uuid::from_bytes([0x80 + number; 16]),
        options: ControllerOptions::default(),
    }
}

fn seen(net: &Both, is_struck: bool) -> Unit {
    Unit {
        is_struck,
        is_related: net.device().phase().is_some(),
        exchanges: net.controller().state() == State::Exchanging && net.device().phase() == Some(Phase::Exchanging),
    }
}

/// A start, an exchange, a loss of power with all that the device sent last, and the way back: the units.
fn run() -> Vec<Unit> {
    let mut net = Net::start(Global, station(), setup(1)).expect("memory");
    let mut units = vec![seen(&net, false)];
    let (mut number, mut idle) = (1, 0);
    for round in 0..400 {
        let is_struck = round == 100;
        if is_struck {
            net.restart_device().expect("it starts again");
            net.lose(End::Controller);
        } else {
            net.round().expect("memory");
        }
        units.push(seen(&net, is_struck));
        idle = if matches!(net.controller().state(), State::Ended(_)) { idle + 1 } else { 0 };
        if idle == PAUSE {
            number += 1;
            net = Net::start(Global, net.into_device(), setup(number)).expect("memory");
        }
    }
    assert_eq!(number, 2);
    units
}

/// What is seen of a device whose controller falls silent.
fn silence() -> Vec<Unit> {
    let mut net = Net::start(Global, station(), setup(1)).expect("memory");
    for _ in 0..START {
        net.round().expect("memory");
    }
    assert!(seen(&net, false).exchanges);
    (0..HOLD + 10)
        .map(|_| {
            net.lose(End::Device);
            net.round().expect("memory");
            net.lose(End::Device);
            seen(&net, false)
        })
        .collect()
}

/// The bound of the way back: the rest of the data hold time, the pause and a start.
const BACK: usize = HOLD + PAUSE + START;

#[test]
fn it_holds_of_a_run() {
    assert!(are_back(&run(), START, BACK));
    assert!(has_ended(&silence(), HOLD));
}

#[test]
fn a_start_that_is_late() {
    let mut units = run();
    let begins = units.iter().position(|unit| unit.exchanges).expect("they exchange data");
    assert_eq!(begins, START);
    units.insert(0, units[0]);
    assert!(!are_back(&units, START, BACK));
}

#[test]
fn an_exchange_that_is_not_back_in_time() {
    let run = run();
    let struck = run.iter().position(|unit| unit.is_struck).expect("power is lost");
    let wait = run[struck + 1..].iter().position(|unit| unit.exchanges).expect("they come back");
    let mut late = run.clone();
    for _ in wait..=BACK {
        late.insert(struck + 1, run[struck + 1]);
    }
    assert!(!are_back(&late, START, BACK));
    let mut never = run;
    never[struck + 1..].iter_mut().for_each(|unit| unit.exchanges = false);
    assert!(!are_back(&never, START, BACK));
}

#[test]
fn a_relation_that_outlasts_its_silent_controller() {
    let mut units = silence();
    units.iter_mut().for_each(|unit| unit.is_related = true);
    assert!(!has_ended(&units, HOLD));
}
