//! The model, played from a start and from many states.

use super::small_world::{Ask, Link, Phase, State, ToController, ToDevice, World};
use super::{Plan, comeback_limit, start_up_limit};

/// Numbers that look random.
struct Numbers(u64);

impl Numbers {
    fn below(&mut self, limit: u32) -> u32 {
        self.0 = self
            .0
            .wrapping_mul(6_364_136_223_846_793_005)
            .wrapping_add(1_442_695_040_888_963_407);
        ((self.0 >> 33) % u64::from(limit)) as u32
    }

    fn is(&mut self) -> bool {
        self.below(2) == 1
    }

    /// A time of at most this many units.
    fn time(&mut self, most: u32) -> u32 {
        1 + self.below(most)
    }

    fn plan(&mut self) -> Plan {
        let writes = self.below(3);
        Plan {
            writes,
            patience: writes + 2 + self.below(8),
            waiting: 1 + self.below(20),
            hold: 2 + self.below(6),
            inactivity: 2 + self.below(20),
            repeat: 2 + self.below(8),
            pause: 2 + self.below(5),
        }
    }

    /// The number of this run, or of one of the two before it.
    fn run(&mut self) -> u64 {
        u64::from(8 + self.below(3))
    }

    fn ask(&mut self, plan: &Plan) -> Ask {
        match self.below(4) {
            0 => Ask::Connect,
            1 if plan.writes > 0 => Ask::Write(self.below(plan.writes)),
            2 => Ask::PrmEnd,
            _ => Ask::Release,
        }
    }

    fn to_device(&mut self, plan: &Plan) -> ToDevice {
        match self.below(8) {
            0 => ToDevice::Identify,
            1 => ToDevice::Address,
            2 => ToDevice::Confirm(self.run()),
            3 => ToDevice::Abort,
            _ => ToDevice::Call(self.run(), self.ask(plan)),
        }
    }

    fn to_controller(&mut self, plan: &Plan) -> ToController {
        match self.below(8) {
            0 => ToController::Found(self.is()),
            1 => ToController::Addressed(self.is()),
            2 => ToController::Ready(self.run()),
            3 => ToController::Abort,
            _ => ToController::Answer(self.run(), self.ask(plan), self.is()),
        }
    }

    fn link(&mut self, plan: &Plan) -> Option<Link> {
        let phase = [Phase::Started, Phase::Awaiting, Phase::Exchanging][self.below(3) as usize];
        let most = if phase == Phase::Exchanging {
            plan.hold
        } else {
            plan.inactivity
        };
        let link = Link {
            number: self.run(),
            phase,
            left: self.time(most),
            again: self.time(plan.repeat),
        };
        self.is().then_some(link)
    }

    fn state(&mut self, plan: &Plan) -> (State, u32) {
        match self.below(8) {
            0 => (State::Looking, 0),
            1 => (State::Addressing, self.time(plan.patience)),
            2 => (State::Connecting, self.time(plan.patience)),
            3 => (
                State::Writing(self.below(plan.writes + 1)),
                self.time(plan.patience),
            ),
            4 => (State::Ending, self.time(plan.patience)),
            5 => (State::Waiting, self.time(plan.waiting)),
            6 => (State::Exchanging, self.time(plan.hold)),
            _ => (State::Ended, self.time(plan.pause)),
        }
    }

    fn world(&mut self, plan: &Plan) -> World {
        let (state, left) = self.state(plan);
        let link = self.link(plan);
        World {
            addressed: self.is(),
            link,
            kept: (8..11)
                .filter(|_| self.is())
                .map(|run| (run, run as u32 % (plan.writes + 3), run % 2 == 0))
                .collect(),
            number: 10,
            state,
            left,
            again: self.time(plan.repeat),
            asked: state == State::Looking || self.is(),
            to_device: (0..self.below(4)).map(|_| self.to_device(plan)).collect(),
            to_controller: (0..self.below(4))
                .map(|_| self.to_controller(plan))
                .collect(),
            outputs: self.is(),
            inputs: self.is(),
        }
    }
}

/// After how many rounds both exchange data, or None past a limit.
fn rounds(mut world: World, plan: &Plan, limit: u64) -> Option<u64> {
    for number in 0..=limit {
        if world.exchanges() {
            return Some(number);
        }
        world.round(plan);
    }
    None
}

#[test]
fn a_start_takes_exactly_its_limit() {
    let mut numbers = Numbers(1);
    for _ in 0..2_000 {
        let plan = numbers.plan();
        let mut world = numbers.world(&plan);
        (
            world.addressed,
            world.link,
            world.state,
            world.asked,
            world.outputs,
        ) = (false, None, State::Looking, true, false);
        (world.kept, world.to_device, world.to_controller) =
            (vec![], vec![ToDevice::Identify], vec![]);
        assert_eq!(rounds(world, &plan, 1_000), Some(start_up_limit(plan)));
    }
}

#[test]
fn no_state_takes_more_than_its_limit() {
    let mut numbers = Numbers(2);
    let mut longest = 0;
    for _ in 0..300_000 {
        let plan = numbers.plan();
        let world = numbers.world(&plan);
        let taken = rounds(world.clone(), &plan, comeback_limit(plan));
        let Some(taken) = taken else {
            panic!("{plan:?} {world:?}")
        };
        longest = longest.max(taken);
    }
    assert!(longest > 25);
}
