//! A model of the small world.

use super::Plan;

#[derive(Clone, Copy, PartialEq, Debug)]
pub enum Ask {
    Connect,
    Write(u32),
    PrmEnd,
    Release,
}

#[derive(Clone, Copy, Debug)]
pub enum ToDevice {
    Identify,
    Address,
    Call(u64, Ask),
    Confirm(u64),
    Abort,
}

#[derive(Clone, Copy, Debug)]
pub enum ToController {
    Found(bool),
    Addressed(bool),
    Answer(u64, Ask, bool),
    Ready(u64),
    Abort,
}

#[derive(Clone, Copy, PartialEq, Debug)]
pub enum Phase {
    Started,
    Awaiting,
    Exchanging,
}

#[derive(Clone, Copy, Debug)]
pub struct Link {
    pub number: u64,
    pub phase: Phase,
    pub left: u32,
    pub again: u32,
}

#[derive(Clone, Copy, PartialEq, Debug)]
pub enum State {
    Looking,
    Addressing,
    Connecting,
    Writing(u32),
    Ending,
    Waiting,
    Exchanging,
    Ended,
}

#[derive(Clone, Debug)]
pub struct World {
    pub addressed: bool,
    pub link: Option<Link>,
    pub kept: Vec<(u64, u32, bool)>,
    pub number: u64,
    pub state: State,
    pub left: u32,
    pub again: u32,
    pub asked: bool,
    pub to_device: Vec<ToDevice>,
    pub to_controller: Vec<ToController>,
    pub outputs: bool,
    pub inputs: bool,
}

impl World {
    pub fn exchanges(&self) -> bool {
        self.state == State::Exchanging
            && self
                .link
                .is_some_and(|link| link.phase == Phase::Exchanging)
    }

    /// All that is under way comes to the device, and then, with its answers, to the controller; then a unit passes.
    pub fn round(&mut self, plan: &Plan) {
        let mut answers = std::mem::take(&mut self.to_controller);
        for message in std::mem::take(&mut self.to_device) {
            self.device_hears(plan, message, &mut answers);
        }
        if let Some(link) = self
            .link
            .as_mut()
            .filter(|link| self.outputs && link.phase == Phase::Exchanging)
        {
            link.left = plan.hold;
        }
        for message in answers {
            self.controller_hears(plan, message);
        }
        if self.inputs && self.state == State::Exchanging {
            self.left = plan.hold;
        }
        self.device_passes(plan);
        self.controller_passes(plan);
        self.inputs = self.link.is_some();
        self.outputs = matches!(
            self.state,
            State::Writing(_) | State::Ending | State::Waiting | State::Exchanging
        );
    }

    fn device_hears(&mut self, plan: &Plan, message: ToDevice, answers: &mut Vec<ToController>) {
        match message {
            ToDevice::Identify => answers.push(ToController::Found(self.addressed)),
            ToDevice::Address => {
                answers.push(ToController::Addressed(self.link.is_none()));
                self.addressed |= self.link.is_none();
            }
            ToDevice::Call(number, ask) if self.addressed => self.call(plan, number, ask, answers),
            ToDevice::Call(..) => {}
            ToDevice::Confirm(number) => {
                let waits =
                    |link: &&mut Link| link.number == number && link.phase == Phase::Awaiting;
                if let Some(link) = self.link.as_mut().filter(waits) {
                    link.phase = Phase::Exchanging;
                    link.left = plan.hold;
                }
            }
            ToDevice::Abort => self.link = None,
        }
    }

    fn call(&mut self, plan: &Plan, number: u64, ask: Ask, answers: &mut Vec<ToController>) {
        let sequence = match ask {
            Ask::Connect => 0,
            Ask::Write(k) => k + 1,
            Ask::PrmEnd => plan.writes + 1,
            Ask::Release => plan.writes + 2,
        };
        if let Some(kept) = self.kept.iter().find(|kept| kept.0 == number) {
            if kept.1 == sequence {
                answers.push(ToController::Answer(number, ask, kept.2));
            }
            if sequence <= kept.1 {
                return;
            }
        }
        let own = self.link.filter(|link| link.number == number);
        let done = match (ask, own) {
            (Ask::Connect, _) => self.link.is_none(),
            (Ask::PrmEnd, Some(link)) => link.phase == Phase::Started,
            (_, own) => own.is_some(),
        };
        answers.push(ToController::Answer(number, ask, done));
        self.kept.retain(|kept| kept.0 != number);
        self.kept.insert(0, (number, sequence, done));
        self.kept.truncate(4);
        match (done, ask, &mut self.link) {
            (true, Ask::Connect, link) => {
                *link = Some(Link {
                    number,
                    phase: Phase::Started,
                    left: plan.inactivity,
                    again: 0,
                })
            }
            (true, Ask::Release, link) => *link = None,
            (true, Ask::Write(_), Some(link)) if link.phase != Phase::Exchanging => {
                link.left = plan.inactivity
            }
            (true, Ask::PrmEnd, Some(link)) => {
                *link = Link {
                    number,
                    phase: Phase::Awaiting,
                    left: plan.inactivity,
                    again: plan.repeat,
                };
                answers.push(ToController::Ready(number));
            }
            _ => {}
        }
    }

    fn device_passes(&mut self, plan: &Plan) {
        let Some(link) = &mut self.link else { return };
        if link.left <= 1 {
            self.link = None;
            self.to_controller.push(ToController::Abort);
        } else {
            link.left -= 1;
            if link.phase == Phase::Awaiting && link.again <= 1 {
                link.again = plan.repeat;
                self.to_controller.push(ToController::Ready(link.number));
            } else {
                link.again = link.again.saturating_sub(1);
            }
        }
    }

    fn enter(&mut self, plan: &Plan, state: State) {
        if !matches!((self.state, state), (State::Writing(_), State::Writing(_))) {
            self.left = plan.patience;
        }
        (self.state, self.again, self.asked) = (state, plan.repeat, true);
        self.ask();
    }

    fn ask(&mut self) {
        self.to_device.push(match self.state {
            State::Looking => ToDevice::Identify,
            State::Addressing => ToDevice::Address,
            State::Connecting => ToDevice::Call(self.number, Ask::Connect),
            State::Writing(k) => ToDevice::Call(self.number, Ask::Write(k)),
            State::Ending => ToDevice::Call(self.number, Ask::PrmEnd),
            _ => ToDevice::Call(self.number, Ask::Release),
        });
    }

    fn end(&mut self, plan: &Plan) {
        (self.state, self.left, self.again, self.asked) =
            (State::Ended, plan.pause, plan.repeat, false);
    }

    fn goes_on(&mut self, plan: &Plan, done: bool, next: State) {
        if done {
            self.enter(plan, next)
        } else {
            self.end(plan)
        }
    }

    fn controller_hears(&mut self, plan: &Plan, message: ToController) {
        let next = |k: u32| {
            if k < plan.writes {
                State::Writing(k)
            } else {
                State::Ending
            }
        };
        match (message, self.state) {
            (ToController::Found(addressed), State::Looking) => self.enter(
                plan,
                if addressed {
                    State::Connecting
                } else {
                    State::Addressing
                },
            ),
            (ToController::Addressed(done), State::Addressing) => {
                self.goes_on(plan, done, State::Connecting)
            }
            (ToController::Answer(number, ask, done), state) if number == self.number => {
                match (ask, state) {
                    (Ask::Connect, State::Connecting) => self.goes_on(plan, done, next(0)),
                    (Ask::Write(j), State::Writing(k)) if j == k => {
                        self.goes_on(plan, done, next(k + 1))
                    }
                    (Ask::PrmEnd, State::Ending) if done => {
                        (self.state, self.left, self.again, self.asked) =
                            (State::Waiting, plan.waiting, 0, false)
                    }
                    (Ask::PrmEnd, State::Ending) => self.end(plan),
                    (Ask::Release, State::Ended) => self.asked = false,
                    _ => {}
                }
            }
            (ToController::Ready(number), State::Ending | State::Waiting | State::Exchanging)
                if number == self.number =>
            {
                if self.state != State::Exchanging {
                    (self.state, self.left, self.again, self.asked) =
                        (State::Exchanging, plan.hold, 0, false);
                }
                self.to_device.push(ToDevice::Confirm(number));
            }
            (
                ToController::Abort,
                State::Writing(_) | State::Ending | State::Waiting | State::Exchanging,
            ) => self.end(plan),
            _ => {}
        }
    }

    fn controller_passes(&mut self, plan: &Plan) {
        let limited = self.state != State::Looking;
        if limited && self.left <= 1 {
            let state = self.state;
            if state == State::Ended {
                (self.number, self.state, self.left, self.again, self.asked) =
                    (self.number + 1, State::Looking, 0, plan.repeat, true);
                return self.ask();
            }
            self.end(plan);
            match state {
                State::Exchanging => self.to_device.push(ToDevice::Abort),
                State::Addressing => {}
                _ => {
                    self.asked = true;
                    self.ask();
                }
            }
            return;
        }
        self.left = self.left.saturating_sub(u32::from(limited));
        if self.asked && self.state != State::Exchanging {
            if self.again <= 1 {
                self.again = plan.repeat;
                self.ask();
            } else {
                self.again -= 1;
            }
        }
    }
}
