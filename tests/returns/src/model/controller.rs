//! A controller: the states of its start, its relation, and the requests of its application.
use super::alarms::{Alarms, Number, Tick};
use super::cyclic::Cyclic;
use super::device::{SILENCE, SPENT};
use super::said::{Call, Pdu, Priority, Says, hex};
use super::{NEVER, PLANNED, Plant, SECOND, Setting};

/// The state of a controller.
#[derive(Clone, Copy, Debug, PartialEq)]
pub enum State {
    Looking,
    Addressing,
    Connecting,
    Writing,
    Ending,
    Waiting,
    Exchanging,
    Ended(Cause),
}

/// Why a controller ended.
#[derive(Clone, Copy, Debug, PartialEq)]
pub enum Cause {
    Wrong,
    Refused,
    Modules,
    Silence,
    Aborted,
    Alarm,
    Stopped,
    Patience,
}

/// A controller.
#[derive(Clone)]
pub struct Controller {
    setting: Setting,
    pub number: u32,
    units: u64,
    pub state: State,
    /// The request that is sent again each second, and the units since it was sent last.
    asked: Option<Says>,
    waited: u32,
    /// For how long this state still lasts; 0 without a limit.
    left: u32,
    /// The units since its end.
    pub rest: u32,
    /// Whether the device accepted its Connect, and the relation did not end.
    is_related: bool,
    cyclic: Cyclic,
    high: Alarms,
    low: Alarms,
    /// The AlarmSpecifier of the last AlarmAck of each priority.
    taken: u16,
    report_taken: u16,
    alarm: Option<[u8; 2]>,
    value: [u8; 2],
    pub diagnoses: Vec<u16>,
    gives: [[u8; 2]; 2],
    is_given: [bool; 2],
    is_bad: [bool; 2],
    /// How many records the application asked for, the one that waits, and how the last one was answered.
    requests: u32,
    waiting: Option<u32>,
    answer: Option<(bool, u32)>,
}

/// Data of the partner that counts, of which an earlier relation may have been.
pub enum Accepted {
    Nothing,
    Inputs,
    Alarm,
    Report,
}

impl Controller {
    pub fn new(setting: &Setting, number: u32) -> Controller {
        Controller {
            setting: setting.clone(),
            number,
            units: 0,
            state: State::Looking,
            asked: Some(Says::Identify),
            waited: 0,
            left: 0,
            rest: 0,
            is_related: false,
            cyclic: Cyclic::new(setting),
            high: Alarms::default(),
            low: Alarms::default(),
            taken: 0,
            report_taken: 0,
            alarm: None,
            value: [0; 2],
            diagnoses: Vec::new(),
            gives: [[0; 2]; 2],
            is_given: [false; 2],
            is_bad: [false; 2],
            requests: 0,
            waiting: None,
            answer: None,
        }
    }

    pub fn is_ended(&self) -> bool {
        matches!(self.state, State::Ended(_))
    }

    /// What it shows.
    pub fn seen(&self) -> String {
        let number = |number: Option<u16>| number.map_or(String::from("-"), |number| number.to_string());
        let diagnoses: Vec<String> = self.diagnoses.iter().map(u16::to_string).collect();
        format!(
            "{}#{} {} {}:{} {} [{}] {} {}:{}",
            self.state.name(),
            self.number,
            hex(&self.value),
            number(self.high.accepted),
            self.alarm.map_or(String::from("-"), |value| hex(&value)),
            number(self.low.accepted),
            diagnoses.join(" "),
            self.left,
            self.waiting.map_or(String::from("-"), |number| number.to_string()),
            self.answer.map_or(String::from("-"), |(is_done, number)| format!("{}{number}", if is_done { "yes" } else { "no" })),
        )
    }

    /// For how long a state lasts at most; 0 without a limit.
    fn patience(&self, state: State) -> u32 {
        match state {
            State::Waiting => self.setting.waiting_patience,
            State::Addressing | State::Connecting | State::Writing | State::Ending => self.setting.patience,
            State::Looking | State::Exchanging | State::Ended(_) => 0,
        }
    }

    /// Asks, in this state. All Writes share the time of the first one.
    fn ask(&mut self, state: State, request: Says) -> Vec<Says> {
        if !(state == State::Writing && self.state == State::Writing) {
            self.left = self.patience(state);
        }
        (self.state, self.waited) = (state, 0);
        self.asked = Some(request.clone());
        vec![request]
    }

    fn ask_call(&mut self, state: State, call: Call, number: u32) -> Vec<Says> {
        let whose = self.number;
        self.ask(state, Says::Call(call, whose, number))
    }

    fn connect(&mut self) -> Vec<Says> {
        self.ask_call(State::Connecting, Call::Connect, 0)
    }

    /// What follows the Connect, or the Write with this number.
    fn parameterize(&mut self, number: u32) -> Vec<Says> {
        match self.setting.writes.get(number as usize) {
            Some(records) => {
                let records = records.clone();
                self.ask_call(State::Writing, Call::Write(records), number + 1)
            }
            None => self.ask_call(State::Ending, Call::End, self.end_number()),
        }
    }

    /// The number of PrmEnd: the Connect has 0, and each Write one.
    fn end_number(&self) -> u32 {
        self.setting.writes.len() as u32 + 1
    }

    fn end(&mut self, cause: Cause) {
        (self.state, self.asked, self.waited, self.left) = (State::Ended(cause), None, 0, 0);
        (self.is_related, self.waiting) = (false, None);
        self.cyclic = Cyclic::new(&self.setting);
        (self.value, self.diagnoses) = ([0; 2], Vec::new());
    }

    /// Ends by itself: a device that may have its Connect is asked to release the relation.
    pub fn quit(&mut self, cause: Cause) -> Vec<Says> {
        let number = match (self.state, &self.asked) {
            (State::Ended(_), _) => return Vec::new(),
            (State::Looking | State::Addressing, _) => {
                self.end(cause);
                return Vec::new();
            }
            (_, Some(Says::Call(Call::Connect | Call::Write(_), _, number))) => number + 1,
            _ => self.end_number() + self.requests + 1,
        };
        self.end(cause);
        self.ask_call(self.state, Call::Release, number)
    }

    /// The application sets the output of a submodule.
    pub fn give(&mut self, place: usize, value: [u8; 2]) {
        self.gives[place] = value;
        self.is_given[place] = true;
    }

    /// The application says whether an output is good.
    pub fn rate(&mut self, place: usize, is_good: bool) {
        self.is_bad[place] = !is_good;
    }

    /// The application reads or writes a record: one at a time, and while data is exchanged.
    pub fn request(&mut self, call: Call) -> Vec<Says> {
        if self.state != State::Exchanging || self.waiting.is_some() {
            return Vec::new();
        }
        self.requests += 1;
        let number = self.end_number() + self.requests;
        let request = Says::Call(call, self.number, number);
        (self.waiting, self.answer, self.waited) = (Some(number), None, 0);
        self.asked = Some(request.clone());
        vec![request]
    }

    /// A frame comes. `is_partner` says whether it is of this relation, by its numbers.
    pub fn hear(&mut self, says: &Says, is_partner: bool) -> (Vec<Says>, Accepted) {
        let frames = match says {
            Says::Found(address, is_other) => self.find(*address, *is_other),
            Says::Done(error) => self.set(*error),
            Says::Answer(is_done, whose, number) if *whose == self.number => self.answer(*is_done, *number),
            Says::Ready(whose) if *whose == self.number => self.ready(),
            Says::Inputs(..) | Says::Alarm(..) | Says::Error(_) if self.is_related && is_partner => return self.hear_within(says),
            _ => Vec::new(),
        };
        (frames, Accepted::Nothing)
    }

    fn find(&mut self, address: [u8; 4], is_other: bool) -> Vec<Says> {
        if self.state != State::Looking {
            return Vec::new();
        }
        if is_other {
            self.end(Cause::Wrong);
            return Vec::new();
        }
        if address == PLANNED { self.connect() } else { self.ask(State::Addressing, Says::Set) }
    }

    fn set(&mut self, error: u8) -> Vec<Says> {
        match (self.state, error) {
            (State::Addressing, 0) => self.connect(),
            (State::Addressing, _) => {
                self.end(Cause::Refused);
                Vec::new()
            }
            _ => Vec::new(),
        }
    }

    fn answer(&mut self, is_done: bool, number: u32) -> Vec<Says> {
        let Some(Says::Call(call, _, asked)) = self.asked.clone() else {
            return Vec::new();
        };
        if asked != number {
            return Vec::new();
        }
        if self.waiting == Some(number) {
            (self.waiting, self.asked, self.answer) = (None, None, Some((is_done, number)));
            return Vec::new();
        }
        match call {
            Call::Release => {
                self.asked = None;
                Vec::new()
            }
            _ if !is_done => {
                self.end(Cause::Refused);
                Vec::new()
            }
            Call::End => {
                (self.state, self.asked, self.left) = (State::Waiting, None, self.setting.waiting_patience);
                Vec::new()
            }
            Call::Connect if self.setting.plant == Plant::Wrong => {
                self.end(Cause::Modules);
                self.ask_call(self.state, Call::Release, 1)
            }
            Call::Connect => {
                self.is_related = true;
                self.cyclic.open();
                self.parameterize(0)
            }
            Call::Write(_) | Call::Read(_) => self.parameterize(number),
        }
    }

    fn ready(&mut self) -> Vec<Says> {
        if !matches!(self.state, State::Ending | State::Waiting | State::Exchanging) {
            return Vec::new();
        }
        if self.state != State::Exchanging {
            (self.state, self.asked, self.left) = (State::Exchanging, None, 0);
            self.cyclic.begin();
        }
        vec![Says::Confirm(self.number)]
    }

    fn hear_within(&mut self, says: &Says) -> (Vec<Says>, Accepted) {
        match says {
            Says::Inputs(counter, value, is_good, _) if self.cyclic.accept(*counter) => {
                self.value = if *is_good { *value } else { [0; 2] };
                (Vec::new(), Accepted::Inputs)
            }
            Says::Alarm(_, Pdu::Alarm(specifier, value), number, _) => self.take(*specifier, *value, *number),
            Says::Alarm(_, Pdu::Report(specifier, channel, appears), number, _) => {
                self.take_report(*specifier, *channel, *appears, *number)
            }
            Says::Alarm(priority, Pdu::Ack, _, accepted) => {
                let is_low = *priority == Priority::Low && self.low.sent.is_some();
                if is_low {
                    self.low.hear_ack(*accepted)
                } else {
                    self.high.hear_ack(*accepted)
                }
                (Vec::new(), Accepted::Nothing)
            }
            Says::Error(_) => {
                self.end(Cause::Aborted);
                (Vec::new(), Accepted::Nothing)
            }
            _ => (Vec::new(), Accepted::Nothing),
        }
    }

    fn take(&mut self, specifier: u16, value: [u8; 2], number: u16) -> (Vec<Says>, Accepted) {
        let number = self.high.accept(number);
        let reply = self.high.reply(Priority::High, number);
        if number != Number::Next {
            return (vec![reply], Accepted::Nothing);
        }
        (self.alarm, self.taken) = (Some(value), specifier);
        self.high.send();
        (vec![reply, self.high.pdu(Priority::High, Pdu::Taken(specifier))], Accepted::Alarm)
    }

    fn take_report(&mut self, specifier: u16, channel: u16, appears: bool, number: u16) -> (Vec<Says>, Accepted) {
        let number = self.low.accept(number);
        let reply = self.low.reply(Priority::Low, number);
        if number != Number::Next {
            return (vec![reply], Accepted::Nothing);
        }
        let is_known = self.diagnoses.contains(&channel);
        if appears && !is_known {
            self.diagnoses.push(channel);
        } else if !appears {
            self.diagnoses.retain(|other| *other != channel);
        }
        self.report_taken = specifier;
        self.low.send();
        (vec![reply, self.low.pdu(Priority::Low, Pdu::Taken(specifier))], Accepted::Report)
    }

    /// The units up to the next one that brings something.
    pub fn due(&self) -> u32 {
        let left = if self.left == 0 { NEVER } else { self.left };
        let due = if self.asked.is_some() { left.min(SECOND - self.waited) } else { left };
        if self.is_related { due.min(self.cyclic.due()).min(self.high.due()).min(self.low.due()) } else { due }
    }

    /// Units that bring nothing.
    pub fn pass(&mut self, units: u32) {
        self.units += u64::from(units);
        self.waited = (self.waited + units) % SECOND;
        self.left = self.left.saturating_sub(units);
        if self.is_related {
            self.cyclic.pass(units);
            self.high.pass(units);
            self.low.pass(units);
        }
    }

    /// A unit.
    pub fn tick(&mut self) -> Vec<Says> {
        let is_over = self.left == 1;
        self.units += 1;
        self.left = self.left.saturating_sub(1);
        self.waited = (self.waited + 1) % SECOND;
        if is_over {
            return self.quit(Cause::Patience);
        }
        let again = self.asked.clone().filter(|_| self.waited == 0);
        if !self.is_related {
            return again.into_iter().collect();
        }
        let (high, low) = (self.high.tick(), self.low.tick());
        let (is_due, is_silent) = self.cyclic.tick();
        if is_silent {
            self.end(Cause::Silence);
            return vec![Says::Error(SILENCE)];
        }
        if high == Tick::Spent || low == Tick::Spent {
            self.end(Cause::Alarm);
            return vec![Says::Error(SPENT)];
        }
        let mut frames = Vec::new();
        if high == Tick::Again {
            frames.push(self.high.pdu(Priority::High, Pdu::Taken(self.taken)));
        }
        if low == Tick::Again {
            frames.push(self.low.pdu(Priority::Low, Pdu::Taken(self.report_taken)));
        }
        frames.extend(again);
        if is_due {
            let output = |place: usize| (self.gives[place], self.is_given[place] && !self.is_bad[place]);
            frames.push(Says::Outputs(self.units as u16, [output(0), output(1)]));
        }
        frames
    }
}

impl State {
    /// Its name.
    pub fn name(self) -> &'static str {
        match self {
            State::Looking => "looking",
            State::Addressing => "addressing",
            State::Connecting => "connecting",
            State::Writing => "writing",
            State::Ending => "ending",
            State::Waiting => "waiting",
            State::Exchanging => "exchanging",
            State::Ended(Cause::Wrong) => "ended:wrong",
            State::Ended(Cause::Refused) => "ended:refused",
            State::Ended(Cause::Modules) => "ended:modules",
            State::Ended(Cause::Silence) => "ended:silence",
            State::Ended(Cause::Aborted) => "ended:aborted",
            State::Ended(Cause::Alarm) => "ended:alarm",
            State::Ended(Cause::Stopped) => "ended:stopped",
            State::Ended(Cause::Patience) => "ended:patience",
        }
    }
}
