//! A device: its settings, the answers that it keeps, and its relation.
use super::alarms::{Alarms, Number, Tick};
use super::cyclic::Cyclic;
use super::said::{Call, Pdu, Priority, Says, hex, listed};
use super::{ACTIVITY, NEVER, NONE, PLANNED, Plant, Record, SECOND, Setting};

/// A device keeps the last answers of this number of callers.
const MOST_CALLERS: usize = 4;

/// A relation keeps this number of records.
const MOST_RECORDS: usize = 64;

/// Parameter records, which can be written and not read, and I&M0, which can be read and not written.
const PARAMETERS: [u16; 2] = [1, 2];
const IM0: u16 = 0xAFF0;

/// This number of changes of diagnosis may wait.
const MOST_CHANGES: usize = 32;

/// BlockErrors: a relation exists, and a commit failed.
const IN_OPERATION: u8 = 6;
const NOT_SET: u8 = 5;

/// Reasons of an ERR: the data hold time is over, the activity timer, and repeats of an alarm.
pub const SILENCE: u8 = 5;
pub const INACTIVE: u8 = 6;
pub const SPENT: u8 = 13;

/// The phase of a relation.
#[derive(Clone, Copy, Debug, PartialEq)]
pub enum Phase {
    Started,
    Preparing,
    Awaiting,
    Exchanging,
}

/// A relation.
#[derive(Clone)]
pub struct Link {
    pub phase: Phase,
    pub owner: u32,
    pub records: Vec<Record>,
    cyclic: Cyclic,
    high: Alarms,
    low: Alarms,
    /// The alarm of high priority whose AlarmAck did not come, and the change of diagnosis.
    alarm: Option<Pdu>,
    report: Option<Pdu>,
    /// How many alarms of each priority there were.
    alarms: u16,
    reports: u16,
    changes: Vec<(u16, bool)>,
    input: [u8; 2],
    is_input_awaited: bool,
    shows: [[u8; 2]; 2],
    accepted: u32,
    inactive: u32,
    waited: u32,
}

/// What an armed flash does with a later Set.
#[derive(Clone, Copy, Debug, PartialEq)]
pub enum Armed {
    Cut,
    Fault,
}

/// A device.
#[derive(Clone)]
pub struct Device {
    setting: Setting,
    pub is_on: bool,
    units: u64,
    pub suite: [u8; 4],
    /// The addresses of which one is found at the next start.
    pub stored: Vec<[u8; 4]>,
    pub armed: Option<Armed>,
    pub has_failed: bool,
    /// The last answers: of which caller, to which number, and whether it is done.
    kept: Vec<(u32, u32, bool)>,
    /// The numbers of the Writes of this relation that were served, and how many of them were served again.
    writes: Vec<u32>,
    pub served_again: u64,
    pub link: Option<Link>,
    is_bad: bool,
    diagnoses: Vec<u16>,
}

/// Whether an answer is kept, and what follows it.
type Served = (bool, Vec<Says>);

impl Device {
    pub fn new(setting: &Setting) -> Device {
        Device {
            setting: setting.clone(),
            is_on: true,
            units: 0,
            suite: NONE,
            stored: vec![NONE],
            armed: None,
            has_failed: false,
            kept: Vec::new(),
            writes: Vec::new(),
            served_again: 0,
            link: None,
            is_bad: false,
            diagnoses: Vec::new(),
        }
    }

    /// Power comes back: all but the settings, and an order to the flash, begins again.
    pub fn start(&mut self, suite: [u8; 4]) {
        let (armed, served_again) = (self.armed, self.served_again);
        *self = Device { suite, stored: vec![suite], armed, served_again, ..Device::new(&self.setting) };
    }

    /// The number of the controller of its relation; 0 without one.
    pub fn owner(&self) -> u32 {
        self.link.as_ref().filter(|_| self.is_on).map_or(0, |link| link.owner)
    }

    /// The phase of its relation.
    pub fn phase(&self) -> Option<Phase> {
        self.link.as_ref().filter(|_| self.is_on).map(|link| link.phase)
    }

    /// How many frames of outputs counted in its relation.
    pub fn accepted(&self) -> u32 {
        self.link.as_ref().map_or(0, |link| link.accepted)
    }

    /// What it shows.
    pub fn seen(&self) -> String {
        if !self.is_on {
            return String::from("off");
        }
        let phase = match self.phase() {
            None => "none",
            Some(Phase::Started) => "started",
            Some(Phase::Preparing) => "preparing",
            Some(Phase::Awaiting) => "awaiting",
            Some(Phase::Exchanging) => "exchanging",
        };
        let (records, [first, second]) =
            self.link.as_ref().map_or((String::new(), [[0; 2]; 2]), |link| (listed(&link.records, " "), link.shows));
        let diagnoses: Vec<String> = self.diagnoses.iter().map(u16::to_string).collect();
        format!(
            "{phase}#{} [{records}] {} {} {} {} [{}]",
            self.owner(),
            hex(&first),
            hex(&second),
            hex(&self.suite),
            if self.has_failed { "failed" } else { "stores" },
            diagnoses.join(" ")
        )
    }

    /// A Set of an address, which leaves `kept` in the flash: its BlockError, or none if power is lost. `is_struck` says whether an armed
    /// call of the flash fails in it.
    pub fn store(&mut self, suite: [u8; 4], kept: [u8; 4], is_struck: bool) -> Option<u8> {
        if self.link.is_some() {
            return Some(IN_OPERATION);
        }
        if self.has_failed {
            return Some(NOT_SET);
        }
        if is_struck && let Some(armed) = self.armed.take() {
            self.is_on = armed == Armed::Fault;
            self.has_failed = true;
            self.stored.push(kept);
            return self.is_on.then_some(NOT_SET);
        }
        self.suite = suite;
        self.stored = vec![kept];
        Some(0)
    }

    /// A call: the last one of its caller has its answer again, an earlier one has none.
    fn call(&mut self, call: &Call, whose: u32, number: u32) -> Vec<Says> {
        if self.suite != PLANNED {
            return Vec::new();
        }
        if let Some(place) = self.kept.iter().position(|kept| kept.0 == whose) {
            let (_, last, is_done) = self.kept[place];
            if number <= last {
                return if number == last { vec![Says::Answer(is_done, whose, number)] } else { Vec::new() };
            }
            self.kept.remove(place);
        }
        let (is_done, more) = self.serve(call, whose);
        if is_done && matches!(call, Call::Write(_)) {
            self.served_again += u64::from(self.writes.contains(&number));
            self.writes.push(number);
        }
        self.kept.insert(0, (whose, number, is_done));
        self.kept.truncate(MOST_CALLERS);
        [vec![Says::Answer(is_done, whose, number)], more].concat()
    }

    fn serve(&mut self, call: &Call, whose: u32) -> Served {
        if *call == Call::Connect {
            return (self.connect(whose), Vec::new());
        }
        let by_application = self.setting.by_application;
        let Some(link) = self.link.as_mut().filter(|link| link.owner == whose) else {
            return (false, Vec::new());
        };
        match call {
            Call::Write(records) => (link.write(records, self.setting.passes_on), Vec::new()),
            Call::Read(index) => (link.read(*index), Vec::new()),
            Call::End => link.end_parameters(by_application),
            Call::Release => {
                self.link = None;
                (true, Vec::new())
            }
            Call::Connect => (false, Vec::new()),
        }
    }

    fn connect(&mut self, owner: u32) -> bool {
        if self.link.is_some() {
            return false;
        }
        self.writes.clear();
        self.link = Some(Link {
            phase: Phase::Started,
            owner,
            records: Vec::new(),
            cyclic: Cyclic::new(&self.setting),
            high: Alarms::default(),
            low: Alarms::default(),
            alarm: None,
            report: None,
            alarms: 0,
            reports: 0,
            changes: Vec::new(),
            input: [0; 2],
            is_input_awaited: self.setting.by_application,
            shows: [[0; 2]; 2],
            accepted: 0,
            inactive: 0,
            waited: 0,
        });
        true
    }

    /// The application says that it is ready.
    pub fn get_ready(&mut self) -> Vec<Says> {
        match self.link.as_mut().filter(|link| self.is_on && link.phase == Phase::Preparing) {
            Some(link) => {
                link.phase = Phase::Awaiting;
                link.waited = 0;
                vec![Says::Ready(link.owner)]
            }
            None => Vec::new(),
        }
    }

    /// A frame comes. `is_partner` says whether it is of the relation that the device has, by its station and by its numbers.
    pub fn hear(&mut self, says: &Says, is_partner: bool, is_struck: bool) -> Vec<Says> {
        if !self.is_on {
            return Vec::new();
        }
        match says {
            Says::Identify if self.setting.plant == Plant::Renamed => Vec::new(),
            Says::Identify => vec![Says::Found(self.suite, false)],
            Says::Set => self.store(PLANNED, NONE, is_struck).map(Says::Done).into_iter().collect(),
            Says::Call(call, whose, number) => self.call(call, *whose, *number),
            Says::Confirm(whose) => self.confirm(*whose),
            Says::Error(_) if is_partner => {
                self.link = None;
                Vec::new()
            }
            _ => match self.link.as_mut().filter(|_| is_partner) {
                Some(link) => link.hear(says),
                None => Vec::new(),
            },
        }
    }

    fn confirm(&mut self, whose: u32) -> Vec<Says> {
        let is_served = self.suite == PLANNED;
        match self.link.as_mut().filter(|link| is_served && link.owner == whose && link.phase == Phase::Awaiting) {
            Some(link) => {
                link.phase = Phase::Exchanging;
                link.cyclic.begin();
                link.changes = self.diagnoses.iter().map(|channel| (*channel, true)).collect();
                link.report_next()
            }
            None => Vec::new(),
        }
    }

    /// The application raises an alarm.
    pub fn raise(&mut self, value: [u8; 2]) -> Vec<Says> {
        match self.link.as_mut().filter(|link| self.is_on && link.phase == Phase::Exchanging && link.alarm.is_none()) {
            Some(link) => {
                let alarm = Pdu::Alarm(link.alarms, value);
                link.alarms += 1;
                link.alarm = Some(alarm);
                link.high.send();
                vec![link.high.pdu(Priority::High, alarm)]
            }
            None => Vec::new(),
        }
    }

    /// A diagnosis of a channel appears or disappears.
    pub fn change(&mut self, channel: u16, appears: bool) -> Vec<Says> {
        let is_full = self.link.as_ref().is_some_and(|link| link.phase == Phase::Exchanging && link.changes.len() >= MOST_CHANGES);
        if !self.is_on || is_full || appears == self.diagnoses.contains(&channel) {
            return Vec::new();
        }
        if appears {
            self.diagnoses.push(channel);
        } else {
            self.diagnoses.retain(|other| *other != channel);
        }
        match self.link.as_mut().filter(|link| link.phase == Phase::Exchanging) {
            Some(link) => {
                link.changes.push((channel, appears));
                link.report_next()
            }
            None => Vec::new(),
        }
    }

    /// The application sets its input.
    pub fn give(&mut self, value: [u8; 2]) {
        if let Some(link) = self.link.as_mut().filter(|_| self.is_on) {
            link.input = value;
            link.is_input_awaited = false;
        }
    }

    /// The application says whether its input is good.
    pub fn rate(&mut self, is_good: bool) {
        if self.is_on {
            self.is_bad = !is_good;
        }
    }

    /// The units up to the next one that brings something.
    pub fn due(&self) -> u32 {
        self.link.as_ref().filter(|_| self.is_on).map_or(NEVER, Link::due)
    }

    /// Units that bring nothing.
    pub fn pass(&mut self, units: u32) {
        self.units += u64::from(units);
        if let Some(link) = &mut self.link {
            link.pass(units);
        }
    }

    /// A unit.
    pub fn tick(&mut self) -> Vec<Says> {
        self.units += 1;
        let Some(link) = &mut self.link else {
            return Vec::new();
        };
        let (counter, has_problem) = (self.units as u16, !self.diagnoses.is_empty());
        match link.tick() {
            Ok((mut frames, is_due)) => {
                if is_due {
                    frames.push(Says::Inputs(counter, link.input, !link.is_input_awaited && !self.is_bad, has_problem));
                }
                frames
            }
            Err(reason) => {
                self.link = None;
                vec![Says::Error(reason)]
            }
        }
    }
}

impl Link {
    /// A list of records is done also if a record of it is refused. What is done shows that the controller is there.
    fn write(&mut self, records: &[Record], passes_on: bool) -> bool {
        let mut is_done = records.len() > 1;
        let is_kept = !(passes_on && self.phase == Phase::Exchanging);
        for record in records {
            let has_room = !is_kept || self.records.len() < MOST_RECORDS;
            let is_accepted = has_room && PARAMETERS.contains(&record.0);
            self.records.extend(Some(record.clone()).filter(|_| is_accepted && is_kept));
            is_done = is_done || is_accepted;
        }
        self.inactive = if is_done { 0 } else { self.inactive };
        is_done
    }

    fn read(&mut self, index: u16) -> bool {
        self.inactive = if index == IM0 { 0 } else { self.inactive };
        index == IM0
    }

    fn end_parameters(&mut self, by_application: bool) -> Served {
        if self.phase != Phase::Started {
            return (false, Vec::new());
        }
        (self.inactive, self.waited) = (0, 0);
        self.phase = if by_application { Phase::Preparing } else { Phase::Awaiting };
        (true, if by_application { Vec::new() } else { vec![Says::Ready(self.owner)] })
    }

    fn hear(&mut self, says: &Says) -> Vec<Says> {
        match says {
            Says::Outputs(counter, values) => {
                if self.cyclic.accept(*counter) {
                    self.accepted += 1;
                    self.shows = values.map(|(value, is_good)| if is_good { value } else { [0; 2] });
                }
                Vec::new()
            }
            Says::Alarm(priority, pdu, sent, accepted) => self.hear_alarm(*priority, *pdu, *sent, *accepted),
            _ => Vec::new(),
        }
    }

    /// Under the FrameID of low priority nothing is of low priority before data of low priority was sent.
    fn hear_alarm(&mut self, priority: Priority, pdu: Pdu, number: u16, accepted: u16) -> Vec<Says> {
        let has_reported = self.low.sent.is_some();
        match (priority, pdu) {
            (Priority::High, Pdu::Taken(specifier)) => vec![self.hear_taken(number, specifier)],
            (Priority::Low, Pdu::Taken(specifier)) if has_reported => self.hear_report_taken(number, specifier),
            (Priority::Low, Pdu::Ack) if has_reported => {
                self.low.hear_ack(accepted);
                Vec::new()
            }
            (_, Pdu::Ack) => {
                self.high.hear_ack(accepted);
                Vec::new()
            }
            _ => Vec::new(),
        }
    }

    fn hear_taken(&mut self, number: u16, specifier: u16) -> Says {
        let number = self.high.accept(number);
        if number == Number::Next && matches!(self.alarm, Some(Pdu::Alarm(own, _)) if own == specifier) {
            self.alarm = None;
            self.high.stop();
        }
        self.high.reply(Priority::High, number)
    }

    fn hear_report_taken(&mut self, number: u16, specifier: u16) -> Vec<Says> {
        let number = self.low.accept(number);
        if number == Number::Next && matches!(self.report, Some(Pdu::Report(own, ..)) if own == specifier) {
            self.report = None;
            self.low.stop();
        }
        [vec![self.low.reply(Priority::Low, number)], self.report_next()].concat()
    }

    fn report_next(&mut self) -> Vec<Says> {
        if self.changes.is_empty() || self.report.is_some() {
            return Vec::new();
        }
        let (channel, appears) = self.changes.remove(0);
        let report = Pdu::Report(self.reports, channel, appears);
        self.reports += 1;
        self.report = Some(report);
        self.low.send();
        vec![self.low.pdu(Priority::Low, report)]
    }

    fn due(&self) -> u32 {
        let due = self.cyclic.due().min(self.high.due()).min(self.low.due());
        match self.phase {
            Phase::Exchanging => due,
            Phase::Awaiting => due.min(self.until_inactive()).min(SECOND - self.waited),
            Phase::Started | Phase::Preparing => due.min(self.until_inactive()),
        }
    }

    fn until_inactive(&self) -> u32 {
        ACTIVITY.saturating_sub(self.inactive).max(1)
    }

    fn pass(&mut self, units: u32) {
        self.cyclic.pass(units);
        self.high.pass(units);
        self.low.pass(units);
        self.inactive += if self.phase == Phase::Exchanging { 0 } else { units };
        self.waited += if self.phase == Phase::Awaiting { units } else { 0 };
    }

    /// A unit: what is sent, and whether inputs are due; or why the relation ends.
    fn tick(&mut self) -> Result<(Vec<Says>, bool), u8> {
        let (high, low) = (self.high.tick(), self.low.tick());
        let (is_due, is_silent) = self.cyclic.tick();
        if is_silent {
            return Err(SILENCE);
        }
        if high == Tick::Spent || low == Tick::Spent {
            return Err(SPENT);
        }
        self.inactive += u32::from(self.phase != Phase::Exchanging);
        if self.phase != Phase::Exchanging && self.inactive >= ACTIVITY {
            return Err(INACTIVE);
        }
        let mut frames = Vec::new();
        frames.extend(self.alarm.filter(|_| high == Tick::Again).map(|alarm| self.high.pdu(Priority::High, alarm)));
        frames.extend(self.report.filter(|_| low == Tick::Again).map(|report| self.low.pdu(Priority::Low, report)));
        if self.phase == Phase::Awaiting {
            self.waited = (self.waited + 1) % SECOND;
            if self.waited == 0 {
                frames.push(Says::Ready(self.owner));
            }
        }
        Ok((frames, is_due))
    }
}
