//! A schedule beside the model: what both ends do with each move, and how long it takes until both exchange data again.
use crate::ends::PAUSE;
use crate::faults::Fault;
use crate::kinds::{limits_of, options_of, plan_of, setting_of};
use crate::model::{self, Plant, RIVAL, World};
use crate::schedule::{Line, Play, play};
use crate::strangers::Strangers;
use std::collections::{BTreeMap, BTreeSet, VecDeque};

/// What a difference is shown with: the moves before it.
const SHOWN: usize = 12;

/// What was counted, and the most units until both exchanged data, by what had happened since they did last.
#[derive(Clone, Debug, Default)]
pub struct Found {
    pub differences: Vec<String>,
    pub counts: BTreeMap<String, u64>,
    pub longest: BTreeMap<String, u64>,
}

impl Found {
    /// Counts this.
    pub fn count(&mut self, what: &str, number: u64) {
        if number > 0 {
            *self.counts.entry(String::from(what)).or_default() += number;
        }
    }

    fn keep_longest(&mut self, what: &str, units: u64) {
        let longest = self.longest.entry(String::from(what)).or_default();
        *longest = units.max(*longest);
    }

    /// What others found too.
    pub fn add(&mut self, other: Found) {
        self.differences.extend(other.differences);
        for (what, number) in other.counts {
            self.count(&what, number);
        }
        for (what, units) in other.longest {
            self.keep_longest(&what, units);
        }
    }
}

/// A schedule: a plan, what is different, and its seed.
#[derive(Clone, Debug)]
pub struct Job {
    pub plan: &'static str,
    pub words: String,
    pub seed: u64,
    pub moves: u64,
    pub fault: Option<Fault>,
}

/// What happened since both ends exchanged data last.
struct History {
    happened: BTreeSet<&'static str>,
}

impl History {
    fn note(&mut self, words: &[&str], world: &World) {
        let is_stranger = words[0] == "stranger";
        if matches!(words[0], "off" | "on") || !world.device.is_on {
            self.happened.insert("the device lost its power");
        }
        if matches!(words[0], "restart" | "stop") {
            self.happened.insert("a controller was stopped or made");
        }
        if is_stranger && world.device.owner() >= RIVAL {
            self.happened.insert("a rival had the device");
        }
        if world.are_exchanging() {
            self.happened.clear();
        }
    }

    fn kind(&self, is_start: bool, is_late: bool) -> String {
        let happened: Vec<&str> = self.happened.iter().copied().collect();
        let kind = match happened.join(" and ") {
            _ if is_start => String::from("a start"),
            none if none.is_empty() => String::from("frames were lost or late"),
            some => some,
        };
        if is_late { format!("late frames: {kind}") } else { kind }
    }
}

/// A schedule beside its model.
struct Judge {
    model: World,
    limits: (u64, u64),
    history: History,
    previous: VecDeque<String>,
    found: Found,
}

/// Plays a schedule. `strangers` are those of its plan.
pub fn played(job: &Job, text: &str, strangers: &mut Strangers) -> Found {
    let words: Vec<&str> = job.words.split(' ').collect();
    let (plan, setting, options) = (plan_of(text), setting_of(text, &words), options_of(&words, job.fault));
    let mut judge = Judge {
        limits: setting.limits(),
        model: World::new(&setting),
        history: History { happened: BTreeSet::new() },
        previous: VecDeque::new(),
        found: Found::default(),
    };
    let limits = limits_of(&plan, options.patience);
    let name = format!("{} {:?}, seed {}", job.plan, job.words, job.seed);
    if limits != judge.limits {
        judge.found.differences.push(format!("{name}: the limits are {limits:?} and not {:?}", judge.limits));
        return judge.found;
    }
    let one = Play { plan: text, options, seed: job.seed, moves: job.moves, interval: setting.interval };
    let is_right = play(one, strangers, |line| judge.look_at(line)).and_then(|()| judge.look_at_late());
    if let Err(difference) = is_right {
        judge.found.differences.push(format!("{name}: {difference}"));
    }
    judge.found.count("schedules", 1);
    judge.found
}

impl Judge {
    /// Compares a move.
    fn look_at(&mut self, line: &Line<'_>) -> Result<(), String> {
        let is_start = self.model.is_start() && line.made.starts_with("progress kept");
        let kind = self.history.kind(is_start, self.model.setting.is_late);
        let before = (self.model.device.owner(), self.model.device.is_on);
        let made = model::Made { said: line.said, address: line.address };
        let (wanted, back) = self.model.make(line.made, &made);
        let printed = format!("{} = {} = {}", line.made, line.said.join(" "), line.seen);
        let words: Vec<&str> = line.made.split(' ').collect();
        self.count(&words, before);
        if printed != wanted {
            return Err(self.difference(&printed, &wanted));
        }
        self.previous.push_back(printed);
        if self.previous.len() > SHOWN {
            self.previous.pop_front();
        }
        self.history.note(&words, &self.model);
        match back {
            None => Ok(()),
            Some(Some(units)) => self.look_at_return(units, &kind, is_start),
            Some(None) => self.look_at_cause(),
        }
    }

    fn difference(&self, printed: &str, wanted: &str) -> String {
        let moves = self.found.counts.get("moves").copied().unwrap_or(0);
        let before: Vec<&str> = self.previous.iter().map(String::as_str).collect();
        format!("move {}:\n    {}\n  but it did\n    {printed}\n  in place of\n    {wanted}", moves - 1, before.join("\n    "))
    }

    fn count(&mut self, words: &[&str], before: (u32, bool)) {
        let (owner, was_on) = before;
        let device = &self.model.device;
        let is_new = device.owner() != owner && device.owner() != 0;
        let is_rival = device.owner() >= RIVAL;
        let is_exchanging = self.model.are_exchanging();
        let rival_exchanges = is_rival && device.phase() == Some(model::Phase::Exchanging);
        self.found.count("moves", 1);
        self.found.count(&format!("moves: {}", words[0]), 1);
        self.found.count("frames of strangers", u64::from(words[0] == "stranger"));
        self.found.count("relations", u64::from(is_new && !is_rival));
        self.found.count("relations of a rival", u64::from(is_new && is_rival));
        self.found.count("controllers", u64::from(matches!(words[0], "restart" | "begin")));
        self.found.count("losses of power", u64::from(was_on && !device.is_on));
        self.found.count("of them in a call of the flash", u64::from(was_on && !device.is_on && words[0] != "off"));
        self.found.count("moves after which both exchange data", u64::from(is_exchanging));
        self.found.count("moves after which a rival exchanges data", u64::from(rival_exchanges));
    }

    /// Both exchange data again, and in time.
    fn look_at_return(&mut self, units: u64, kind: &str, is_start: bool) -> Result<(), String> {
        self.found.count(&format!("returns: {kind}"), 1);
        self.found.keep_longest(&format!("returns: {kind}"), units);
        let most = if is_start { self.limits.0 } else { self.limits.1 };
        if units > most { Err(format!("both exchange data after {units} units, more than {most}")) } else { Ok(()) }
    }

    /// Both never exchange data: there must be a cause.
    fn look_at_cause(&mut self) -> Result<(), String> {
        let (device, controller) = (&self.model.device, &self.model.controller);
        let state = controller.state.name();
        let is_unstored = device.has_failed && device.suite != model::PLANNED && state == "ended:refused";
        let cause = match self.model.setting.plant {
            Plant::Wrong if state == "ended:modules" => "another module",
            Plant::Taken if state == "ended:wrong" => "another device has the name",
            Plant::Renamed if state == "looking" => "the device has another name",
            _ if is_unstored => "the address cannot be stored",
            _ if self.model.setting.is_late && device.phase() == Some(model::Phase::Exchanging) && state == "exchanging" => {
                "late frames began another relation at the device"
            }
            _ => return Err(format!("both never exchange data: {}; {}", device.seen(), controller.seen())),
        };
        self.found.count(&format!("never: {cause}"), 1);
        Ok(())
    }

    /// If no frame of an earlier relation comes after the next one began, none of its data counts. With numbers of its own the inputs alone
    /// may.
    fn look_at_late(&mut self) -> Result<(), String> {
        let setting = &self.model.setting;
        self.found.count("Writes that were served again after calls of four others", self.model.device.served_again);
        for (what, number) in &self.model.late {
            let may_be = setting.is_late && (!setting.is_numbered || what.starts_with("inputs"));
            if !may_be {
                return Err(format!("{number} {what}"));
            }
            self.found.count(what, *number);
        }
        Ok(())
    }
}

// The host of the model waits for as long as that of the product.
const _: () = assert!(PAUSE == model::SECOND);
