//! The kinds of schedules: the plan, what is different in them, and how many of them there are.
use crate::draws::Draws;
use crate::ends::{Options, Plant};
use crate::faults::Fault;
use crate::limits;
use crate::model::{self, Record, Setting};
use configurator::plan_from_json;
use controller_core::ControllerOptions;
use plans::Plan;
use rattle_std::alloc::Global;
use relations::DeviceOptions;

/// The station of the demo: an interval of 32 units, two records, and each Write carries one.
const STATION: &str = include_str!("../../table_world/stdin");

/// A kind of schedules: the plan, words of what is different, and how many of a hundred or so are of it.
pub struct Kind {
    pub plan: &'static str,
    pub words: &'static str,
    pub share: u64,
}

const fn kind(plan: &'static str, words: &'static str, share: u64) -> Kind {
    Kind { plan, words, share }
}

/// The plans: `fast` is that of the demo; the others have an interval of 4,096 units, and `bare` has no record, `lists` twelve that are
/// written in lists of ten.
///
/// The words: `late`, frames of an earlier relation may come after the next one began; `numbered`, each relation has numbers of its own, by
/// which such frames are refused; `ready`, the application of the device says when it is ready, and inputs begin bad; `served`, the services
/// are beside both ends; `own`, a relation is held by its own controller alone; `passed`, records that are written while data is exchanged
/// are passed on and not kept; `short`, the controllers have little patience; `wrong`, another module is plugged; `taken`, another device
/// has the name too; `renamed`, the device has another name.
pub const KINDS: [Kind; 17] = [
    kind("slow", "", 14),
    kind("slow", "ready", 10),
    kind("slow", "own short", 10),
    kind("slow", "short", 10),
    kind("slow", "served", 10),
    kind("slow", "late", 10),
    kind("slow", "late ready short", 8),
    kind("fast", "", 8),
    kind("fast", "served", 4),
    kind("fast", "late own", 4),
    kind("slow", "late numbered", 6),
    kind("bare", "short", 6),
    kind("lists", "", 8),
    kind("slow", "wrong", 4),
    kind("slow", "taken", 4),
    kind("slow", "renamed", 4),
    kind(ANY, "", 20),
];

/// The plans.
pub const PLANS: [&str; 4] = ["slow", "fast", "bare", "lists"];

/// A kind whose plan and words come from the seed.
pub const ANY: &str = "any";

/// The plan and the words of a schedule of that kind.
pub fn drawn(seed: u64) -> (&'static str, String) {
    let mut draws = Draws::new(!seed);
    let plan = draws.of(&PLANS);
    let words: Vec<&str> =
        ["late", "numbered", "ready", "served", "own", "passed", "short"].into_iter().filter(|_| draws.one_in(3)).collect();
    (plan, words.join(" "))
}

/// The patience of the program on Linux: ten seconds, and sixty for ApplicationReady.
const PATIENCE: ControllerOptions = ControllerOptions { patience: 320_000, waiting_patience: 1_920_000 };

/// Little patience.
const LITTLE: ControllerOptions = ControllerOptions { patience: 40_000, waiting_patience: 70_000 };

/// The text of a plan.
pub fn text_of(plan: &str) -> String {
    let text = STATION.lines().next().and_then(|line| line.strip_prefix("plan ")).expect("a plan").to_string();
    let text = if plan == "fast" { text } else { text.replace("\"ReductionRatio\":1", "\"ReductionRatio\":128") };
    let start = text.find("\"Records\":[").expect("records");
    let end = start + text[start..].find(']').expect("the last of them");
    let records = text[start + 11..end].to_string();
    match plan {
        "bare" => text.replace(&format!(",\"Records\":[{records}]"), ""),
        "lists" => text
            .replace(&records, &vec![records.clone(); 6].join(","))
            .replace("\"MinDeviceInterval\"", "\"MultipleWriteSupported\":true,\"MinDeviceInterval\""),
        _ => text,
    }
}

/// The plan of a text.
pub fn plan_of(text: &str) -> Plan {
    plan_from_json(Global, text.as_bytes()).expect("a plan")
}

/// How a world of these words begins.
pub fn options_of(words: &[&str], fault: Option<Fault>) -> Options {
    let has = |word| words.contains(&word);
    let plant = match words {
        _ if has("wrong") => Plant::WrongModule,
        _ if has("taken") => Plant::NameTaken,
        _ if has("renamed") => Plant::OtherName,
        _ => Plant::Planned,
    };
    Options {
        plant,
        device: DeviceOptions {
            inputs_begin_bad: has("ready"),
            ready_by_application: has("ready"),
            only_own_controller: has("own"),
            records_passed_on: has("passed"),
            ..DeviceOptions::default()
        },
        patience: if has("short") { LITTLE } else { PATIENCE },
        is_served: has("served"),
        is_late: has("late"),
        is_numbered: has("numbered"),
        fault,
    }
}

/// The octets of hex digits.
fn octets(digits: &str) -> Vec<u8> {
    (0..digits.len() / 2).map(|at| u8::from_str_radix(&digits[2 * at..2 * at + 2], 16).expect("hex digits")).collect()
}

/// The records of a text, in its order: each has its Index and its Data.
fn records_of(text: &str) -> Vec<Record> {
    let slots = text.split("\"Slots\":").nth(1).expect("slots");
    let records = slots.split("\"Index\":").skip(1).map(|record| {
        let index = record.split(',').next().and_then(|number| number.parse().ok()).expect("a number");
        let data = record.split("\"Data\":\"").nth(1).and_then(|data| data.split('"').next()).expect("octets");
        (index, octets(data))
    });
    records.collect()
}

/// What the model has to know of a plan and of these words.
pub fn setting_of(text: &str, words: &[&str]) -> Setting {
    let has = |word| words.contains(&word);
    let is_slow = text.contains("\"ReductionRatio\":128");
    let most = if text.contains("\"MultipleWriteSupported\":true") { 10 } else { 1 };
    let interval = if is_slow { 32 * 128 } else { 32 };
    let (patience, waiting_patience) = if has("short") { (40_000, 70_000) } else { (320_000, 1_920_000) };
    Setting {
        writes: records_of(text).chunks(most).map(<[Record]>::to_vec).collect(),
        interval,
        hold: 3 * interval,
        patience,
        waiting_patience,
        by_application: has("ready"),
        passes_on: has("passed"),
        is_late: has("late"),
        is_numbered: has("numbered"),
        plant: match words {
            _ if has("wrong") => model::Plant::Wrong,
            _ if has("taken") => model::Plant::Taken,
            _ if has("renamed") => model::Plant::Renamed,
            _ => model::Plant::Planned,
        },
    }
}

/// The limits N and N' as the product computes them, of a plan and of the patience of its controllers.
pub fn limits_of(plan: &Plan, patience: ControllerOptions) -> (u64, u64) {
    let times = plan.times();
    let limits = limits::Plan {
        writes: controller_messages::write_count(plan),
        patience: patience.patience,
        waiting: patience.waiting_patience,
        hold: u32::from(times.data_hold_factor) * u32::from(times.send_clock_factor) * u32::from(times.reduction_ratio),
        inactivity: 600 * 3_200,
        repeat: 32_000,
        pause: crate::ends::PAUSE,
    };
    (limits::start_up_limit(limits), limits::comeback_limit(limits))
}
