//! Schedules of a device and of the controllers that follow one another, with strangers on the wire, compared move by move with a model of
//! both ends: `schedule` chooses the moves from a seed, `ends` has both ends and the frames between them, `model` is what they must do.
mod draws;
mod ends;
mod faults;
mod good;
mod held;
mod judge;
mod kinds;
mod limits;
mod model;
mod schedule;
mod seen;
mod strangers;
mod tokens;

pub use faults::{FAULTS, Fault};
pub use judge::{Found, Job};
use kinds::{ANY, KINDS, PLANS, drawn, text_of};
use std::collections::HashMap;
use std::sync::Mutex;
use std::sync::atomic::{AtomicBool, AtomicUsize, Ordering};
use strangers::Strangers;

/// After this number of differences no more schedules are played.
const MOST_DIFFERENCES: usize = 5;

/// Schedules of all kinds: for each hundredth of a kind this number, each with this number of moves and a seed of its own, from `first` on.
pub fn jobs(schedules: u64, moves: u64, first: u64) -> Vec<Job> {
    let mut jobs = Vec::new();
    for kind in &KINDS {
        for _ in 0..kind.share * schedules {
            let seed = first + jobs.len() as u64;
            let (plan, words) = if kind.plan == ANY { drawn(seed) } else { (kind.plan, String::from(kind.words)) };
            jobs.push(Job { plan, words, seed, moves, fault: None });
        }
    }
    jobs
}

/// Schedules of a wrong plant: some of each kind that it may show in.
pub fn jobs_with(fault: Fault, schedules: u64, moves: u64) -> Vec<Job> {
    let words = ["", "ready", "served", "late"];
    (1..=schedules)
        .map(|seed| Job { plan: "slow", words: String::from(words[seed as usize % words.len()]), seed, moves, fault: Some(fault) })
        .collect()
}

/// Plays schedules on all processors.
pub fn play_all(jobs: &[Job]) -> Found {
    let (next, is_over, found) = (AtomicUsize::new(0), AtomicBool::new(false), Mutex::new(Found::default()));
    let is_played = |plan: &&str| jobs.iter().any(|job| job.plan == *plan);
    let plants: Plants = PLANS.into_iter().filter(is_played).map(|plan| (plan, plant_of(plan))).collect();
    let processors = std::thread::available_parallelism().map_or(1, usize::from);
    std::thread::scope(|scope| {
        for _ in 0..processors {
            scope.spawn(|| play_some(jobs, &plants, &next, &is_over, &found));
        }
    });
    let mut found = found.into_inner().expect("no thread ended early");
    found.differences.sort();
    found
}

/// The text of a plan, and the frames of strangers beside its station.
fn plant_of(plan: &str) -> (String, Strangers) {
    let text = text_of(plan);
    let strangers = Strangers::new(&text);
    (text, strangers)
}

type Plants = HashMap<&'static str, (String, Strangers)>;

fn play_some(jobs: &[Job], plants: &Plants, next: &AtomicUsize, is_over: &AtomicBool, found: &Mutex<Found>) {
    let mut own = Found::default();
    while let Some(job) = jobs.get(next.fetch_add(1, Ordering::Relaxed)) {
        if is_over.load(Ordering::Relaxed) {
            break;
        }
        let (text, strangers) = &plants[job.plan];
        own.add(judge::played(job, text, &mut strangers.clone()));
        let is_enough = own.differences.len() >= MOST_DIFFERENCES || job.fault.is_some() && !own.differences.is_empty();
        is_over.fetch_or(is_enough, Ordering::Relaxed);
    }
    found.lock().expect("no thread ended early").add(own);
}

/// What schedules found, as lines.
pub fn report(found: &Found) -> String {
    let mut lines: Vec<String> = found.differences.iter().take(MOST_DIFFERENCES).cloned().collect();
    for (what, number) in &found.counts {
        let longest = found.longest.get(what).map_or(String::new(), |units| format!(", after at most {units} units"));
        lines.push(format!("{number:>10} {what}{longest}"));
    }
    lines.push(format!("{} differences in {} moves", found.differences.len(), found.counts.get("moves").unwrap_or(&0)));
    lines.join("\n")
}
