//! Schedules from a seed.
use controller_core::{Cause, State};
use network_world::End;
use rattle_std::alloc::{AllocError, Global};
use rattle_std::{String, format};
use relations::Phase;
use world_monitor::{Choice, Law, Schedule, Told, Watched, fresh_world};

fn phase_name(phase: Option<Phase>) -> &'static str {
    match phase {
        None => "none",
        Some(Phase::Started) => "started",
        Some(Phase::Preparing | Phase::Awaiting) => "awaiting",
        Some(Phase::Exchanging) => "exchanging",
    }
}

fn state_name(state: State) -> &'static str {
    match state {
        State::Looking => "looking",
        State::Addressing => "addressing",
        State::Connecting => "connecting",
        State::Writing => "writing",
        State::Ending => "ending",
        State::Waiting => "waiting",
        State::Exchanging => "exchanging",
        State::Ended(Cause::DataHold) => "ended by data hold",
        State::Ended(Cause::Stopped) => "stopped",
        State::Ended(_) => "ended",
    }
}

fn end_name(end: End) -> &'static str {
    match end {
        End::Device => "device",
        End::Controller => "controller",
    }
}

/// Appends the states of both ends.
pub(crate) fn put_told(alloc: Global, told: &Told, text: &mut String) -> Result<(), AllocError> {
    let phase = phase_name(told.phase);
    let state = state_name(told.state);
    let taken = told.taken;
    let line = format!(in alloc; "device {phase}, {taken} records, controller {state}\n")?;
    text.push_str(line.as_str())
}

/// Appends a frame that comes to an end, and the states of both ends after it.
pub(crate) fn put_rung(
    alloc: Global,
    watched: &Watched,
    number: usize,
    end: End,
    text: &mut String,
) -> Result<(), AllocError> {
    let name = watched.kind(number).name();
    let way = end_name(end);
    let line = format!(in alloc; "{number:>4} {name} to the {way}: ")?;
    text.push_str(line.as_str())?;
    put_told(alloc, &watched.told(), text)
}

/// Appends the law that does not hold after a move.
pub(crate) fn put_broken(
    alloc: Global,
    law: Law,
    number: u64,
    text: &mut String,
) -> Result<(), AllocError> {
    let name = law.name();
    let line = format!(in alloc; "the law '{name}' does not hold behind move {number}\n")?;
    text.push_str(line.as_str())
}

/// The result of a schedule.
enum Ended {
    Well(Watched),
    NoWorld,
    Broken(Law, u64),
}

/// A schedule over the station of a catalogue.
#[derive(Clone, Copy)]
pub struct Play<'a> {
    pub catalogue: &'a str,
    pub seed: u64,
    pub moves: u64,
    /// The number of calls of the flash until one fails, or `None` if none fails.
    pub fault: Option<u32>,
}

/// Plays a schedule.
fn play_out(
    alloc: Global,
    play: Play<'_>,
    is_ladder: bool,
    text: &mut String,
) -> Result<Ended, AllocError> {
    let mut watched = match fresh_world(alloc, play.catalogue, play.fault) {
        Some(fresh) => Watched::new(alloc, fresh)?,
        None => return Ok(Ended::NoWorld),
    };
    let mut schedule = Schedule::new(play.seed);
    for number in 0..play.moves {
        let count = watched.count();
        let before = watched.told();
        let choice = schedule.choose(count, watched.raised());
        if let Some(law) = watched.make(choice)? {
            return Ok(Ended::Broken(law, number));
        }
        if is_ladder && (watched.count() != count || watched.told() != before) {
            put_choice(alloc, choice, &watched, text)?;
        }
    }
    if watched.are_kept() {
        Ok(Ended::Well(watched))
    } else {
        Ok(Ended::Broken(Law::Frames, play.moves))
    }
}

fn put_choice(
    alloc: Global,
    choice: Choice,
    watched: &Watched,
    text: &mut String,
) -> Result<(), AllocError> {
    match choice {
        Choice::Deliver(end, number) => put_rung(alloc, watched, number, end, text),
        Choice::Alarm(_) => text.push_str("     an alarm is raised\n"),
        _ => Ok(()),
    }
}

/// Plays a schedule, and prints it as a ladder.
pub fn put_ladder(alloc: Global, play: Play<'_>, text: &mut String) -> Result<(), AllocError> {
    let ended = play_out(alloc, play, true, text)?;
    put_ended(alloc, &ended, text)?;
    put_tally(alloc, &ended, text)
}

/// Appends the counts that show how much the laws were exercised.
fn put_tally(alloc: Global, ended: &Ended, text: &mut String) -> Result<(), AllocError> {
    let watched = match ended {
        Ended::Well(watched) => watched,
        _ => return Ok(()),
    };
    let tally = watched.tally();
    let line = format!(in alloc;
        "{} frames; both ends exchanged data behind {} moves, an output was not zeros behind {}, ",
        watched.count(),
        tally.exchanging,
        tally.shown
    )?;
    text.push_str(line.as_str())?;
    let line = format!(in alloc;
        "an alarm had been taken behind {}, {} were skipped\n",
        tally.alarmed, tally.skipped
    )?;
    text.push_str(line.as_str())
}

/// Appends how a schedule ends.
fn put_ended(alloc: Global, ended: &Ended, text: &mut String) -> Result<(), AllocError> {
    match ended {
        Ended::Well(watched) => {
            text.push_str(if is_full(watched) {
                "all laws hold behind each move; data was exchanged, outputs came, alarms were taken, moves were skipped\n"
            } else {
                "all laws hold behind each move\n"
            })
        }
        Ended::NoWorld => text.push_str("no world\n"),
        Ended::Broken(law, number) => put_broken(alloc, *law, *number, text),
    }
}

/// Whether each law was exercised.
fn is_full(watched: &Watched) -> bool {
    let tally = watched.tally();
    tally.exchanging != 0 && tally.shown != 0 && tally.alarmed != 0 && tally.skipped != 0
}

/// Plays a schedule, and prints only how it ends and how much the laws were exercised.
pub fn put_moves(alloc: Global, play: Play<'_>, text: &mut String) -> Result<(), AllocError> {
    let line = format!(in alloc; "moves {} {}: ", play.seed, play.moves)?;
    text.push_str(line.as_str())?;
    let ended = play_out(alloc, play, false, text)?;
    put_ended(alloc, &ended, text)?;
    put_tally(alloc, &ended, text)
}

/// Plays the schedules of the seeds below `play.seed`. If `is_faulty` is set, a call of the flash fails in each of them,
/// a later one with each seed.
pub fn put_seeds(
    alloc: Global,
    play: Play<'_>,
    is_faulty: bool,
    text: &mut String,
) -> Result<(), AllocError> {
    let count = play.seed;
    let moves = play.moves;
    for seed in 0..count {
        let fault = if is_faulty {
            u32::try_from(seed).ok()
        } else {
            None
        };
        let one = Play {
            catalogue: play.catalogue,
            seed,
            moves,
            fault,
        };
        let ended = play_out(alloc, one, false, text)?;
        if !matches!(&ended, Ended::Well(_)) {
            let line = format!(in alloc; "seed {seed}: ")?;
            text.push_str(line.as_str())?;
            return put_ended(alloc, &ended, text);
        }
    }
    let line = format!(in alloc;
        "all laws hold behind each of {moves} moves of {count} schedules\n"
    )?;
    text.push_str(line.as_str())
}
