//! Plays schedules of both ends. Each line of standard input is one of
//!
//! ```text
//! plan JSON              the lines that follow are for the station of this catalogue
//! start                  each frame comes to the other end as soon as it was sent: a start-up, as a ladder of messages
//! twice                  a Connect that comes twice
//! again                  after a start-up each frame comes again to both ends, the last one first
//! left                   after a stop and its Release: cyclic frames to an end that has left, and frames that were never sent
//! ladder SEED MOVES      a schedule from a seed, as a ladder: each frame that comes to its receiver and changes something there or is
//!                        answered, and the states of both ends after it
//! moves SEED MOVES       the same schedule; prints only how it ends, and how much the laws were exercised
//! seeds COUNT MOVES      the schedules of COUNT seeds
//! faults COUNT MOVES     the same over a flash of which one call fails, a later one with each seed
//! growths SEED MOVES     the same schedule in calls of four moves, beside a world that makes them one by one (below)
//! starts MOVES           every schedule of MOVES moves from the Connect on: a frame from the Connect on comes to the end that did not
//!                        send it, or the controller is stopped
//! exchanges MOVES        every schedule of MOVES moves while data is exchanged: one of the last three frames comes to the end that did
//!                        not send it, an interval passes at one end, an output is set, an alarm raised, or the controller stopped
//! outputs MOVES          the same with fewer choices: an output is set, an interval passes at the controller, one of the last two comes
//! alarms MOVES           the same: an alarm is raised, or one of the last three comes
//! ```
//!
//! After each move all laws of both ends are checked again (`world_monitor`). At the end of a schedule it is checked that
//! each frame is as it was when it was sent. The first law that does not hold is printed with the number of the move.
//!
//! `growths` is for a run in which an allocation fails: if `play` has no memory, its world must be that of a prefix of
//! the moves, and at the end both worlds must be the same, as they are without failures. The number of refused
//! allocations goes to standard error.
//!
//! No text in `stdout` was taken from this program unchecked: the rows are those of the standard's start-up, the ladders
//! and the counts of `moves` are those of a reference model (`ci/world_model.py`), and the numbers of schedules
//! are computed by `ci/worlds.py` from the rules of a start-up alone.
#![forbid(unsafe_code)]

use rattle_std::{HostRuntime, String, eprintln};

mod growths;
mod ladder;
mod rows;
mod worlds;

use ladder::Play;
use rattle_std::alloc::Global;
use rattle_std::io::{self, Write};

fn main() -> io::Result<()> {
    let rt = HostRuntime;
    let lines = io::read_to_string(rt.alloc(), rt.reader())?;
    let mut text = String::new(rt.alloc());
    let mut catalogue = "";
    let mut refused = 0;
    for line in lines.lines() {
        if let Some(json) = line.strip_prefix("plan ") {
            catalogue = json;
        } else {
            put_line(rt.alloc(), catalogue, line, &mut text, &mut refused)?;
        }
    }
    if refused != 0 {
        eprintln!(rt; "table_world: {refused} growths refused")?;
    }
    io::writer(&rt).write_all(text.as_bytes())
}

/// The number that a word spells, or 0 if it is not a number.
fn number_of(word: Option<&str>) -> u64 {
    match word {
        Some(word) => word.parse::<u64>().unwrap_or(0),
        None => 0,
    }
}

fn put_line(
    alloc: Global,
    catalogue: &str,
    line: &str,
    text: &mut String,
    refused: &mut u64,
) -> io::Result<()> {
    let mut words = line.split(' ');
    let word = words.next();
    let first = number_of(words.next());
    let play = Play {
        catalogue,
        seed: first,
        moves: number_of(words.next()),
        fault: None,
    };
    match word {
        Some("start") => rows::put_start(alloc, catalogue, text)?,
        Some("twice") => rows::put_twice(alloc, catalogue, text)?,
        Some("again") => rows::put_again(alloc, catalogue, text)?,
        Some("left") => rows::put_left(alloc, catalogue, text)?,
        Some("ladder") => ladder::put_ladder(alloc, play, text)?,
        Some("moves") => ladder::put_moves(alloc, play, text)?,
        Some("seeds") => ladder::put_seeds(alloc, play, false, text)?,
        Some("faults") => ladder::put_seeds(alloc, play, true, text)?,
        Some("growths") => growths::put_growths(alloc, play, text, refused)?,
        Some("starts") => worlds::put_starts(alloc, catalogue, first, text)?,
        Some("exchanges") => worlds::put_exchanges(alloc, catalogue, first, text)?,
        Some("outputs") => worlds::put_outputs(alloc, catalogue, first, text)?,
        Some("alarms") => worlds::put_alarms(alloc, catalogue, first, text)?,
        _ => text.push_str("what?\n")?,
    }
    Ok(())
}
