//! Every schedule of a small world.
use crate::rows::{across, advance, start_up};
use network_world::End;
use rattle_std::alloc::{AllocError, Global};
use rattle_std::{String, format};
use world_monitor::{Choice, Law, Watched, fresh_world};

/// The most moves of a schedule.
const MOST: usize = 8;

/// More schedules than there can be.
const ENOUGH: u64 = 10_000_000;

/// The choices of a schedule, as indices into the choices at each point.
type Digits = [usize; MOST];

/// The choices at each point.
#[derive(Clone, Copy)]
enum Game {
    /// From the Connect on: a frame from the Connect on comes to the other end, or the controller is stopped.
    Starts,
    /// While data is exchanged: every choice.
    Exchanges,
    /// While data is exchanged: outputs are set, sent and received.
    Outputs,
    /// While data is exchanged: alarms are raised, and their frames are received.
    Alarms,
}

/// The result of all schedules.
#[derive(Clone, Copy)]
struct Found {
    schedules: u64,
    exchanging: u64,
    fault: Option<Fault>,
}

/// Why a search ends before its last schedule.
#[derive(Clone, Copy)]
enum Fault {
    /// The catalogue has no plan.
    NoWorld,
    /// A law does not hold.
    Broken(Law),
    /// There are more schedules than the program plays.
    TooMany,
}

/// The start of the schedules of a game.
enum Begun {
    Well(Watched),
    Fault(Fault),
}

/// The result of a schedule: played to its end, stopped at a choice that does not exist, or stopped at a law that does
/// not hold.
#[derive(Clone, Copy)]
enum Went {
    Whole(bool),
    Short(usize),
    Broken(Law),
}

/// One of the last frames comes to the end that did not send it: 1 is the last.
fn back(watched: &Watched, place: usize) -> Choice {
    across(watched, watched.count().saturating_sub(place))
}

/// An output is set, to another value each time.
fn give(watched: &Watched) -> Choice {
    let low = u8::try_from(watched.count()).unwrap_or_default();
    Choice::Give(2, [7, low])
}

fn alarm(watched: &Watched) -> Choice {
    Choice::Alarm(watched.raised().to_be_bytes())
}

impl Game {
    fn name(self) -> &'static str {
        match self {
            Game::Starts => "starts",
            Game::Exchanges => "exchanges",
            Game::Outputs => "outputs",
            Game::Alarms => "alarms",
        }
    }

    /// The point from which the schedules start: the Connect was sent, or both ends exchange data.
    fn begin(self, alloc: Global, catalogue: &str) -> Result<Begun, AllocError> {
        let mut watched = match fresh_world(alloc, catalogue, None) {
            Some(fresh) => Watched::new(alloc, fresh)?,
            None => return Ok(Begun::Fault(Fault::NoWorld)),
        };
        let to = match self {
            Game::Starts => 4,
            _ => start_up(&watched),
        };
        match advance(&mut watched, 0, to)? {
            Some(law) => Ok(Begun::Fault(Fault::Broken(law))),
            None => Ok(Begun::Well(watched)),
        }
    }

    /// The number of choices at this point.
    fn count(self, watched: &Watched) -> usize {
        match self {
            Game::Starts => watched.count().saturating_sub(3),
            Game::Exchanges => 8,
            Game::Outputs => 4,
            Game::Alarms => 4,
        }
    }

    /// The choice with this index.
    fn choice(self, watched: &Watched, digit: usize) -> Choice {
        match self {
            Game::Starts => start(watched, digit.saturating_add(4)),
            Game::Exchanges => exchange(watched, digit),
            Game::Outputs => match digit {
                0 => give(watched),
                1 => Choice::Tick(End::Controller),
                _ => back(watched, digit.saturating_sub(1)),
            },
            Game::Alarms => match digit {
                0 => alarm(watched),
                _ => back(watched, digit),
            },
        }
    }
}

/// The choice with this number: a frame comes to the other end, or, as the last choice, the controller is stopped.
fn start(watched: &Watched, number: usize) -> Choice {
    if number < watched.count() {
        across(watched, number)
    } else {
        Choice::Stop
    }
}

fn exchange(watched: &Watched, digit: usize) -> Choice {
    match digit {
        0 => Choice::Tick(End::Device),
        1 => Choice::Tick(End::Controller),
        2 => give(watched),
        3 => alarm(watched),
        4 => Choice::Stop,
        _ => back(watched, digit.saturating_sub(4)),
    }
}

/// Plays one schedule.
fn play(
    game: Game,
    watched: &mut Watched,
    digits: &Digits,
    moves: usize,
) -> Result<Went, AllocError> {
    for (place, digit) in digits.iter().enumerate() {
        if place < moves {
            if *digit >= game.count(watched) {
                return Ok(Went::Short(place));
            }
            let choice = game.choice(watched, *digit);
            if let Some(law) = watched.make(choice)? {
                return Ok(Went::Broken(law));
            }
        }
    }
    if watched.are_kept() {
        Ok(Went::Whole(watched.told().is_exchanging()))
    } else {
        Ok(Went::Broken(Law::Frames))
    }
}

/// Goes on to the first schedule with other choices than the first `place` of this one. Returns false if there is none.
fn step(digits: &mut Digits, place: usize) -> bool {
    for (there, digit) in digits.iter_mut().enumerate() {
        if there >= place {
            *digit = 0;
        } else if there.saturating_add(1) == place {
            *digit = digit.saturating_add(1);
        }
    }
    place != 0
}

/// Plays all schedules of this number of moves.
fn search(alloc: Global, game: Game, catalogue: &str, moves: usize) -> Result<Found, AllocError> {
    let mut digits = [0; MOST];
    let mut found = Found {
        schedules: 0,
        exchanging: 0,
        fault: None,
    };
    for _ in 0..ENOUGH {
        let mut watched = match game.begin(alloc, catalogue)? {
            Begun::Well(watched) => watched,
            Begun::Fault(fault) => {
                found.fault = Some(fault);
                return Ok(found);
            }
        };
        let next = match play(game, &mut watched, &digits, moves)? {
            Went::Whole(is_exchanging) => {
                found.schedules = found.schedules.saturating_add(1);
                if is_exchanging {
                    found.exchanging = found.exchanging.saturating_add(1);
                }
                moves
            }
            Went::Short(place) => place,
            Went::Broken(law) => {
                found.fault = Some(Fault::Broken(law));
                return Ok(found);
            }
        };
        if !step(&mut digits, next) {
            return Ok(found);
        }
    }
    found.fault = Some(Fault::TooMany);
    Ok(found)
}

fn put_found(
    alloc: Global,
    name: &str,
    moves: usize,
    found: &Found,
    text: &mut String,
) -> Result<(), AllocError> {
    let line = match found.fault {
        Some(Fault::NoWorld) => format!(in alloc; "{name}: no world\n")?,
        Some(Fault::TooMany) => format!(in alloc; "{name}: too many schedules\n")?,
        Some(Fault::Broken(law)) => {
            let law = law.name();
            format!(in alloc; "{name}: the law '{law}' does not hold\n")?
        }
        None => format!(in alloc;
            "{name}: all laws hold at each point of {} schedules of {moves} moves; {} of them end with both exchanging\n",
            found.schedules, found.exchanging
        )?,
    };
    text.push_str(line.as_str())
}

/// Plays all schedules of a game, and prints the result.
fn put_game(
    alloc: Global,
    game: Game,
    catalogue: &str,
    moves: u64,
    text: &mut String,
) -> Result<(), AllocError> {
    let moves = match usize::try_from(moves) {
        Ok(moves) => moves.min(MOST),
        Err(_) => MOST,
    };
    let found = search(alloc, game, catalogue, moves)?;
    put_found(alloc, game.name(), moves, &found, text)
}

/// Every schedule from the Connect on.
pub fn put_starts(
    alloc: Global,
    catalogue: &str,
    moves: u64,
    text: &mut String,
) -> Result<(), AllocError> {
    put_game(alloc, Game::Starts, catalogue, moves, text)
}

/// Every schedule while data is exchanged.
pub fn put_exchanges(
    alloc: Global,
    catalogue: &str,
    moves: u64,
    text: &mut String,
) -> Result<(), AllocError> {
    put_game(alloc, Game::Exchanges, catalogue, moves, text)
}

/// Every schedule of outputs.
pub fn put_outputs(
    alloc: Global,
    catalogue: &str,
    moves: u64,
    text: &mut String,
) -> Result<(), AllocError> {
    put_game(alloc, Game::Outputs, catalogue, moves, text)
}

/// Every schedule of alarms.
pub fn put_alarms(
    alloc: Global,
    catalogue: &str,
    moves: u64,
    text: &mut String,
) -> Result<(), AllocError> {
    put_game(alloc, Game::Alarms, catalogue, moves, text)
}
