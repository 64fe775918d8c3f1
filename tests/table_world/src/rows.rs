//! Single schedules: a start-up, a Connect that comes twice, every frame again, and what is skipped after an end.
use crate::ladder::{put_broken, put_rung, put_told};
use network_world::{End, Move};
use rattle_std::alloc::{AllocError, Global};
use rattle_std::{String, format};
use world_monitor::{Choice, Law, Net, Told, Watched, fresh_world};

/// A number of units that is longer than the interval of any plan that is played.
const INTERVAL: u8 = 32;

/// The number of a frame that was never sent.
const NEVER: usize = 1_000;

/// Makes moves, one after the other, up to the first one after which a law does not hold.
fn make(watched: &mut Watched, choices: &[Choice]) -> Result<Option<Law>, AllocError> {
    for choice in choices {
        if let Some(law) = watched.make(*choice)? {
            return Ok(Some(law));
        }
    }
    Ok(None)
}

/// The number of frames of a start-up: Identify, the Set, the Connect, PrmEnd and a Write for each record with their
/// responses, and ApplicationReady with its confirmation.
pub(crate) fn start_up(watched: &Watched) -> usize {
    watched.records().saturating_mul(2).saturating_add(10)
}

/// The choice that a frame comes to the end that did not send it.
pub(crate) fn across(watched: &Watched, number: usize) -> Choice {
    Choice::Deliver(watched.other_end(number), number)
}

/// Lets each of these frames come to the end that did not send it.
pub(crate) fn advance(
    watched: &mut Watched,
    from: usize,
    to: usize,
) -> Result<Option<Law>, AllocError> {
    for number in from..to {
        let choice = across(watched, number);
        if let Some(law) = watched.make(choice)? {
            return Ok(Some(law));
        }
    }
    Ok(None)
}

/// Lets this number of units pass at both ends.
fn wait(watched: &mut Watched, units: u8) -> Result<Option<Law>, AllocError> {
    for _ in 0..units {
        if let Some(law) = make(
            watched,
            &[Choice::Tick(End::Device), Choice::Tick(End::Controller)],
        )? {
            return Ok(Some(law));
        }
    }
    Ok(None)
}

/// Lets both ends exchange data, with a cyclic frame in each direction.
fn exchange(watched: &mut Watched) -> Result<Option<Law>, AllocError> {
    let begun = start_up(watched);
    if let Some(law) = advance(watched, 0, begun)? {
        return Ok(Some(law));
    }
    if let Some(law) = watched.make(Choice::Give(2, [7, 9]))? {
        return Ok(Some(law));
    }
    if let Some(law) = wait(watched, INTERVAL)? {
        return Ok(Some(law));
    }
    let count = watched.count();
    advance(watched, begun, count)
}

/// A world in which nothing has happened yet.
fn watch(alloc: Global, catalogue: &str, text: &mut String) -> Result<Option<Watched>, AllocError> {
    match fresh_world(alloc, catalogue, None) {
        Some(fresh) => Ok(Some(Watched::new(alloc, fresh)?)),
        None => {
            text.push_str("no world\n")?;
            Ok(None)
        }
    }
}

/// Appends the states of both ends, or the law that does not hold.
fn put_judged(
    alloc: Global,
    broken: Option<Law>,
    watched: &Watched,
    text: &mut String,
) -> Result<(), AllocError> {
    match broken {
        Some(law) => put_broken(alloc, law, watched.count() as u64, text),
        None => put_told(alloc, &watched.told(), text),
    }
}

/// A start-up: each frame comes to the other end as soon as it was sent.
pub fn put_start(alloc: Global, catalogue: &str, text: &mut String) -> Result<(), AllocError> {
    let mut watched = match watch(alloc, catalogue, text)? {
        Some(watched) => watched,
        None => return Ok(()),
    };
    text.push_str("begin: ")?;
    put_told(alloc, &watched.told(), text)?;
    for number in 0..20 {
        if number < watched.count() {
            let choice = across(&watched, number);
            if let Some(law) = watched.make(choice)? {
                return put_broken(alloc, law, number as u64, text);
            }
            put_rung(alloc, &watched, number, choice.end(), text)?;
        }
    }
    Ok(())
}

/// The number of frames from this one on that have its octets.
fn alike(net: &Net, number: usize) -> u32 {
    let mut found = 0_u32;
    if let Some(frame) = net.sent(number) {
        for other in number..number.saturating_add(20) {
            if net.sent(other).is_some_and(|sent| sent.as_slice() == frame.as_slice()) {
                found = found.saturating_add(1);
            }
        }
    }
    found
}

/// A Connect that comes twice, in one call of `play`.
pub fn put_twice(alloc: Global, catalogue: &str, text: &mut String) -> Result<(), AllocError> {
    let mut net = match fresh_world(alloc, catalogue, None) {
        Some(fresh) => fresh.net,
        None => return text.push_str("no world\n"),
    };
    net.play(&[
        Move::Deliver(End::Device, 0),
        Move::Deliver(End::Controller, 1),
        Move::Deliver(End::Device, 2),
        Move::Deliver(End::Controller, 3),
        Move::Deliver(End::Device, 4),
        Move::Deliver(End::Device, 4),
    ])?;
    let equal = alike(&net, 5);
    let frames = if net.sent(7).is_none() { "none" } else { "one" };
    let line = format!(in alloc; "twice: {equal} equal answers, {frames} behind them; ")?;
    text.push_str(line.as_str())?;
    put_told(alloc, &Told::by(&net), text)
}

/// Every frame comes again, the last one first.
pub fn put_again(alloc: Global, catalogue: &str, text: &mut String) -> Result<(), AllocError> {
    let mut watched = match watch(alloc, catalogue, text)? {
        Some(watched) => watched,
        None => return Ok(()),
    };
    let broken = exchange(&mut watched)?;
    text.push_str("once: ")?;
    put_judged(alloc, broken, &watched, text)?;
    let count = watched.count();
    let mut broken = None;
    for number in 0..count {
        let again = count.saturating_sub(1).saturating_sub(number);
        if broken.is_none() {
            broken = make(
                &mut watched,
                &[
                    Choice::Deliver(End::Device, again),
                    Choice::Deliver(End::Controller, again),
                ],
            )?;
        }
    }
    text.push_str("again: ")?;
    put_judged(alloc, broken, &watched, text)
}

/// After a stop and its Release.
pub fn put_left(alloc: Global, catalogue: &str, text: &mut String) -> Result<(), AllocError> {
    let mut watched = match watch(alloc, catalogue, text)? {
        Some(watched) => watched,
        None => return Ok(()),
    };
    let mut broken = exchange(&mut watched)?;
    let release = watched.count();
    if broken.is_none() {
        broken = watched.make(Choice::Stop)?;
    }
    if broken.is_none() {
        broken = watched.make(Choice::Deliver(End::Device, release))?;
    }
    for number in 0..release {
        if broken.is_none() && watched.kind(number).is_cyclic() {
            broken = make(
                &mut watched,
                &[
                    Choice::Deliver(End::Device, number),
                    Choice::Deliver(End::Controller, number),
                ],
            )?;
        }
    }
    if broken.is_none() {
        broken = make(
            &mut watched,
            &[
                Choice::Deliver(End::Device, NEVER),
                Choice::Deliver(End::Controller, NEVER),
            ],
        )?;
    }
    let skipped = watched.tally().skipped;
    let line = format!(in alloc; "left: {skipped} moves skipped; ")?;
    text.push_str(line.as_str())?;
    put_judged(alloc, broken, &watched, text)
}
