//! Two worlds side by side: one plays four moves in a call, the other plays the same moves one by one. If an allocation
//! fails, a call leaves the world of the moves before.
use crate::ladder::Play;
use rattle_std::alloc::{AllocError, Global};
use rattle_std::{String, format};
use world_monitor::{Choice, Net, Schedule, Told, fresh_world};

/// Both worlds, and the result of their comparison.
struct Pair {
    whole: Net,
    single: Net,
    /// The number of frames of both worlds that were compared.
    count: usize,
    /// The number of allocations that were refused.
    refused: u64,
    is_broken: bool,
}

/// The number of frames that were sent, if there are at most 20 more than `count`.
fn count_from(net: &Net, count: usize) -> usize {
    for number in count..count.saturating_add(20) {
        if net.sent(number).is_none() {
            return number;
        }
    }
    count.saturating_add(20)
}

/// Whether both worlds have the same frame with this number.
fn is_same(one: &Net, other: &Net, number: usize) -> bool {
    match (one.sent(number), other.sent(number)) {
        (Some(one), Some(other)) => one.as_slice() == other.as_slice(),
        (None, None) => true,
        _ => false,
    }
}

/// Whether both worlds report the same, and have the same frames from this one on.
fn are_alike(one: &Net, other: &Net, count: usize) -> bool {
    if Told::by(one) != Told::by(other) {
        return false;
    }
    for number in count..count.saturating_add(20) {
        if !is_same(one, other, number) {
            return false;
        }
    }
    true
}

impl Pair {
    /// Plays one move alone, and plays it again if memory was refused: the world must then be as it was before.
    fn make_single(&mut self, choice: Choice) -> Result<(), AllocError> {
        let told = Told::by(&self.single);
        let count = count_from(&self.single, self.count);
        if self.single.play(&[choice.to_move()]).is_err() {
            self.refused = self.refused.saturating_add(1);
            if Told::by(&self.single) != told || self.single.sent(count).is_some() {
                self.is_broken = true;
            }
            self.single.play(&[choice.to_move()])?;
        }
        Ok(())
    }

    /// Plays all four moves in one call.
    fn make_whole(&mut self, choices: &[Choice; 4]) -> Result<(), AllocError> {
        let [first, second, third, fourth] = *choices;
        self.whole.play(&[
            first.to_move(),
            second.to_move(),
            third.to_move(),
            fourth.to_move(),
        ])
    }

    /// Continues after memory was refused in the call of four moves: the world must be that of a prefix of the moves. The
    /// remaining moves are played now.
    fn resume(&mut self, choices: &[Choice; 4]) -> Result<(), AllocError> {
        self.refused = self.refused.saturating_add(1);
        let mut is_front = false;
        for choice in choices {
            is_front = is_front || are_alike(&self.whole, &self.single, self.count);
            if is_front {
                self.whole.play(&[choice.to_move()])?;
            }
            self.make_single(*choice)?;
        }
        if !is_front {
            self.is_broken = true;
        }
        Ok(())
    }

    /// Plays four moves in both worlds.
    fn make(&mut self, choices: &[Choice; 4]) -> Result<(), AllocError> {
        if self.make_whole(choices).is_err() {
            self.resume(choices)?;
        } else {
            for choice in choices {
                self.make_single(*choice)?;
            }
        }
        if !are_alike(&self.whole, &self.single, self.count) {
            self.is_broken = true;
        }
        self.count = count_from(&self.whole, self.count);
        Ok(())
    }
}

/// Four moves of a schedule, chosen when `count` frames were sent.
fn four(schedule: &mut Schedule, count: usize) -> [Choice; 4] {
    [
        schedule.choose(count, 0),
        schedule.choose(count, 1),
        schedule.choose(count, 2),
        schedule.choose(count, 3),
    ]
}

/// Plays a schedule in both worlds.
pub fn put_growths(
    alloc: Global,
    play: Play<'_>,
    text: &mut String,
    refused: &mut u64,
) -> Result<(), AllocError> {
    let seed = play.seed;
    let moves = play.moves;
    let whole = fresh_world(alloc, play.catalogue, play.fault);
    let single = fresh_world(alloc, play.catalogue, play.fault);
    let mut pair = match (whole, single) {
        (Some(whole), Some(single)) => Pair {
            whole: whole.net,
            single: single.net,
            count: 1,
            refused: 0,
            is_broken: false,
        },
        _ => return text.push_str("no world\n"),
    };
    let mut schedule = Schedule::new(seed);
    for _ in 0..moves / 4 {
        let choices = four(&mut schedule, pair.count);
        pair.make(&choices)?;
    }
    *refused = refused.saturating_add(pair.refused);
    let told = if pair.is_broken {
        "the law 'front' does not hold"
    } else {
        "moves in one call and one by one make one world"
    };
    let line = format!(in alloc; "growths {seed} {moves}: {told}\n")?;
    text.push_str(line.as_str())
}
