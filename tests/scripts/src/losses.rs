//! Each flash call of forty Sets fails in turn, with power lost or there.

use super::{NO_SUITE, SET_DONE, SET_REFUSED, prints, request, shown};
use rattle_std::alloc::{AllocError, Global};
use rattle_std::{String, format};

/// How many names are set, `n1` to `n40`, each by one commit.
const SETS: u32 = 40;

/// How many flash calls they make.
const CALLS: u32 = 83;

/// How many the Set of this number makes: three for a base, as the sector that does not count is erased, written and its gate
/// opened, and two for each of the fourteen slots that follow, as the slot is written and its gate opened.
fn calls_of(number: u32) -> u32 {
    if number % 15 == 1 { 3 } else { 2 }
}

/// The block that sets the name of this number, permanent, of an even number of octets.
fn block(alloc: Global, number: u32) -> Result<String, AllocError> {
    let name = name(alloc, number)?;
    let digits = hex::encode(alloc, name.as_bytes())?;
    let length = name.len().saturating_add(2);
    let padding = if length % 2 == 1 { "00" } else { "" };
    format!(in alloc; "0202{length:04x}0001{digits}{padding}")
}

/// The lines that set the names, permanent.
fn sets(alloc: Global) -> Result<String, AllocError> {
    let mut script = String::new(alloc);
    for number in 1..=SETS {
        let line = request(alloc, "fefd0400", block(alloc, number)?.as_str())?;
        script.push_str(line.as_str())?;
        script.push('\n')?;
    }
    Ok(script)
}

/// The name of this number. It is empty before the first.
fn name(alloc: Global, number: u32) -> Result<String, AllocError> {
    if number == 0 {
        String::from_str(alloc, "-")
    } else {
        format!(in alloc; "n{number}")
    }
}

/// What `show` prints where the name of this number runs and is stored.
fn named(alloc: Global, number: u32) -> Result<String, AllocError> {
    let name = name(alloc, number)?;
    let settings = (name.as_str(), NO_SUITE);
    shown(alloc, settings, settings, "0")
}

/// An order that strikes a flash call, what is printed of the Set that is struck and of each one after it, the mask, and whether a
/// gate is open after a call that the order strikes in this way.
struct Strike {
    order: &'static str,
    struck: &'static str,
    behind: &'static str,
    mask: &'static str,
    opens_gate: bool,
}

/// Power is lost in the call.
fn cut(mask: &'static str, opens_gate: bool) -> Strike {
    Strike {
        order: "cut",
        struck: "power lost",
        behind: "off",
        mask,
        opens_gate,
    }
}

/// That call alone fails: its Set, and each one after it, is answered with error 5.
fn fault(mask: &'static str, opens_gate: bool) -> Strike {
    Strike {
        order: "fault",
        struck: SET_REFUSED,
        behind: SET_REFUSED,
        mask,
        opens_gate,
    }
}

impl Strike {
    /// The script in which the call after this many is struck.
    fn script(&self, alloc: Global, sets: &str, calls: u32) -> Result<String, AllocError> {
        let (order, mask) = (self.order, self.mask);
        format!(in alloc; "{order} {calls} {mask}\n{sets}restart\nshow\n")
    }

    /// What is printed of the Set of this number, if this many are answered 'done' and a flash call of the next one is struck.
    fn answer(&self, number: u32, answered: u32) -> &'static str {
        if number <= answered {
            SET_DONE
        } else if number == answered.saturating_add(1) {
            self.struck
        } else {
            self.behind
        }
    }

    /// What is printed up to the restart.
    fn answers(&self, alloc: Global, answered: u32) -> Result<String, AllocError> {
        let mut text = String::from_str(alloc, "boot ok\n")?;
        for number in 1..=SETS {
            text.push_str(self.answer(number, answered))?;
            text.push('\n')?;
        }
        text.push_str("boot ok\n")?;
        Ok(text)
    }

    /// If the call after this many is struck, this many Sets are answered 'done', and the name of this number is kept.
    fn keeps(&self, alloc: Global, sets: &str, calls: u32, (answered, kept): (u32, u32)) {
        let script = self.script(alloc, sets, calls).unwrap();
        let mut wanted = self.answers(alloc, answered).unwrap();
        wanted
            .push_str(named(alloc, kept).unwrap().as_str())
            .unwrap();
        wanted.push('\n').unwrap();
        prints(alloc, script.as_str(), wanted.as_str());
    }

    /// Each flash call of the Set of this number is struck. `before` calls come before the first of them.
    ///
    /// The new name is kept only if the last call opened the gate: its one byte was FF and must become 00, so the mask's first byte
    /// must be FF. An erase or a write that was cut short is in a slot or a sector that does not count, or counts as older than the
    /// other.
    fn each_call(&self, alloc: Global, sets: &str, before: u32, number: u32) {
        let answered = number.saturating_sub(1);
        let last = calls_of(number).saturating_sub(1);
        for call in 0..=last {
            let kept = if self.opens_gate && call == last {
                number
            } else {
                answered
            };
            let calls = before.saturating_add(call);
            self.keeps(alloc, sets, calls, (answered, kept));
        }
    }
}

/// Runs the script with each flash call struck in turn.
fn lose(alloc: Global, strike: &Strike) {
    let sets = sets(alloc).unwrap();
    let mut calls = 0u32;
    for number in 1..=SETS {
        strike.each_call(alloc, sets.as_str(), calls, number);
        calls = calls.saturating_add(calls_of(number));
    }
    assert_eq!(calls, CALLS);
}

#[test]
fn no_bit_is_changed() {
    lose(Global, &cut("00", false))
}

#[test]
fn every_other_bit_is_changed() {
    lose(Global, &cut("55", false))
}

#[test]
fn each_bit_is_changed() {
    lose(Global, &cut("ff", true))
}

#[test]
fn half_of_the_first_byte_is_changed() {
    lose(Global, &cut("0F0F", false))
}

#[test]
fn two_bytes_of_eight_are_changed() {
    lose(Global, &cut("00000000ffff0000", false))
}

#[test]
fn a_fault_changes_no_bit_every_other_or_each() {
    for (mask, opens_gate) in [("00", false), ("55", false), ("ff", true)] {
        lose(Global, &fault(mask, opens_gate));
    }
}

// An order for a call after the last strikes no call, not by the restart either.
#[test]
fn no_call_is_left_to_strike() {
    let sets = sets(Global).unwrap();
    for strike in [cut("ff", true), fault("ff", true)] {
        strike.keeps(Global, sets.as_str(), CALLS, (SETS, SETS));
    }
}
