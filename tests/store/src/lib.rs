//! Tests of the public calls below the store: what no contract says, bytes worked out by hand from the layouts, and calls
//! that fail.
//!
//! A module for each crate, by what it is about. Here is what they share: a test hands over to a function what it does often, as
//! what the journal promises of each call is then read there once.
#![cfg(test)]

use flash_model::{Lent, MemoryFlash, Order, Sector};
use pn_values::Command;
use settings_journal::{BootFault, CommitFault, Journal};

mod faults;
mod flash;
mod journal;
mod names;
mod sectors;
mod store;
mod values;

/// A journal over a flash that stays where it is.
type Stored<'a, const S: usize> = Journal<Lent<'a, MemoryFlash<S>>, S>;

/// The journal that a flash keeps.
#[inline(never)]
fn start<const S: usize>(flash: &mut MemoryFlash<S>) -> Result<Stored<'_, S>, BootFault> {
    match Journal::boot(Lent::new(flash)) {
        Ok(journal) => Ok(journal),
        Err((fault, _)) => Err(fault),
    }
}

/// A name, permanent.
fn set(name: &[u8]) -> Command {
    Command::SetName {
        permanent: true,
        name: station_names::check(name).unwrap(),
    }
}

/// What a commit of this command is answered.
#[inline(never)]
fn commit<const S: usize>(
    journal: &mut Stored<'_, S>,
    command: &Command,
) -> Result<(), CommitFault> {
    journal.commit(command)
}

/// Stores this name.
fn keep<const S: usize>(journal: &mut Stored<'_, S>, name: &[u8]) {
    commit(journal, &set(name)).unwrap();
}

/// There is no room for this command.
fn has_no_room_for<const S: usize>(journal: &mut Stored<'_, S>, command: &Command) {
    assert!(matches!(
        commit(journal, command),
        Err(CommitFault::Exhausted)
    ));
}

/// Whether a commit of this command is stopped by a loss of power in the flash call after `after` further ones.
fn is_cut<const S: usize>(
    journal: &mut Stored<'_, S>,
    (after, mask): (u32, [u8; 8]),
    command: &Command,
) -> bool {
    journal.arm(Order::Cut { after, mask });
    matches!(commit(journal, command), Err(CommitFault::FlashFault))
}

/// This name is stored.
fn is_named<const S: usize>(journal: &Stored<'_, S>, name: &[u8]) {
    assert_eq!(journal.settings().name.as_bytes(), name);
}

/// A start on this flash finds this name.
fn finds<const S: usize>(flash: &mut MemoryFlash<S>, name: &[u8]) {
    let journal = start(flash).unwrap();
    is_named(&journal, name);
}

/// A sector holds these octets at a place.
fn holds<const S: usize>(flash: &MemoryFlash<S>, (sector, place): (Sector, usize), octets: &[u8]) {
    let rest = flash.sector(sector).get(place..).unwrap_or(&[]);
    let there = rest.get(..octets.len());
    assert_eq!(there, Some(octets), "at {place}");
}
