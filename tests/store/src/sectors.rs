//! Sectors of 4,096 bytes, which have fourteen slots, until the next one is needed and until no commit has room. The bytes
//! were worked out by hand from the layout.

use super::{Stored, finds, has_no_room_for, holds, is_cut, is_named, keep, set, start};
use flash_model::{Flash, FlashFault, MemoryFlash, Sector};
use pn_values::{Command, ImValue, IpSuite, Padded, StationName};
use rattle_std::alloc::Global;
use rattle_std::{String, Vec, format};

/// The size of a sector of the demo device.
const SIZE: usize = 4096;

/// The smallest size: room for one slot.
const SMALLEST: usize = 768;

/// How many names fill two sectors: a base, and fourteen slots, in each.
const FULL: u32 = 30;

/// The name of this number.
fn numbered(alloc: Global, number: u32) -> String {
    format!(in alloc; "n{number}").unwrap()
}

/// Sets the names `n1` up to that of this number, each by one commit.
fn set_names(alloc: Global, journal: &mut Stored<'_, SIZE>, last: u32) {
    for number in 1..=last {
        keep(journal, numbered(alloc, number).as_bytes());
    }
}

#[test]
fn thirty_names_fill_both_sectors() {
    let mut flash = MemoryFlash::<SIZE>::blank();
    let mut journal = start(&mut flash).unwrap();
    set_names(Global, &mut journal, FULL);
    drop(journal);
    holds(&flash, (Sector::First, 0), b"PNJ\x02\xFF\xFE\x02n1");
    holds(&flash, (Sector::First, 512), b"\x01\x02n2");
    holds(&flash, (Sector::First, 3840), b"\x01\x03n15");
    holds(&flash, (Sector::Second, 0), b"PNJ\x02\xFF\xFD\x03n16");
    holds(&flash, (Sector::Second, 512), b"\x01\x03n17");
    holds(&flash, (Sector::Second, 3840), b"\x01\x03n30");
    for gate in [511, 767, 4095] {
        holds(&flash, (Sector::First, gate), &[0]);
        holds(&flash, (Sector::Second, gate), &[0]);
    }
}

/// In a flash that is erased first, a commit after the names that fill both sectors is cut short: this name remains.
fn outlives(
    alloc: Global,
    flash: &mut MemoryFlash<SIZE>,
    (after, mask, name): (u32, [u8; 8], &[u8]),
) {
    flash.erase(Sector::First).unwrap();
    flash.erase(Sector::Second).unwrap();
    let mut journal = start(flash).unwrap();
    set_names(alloc, &mut journal, FULL);
    let cut = is_cut(&mut journal, (after, mask), &set(b"n31"));
    assert!(cut, "at {after} {mask:?}");
    drop(journal);
    flash.power_up();
    finds(flash, name)
}

/// A flash call of the commit after the thirtieth name that is cut short, its mask, and the name that remains.
const CUTS: [(u32, [u8; 8], &[u8]); 9] = [
    (0, [0x00; 8], b"n30"),
    (0, [0x55; 8], b"n30"),
    (0, [0xFF; 8], b"n30"),
    (0, [0, 0, 0, 0, 0xFF, 0xFF, 0, 0], b"n30"),
    (1, [0x00; 8], b"n30"),
    (1, [0x55; 8], b"n30"),
    (1, [0xFF; 8], b"n30"),
    (2, [0x55; 8], b"n30"),
    (2, [0xFF; 8], b"n31"),
];

// The next command erases the first sector, programs a base there and opens its gate. Whichever of the three calls is cut
// short, the last name is there, unless the gate is open whole.
#[test]
fn a_full_sector_outlives_its_follower() {
    let mut flash = MemoryFlash::<SIZE>::blank();
    for cut in CUTS {
        outlives(Global, &mut flash, cut);
    }
}

// A slot whose gate opened by half is in use, and changes nothing.
#[test]
fn the_slot_behind_one_that_was_cut_short_is_used() {
    let mut flash = MemoryFlash::<SIZE>::blank();
    let mut journal = start(&mut flash).unwrap();
    keep(&mut journal, b"pump-1");
    assert!(is_cut(&mut journal, (1, [0x55; 8]), &set(b"pump-2")));
    drop(journal);
    flash.power_up();
    let mut journal = start(&mut flash).unwrap();
    is_named(&journal, b"pump-1");
    keep(&mut journal, b"pump-3");
    drop(journal);
    holds(&flash, (Sector::First, 767), &[0xAA]);
    holds(&flash, (Sector::First, 768), b"\x01\x06pump-3");
    holds(&flash, (Sector::First, 1023), &[0x00]);
    finds(&mut flash, b"pump-3")
}

// The gate's byte is the last that a commit programs: where it is 00, the command counts, though power was lost in the call.
#[test]
fn a_date_whose_gate_opened_is_kept() {
    let mut flash = MemoryFlash::<SIZE>::blank();
    let mut journal = start(&mut flash).unwrap();
    keep(&mut journal, b"pump-1");
    let date = Command::SetIm(ImValue::Im2(Padded::new(*b"2024-05-06 07:08")));
    assert!(is_cut(&mut journal, (1, [0xFF; 8]), &date));
    drop(journal);
    flash.power_up();
    let again = start(&mut flash).unwrap();
    assert_eq!(
        again.settings().im2.as_bytes(),
        b"2024-05-06 07:08".as_slice()
    );
    is_named(&again, b"pump-1");
}

/// Writes the last generation into the first sector, in a version of the layout: a base with the name `pump-1`, and fourteen
/// open slots with a reset of the texts.
fn write_last(flash: &mut MemoryFlash<SIZE>, version: u8) -> Result<(), FlashFault> {
    let mut base = [0; 437];
    base[..13].copy_from_slice(b"PNJ\x02\x00\x00\x06pump-1");
    base[3] = version;
    flash.program(Sector::First, 0, &base)?;
    flash.program(Sector::First, 511, &[0])?;
    for number in 0..14 {
        flash.program(Sector::First, 512 + 256 * number, &[8, 0])?;
        flash.program(Sector::First, 767 + 256 * number, &[0])?;
    }
    Ok(())
}

/// A command of each kind.
fn commands() -> [Command; 8] {
    [
        set(b"pump-2"),
        Command::SetName {
            permanent: false,
            name: StationName::none(),
        },
        Command::SetIp {
            permanent: true,
            suite: IpSuite::zero(),
        },
        Command::SetIp {
            permanent: false,
            suite: IpSuite::zero(),
        },
        Command::SetIm(ImValue::Im4(Padded::zero())),
        Command::ResetApplication,
        Command::ResetCommunication,
        Command::ResetAll,
    ]
}

/// There is no room for a command of any kind, and each leaves the journal as it was.
fn has_no_room(journal: &mut Stored<'_, SIZE>) {
    assert!(journal.is_exhausted());
    for command in &commands() {
        has_no_room_for(journal, command);
    }
    assert!(!journal.has_failed());
    assert_eq!(journal.settings().im1.as_bytes(), [b' '; 54].as_slice());
}

#[test]
fn a_full_sector_of_the_last_generation_has_no_room() {
    for version in [1, 2] {
        let mut flash = MemoryFlash::<SIZE>::blank();
        write_last(&mut flash, version).unwrap();
        let mut journal = start(&mut flash).unwrap();
        has_no_room(&mut journal);
        is_named(&journal, b"pump-1");
        drop(journal);
        let mut untouched = MemoryFlash::<SIZE>::blank();
        write_last(&mut untouched, version).unwrap();
        for sector in [Sector::First, Sector::Second] {
            assert!(flash.sector(sector) == untouched.sector(sector));
        }
    }
}

// 100 of 65,535 generations remain, each with a base and a slot, and one slot of this generation. There are that many commits and no
// more, with a start before each of them.
#[test]
fn each_generation_has_a_base_and_its_slots() {
    let mut flash = MemoryFlash::<SMALLEST>::blank();
    let mut base = [0; 437];
    base[..13].copy_from_slice(b"PNJ\x02\x00\x64\x06pump-1");
    flash.program(Sector::First, 0, &base).unwrap();
    flash.program(Sector::First, 511, &[0]).unwrap();
    for _ in 0..201 {
        let mut journal = start(&mut flash).unwrap();
        assert!(!journal.is_exhausted());
        keep(&mut journal, b"pump-2");
    }
    let mut journal = start(&mut flash).unwrap();
    assert!(journal.is_exhausted());
    has_no_room_for(&mut journal, &set(b"pump-2"));
    is_named(&journal, b"pump-2");
}

/// A commit after this many others changes the sector `here` and not the one `there`. A slot's commit changes that slot alone.
fn leaves_the_rest(
    alloc: Global,
    flash: &mut MemoryFlash<SIZE>,
    (number, here, there): (usize, Sector, Sector),
) {
    let was = Vec::from_slice(alloc, flash.sector(here)).unwrap();
    let other = Vec::from_slice(alloc, flash.sector(there)).unwrap();
    let mut journal = start(flash).unwrap();
    keep(&mut journal, b"pump-1");
    drop(journal);
    assert!(flash.sector(there) == other.as_slice(), "at {number}");
    let now = flash.sector(here);
    assert!(now != was.as_slice(), "at {number}");
    let slot = number % 15;
    if slot > 0 {
        let place = 256 + 256 * slot;
        assert!(now[..place] == was[..place], "at {number}");
        assert!(now[place + 256..] == was[place + 256..], "at {number}");
    }
}

// A commit into a slot changes that slot alone, and one that needs a sector leaves the active one as it was.
#[test]
fn a_commit_leaves_what_is_stored_where_it_lies() {
    let mut flash = MemoryFlash::<SIZE>::blank();
    for number in 0..32usize {
        let place = if number / 15 % 2 == 0 {
            (number, Sector::First, Sector::Second)
        } else {
            (number, Sector::Second, Sector::First)
        };
        leaves_the_rest(Global, &mut flash, place);
    }
}
