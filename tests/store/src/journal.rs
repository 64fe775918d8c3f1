//! Images whose bytes were worked out by hand from the layout, and calls at a flash in memory.

use super::{Stored, commit, finds, has_no_room_for, holds, is_cut, is_named, keep, set, start};
use flash_model::{FlashFault, MemoryFlash, Sector};
use pn_values::{Command, ImValue, Padded};
use settings_journal::{BootFault, CommitFault};

/// The smallest size: room for one slot.
const SIZE: usize = 768;

// "PNJ" and the version; the generation 1, which leaves 65,534; a name of six bytes.
const FIRST: &[u8; 13] = b"PNJ\x02\xFF\xFE\x06pump-1";

// The same with the generation 2.
const SECOND: &[u8; 13] = b"PNJ\x02\xFF\xFD\x06pump-2";

// The kind and a length that is one short.
const I_AND_M_4: [u8; 2] = [0x0B, 53];

/// What lies in a sector.
#[derive(Clone, Copy)]
enum Image {
    /// This byte over and over.
    All(u8),
    /// This front and gate, and zeros between them: no address, and texts of zeros. The slot is blank.
    Base(&'static [u8; 13], u8),
    /// A base whose gate is open, with this entry in its slot, whose gate is open too.
    Slot(&'static [u8; 13], &'static [u8]),
}

use Image::{All, Base, Slot};

fn base(front: &[u8; 13], gate: u8) -> [u8; SIZE] {
    let mut bytes = [0xFF; SIZE];
    bytes[..511].copy_from_slice(&[0; 511]);
    bytes[..13].copy_from_slice(front);
    bytes[511] = gate;
    bytes
}

fn with_slot(front: &[u8; 13], entry: &[u8], gate: u8) -> [u8; SIZE] {
    let mut bytes = base(front, 0);
    for (byte, written) in bytes.iter_mut().skip(512).zip(entry) {
        *byte = *written;
    }
    bytes[767] = gate;
    bytes
}

impl Image {
    fn bytes(self) -> [u8; SIZE] {
        match self {
            All(byte) => [byte; SIZE],
            Base(front, gate) => base(front, gate),
            Slot(front, entry) => with_slot(front, entry, 0),
        }
    }
}

/// A flash whose sectors are these.
#[inline(never)]
fn flash_of(first: Image, second: Image) -> MemoryFlash<SIZE> {
    MemoryFlash::from_sectors(first.bytes(), second.bytes())
}

/// Each byte of a sector is FF.
fn is_blank(flash: &MemoryFlash<SIZE>, sector: Sector) {
    holds(flash, (sector, 0), &[0xFF; SIZE]);
}

#[test]
fn the_first_name_goes_to_the_first_sector() {
    let mut flash = MemoryFlash::<SIZE>::blank();
    let mut journal = start(&mut flash).unwrap();
    is_named(&journal, b"");
    keep(&mut journal, b"pump-1");
    drop(journal);
    holds(&flash, (Sector::First, 0), FIRST);
    holds(&flash, (Sector::First, 511), &[0x00]);
    is_blank(&flash, Sector::Second);
}

#[test]
fn the_next_name_goes_into_the_slot() {
    let mut flash = MemoryFlash::<SIZE>::blank();
    let mut journal = start(&mut flash).unwrap();
    keep(&mut journal, b"pump-1");
    keep(&mut journal, b"pump-2");
    drop(journal);
    holds(&flash, (Sector::First, 0), FIRST);
    holds(&flash, (Sector::First, 512), b"\x01\x06pump-2");
    holds(&flash, (Sector::First, 767), &[0x00]);
    is_blank(&flash, Sector::Second);
    let again = start(&mut flash).unwrap();
    is_named(&again, b"pump-2");
    assert!(!again.is_exhausted());
    assert!(!again.has_failed());
}

#[test]
fn without_a_slot_the_next_name_goes_to_the_other_sector() {
    let mut flash = MemoryFlash::<SIZE>::blank();
    let mut journal = start(&mut flash).unwrap();
    keep(&mut journal, b"n1");
    keep(&mut journal, b"n2");
    keep(&mut journal, b"n3");
    drop(journal);
    holds(&flash, (Sector::First, 0), b"PNJ\x02\xFF\xFE\x02n1");
    holds(&flash, (Sector::Second, 0), b"PNJ\x02\xFF\xFD\x02n3");
    holds(&flash, (Sector::Second, 511), &[0x00]);
    holds(&flash, (Sector::Second, 512), &[0xFF; 256]);
    finds(&mut flash, b"n3")
}

#[test]
fn a_gate_that_half_opens_is_closed() {
    let mut flash = MemoryFlash::<SIZE>::blank();
    let mut journal = start(&mut flash).unwrap();
    keep(&mut journal, b"pump-1");
    assert!(is_cut(&mut journal, (1, [0x55; 8]), &set(b"pump-2")));
    drop(journal);
    holds(&flash, (Sector::First, 767), &[0xAA]);
    flash.power_up();
    let mut journal = start(&mut flash).unwrap();
    is_named(&journal, b"pump-1");
    keep(&mut journal, b"pump-3");
    drop(journal);
    let base = b"PNJ\x02\xFF\xFD\x06pump-3";
    holds(&flash, (Sector::Second, 0), base);
    finds(&mut flash, b"pump-3")
}

// A slot that no byte was programmed into is still the next one.
#[test]
fn a_slot_that_stayed_blank_is_used() {
    let mut flash = MemoryFlash::<SIZE>::blank();
    let mut journal = start(&mut flash).unwrap();
    keep(&mut journal, b"pump-1");
    assert!(is_cut(&mut journal, (0, [0x00; 8]), &set(b"pump-2")));
    drop(journal);
    flash.power_up();
    let mut journal = start(&mut flash).unwrap();
    keep(&mut journal, b"pump-3");
    drop(journal);
    holds(&flash, (Sector::First, 512), b"\x01\x06pump-3");
}

#[test]
fn after_a_fault_nothing_is_stored_until_a_start() {
    let mut flash = MemoryFlash::<SIZE>::blank();
    let mut journal = start(&mut flash).unwrap();
    assert!(is_cut(&mut journal, (2, [0x55; 8]), &set(b"pump-2")));
    let refused = commit(&mut journal, &set(b"pump-2"));
    assert!(matches!(refused, Err(CommitFault::Failed)));
    assert!(journal.has_failed());
    drop(journal);
    flash.power_up();
    let mut journal = start(&mut flash).unwrap();
    keep(&mut journal, b"pump-3");
    is_named(&journal, b"pump-3");
}

/// An erase of the first sector, in a commit of a third name, is cut short at this mask: without power there is no start, and
/// with power again the second name is there.
fn outlives_an_erase(mask: [u8; 8]) {
    let mut flash = flash_of(Base(FIRST, 0), Slot(SECOND, b"\x08\x00"));
    let mut journal = start(&mut flash).unwrap();
    let cut = is_cut(&mut journal, (0, mask), &set(b"pump-3"));
    assert!(cut, "at {mask:?}");
    drop(journal);
    let without = start(&mut flash);
    assert!(matches!(without, Err(BootFault::FlashFault)), "at {mask:?}");
    drop(without);
    flash.power_up();
    finds(&mut flash, b"pump-2")
}

#[test]
fn an_erase_that_is_cut_short_leaves_the_last_settings() {
    outlives_an_erase([0x00; 8]);
    outlives_an_erase([0x55; 8]);
    outlives_an_erase([0xFF; 8]);
    outlives_an_erase([0x00, 0x00, 0x00, 0x00, 0xFF, 0xFF, 0x00, 0x00])
}

/// Images that no journal left, and why.
const FOREIGN: [(Image, Image, &str); 12] = [
    (Base(FIRST, 0), Base(FIRST, 0), "one generation twice"),
    (
        Base(b"PNS\x01\xFF\xFE\x06pump-1", 0),
        All(0xFF),
        "a layout of snapshots",
    ),
    (
        All(0xFF),
        Base(b"PNJ\x03\xFF\xFE\x06pump-1", 0),
        "another version",
    ),
    (
        Base(b"PNJ\x02\xFF\xFF\x06pump-1", 0),
        All(0xFF),
        "the generation 0",
    ),
    (Base(b"PNJ\x02\xFF\xFE\x06pump_1", 0), All(0xFF), "no name"),
    (
        Base(b"PNJ\x02\xFF\xFE\xF1pump-1", 0),
        All(0xFF),
        "a name of 241 bytes",
    ),
    (
        Base(b"PNJ\x02\xFF\xFE\x04pump-1", 0),
        All(0xFF),
        "bytes behind the name",
    ),
    (All(0), All(0), "zeros"),
    (Slot(FIRST, b"\x0C\x00"), All(0xFF), "no kind"),
    (
        Slot(FIRST, b"\x08\x01"),
        All(0xFF),
        "a reset with a payload",
    ),
    (
        Slot(FIRST, b"\x01\x06pump_1"),
        All(0xFF),
        "a slot with no name",
    ),
    (Slot(FIRST, &I_AND_M_4), All(0xFF), "an I&M4 that is short"),
];

/// A start refuses what lies in the sectors.
fn is_foreign((first, second, what): (Image, Image, &str)) {
    let mut flash = flash_of(first, second);
    let answer = start(&mut flash);
    assert!(matches!(answer, Err(BootFault::Foreign)), "at {what}");
}

#[test]
fn what_no_journal_left_is_foreign() {
    for images in FOREIGN {
        is_foreign(images);
    }
}

/// Images, and the name that a start on them finds.
const NEWEST: [(Image, Image, &[u8; 6]); 5] = [
    (Base(FIRST, 0), Base(SECOND, 0), b"pump-2"),
    (Base(SECOND, 0), Base(FIRST, 0), b"pump-2"),
    (Base(FIRST, 0), Base(SECOND, 1), b"pump-1"),
    (All(0xFF), Base(FIRST, 0), b"pump-1"),
    (
        Base(FIRST, 0),
        Base(b"PNS\x01\xFF\xFD\x06pump-2", 0),
        b"pump-1",
    ),
];

#[test]
fn the_newest_sector_is_read() {
    for (first, second, name) in NEWEST {
        finds(&mut flash_of(first, second), name);
    }
}

#[test]
fn the_last_generation_is_kept() {
    let last = Slot(b"PNJ\x02\x00\x01\x06pump-1", b"\x08\x00");
    let mut flash = flash_of(last, All(0xFF));
    let mut journal = start(&mut flash).unwrap();
    assert!(!journal.is_exhausted());
    keep(&mut journal, b"pump-1");
    assert!(!journal.is_exhausted());
    keep(&mut journal, b"pump-2");
    assert!(journal.is_exhausted());
    has_no_room_for(&mut journal, &set(b"pump-3"));
    assert!(!journal.has_failed());
    drop(journal);
    finds(&mut flash, b"pump-2")
}

const OLD: &[u8; 13] = b"PNJ\x01\xFF\xFE\x06pump-1";

/// The I&M4 that is stored is this octet over and over.
fn has_im4(journal: &Stored<'_, SIZE>, octet: u8) {
    assert_eq!(journal.settings().im4.as_bytes(), [octet; 54].as_slice());
}

/// Stores an I&M4 of fours.
fn store_im4(journal: &mut Stored<'_, SIZE>) {
    let im4 = Padded::new([b'4'; 54]);
    commit(journal, &Command::SetIm(ImValue::Im4(im4))).unwrap();
}

#[test]
fn version_1_is_read_and_not_written() {
    let mut flash = flash_of(Base(OLD, 0), All(0xFF));
    let mut journal = start(&mut flash).unwrap();
    is_named(&journal, b"pump-1");
    has_im4(&journal, 0);
    keep(&mut journal, b"pump-2");
    store_im4(&mut journal);
    drop(journal);
    holds(&flash, (Sector::First, 0), &base(OLD, 0));
    holds(&flash, (Sector::Second, 0), SECOND);
    holds(&flash, (Sector::Second, 383), &[0; 54]);
    holds(&flash, (Sector::Second, 511), &[0x00]);
    holds(&flash, (Sector::Second, 512), b"\x0B\x36444");
    let again = start(&mut flash).unwrap();
    has_im4(&again, b'4');
}

/// The move from version 1 is cut short in the flash call after `after` further ones: this name remains.
fn outlives_a_move(after: u32, byte: u8, name: &[u8]) {
    let mut flash = flash_of(Base(OLD, 0), All(0xFF));
    let mut journal = start(&mut flash).unwrap();
    let cut = is_cut(&mut journal, (after, [byte; 8]), &set(b"pump-2"));
    assert!(cut, "at {after} {byte}");
    drop(journal);
    flash.power_up();
    finds(&mut flash, name)
}

#[test]
fn a_move_from_version_1_that_is_cut_short() {
    for after in 0..3 {
        for byte in [0x00, 0x55, 0xFF] {
            let whole = after == 2 && byte == 0xFF;
            let name = if whole { b"pump-2" } else { b"pump-1" };
            outlives_a_move(after, byte, name);
        }
    }
}

#[test]
fn the_last_generation_of_version_1_has_no_room() {
    let mut flash = flash_of(Base(b"PNJ\x01\x00\x00\x06pump-1", 0), All(0xFF));
    let mut journal = start(&mut flash).unwrap();
    assert!(journal.is_exhausted());
    has_no_room_for(&mut journal, &set(b"pump-3"));
}

// I&M4 in a slot, with this gate: its kind, its length and 54 octets.
#[inline(never)]
fn with_im4(front: &[u8; 13], gate: u8) -> MemoryFlash<SIZE> {
    let mut entry = [b'4'; 56];
    entry[0] = 0x0B;
    entry[1] = 54;
    MemoryFlash::from_sectors(with_slot(front, &entry, gate), [0xFF; SIZE])
}

#[test]
fn version_1_has_no_slot_of_im4() {
    let mut flash = with_im4(OLD, 0);
    assert!(matches!(start(&mut flash), Err(BootFault::Foreign)));
    let mut flash = with_im4(OLD, 1);
    has_im4(&start(&mut flash).unwrap(), 0);
    let mut flash = with_im4(FIRST, 0);
    has_im4(&start(&mut flash).unwrap(), b'4');
}

#[test]
fn the_numbers_of_refusals() {
    assert_eq!(FlashFault.number(), 1);
    for (fault, number) in [(BootFault::FlashFault, 1), (BootFault::Foreign, 2)] {
        assert_eq!(fault.number(), number);
    }
    for (fault, number) in [
        (CommitFault::Exhausted, 1),
        (CommitFault::FlashFault, 2),
        (CommitFault::Failed, 3),
    ] {
        assert_eq!(fault.number(), number);
    }
}
