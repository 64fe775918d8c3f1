//! Calls whose bytes were computed by hand from the rule of a torn call: the old bit where the mask has a 0, the new one
//! where it has a 1.

use super::holds;
use flash_model::{Flash, FlashFault, Lent, MemoryFlash, Order, Sector};

/// The smallest size: room for one slot.
pub(super) const SIZE: usize = 768;

/// A program call, of a range that a sector has, is answered so.
pub(super) fn programs(
    flash: &mut MemoryFlash<SIZE>,
    (sector, place): (Sector, usize),
    bytes: &[u8],
    answer: Result<(), FlashFault>,
) {
    if place > SIZE || bytes.len() > SIZE - place {
        panic!("no range of a sector: {place}");
    }
    assert_eq!(flash.program(sector, place, bytes), answer, "at {place}");
}

/// An erase call is answered so.
pub(super) fn erases(
    flash: &mut MemoryFlash<SIZE>,
    sector: Sector,
    answer: Result<(), FlashFault>,
) {
    assert_eq!(flash.erase(sector), answer);
}

/// A read from a place on gives these bytes, or fails and leaves the buffer as it was.
pub(super) fn reads<const N: usize>(
    flash: &mut MemoryFlash<SIZE>,
    (sector, place): (Sector, usize),
    wanted: Result<[u8; N], FlashFault>,
) {
    if place > SIZE || N > SIZE - place {
        panic!("no range of a sector: {place}");
    }
    // bytes that no test has in a sector
    let mut buffer = [0x5B; N];
    let answer = flash.read(sector, place, &mut buffer);
    let wanted = match wanted {
        Ok(bytes) => (Ok(()), bytes),
        Err(fault) => (Err(fault), [0x5B; N]),
    };
    assert_eq!((answer, buffer), wanted, "at {place}");
}

/// Each byte of a sector is this one.
pub(super) fn is_all(flash: &MemoryFlash<SIZE>, sector: Sector, byte: u8) {
    assert_eq!(flash.sector(sector), [byte; SIZE].as_slice());
}

#[test]
fn a_program_call_is_torn() {
    let mut flash = MemoryFlash::<SIZE>::blank();
    flash.fuse(0, [0x55; 8]);
    let written = [0x00, 0x01, 0x80, 0xAA, 0x55, 0xFF, 0xF0, 0x0F];
    let failed = Err(FlashFault);
    programs(&mut flash, (Sector::First, 512), &written, failed);
    let left = [0xFF, 0xAA, 0xAB, 0xAA, 0xAA, 0xFF, 0xFF, 0xFA, 0xAF, 0xFF];
    holds(&flash, (Sector::First, 511), &left);
    assert!(flash.is_lost());
    assert_eq!(flash.failures(), 1);
}

#[test]
fn the_mask_repeats_from_the_start_of_the_range() {
    let mut flash = MemoryFlash::<SIZE>::blank();
    flash.fuse(0, [0x00, 0xFF, 0x0F, 0xF0, 0x01, 0x80, 0x55, 0xAA]);
    let failed = Err(FlashFault);
    programs(&mut flash, (Sector::Second, 515), &[0; 10], failed);
    let left = [
        0xFF, 0xFF, 0x00, 0xF0, 0x0F, 0xFE, 0x7F, 0xAA, 0x55, 0xFF, 0x00, 0xFF,
    ];
    holds(&flash, (Sector::Second, 514), &left);
}

#[test]
fn an_erase_call_is_torn() {
    let mut flash = MemoryFlash::from_sectors([0x3C; SIZE], [0xA5; SIZE]);
    flash.fuse(0, [0x0F; 8]);
    erases(&mut flash, Sector::First, Err(FlashFault));
    is_all(&flash, Sector::First, 0x3F);
    is_all(&flash, Sector::Second, 0xA5);
}

#[test]
fn without_power_each_call_fails() {
    let mut flash = MemoryFlash::from_sectors([0x3C; SIZE], [0xA5; SIZE]);
    flash.fuse(0, [0x00; 8]);
    let failed = Err(FlashFault);
    programs(&mut flash, (Sector::First, 0), &[0], failed);
    reads::<2>(&mut flash, (Sector::First, 0), Err(FlashFault));
    programs(&mut flash, (Sector::First, 0), &[0], failed);
    erases(&mut flash, Sector::Second, failed);
    assert_eq!(flash.failures(), 4);
}

#[test]
fn with_its_power_back_it_goes_on() {
    let mut flash = MemoryFlash::from_sectors([0x3C; SIZE], [0xA5; SIZE]);
    flash.fuse(0, [0x00; 8]);
    programs(&mut flash, (Sector::First, 0), &[0], Err(FlashFault));
    flash.power_up();
    assert!(!flash.is_lost());
    is_all(&flash, Sector::First, 0x3C);
    programs(&mut flash, (Sector::First, 767), &[0x0F], Ok(()));
    reads(&mut flash, (Sector::First, 766), Ok([0x3C, 0x0C]));
    erases(&mut flash, Sector::Second, Ok(()));
    is_all(&flash, Sector::Second, 0xFF);
    assert_eq!(flash.failures(), 1);
}

#[test]
fn a_fuse_counts_program_and_erase_calls() {
    let mut flash = MemoryFlash::<SIZE>::blank();
    flash.fuse(2, [0xFF; 8]);
    programs(&mut flash, (Sector::First, 0), &[0x7F], Ok(()));
    reads(&mut flash, (Sector::First, 0), Ok([0x7F]));
    flash.power_up();
    erases(&mut flash, Sector::First, Ok(()));
    assert_eq!(flash.failures(), 0);
    let failed = Err(FlashFault);
    programs(&mut flash, (Sector::First, 0), &[0x12], failed);
    holds(&flash, (Sector::First, 0), &[0x12, 0xFF]);
}

#[test]
fn arming_again_replaces_the_order() {
    let mut flash = MemoryFlash::<SIZE>::blank();
    flash.fuse(0, [0x00; 8]);
    flash.arm(Order::Cut {
        after: 1,
        mask: [0xF0; 8],
    });
    let failed = Err(FlashFault);
    programs(&mut flash, (Sector::First, 0), &[0x00], Ok(()));
    programs(&mut flash, (Sector::First, 1), &[0x00], failed);
    holds(&flash, (Sector::First, 0), &[0x00, 0x0F, 0xFF]);
}

#[test]
fn a_call_without_power_counts_for_no_order() {
    let mut flash = MemoryFlash::<SIZE>::blank();
    flash.fuse(0, [0x00; 8]);
    erases(&mut flash, Sector::First, Err(FlashFault));
    flash.fuse(1, [0x00; 8]);
    erases(&mut flash, Sector::First, Err(FlashFault));
    erases(&mut flash, Sector::First, Err(FlashFault));
    flash.power_up();
    erases(&mut flash, Sector::First, Ok(()));
    erases(&mut flash, Sector::First, Err(FlashFault));
    flash.power_up();
    erases(&mut flash, Sector::First, Ok(()));
}

/// Programs one byte and reads it back, by the trait alone.
fn write_and_read<F: Flash<SIZE>>(flash: &mut F, byte: u8) -> Result<u8, FlashFault> {
    let mut buffer = [0];
    flash.program(Sector::Second, 100, &[byte])?;
    flash.read(Sector::Second, 100, &mut buffer)?;
    Ok(buffer[0])
}

/// An order to lose power in the next call, which changes these bits.
fn cut(mask: u8) -> Order {
    Order::Cut {
        after: 0,
        mask: [mask; 8],
    }
}

#[test]
fn the_trait_is_met() {
    let mut flash = MemoryFlash::<SIZE>::blank();
    assert_eq!(write_and_read(&mut flash, 0x5A), Ok(0x5A));
    assert_eq!(write_and_read(&mut flash, 0x33), Ok(0x12));
    Flash::arm(&mut flash, cut(0));
    assert_eq!(write_and_read(&mut flash, 0x00), Err(FlashFault));
    assert_eq!(Flash::failures(&flash), 1);
    assert!(Flash::is_lost(&flash));
}

#[test]
fn what_is_done_to_a_lent_flash_is_done_to_it() {
    let mut flash = MemoryFlash::<SIZE>::blank();
    let mut lent = Lent::new(&mut flash);
    assert_eq!(write_and_read(&mut lent, 0x5A), Ok(0x5A));
    Flash::arm(&mut lent, cut(0xF0));
    assert_eq!(Flash::erase(&mut lent, Sector::Second), Err(FlashFault));
    assert!(Flash::is_lost(&lent));
    assert_eq!(Flash::failures(&lent), 1);
    lent.power_up();
    assert!(!lent.flash().is_lost());
    holds(&flash, (Sector::Second, 100), &[0xFA]);
}
