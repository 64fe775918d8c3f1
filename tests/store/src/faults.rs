//! Calls that fail while power stays. The bytes were computed by hand from the rule of a torn call.

use super::flash::{SIZE, erases, is_all, programs, reads};
use super::{holds, is_named};
use flash_model::{Flash, FlashFault, Lent, MemoryFlash, Order, Sector};
use settings_journal::{BootFault, Journal};

#[test]
fn a_fault_tears_one_program_call() {
    let mut flash = MemoryFlash::<SIZE>::blank();
    let failed = Err(FlashFault);
    flash.fault(0, [0x55; 8]);
    programs(&mut flash, (Sector::First, 512), &[0x00, 0x80], failed);
    holds(&flash, (Sector::First, 511), &[0xFF, 0xAA, 0xAA, 0xFF]);
    assert!(!flash.is_lost());
    programs(&mut flash, (Sector::First, 512), &[0x00], Ok(()));
    assert_eq!(flash.failures(), 1);
}

#[test]
fn a_fault_tears_one_erase_call() {
    let mut flash = MemoryFlash::from_sectors([0x3C; SIZE], [0xA5; SIZE]);
    flash.fault(0, [0x0F; 8]);
    erases(&mut flash, Sector::First, Err(FlashFault));
    is_all(&flash, Sector::First, 0x3F);
    is_all(&flash, Sector::Second, 0xA5);
    erases(&mut flash, Sector::First, Ok(()));
    is_all(&flash, Sector::First, 0xFF);
}

#[test]
fn a_fault_counts_program_and_erase_calls() {
    let mut flash = MemoryFlash::<SIZE>::blank();
    let failed = Err(FlashFault);
    flash.fault(2, [0xFF; 8]);
    programs(&mut flash, (Sector::First, 0), &[0x7F], Ok(()));
    reads(&mut flash, (Sector::First, 0), Ok([0x7F]));
    erases(&mut flash, Sector::First, Ok(()));
    programs(&mut flash, (Sector::First, 0), &[0x12], failed);
    programs(&mut flash, (Sector::First, 1), &[0x34], Ok(()));
    holds(&flash, (Sector::First, 0), &[0x12, 0x34, 0xFF]);
}

#[test]
fn a_read_fault_fails_one_read() {
    let mut flash = MemoryFlash::from_sectors([0x3C; SIZE], [0xA5; SIZE]);
    flash.fault_read(1);
    erases(&mut flash, Sector::Second, Ok(()));
    reads(&mut flash, (Sector::Second, 0), Ok([0xFF]));
    programs(&mut flash, (Sector::Second, 0), &[0x12], Ok(()));
    reads::<1>(&mut flash, (Sector::First, 0), Err(FlashFault));
    assert!(!flash.is_lost());
    reads(&mut flash, (Sector::First, 0), Ok([0x3C]));
    assert_eq!(flash.failures(), 1);
}

#[test]
fn one_order_takes_the_place_of_another() {
    let mut flash = MemoryFlash::<SIZE>::blank();
    let mask = [0; 8];
    flash.fuse(0, mask);
    flash.fault_read(0);
    erases(&mut flash, Sector::First, Ok(()));
    flash.fault(0, mask);
    reads(&mut flash, (Sector::First, 0), Ok([0xFF]));
    erases(&mut flash, Sector::First, Err(FlashFault));
    Flash::arm(&mut flash, Order::Fault { after: 0, mask });
    Flash::arm(&mut flash, Order::ReadFault { after: 0 });
    erases(&mut flash, Sector::First, Ok(()));
    reads::<1>(&mut flash, (Sector::First, 0), Err(FlashFault));
    assert!(!flash.is_lost());
}

/// A start that cannot read is refused, and the flash that it hands back starts at a blank name.
fn starts_again(flash: &mut MemoryFlash<SIZE>) {
    let Err((fault, lent)) = Journal::boot(Lent::new(flash)) else {
        panic!("a read failed");
    };
    assert_eq!(fault, BootFault::FlashFault);
    match Journal::boot(lent) {
        Ok(journal) => is_named(&journal, b""),
        Err(_) => panic!("it reads"),
    }
}

#[test]
fn a_start_that_could_not_read_hands_the_flash_back() {
    let mut flash = MemoryFlash::<SIZE>::blank();
    for after in [0, 1] {
        flash.fault_read(after);
        starts_again(&mut flash);
    }
}
