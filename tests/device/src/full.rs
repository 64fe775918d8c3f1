//! A station whose flash has no room for one more commit, and a flash that another layout was written to.
use crate::Tried;
use pn_values::demo_identity;
use device_core::Device;
use flash_model::{Flash, MemoryFlash, Sector};
use settings_journal::BootFault;
use test_stations::{IDENTIFY, PUMP_1, frame, no_modules, set_pump, start, write_last};

// A reset of DCP without its block, and the answer without how the block came out.
const RESET: [u8; 26] =
    *b"\x02\x00\x00\x00\x00\x01\x02\x00\x00\x00\x00\x02\x88\x92\xfe\xfd\x04\x00\x00\x00\x00\x03\x00\x00\x00\x06";

const ANSWERED: [u8; 26] =
    *b"\x02\x00\x00\x00\x00\x02\x02\x00\x00\x00\x00\x01\x88\x92\xfe\xfd\x04\x01\x00\x00\x00\x03\x00\x00\x00\x08";

// The answer "resource error" to a Set of a name.
const FULL: [u8; 34] =
    *b"\x02\x00\x00\x00\x00\x02\x02\x00\x00\x00\x00\x01\x88\x92\xfe\xfd\x04\x01\x00\x00\x00\x02\x00\x00\x00\x08\
    \x05\x04\x00\x03\x02\x02\x04\x00";

// The request of a reset, and its answer with BlockError 4.
fn reset(block: [u8; 6]) -> ([u8; 32], [u8; 34]) {
    let (mut request, mut answer) = ([0; 32], [0; 34]);
    request[..26].copy_from_slice(&RESET);
    request[26..].copy_from_slice(&block);
    answer[..26].copy_from_slice(&ANSWERED);
    answer[26..30].copy_from_slice(&[5, 4, 0, 3]);
    answer[30..32].copy_from_slice(&block[..2]);
    answer[32] = 4;
    (request, answer)
}

// A flash without room, in a version of the layout.
fn full(version: u8) -> MemoryFlash<768> {
    let mut flash = MemoryFlash::blank();
    write_last(&mut flash, version, [0; 12]).unwrap();
    flash
}

// It is as it was written.
fn is_untouched(flash: &MemoryFlash<768>, version: u8) {
    let untouched = full(version);
    for sector in [Sector::First, Sector::Second] {
        assert!(flash.sector(sector) == untouched.sector(sector));
    }
}

// The blocks of each reset.
const RESETS: [[u8; 6]; 3] = [
    *b"\x05\x06\x00\x02\x00\x02",
    *b"\x05\x06\x00\x02\x00\x04",
    *b"\x05\x05\x00\x02\x00\x00",
];

// A name, and each reset: each answered with BlockError 4, and nothing changes.
fn nothing_is_carried_out(version: u8) {
    let mut device = Tried::new(start(full(version)));
    device.sends(&frame(&set_pump(b'2')), &FULL);
    for block in RESETS {
        let (request, answer) = reset(block);
        device.sends(&frame(&request), &answer);
    }
    device.sends(&frame(&IDENTIFY), &PUMP_1);
    is_untouched(&device.station.into_flash(), version)
}

#[test]
fn no_setting_and_no_reset_is_carried_out_without_room() {
    nothing_is_carried_out(1);
    nothing_is_carried_out(2)
}

#[test]
fn another_layout_is_foreign() {
    let mut flash = MemoryFlash::<768>::blank();
    flash
        .program(Sector::First, 0, b"PNS\x01\xff\xfe\x06pump-1")
        .unwrap();
    flash.program(Sector::First, 511, &[0]).unwrap();
    let refused = Device::boot(demo_identity(), no_modules(), flash).err();
    let (fault, flash) = refused.expect("foreign");
    assert_eq!(fault, BootFault::Foreign);
    assert!(flash.sector(Sector::First).starts_with(b"PNS\x01"));
}
