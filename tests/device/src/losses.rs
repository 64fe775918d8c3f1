//! Where names are in the flash, and what remains of them if power is lost in a commit.
use crate::Tried;
use device_core::Note;
use flash_model::{Order, Sector};
use test_stations::{frame, set_pump};

// A station that was named "pump-1", and then "pump-2".
fn named_twice() -> Tried {
    let mut device = Tried::blank();
    device.take(&frame(&set_pump(b'1')));
    device.take(&frame(&set_pump(b'2')));
    device
}

impl Tried {
    // A sector of its flash.
    fn sector(&self, sector: Sector) -> &[u8] {
        self.station.flash().sector(sector)
    }

    // A sector begins with these octets.
    fn begins(&self, sector: Sector, octets: &[u8]) {
        assert!(self.sector(sector).starts_with(octets));
    }

    // At this place of a sector lies this octet.
    fn lies_at(&self, sector: Sector, place: usize, octet: u8) {
        assert_eq!(self.sector(sector).get(place).copied(), Some(octet));
    }

    // Nothing was written to a sector.
    fn is_erased(&self, sector: Sector) {
        assert!(self.sector(sector).iter().all(|x| *x == 0xFF));
    }
}

#[test]
fn the_first_name_lies_in_the_first_sector() {
    let mut device = Tried::blank();
    device.take(&frame(&set_pump(b'1')));
    device.begins(Sector::First, b"PNJ\x02\xff\xfe\x06pump-1");
    device.lies_at(Sector::First, 511, 0);
    device.is_erased(Sector::Second);
}

#[test]
fn the_second_name_lies_in_the_slot_behind_it() {
    let device = named_twice();
    device.begins(Sector::First, b"PNJ\x02\xff\xfe\x06pump-1");
    device.lies_at(Sector::First, 512, 0x01);
    device.lies_at(Sector::First, 513, 0x06);
    device.lies_at(Sector::First, 519, b'2');
    device.lies_at(Sector::First, 767, 0);
    device.is_erased(Sector::Second);
}

#[test]
fn the_third_name_lies_in_the_other_sector() {
    let mut device = named_twice();
    device.take(&frame(&set_pump(b'3')));
    device.begins(Sector::Second, b"PNJ\x02\xff\xfd\x06pump-3");
    device.lies_at(Sector::Second, 511, 0);
}

// What of a call in which power is lost reaches the flash: nothing, some bits, some octets, or all.
const MASKS: [[u8; 8]; 4] = [
    [0x00; 8],
    [0x55; 8],
    [0xFF; 8],
    [0, 0, 0, 0, 0xFF, 0xFF, 0, 0],
];

// The station as it starts again, where power was lost in a flash call of the commit of "pump-3".
fn after_loss(after: u32, mask: [u8; 8]) -> Tried {
    let mut device = named_twice();
    device.station.arm(Order::Cut { after, mask });
    device.take(&frame(&set_pump(b'3')));
    assert!(device.station.is_lost());
    device.restart()
}

// It is named as it was left, and takes and keeps another name.
fn goes_on(mut device: Tried, left: &[u8]) {
    device.is_named(left);
    device.notes(&frame(&set_pump(b'4')), Note::Done);
    device.restart().keeps(b"pump-4");
}

#[test]
fn power_is_lost_in_the_erase() {
    for mask in MASKS {
        goes_on(after_loss(0, mask), b"pump-2");
    }
}

#[test]
fn power_is_lost_as_the_name_is_programmed() {
    for mask in MASKS {
        goes_on(after_loss(1, mask), b"pump-2");
    }
}

// The last call opens the gate: it is over where all of it reached the flash.
#[test]
fn power_is_lost_as_the_gate_is_opened() {
    for mask in MASKS {
        let left = if mask == [0xFF; 8] {
            b"pump-3"
        } else {
            b"pump-2"
        };
        goes_on(after_loss(2, mask), left);
    }
}
