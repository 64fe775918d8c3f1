//! Records that are written in a relation: what is stored and kept, what is refused, and what a loss of power, a fault and a
//! flash without room leave of it.
use crate::Tried;
use crate::connects::{Blocks, THREE, connect};
use crate::exchange::outputs;
use crate::requests::{exchanging, related, served, write};
use pn_values::{ParameterRecord, Real, RealModule, RealSubmodule, demo_identity};
use device_core::{Device, Note};
use flash_model::{MemoryFlash, Order};
use frame_codec::Outbox;
use relations::Phase;
use test_stations::{
    CONNECT, Station, WRITE, call, frame, no_modules, plugged, restart, station, write_last,
};

// I&M2, the date of installation.
const DATE: [u8; 22] = *b"\x00\x22\x00\x12\x01\x002024-05-06 07:08";

impl Tried {
    // A Write of this sequence number at slot, subslot and index gets this status.
    fn writes(
        &mut self,
        sequence: u8,
        (slot, subslot, index): (u16, u16, u16),
        record: &[u8],
        status: [u8; 4],
    ) {
        let blocks = write(sequence, slot, subslot, index, record);
        let written = call(WRITE, 7, u16::from(sequence), blocks.as_slice());
        assert_eq!(served(&mut self.station, &written).2, status);
    }

    // The date of installation under which the station runs.
    fn has_date(&self, date: &[u8; 16]) {
        assert_eq!(self.station.running().im2.as_bytes(), date.as_slice());
    }
}

#[test]
fn a_write_that_is_repeated_is_one_command() {
    let mut device = Tried::new(related(600, THREE));
    let written = call(WRITE, 7, 2, write(2, 0, 1, 0xAFF2, &DATE).as_slice());
    device.serves(&written, (1, 206, [0; 4]));
    device.has_date(b"2024-05-06 07:08");
    // A second commit would fail.
    device.station.arm(Order::Fault {
        after: 0,
        mask: [0xFF; 8],
    });
    device.serves(&written, (1, 206, [0; 4]));
    let older = call(WRITE, 7, 1, write(1, 0, 1, 0xAFF2, &DATE).as_slice());
    device.sends_none(&frame(older.as_slice()), Note::OldCall);
}

// A Write of a date in the relation of another ARUUID.
fn write_elsewhere(sequence: u8) -> Blocks {
    let mut blocks = write(sequence, 0, 1, 0xAFF2, &DATE);
    if let Some(octet) = blocks.as_mut_slice().get_mut(8) {
        *octet = 0x12;
    }
    blocks
}

#[test]
fn what_is_not_written_is_refused() {
    let mut device = Tried::new(related(600, THREE));
    device.writes(1, (1, 1, 0xAFF1), &[0; 60], [0xDF, 0x80, 0xB0, 0]);
    device.writes(2, (0, 1, 0xAFF0), &[0; 60], [0xDF, 0x80, 0xB6, 0]);
    // a date of fifteen octets
    device.writes(3, (0, 1, 0xAFF2), &DATE[..21], [0xDF, 0x80, 0xB1, 0]);
    let other = write_elsewhere(4);
    let written = call(WRITE, 7, 4, other.as_slice());
    device.serves(&written, (1, 142, [0xDF, 0x81, 0x40, 5]));
    device.has_date(&[b' '; 16]);
}

// Power is lost in the last call of the commit, all of which reached the flash: there is no answer, and the date is kept.
#[test]
fn power_is_lost_as_a_date_is_stored() {
    let mut device = Tried::new(related(600, THREE));
    device.station.arm(Order::Cut {
        after: 1,
        mask: [0xFF; 8],
    });
    let blocks = write(1, 0, 1, 0xAFF2, &DATE);
    let written = call(WRITE, 7, 1, blocks.as_slice());
    let _ = served(&mut device.station, &written);
    assert!(device.station.is_lost());
    let device = Tried::new(restart(device.station));
    device.has_date(b"2024-05-06 07:08");
    device.is_at(None);
}

#[test]
fn a_date_is_refused_after_a_fault() {
    let mut device = Tried::new(exchanging());
    device.station.arm(Order::Fault {
        after: 0,
        mask: [0xFF; 8],
    });
    let blocks = write(0, 0, 1, 0xAFF2, &DATE);
    let written = call(WRITE, 8, 0, blocks.as_slice());
    device.serves(&written, (1, 142, [0xDF, 0x80, 0xB5, 5]));
    // cyclic frames go on, each way
    for (counter, note) in [
        (65_520, Note::Done),
        (16, Note::Done),
        (65_520, Note::StaleCycle),
    ] {
        let octets = outputs(counter, [0xAA, 0x55]);
        device.sends_none(&frame(&octets), note);
    }
    device.sends_interval([0, 0]);
    device.is_at(Some(Phase::Exchanging));
}

// A flash without room for one more commit, over which a relation is made.
fn full() -> Option<Station> {
    let mut flash = MemoryFlash::blank();
    let suite = [192, 168, 0, 2, 255, 255, 255, 0, 0, 0, 0, 0];
    write_last(&mut flash, 2, suite).ok()?;
    let mut device = Device::boot(demo_identity(), plugged(), flash).ok()?;
    let blocks = connect(0x11, 600, THREE);
    let _ = served(&mut device, &call(CONNECT, 7, 0, blocks.as_slice()));
    Some(device)
}

// The BlockError in the one frame of a box, an answer of DCP.
fn block_error(outbox: &Outbox) -> Option<u8> {
    match outbox.as_slice() {
        [sent] => sent.as_slice().get(32).copied(),
        _ => None,
    }
}

// A reset and a date are refused, the relation stays, and no ERR is sent.
#[test]
fn without_room_the_relation_stays() {
    let mut device = Tried::new(full());
    let reset =
        *b"\x02\x00\x00\x00\x00\x01\x02\x00\x00\x00\x00\x02\x88\x92\xfe\xfd\x04\x00\x00\x00\x00\x03\x00\x00\x00\x06\
        \x05\x06\x00\x02\x00\x04";
    device.notes(&frame(&reset), Note::Done);
    assert_eq!(block_error(&device.last), Some(4));
    device.writes(1, (0, 1, 0xAFF2), &DATE, [0xDF, 0x80, 0xB5, 4]);
    device.is_at(Some(Phase::Started));
}

// A submodule that takes the parameter records 1 and 2, each of one octet.
fn with_parameters(subslot: u16) -> RealSubmodule {
    let mut submodule = RealSubmodule {
        subslot,
        ..RealSubmodule::default()
    };
    for index in [1, 2] {
        let _ = submodule
            .parameters
            .try_push(ParameterRecord { index, length: 1 });
    }
    submodule
}

// 128 parameter records: two in each of four submodules of each of sixteen slots.
pub(crate) fn many() -> Real {
    let mut real = no_modules();
    for slot in 0..16 {
        let mut module = RealModule {
            slot,
            ..RealModule::default()
        };
        for subslot in 1..5 {
            let _ = module.submodules.try_push(with_parameters(subslot));
        }
        let _ = real.modules.try_push(module);
    }
    real
}

impl Tried {
    // A Write of the parameter record of this number, which is its value too, gets this status.
    pub(crate) fn writes_parameter(&mut self, number: u8, status: [u8; 4]) {
        let place = (
            u16::from(number / 8),
            u16::from(number / 2 % 4) + 1,
            u16::from(number % 2) + 1,
        );
        self.writes(number.wrapping_add(1), place, &[number], status);
    }

    // 64 parameter records are kept, the last of them in slot 7.
    fn keeps_parameters(&self) {
        let kept = self.station.taken();
        assert_eq!(kept.len(), 64);
        let last = kept.last().expect("is kept");
        assert_eq!((last.slot, last.subslot, last.index), (7, 4, 2));
        assert_eq!(last.value.as_slice(), [63].as_slice());
    }
}

#[test]
fn sixty_four_parameter_records_are_kept() {
    let mut device = Tried::new(station(many(), MemoryFlash::blank()));
    let blocks = connect(0x11, 600, THREE);
    let asked = call(CONNECT, 7, 0, blocks.as_slice());
    let _ = served(&mut device.station, &asked);
    for number in 0..64 {
        device.writes_parameter(number, [0; 4]);
    }
    device.writes_parameter(64, [0xDF, 0x80, 0xB5, 6]);
    device.keeps_parameters()
}
