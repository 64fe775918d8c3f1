//! The octets of the alarms that report pulls and plugs, and of the blocks of PrmEnd and ApplicationReady for a plug: written by
//! hand from IEC 61158-6-10, 5.2.5 and 5.2.4.5.

use arrayvec::ArrayVec;
use block_codec::{AlarmData, AlarmNotification, BlockFault};
use connect_blocks::{PlugControlBlock, plug_prm_end_at, plug_ready_res_at, put_plug_prm_end_res, put_plug_ready};
use diagnosis::{ModuleChange, ModuleChangeKind, low_alarm_front};
use module_diff::{ChangeKind, RealChange};
use pn_alarms::{Header, PduType};

#[test]
fn an_alarm_of_a_pull_has_no_user_structure() {
    let header = Header {
        destination: 1,
        source: 1,
        kind: PduType::Data,
        send_number: 0xFFFF,
        ack_number: 0xFFFE,
    };
    let alarm = AlarmNotification {
        alarm_type: 3,
        api: 0,
        slot_number: 1,
        subslot_number: 2,
        module_ident_number: 0x10,
        submodule_ident_number: 0x11,
        alarm_specifier: 0x8005,
        alarm_data: AlarmData::new(&[]),
    };
    let wanted = b"\x00\x01\x00\x01\x11\x11\xff\xff\xff\xfe\x00\x1a\
        \x00\x02\x00\x16\x01\x00\x00\x03\x00\x00\x00\x00\x00\x01\x00\x02\x00\x00\x00\x10\x00\x00\x00\x11\x80\x05";
    assert_eq!(low_alarm_front(&header, &alarm).as_slice(), wanted);
}

#[test]
fn each_change_has_its_alarm_type() {
    let kinds = [
        (ChangeKind::Pull, false, true, 0x0003),
        (ChangeKind::Pull, true, true, 0x0003),
        (ChangeKind::PullModule, false, true, 0x0003),
        (ChangeKind::PullModule, true, true, 0x001F),
        (ChangeKind::Plug, true, false, 0x0004),
        (ChangeKind::Plug, true, true, 0x000A),
    ];
    for (kind, asks, differs, wanted) in kinds {
        let change = RealChange {
            kind,
            slot: 1,
            subslot: 1,
            module_ident_number: 16,
            submodule_ident_number: 16,
        };
        assert_eq!(ModuleChange::of(&change, asks, differs).alarm_type(), wanted);
    }
}

#[test]
fn a_change_of_subslot_0_affects_the_slot() {
    let change = |subslot| ModuleChange {
        kind: ModuleChangeKind::Pull,
        slot: 1,
        subslot,
    };
    assert!(change(0).affected().covers(1, 9) && !change(0).affected().covers(2, 9));
    assert!(change(9).affected().covers(1, 9) && !change(9).affected().covers(1, 8));
}

/// A block of this BlockType with AlarmSequenceNumber 7, ControlCommand `command` and ControlBlockProperties 2.
fn block(kind: u16, command: u8) -> [u8; 32] {
    let mut octets = *b"\x00\x00\x00\x1c\x01\x00\x00\x00\
        \x11\x11\x11\x11\x22\x22\x33\x33\x44\x44\x55\x55\x55\x55\x55\x55\x00\x01\x00\x07\x00\x00\x00\x02";
    octets[..2].copy_from_slice(&kind.to_be_bytes());
    octets[29] = command;
    octets
}

/// The fields of that block.
fn fields(command: u16) -> PlugControlBlock {
    PlugControlBlock {
        ar_uuid: uuid::uuid!("11111111-2222-3333-4444-555555555555"),
        session_key: 1,
        alarm_sequence_number: 7,
        control_command: command,
        control_block_properties: 2,
    }
}

#[test]
fn the_blocks_of_a_plug_are_read_and_written() {
    for command in [0, 1, 2, 8, 255] {
        let (read, rest) = plug_prm_end_at(&block(0x0111, command)).map(|(read, rest)| (read, rest.len())).expect("a block");
        assert_eq!((read, rest), (fields(u16::from(command)), 0));
    }
    let mut out: ArrayVec<u8, 64> = ArrayVec::new();
    put_plug_prm_end_res(&mut out, &fields(8));
    put_plug_ready(&mut out, &fields(2));
    assert_eq!(out.as_slice(), [block(0x8111, 8), block(0x0113, 2)].concat());
    let answer = block(0x8113, 8);
    assert_eq!(plug_ready_res_at(&answer).expect("a block").0, fields(8));
    assert_eq!(plug_ready_res_at(&block(0x8113, 2)).err(), Some(BlockFault::Field(8)));
    // Another BlockType, BlockLength or version, and a block that is cut.
    for (place, value) in [(0, 0), (1, 0x12), (2, 1), (3, 0x1b), (3, 0x1d), (4, 2), (5, 1)] {
        let mut bent = answer;
        bent[place] = value;
        assert!(plug_ready_res_at(&bent).is_err(), "octet {place}");
    }
    for size in 0..32 {
        assert!(plug_ready_res_at(&answer[..size]).is_err(), "{size} octets");
    }
}
