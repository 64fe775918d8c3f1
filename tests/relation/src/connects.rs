//! The blocks of a Connect as a controller asks for them, each written by `write_block`.
use arrayvec::ArrayVec;
use block_codec::{
    AlarmCrBlockReq, ArBlockReq, Block, ExpectedModule, ExpectedModules, ExpectedSubmodule,
    ExpectedSubmoduleBlockReq, IoObject, IoObjects, IocrBlockReq, IocrType, RtClass, SubmoduleData,
    block_len, write_block,
};
use pn_values::Mac;
use uuid::Uuid;

/// The blocks of a call.
pub(crate) type Blocks = ArrayVec<u8, 1372>;

/// A submodule that is expected: its subslot, its ident number, and the octets of its input and of its output.
type Submodule = (u16, u32, Option<u16>, Option<u16>);

/// Slot, subslot and FrameOffset.
type Place = (u16, u16, u16);

/// What a controller expects: the slot of each module, its ident number and its submodules; and where the data and the
/// statuses of the inputs and of the outputs are.
#[derive(Clone, Copy)]
pub(crate) struct Plan {
    modules: &'static [(u16, u32, &'static [Submodule])],
    inputs: (&'static [Place], &'static [Place]),
    outputs: (&'static [Place], &'static [Place]),
}

const ACCESS_POINT: &[Submodule] = &[
    (1, 1, None, None),
    (0x8000, 2, None, None),
    (0x8001, 3, None, None),
];

/// An access point with two ports, two octets of input in slot 1, and two of output in slot 2.
pub(crate) const THREE: Plan = Plan {
    modules: &[
        (0, 1, ACCESS_POINT),
        (1, 16, &[(1, 16, Some(2), None)]),
        (2, 32, &[(1, 32, None, Some(2))]),
    ],
    inputs: (
        &[(0, 1, 0), (0, 0x8000, 1), (0, 0x8001, 2), (1, 1, 3)],
        &[(2, 1, 6)],
    ),
    outputs: (
        &[(2, 1, 0)],
        &[(0, 1, 3), (0, 0x8000, 4), (0, 0x8001, 5), (1, 1, 6)],
    ),
};

/// An access point with one port, and two octets of input in slot 1.
pub(crate) const TWO: Plan = Plan {
    modules: &[
        (0, 1, &[(1, 1, None, None), (0x8000, 2, None, None)]),
        (1, 16, &[(1, 16, Some(2), None)]),
    ],
    inputs: (&[(0, 1, 0), (0, 0x8000, 1), (1, 1, 3)], &[]),
    outputs: (&[], &[(0, 1, 3), (0, 0x8000, 4), (1, 1, 6)]),
};

/// The same as `THREE`, with the output after the statuses in the frames of outputs.
pub(crate) const MOVED: Plan = Plan {
    outputs: (
        &[(2, 1, 4)],
        &[(0, 1, 0), (0, 0x8000, 1), (0, 0x8001, 2), (1, 1, 3)],
    ),
    ..THREE
};

/// The same as `THREE`, with the input in front in the frames of inputs.
pub(crate) const INPUT_MOVED: Plan = Plan {
    inputs: (
        &[(1, 1, 0), (0, 1, 3), (0, 0x8000, 4), (0, 0x8001, 5)],
        &[(2, 1, 6)],
    ),
    ..THREE
};

/// The same as `THREE`, with another module in slot 1.
pub(crate) const OTHER: Plan = Plan {
    modules: &[
        (0, 1, ACCESS_POINT),
        (1, 17, &[(1, 17, Some(2), None)]),
        (2, 32, &[(1, 32, None, Some(2))]),
    ],
    ..THREE
};

/// The same with another module in slot 2, and one without data in slot 3.
pub(crate) const FOUR: Plan = Plan {
    modules: &[
        (0, 1, ACCESS_POINT),
        (1, 16, &[(1, 16, Some(2), None)]),
        (2, 33, &[(1, 33, None, Some(2))]),
        (3, 48, &[(1, 48, None, None)]),
    ],
    inputs: (
        &[
            (0, 1, 0),
            (0, 0x8000, 1),
            (0, 0x8001, 2),
            (1, 1, 3),
            (3, 1, 6),
        ],
        &[(2, 1, 7)],
    ),
    outputs: (
        &[(2, 1, 0)],
        &[
            (0, 1, 3),
            (0, 0x8000, 4),
            (0, 0x8001, 5),
            (1, 1, 6),
            (3, 1, 7),
        ],
    ),
};

/// The Connect of the controller `plc` for a relation whose ARUUID has these octets, which may be silent for `factor` times
/// 100 ms.
pub(crate) fn connect(octet: u8, factor: u16, plan: Plan) -> Blocks {
    let mut blocks = Blocks::new();
    put(&mut blocks, &relation(octet, factor));
    put_iocr(&mut blocks, IocrType::Input, 0xC001, plan.inputs);
    put_iocr(&mut blocks, IocrType::Output, 0xFFFF, plan.outputs);
    put(&mut blocks, &alarms());
    for (slot, ident, submodules) in plan.modules {
        put_expected(&mut blocks, *slot, *ident, submodules);
    }
    blocks
}

/// Appends a block, if there is room.
fn put(blocks: &mut Blocks, block: &Block) {
    if block_len(block) <= blocks.remaining_capacity() {
        write_block(blocks, block);
    }
}

fn relation(octet: u8, factor: u16) -> Block<'static> {
    let mut name = ArrayVec::new();
    let _ = name.try_extend_from_slice(b"plc");
    Block::ArBlockReq(ArBlockReq {
        ar_uuid: Uuid::from_bytes([octet; 16]),
        session_key: 1,
        cm_initiator_mac_add: Mac {
            octets: [2, 0, 0, 0, 0, 2],
        },
        cm_initiator_object_uuid: Uuid::from_bytes(
            *b"\xde\xa0\x00\x00\x6c\x97\x11\xd1\x82\x71\x00\x01\x00\x00\x00\x00",
        ),
        ar_properties: 0x11,
        cm_initiator_activity_timeout_factor: factor,
        cm_initiator_udp_rt_port: 0x8892,
        cm_initiator_station_name: name,
    })
}

fn alarms() -> Block<'static> {
    Block::AlarmCrBlockReq(AlarmCrBlockReq {
        alarm_cr_properties: 0,
        rta_timeout_factor: 1,
        rta_retries: 3,
        local_alarm_reference: 1,
        max_alarm_data_length: 200,
        tag_header_high: 0xC000,
        tag_header_low: 0xA000,
    })
}

fn put_iocr(blocks: &mut Blocks, kind: IocrType, frame_id: u16, places: (&[Place], &[Place])) {
    let (objects, statuses) = (listed(places.0), listed(places.1));
    let block = Block::IocrBlockReq(IocrBlockReq {
        iocr_type: kind,
        iocr_reference: if frame_id == 0xFFFF { 2 } else { 1 },
        iocr_properties: RtClass::Class1,
        data_length: 40,
        frame_id,
        send_clock_factor: 32,
        reduction_ratio: 1,
        phase: 1,
        sequence: 0,
        frame_send_offset: 0xFFFF_FFFF,
        watchdog_factor: 3,
        data_hold_factor: 3,
        iocr_tag_header: 0xC000,
        iocr_multicast_mac_add: Mac { octets: [0; 6] },
        io_data_objects: IoObjects::lent(&objects),
        iocs: IoObjects::lent(&statuses),
    });
    put(blocks, &block);
}

fn listed(places: &[Place]) -> ArrayVec<IoObject, 256> {
    let mut list = ArrayVec::new();
    for (slot_number, subslot_number, frame_offset) in places {
        let _ = list.try_push(IoObject {
            slot_number: *slot_number,
            subslot_number: *subslot_number,
            frame_offset: *frame_offset,
        });
    }
    list
}

fn put_expected(blocks: &mut Blocks, slot: u16, ident: u32, expected: &[Submodule]) {
    let mut submodules: ArrayVec<ExpectedSubmodule, 64> = ArrayVec::new();
    for (subslot, number, input, output) in expected {
        let _ = submodules.try_push(ExpectedSubmodule {
            subslot_number: *subslot,
            submodule_ident_number: *number,
            io_data: SubmoduleData {
                input: *input,
                output: *output,
            },
        });
    }
    let mut modules: ArrayVec<ExpectedModule, 64> = ArrayVec::new();
    modules.push(ExpectedModule {
        slot_number: slot,
        module_ident_number: ident,
        module_properties: 0,
        number_of_submodules: submodules.len() as u16,
    });
    let block = Block::ExpectedSubmoduleBlockReq(ExpectedSubmoduleBlockReq {
        modules: ExpectedModules::lent(&modules, &submodules),
    });
    put(blocks, &block);
}
