//! Blocks and alarms in which each field has a value of its own, so that two fields that are exchanged show. Scapy built the octets from the names
//! of the fields (`tests/interoperation/scapy_fields.py`, whose output is `named.txt`), and tshark reads the same names and values in them
//! (`tests/interoperation/fields.txt`): no encoder of this repository takes part.

use arrayvec::ArrayVec;
use block_codec::{
    AlarmAck, AlarmCrBlockReq, AlarmCrBlockRes, AlarmData, AlarmNotification, ArBlockReq, ArBlockRes, Block, ControlBlock, DiffModule,
    DiffModules, DiffSubmodule, ExpectedModule, ExpectedModules, ExpectedSubmodule, ExpectedSubmoduleBlockReq, FilterModule, FilterModules,
    FilterSubmodule, Im0, Im1, Im2, Im3, Im4, ImFilterData, IoObject, IoObjects, IocrBlockReq, IocrBlockRes, IocrType, IodReadReq, IodWriteReq,
    ModuleDiffBlock, RecordHeader, RtClass, SubmoduleData, write_block,
};
use diagnosis::{low_ack_octets, low_alarm_front};
use pn_alarms::{Header, Pdu, PduType, alarm_front, pdu_front};
use pn_values::Mac;
use records::put_identification;
use uuid::Uuid;

const NAMED: &str = include_str!("../../interoperation/named.txt");

/// The octets of a name.
fn named(name: &str) -> Vec<u8> {
    let octets = NAMED.lines().find_map(|line| line.strip_prefix(name)?.strip_prefix(' ')).expect("is listed");
    (0..octets.len()).step_by(2).map(|at| u8::from_str_radix(&octets[at..at + 2], 16).expect("hex")).collect()
}

/// The octets that are written for a block.
fn written(block: Block) -> Vec<u8> {
    let mut out: ArrayVec<u8, 256> = ArrayVec::new();
    write_block(&mut out, &block);
    out.to_vec()
}

fn text<const N: usize>(words: &str) -> [u8; N] {
    let mut octets = [b' '; N];
    octets[..words.len()].copy_from_slice(words.as_bytes());
    octets
}

fn mac(first: u8, last: u8) -> Mac {
    Mac { octets: [first, first + 1, first + 2, first + 3, first + 4, last] }
}

fn relation() -> Uuid {
    Uuid::from_bytes([0x11, 0x11, 0x11, 0x11, 0x22, 0x22, 0x33, 0x33, 0x44, 0x44, 0x55, 0x55, 0x55, 0x55, 0x55, 0x55])
}

fn listed<T, const N: usize>(items: impl IntoIterator<Item = T>) -> ArrayVec<T, N> {
    items.into_iter().collect()
}

fn object(slot_number: u16, subslot_number: u16, frame_offset: u16) -> IoObject {
    IoObject { slot_number, subslot_number, frame_offset }
}

fn part(subslot_number: u16, ident: u32, input: Option<u16>, output: Option<u16>) -> ExpectedSubmodule {
    ExpectedSubmodule { subslot_number, submodule_ident_number: ident, io_data: SubmoduleData { input, output } }
}

#[test]
fn a_relation_as_scapy_names_it() {
    let object = [0xDE, 0xA0, 0, 0, 0x6C, 0x97, 0x11, 0xD1, 0x82, 0x71, 0x00, 0x01, 0x00, 0x56, 0x01, 0x23];
    let asked = ArBlockReq {
        ar_uuid: relation(),
        session_key: 0x1234,
        cm_initiator_mac_add: mac(2, 7),
        cm_initiator_object_uuid: Uuid::from_bytes(object),
        ar_properties: 0x8000_0011,
        cm_initiator_activity_timeout_factor: 601,
        cm_initiator_udp_rt_port: 0x8893,
        cm_initiator_station_name: listed(*b"plc-7"),
    };
    assert_eq!(written(Block::ArBlockReq(asked)), named("AR_BLOCK_REQ"));
    let answer = ArBlockRes { ar_uuid: relation(), session_key: 0x1234, cm_responder_mac_add: mac(2, 8) };
    assert_eq!(written(Block::ArBlockRes(answer)), named("AR_BLOCK_RES"));
}

#[test]
fn cyclic_frames_as_scapy_names_them() {
    let objects = listed([object(1, 2, 3), object(4, 5, 6)]);
    let iocs = listed([object(7, 8, 9)]);
    let asked = IocrBlockReq {
        iocr_type: IocrType::Output,
        iocr_reference: 7,
        iocr_properties: RtClass::Class2,
        data_length: 44,
        frame_id: 0x8123,
        send_clock_factor: 33,
        reduction_ratio: 5,
        phase: 2,
        sequence: 3,
        frame_send_offset: 0x0102_0304,
        watchdog_factor: 6,
        data_hold_factor: 9,
        iocr_tag_header: 0xC123,
        iocr_multicast_mac_add: mac(3, 8),
        io_data_objects: IoObjects::lent(&objects),
        iocs: IoObjects::lent(&iocs),
    };
    assert_eq!(written(Block::IocrBlockReq(asked)), named("IOCR_BLOCK_REQ"));
    let answer = IocrBlockRes { iocr_type: 2, iocr_reference: 7, frame_id: 0x8123 };
    assert_eq!(written(Block::IocrBlockRes(answer)), named("IOCR_BLOCK_RES"));
}

#[test]
fn alarms_of_a_relation_as_scapy_names_them() {
    let asked = AlarmCrBlockReq {
        alarm_cr_properties: 1,
        rta_timeout_factor: 2,
        rta_retries: 4,
        local_alarm_reference: 5,
        max_alarm_data_length: 201,
        tag_header_high: 0xC001,
        tag_header_low: 0xA002,
    };
    assert_eq!(written(Block::AlarmCrBlockReq(asked)), named("ALARM_CR_BLOCK_REQ"));
    assert_eq!(written(Block::AlarmCrBlockRes(AlarmCrBlockRes {})), named("ALARM_CR_BLOCK_RES"));
}

#[test]
fn modules_as_scapy_names_them() {
    let modules: ArrayVec<ExpectedModule, 1> =
        listed([ExpectedModule { slot_number: 1, module_ident_number: 0x0102_0304, module_properties: 0, number_of_submodules: 4 }]);
    let submodules: ArrayVec<ExpectedSubmodule, 4> = listed([
        part(2, 0x11, Some(3), None),
        part(4, 0x22, None, Some(5)),
        part(6, 0x33, Some(7), Some(8)),
        part(9, 0x44, None, None),
    ]);
    let asked = ExpectedSubmoduleBlockReq { modules: ExpectedModules::lent(&modules, &submodules) };
    assert_eq!(written(Block::ExpectedSubmoduleBlockReq(asked)), named("EXPECTED"));
}

#[test]
fn differences_by_the_fields_of_the_standard() {
    let module = |slot_number, ident, module_state, number_of_submodules| DiffModule {
        slot_number,
        module_ident_number: ident,
        module_state,
        number_of_submodules,
    };
    let part = |subslot_number, ident, submodule_state| DiffSubmodule { subslot_number, submodule_ident_number: ident, submodule_state };
    let modules: ArrayVec<DiffModule, 2> = listed([module(1, 0x11, 1, 2), module(4, 0, 0, 1)]);
    let submodules: ArrayVec<DiffSubmodule, 3> = listed([part(2, 0x22, 0x9000), part(3, 0x33, 0x9800), part(5, 0, 0x9800)]);
    let block = ModuleDiffBlock { api: 0, modules: DiffModules::lent(&modules, &submodules) };
    assert_eq!(written(Block::ModuleDiffBlock(block)), named("MODULE_DIFF"));
}

#[test]
fn controls_and_records_as_scapy_names_them() {
    let control = ControlBlock { ar_uuid: relation(), session_key: 0x1234, control_command: 1, control_block_properties: 0 };
    assert_eq!(written(Block::PrmEnd(control)), named("PRM_END"));
    let header = RecordHeader {
        seq_number: 2,
        ar_uuid: relation(),
        api: 0,
        slot_number: 3,
        subslot_number: 4,
        index: 5,
        record_data_length: 6,
    };
    assert_eq!(written(Block::IodWriteReq(IodWriteReq { header })), named("WRITE_REQ"));
    let read = IodReadReq { header, target_ar_uuid: Uuid::nil() };
    assert_eq!(written(Block::IodReadReq(read)), named("READ_REQ"));
}

#[test]
fn maintenance_as_scapy_names_it() {
    let im0 = Im0 {
        vendor_id: 0x0123,
        order_id: text("ORDER-7"),
        im_serial_number: text("SERIAL-8"),
        im_hardware_revision: 0x0405,
        im_software_revision: [b'R', 6, 7, 8],
        im_profile_id: 0x0A0B,
        im_profile_specific_type: 0x0C0D,
    };
    assert_eq!(written(Block::Im0(im0)), named("IM0"));
    let im1 = Im1 { im_tag_function: text("function"), im_tag_location: text("location") };
    assert_eq!(written(Block::Im1(im1)), named("IM1"));
    assert_eq!(written(Block::Im2(Im2 { im_date: text("2024-05-06 07:08") })), named("IM2"));
    assert_eq!(written(Block::Im3(Im3 { im_descriptor: text("descriptor") })), named("IM3"));
    assert_eq!(written(Block::Im4(Im4 { im_signature: text("signature") })), named("IM4"));
}

#[test]
fn lists_of_modules_by_the_fields_of_the_standard() {
    let module = |slot_number, ident, number_of_submodules| FilterModule { slot_number, module_ident_number: ident, number_of_submodules };
    let part = |subslot_number, ident| FilterSubmodule { subslot_number, submodule_ident_number: ident };
    let modules: ArrayVec<FilterModule, 2> = listed([module(1, 0x11, 2), module(4, 0x44, 1)]);
    let submodules: ArrayVec<FilterSubmodule, 3> = listed([part(2, 0x22), part(3, 0x33), part(5, 0x55)]);
    let all = || ImFilterData { api: 0, modules: FilterModules::lent(&modules, &submodules) };
    assert_eq!(written(Block::ImFilterDataSubmodule(all())), named("FILTER_SUBMODULE"));
    let mut out: ArrayVec<u8, 64> = ArrayVec::new();
    put_identification(&mut out, 0x0013, &all());
    assert_eq!(out.as_slice(), named("REAL_IDENTIFICATION"));
    let modules: ArrayVec<FilterModule, 1> = listed([module(0, 0x11, 1)]);
    let submodules: ArrayVec<FilterSubmodule, 1> = listed([part(1, 0x22)]);
    let device = ImFilterData { api: 0, modules: FilterModules::lent(&modules, &submodules) };
    assert_eq!(written(Block::ImFilterDataDevice(device)), named("FILTER_DEVICE"));
}

/// The header of a PDU of this type.
fn header(kind: PduType) -> Header {
    Header { destination: 3, source: 5, kind, send_number: 7, ack_number: 9 }
}

/// An alarm of slot 2, subslot 4.
fn alarm(alarm_type: u16, alarm_specifier: u16, octets: &[u8]) -> AlarmNotification<'_> {
    AlarmNotification {
        alarm_type,
        api: 0,
        slot_number: 2,
        subslot_number: 4,
        module_ident_number: 0x0102_0304,
        submodule_ident_number: 0x0506_0708,
        alarm_specifier,
        alarm_data: AlarmData::new(octets),
    }
}

/// The PDU of an alarm of low priority.
fn low(alarm_type: u16, alarm_specifier: u16, octets: &[u8]) -> Vec<u8> {
    [low_alarm_front(&header(PduType::Data), &alarm(alarm_type, alarm_specifier, octets)).as_slice(), octets].concat()
}

#[test]
fn alarms_as_scapy_names_them() {
    assert_eq!(low(1, 0xA80B, &[1, 2, 0x08, 0, 3, 4]), named("DIAGNOSIS"));
    assert_eq!(low(12, 0x000C, &[1, 2, 0x10, 0, 3, 4]), named("DIAGNOSIS_GONE"));
    assert_eq!(low(3, 0x000D, &[]), named("PULL"));
    assert_eq!(low(4, 0x000E, &[]), named("PLUG"));
    assert_eq!(low(10, 0x000F, &[]), named("PLUG_WRONG"));
    assert_eq!(low(31, 0x0010, &[]), named("PULL_MODULE"));
    let data = [0xDE, 0xAD, 0xBE];
    let front = alarm_front(&header(PduType::Data), &alarm(2, 0x0011, &data));
    assert_eq!([front.as_slice(), &data].concat(), named("PROCESS"));
}

#[test]
fn replies_as_scapy_names_them() {
    let ack = AlarmAck {
        alarm_type: 2,
        api: 0,
        slot_number: 3,
        subslot_number: 4,
        alarm_specifier: 5,
        pnio_status: 0x0102_0304,
    };
    let data = |body: &[u8]| [pdu_front(&Pdu { header: header(PduType::Data), body }).as_slice(), body].concat();
    assert_eq!(data(&written(Block::AlarmAck(ack))), named("ALARM_ACK"));
    assert_eq!(data(low_ack_octets(&ack).as_slice()), named("ALARM_ACK_LOW"));
    assert_eq!(pdu_front(&Pdu { header: header(PduType::Ack), body: &[] }).as_slice(), named("ACK"));
    assert_eq!(pdu_front(&Pdu { header: header(PduType::Nack), body: &[] }).as_slice(), named("NACK"));
}
