// The fields of the blocks of an application relation.

use crate::table::{Table, numbers};
use block_codec::{
    AlarmCrBlockReq, ArBlockReq, ArBlockRes, ControlBlock, IoObjects, IocrBlockReq, IocrBlockRes,
    IocrType, RtClass,
};
use rattle_std::alloc::AllocError;

/// 0x0101
pub(crate) fn ar_block_req(block: &ArBlockReq, table: &mut Table) -> Result<(), AllocError> {
    table.field("ar_uuid", block.ar_uuid.as_bytes())?;
    table.field(
        "cm_initiator_object_uuid",
        block.cm_initiator_object_uuid.as_bytes(),
    )?;
    table.field("mac", &block.cm_initiator_mac_add.octets)?;
    table.field(
        "cm_initiator_station_name",
        block.cm_initiator_station_name.as_slice(),
    )?;
    numbers!(table block session_key ar_properties cm_initiator_activity_timeout_factor cm_initiator_udp_rt_port)
}

/// 0x8101
pub(crate) fn ar_block_res(block: &ArBlockRes, table: &mut Table) -> Result<(), AllocError> {
    table.field("ar_uuid", block.ar_uuid.as_bytes())?;
    table.field("mac", &block.cm_responder_mac_add.octets)?;
    numbers!(table block session_key)
}

/// 0x0102
pub(crate) fn iocr_block_req(block: &IocrBlockReq, table: &mut Table) -> Result<(), AllocError> {
    table.count("iocr_type", type_number(block.iocr_type))?;
    table.count("class", class_number(block.iocr_properties))?;
    table.field("multicast", &block.iocr_multicast_mac_add.octets)?;
    iocr_numbers(block, table)?;
    objects("data_object", &block.io_data_objects, table)?;
    objects("iocs", &block.iocs, table)
}

fn type_number(kind: IocrType) -> u8 {
    match kind {
        IocrType::Input => 1,
        IocrType::Output => 2,
    }
}

fn class_number(class: RtClass) -> u8 {
    match class {
        RtClass::Class1 => 1,
        RtClass::Class2 => 2,
    }
}

fn iocr_numbers(block: &IocrBlockReq, table: &mut Table) -> Result<(), AllocError> {
    numbers!(table block iocr_reference data_length frame_id send_clock_factor reduction_ratio phase sequence
        frame_send_offset watchdog_factor data_hold_factor iocr_tag_header)
}

fn objects(name: &str, objects: &IoObjects, table: &mut Table) -> Result<(), AllocError> {
    for index in 0..objects.len() {
        if let Some(object) = objects.get(index) {
            table.entry(
                name,
                &[
                    object.slot_number,
                    object.subslot_number,
                    object.frame_offset,
                ],
            )?;
        }
    }
    Ok(())
}

/// 0x8102
pub(crate) fn iocr_block_res(block: &IocrBlockRes, table: &mut Table) -> Result<(), AllocError> {
    numbers!(table block iocr_type iocr_reference frame_id)
}

/// 0x0103
pub(crate) fn alarm_cr_block_req(
    block: &AlarmCrBlockReq,
    table: &mut Table,
) -> Result<(), AllocError> {
    numbers!(table block alarm_cr_properties rta_timeout_factor rta_retries local_alarm_reference
        max_alarm_data_length tag_header_high tag_header_low)
}

/// 0x0110, 0x0112, 0x0114 and their responses
pub(crate) fn control(block: &ControlBlock, table: &mut Table) -> Result<(), AllocError> {
    table.field("ar_uuid", block.ar_uuid.as_bytes())?;
    numbers!(table block session_key control_command control_block_properties)
}
