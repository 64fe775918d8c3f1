// The fields of the blocks of records and alarms.

use crate::table::{Table, numbers};
use block_codec::{
    AlarmAck, AlarmNotification, Im0, Im1, IodReadReq, IodReadRes, IodWriteReq, IodWriteRes,
    RecordHeader,
};
use rattle_std::alloc::AllocError;

/// The fields at the start of the four headers of a record, but for ARUUID.
fn record(header: &RecordHeader, table: &mut Table) -> Result<(), AllocError> {
    numbers!(table header seq_number api slot_number subslot_number index record_data_length)
}

/// 0x0009
pub(crate) fn iod_read_req(block: &IodReadReq, table: &mut Table) -> Result<(), AllocError> {
    table.field("ar_uuid", block.header.ar_uuid.as_bytes())?;
    table.field("target_ar_uuid", block.target_ar_uuid.as_bytes())?;
    record(&block.header, table)
}

/// 0x8009
pub(crate) fn iod_read_res(block: &IodReadRes, table: &mut Table) -> Result<(), AllocError> {
    table.field("ar_uuid", block.header.ar_uuid.as_bytes())?;
    record(&block.header, table)?;
    numbers!(table block additional_value_1 additional_value_2)
}

/// 0x0008
pub(crate) fn iod_write_req(block: &IodWriteReq, table: &mut Table) -> Result<(), AllocError> {
    table.field("ar_uuid", block.header.ar_uuid.as_bytes())?;
    record(&block.header, table)
}

/// 0x8008
pub(crate) fn iod_write_res(block: &IodWriteRes, table: &mut Table) -> Result<(), AllocError> {
    table.field("ar_uuid", block.header.ar_uuid.as_bytes())?;
    record(&block.header, table)?;
    numbers!(table block additional_value_1 additional_value_2 pnio_status)
}

/// 0x0020
pub(crate) fn im0(block: &Im0, table: &mut Table) -> Result<(), AllocError> {
    table.field("order_id", &block.order_id)?;
    table.field("im_serial_number", &block.im_serial_number)?;
    table.field("im_software_revision", &block.im_software_revision)?;
    numbers!(table block vendor_id im_hardware_revision im_profile_id im_profile_specific_type)
}

/// 0x0021
pub(crate) fn im1(block: &Im1, table: &mut Table) -> Result<(), AllocError> {
    table.field("im_tag_function", &block.im_tag_function)?;
    table.field("im_tag_location", &block.im_tag_location)
}

/// 0x0001
pub(crate) fn alarm_notification(
    block: &AlarmNotification,
    table: &mut Table,
) -> Result<(), AllocError> {
    alarm_numbers(block, table)?;
    table.field("data", block.alarm_data.octets())
}

fn alarm_numbers(block: &AlarmNotification, table: &mut Table) -> Result<(), AllocError> {
    numbers!(table block alarm_type api slot_number subslot_number module_ident_number
        submodule_ident_number alarm_specifier)
}

/// 0x8001
pub(crate) fn alarm_ack(block: &AlarmAck, table: &mut Table) -> Result<(), AllocError> {
    numbers!(table block alarm_type api slot_number subslot_number alarm_specifier pnio_status)
}
