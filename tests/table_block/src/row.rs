// The output for one line.

use crate::table::Table;
use crate::{connect, modules, records};
use arrayvec::ArrayVec;
use block_codec::{Block, BlockFault, block_len, read_block, write_block};
use rattle_std::alloc::AllocError;

/// Room for a block that is written: its type, its length, and as many octets as a length of two octets can count.
pub(crate) type Octets = ArrayVec<u8, 65539>;

/// Reads a block, and appends its type and fields to the table. The block is written again into `written`.
pub(crate) fn row(
    octets: &[u8],
    written: &mut Octets,
    table: &mut Table,
) -> Result<(), AllocError> {
    match read_block(octets) {
        Ok((block, rest)) => {
            head(&block, rest, written, table)?;
            fields(&block, table)
        }
        Err(fault) => refused(fault, table),
    }
}

/// Appends why octets are not a block.
fn refused(fault: BlockFault, table: &mut Table) -> Result<(), AllocError> {
    table.put("fault ")?;
    table.number(fault.number())?;
    match fault {
        BlockFault::Version(field) | BlockFault::Field(field) => {
            table.put(" field ")?;
            table.number(field)?;
        }
        _ => {}
    }
    table.put("\n")
}

/// Appends the type of a block, the number of octets after it, and the block as it is written.
fn head(
    block: &Block,
    rest: &[u8],
    written: &mut Octets,
    table: &mut Table,
) -> Result<(), AllocError> {
    written.clear();
    if block_len(block) <= written.remaining_capacity() {
        write_block(written, block);
    }
    table.put("block ")?;
    table.octets(&block.block_type().number().to_be_bytes())?;
    table.put(" rest ")?;
    table.number(rest.len())?;
    table.put(" written ")?;
    table.octets(written.as_slice())?;
    table.put("\n")
}

/// Appends the fields of a block.
fn fields(block: &Block, table: &mut Table) -> Result<(), AllocError> {
    match block {
        Block::ArBlockReq(block) => connect::ar_block_req(block, table),
        Block::ArBlockRes(block) => connect::ar_block_res(block, table),
        Block::IocrBlockReq(block) => connect::iocr_block_req(block, table),
        Block::IocrBlockRes(block) => connect::iocr_block_res(block, table),
        Block::AlarmCrBlockReq(block) => connect::alarm_cr_block_req(block, table),
        Block::AlarmCrBlockRes(_) => Ok(()),
        Block::ExpectedSubmoduleBlockReq(block) => modules::expected(block, table),
        Block::ModuleDiffBlock(block) => modules::module_diff(block, table),
        Block::PrmEnd(block)
        | Block::PrmEndRes(block)
        | Block::ApplicationReady(block)
        | Block::ApplicationReadyRes(block)
        | Block::Release(block)
        | Block::ReleaseRes(block) => connect::control(block, table),
        Block::IodReadReq(block) => records::iod_read_req(block, table),
        Block::IodReadRes(block) => records::iod_read_res(block, table),
        Block::IodWriteReq(block) => records::iod_write_req(block, table),
        Block::IodWriteRes(block) => records::iod_write_res(block, table),
        Block::Im0(block) => records::im0(block, table),
        Block::Im1(block) => records::im1(block, table),
        Block::Im2(block) => table.field("im_date", &block.im_date),
        Block::Im3(block) => table.field("im_descriptor", &block.im_descriptor),
        Block::Im4(block) => table.field("im_signature", &block.im_signature),
        Block::ImFilterDataSubmodule(block) | Block::ImFilterDataDevice(block) => {
            modules::filter_data(block, table)
        }
        Block::AlarmNotification(block) => records::alarm_notification(block, table),
        Block::AlarmAck(block) => records::alarm_ack(block, table),
    }
}
