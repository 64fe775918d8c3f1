// The fields of the blocks that list modules and their submodules.

use crate::table::Table;
use arrayvec::ArrayVec;
use block_codec::{
    DiffModule, DiffSubmodule, ExpectedModule, ExpectedSubmodule, ExpectedSubmoduleBlockReq,
    FilterModule, FilterSubmodule, ImFilterData, ModuleDiffBlock,
};
use rattle_std::alloc::AllocError;

/// 0x0104
pub(crate) fn expected(
    block: &ExpectedSubmoduleBlockReq,
    table: &mut Table,
) -> Result<(), AllocError> {
    let mut modules = ArrayVec::new();
    let mut submodules = ArrayVec::new();
    block.modules.copy_to(&mut modules, &mut submodules);
    for module in modules.as_slice() {
        expected_module(module, table)?;
    }
    for submodule in submodules.as_slice() {
        expected_submodule(submodule, table)?;
    }
    Ok(())
}

fn expected_module(module: &ExpectedModule, table: &mut Table) -> Result<(), AllocError> {
    table.entry(
        "module",
        &[
            u32::from(module.slot_number),
            module.module_ident_number,
            u32::from(module.module_properties),
            u32::from(module.number_of_submodules),
        ],
    )
}

fn expected_submodule(submodule: &ExpectedSubmodule, table: &mut Table) -> Result<(), AllocError> {
    table.entry(
        "submodule",
        &[
            i64::from(submodule.subslot_number),
            i64::from(submodule.submodule_ident_number),
            octets_of(submodule.io_data.input),
            octets_of(submodule.io_data.output),
        ],
    )
}

/// The number of octets of data, or -1 for no data.
fn octets_of(length: Option<u16>) -> i64 {
    match length {
        Some(octets) => i64::from(octets),
        None => -1,
    }
}

/// 0x8104
pub(crate) fn module_diff(block: &ModuleDiffBlock, table: &mut Table) -> Result<(), AllocError> {
    table.count("api", block.api)?;
    let mut modules = ArrayVec::new();
    let mut submodules = ArrayVec::new();
    block.modules.copy_to(&mut modules, &mut submodules);
    for module in modules.as_slice() {
        diff_module(module, table)?;
    }
    for submodule in submodules.as_slice() {
        diff_submodule(submodule, table)?;
    }
    Ok(())
}

fn diff_module(module: &DiffModule, table: &mut Table) -> Result<(), AllocError> {
    table.entry(
        "module",
        &[
            u32::from(module.slot_number),
            module.module_ident_number,
            u32::from(module.module_state),
            u32::from(module.number_of_submodules),
        ],
    )
}

fn diff_submodule(submodule: &DiffSubmodule, table: &mut Table) -> Result<(), AllocError> {
    table.entry(
        "submodule",
        &[
            u32::from(submodule.subslot_number),
            submodule.submodule_ident_number,
            u32::from(submodule.submodule_state),
        ],
    )
}

/// 0x0030 and 0x0032
pub(crate) fn filter_data(block: &ImFilterData, table: &mut Table) -> Result<(), AllocError> {
    table.count("api", block.api)?;
    let mut modules = ArrayVec::new();
    let mut submodules = ArrayVec::new();
    block.modules.copy_to(&mut modules, &mut submodules);
    for module in modules.as_slice() {
        filter_module(module, table)?;
    }
    for submodule in submodules.as_slice() {
        filter_submodule(submodule, table)?;
    }
    Ok(())
}

fn filter_module(module: &FilterModule, table: &mut Table) -> Result<(), AllocError> {
    table.entry(
        "module",
        &[
            u32::from(module.slot_number),
            module.module_ident_number,
            u32::from(module.number_of_submodules),
        ],
    )
}

fn filter_submodule(submodule: &FilterSubmodule, table: &mut Table) -> Result<(), AllocError> {
    table.entry(
        "submodule",
        &[
            u32::from(submodule.subslot_number),
            submodule.submodule_ident_number,
        ],
    )
}
