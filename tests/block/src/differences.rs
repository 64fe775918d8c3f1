//! Which modules are not as a Connect expects them, octet by octet.

use super::blocks::MODULE_DIFF;
use super::records::real;
use arrayvec::ArrayVec;
use block_codec::{
    Block, ExpectedModule, ExpectedSubmodule, SubmoduleData, block_len, write_block,
};
use module_diff::{Expected, diff};

/// These modules, each a slot, an ident number, and its submodules by subslot and ident number.
fn expected(modules: &[(u16, u32, &[(u16, u32)])]) -> Expected {
    let mut expected = Expected::default();
    for (slot, ident, parts) in modules {
        let _ = expected.modules.try_push(ExpectedModule {
            slot_number: *slot,
            module_ident_number: *ident,
            module_properties: 0,
            number_of_submodules: parts.len().min(64) as u16,
        });
        for (subslot, ident) in *parts {
            let _ = expected.submodules.try_push(ExpectedSubmodule {
                subslot_number: *subslot,
                submodule_ident_number: *ident,
                io_data: SubmoduleData::default(),
            });
        }
    }
    expected
}

/// The ModuleDiffBlock of these modules.
fn block_of(modules: &[(u16, u32, &[(u16, u32)])]) -> ArrayVec<u8, 1372> {
    let rows = diff(&expected(modules), &real());
    let block = Block::ModuleDiffBlock(rows.to_block());
    let mut out = ArrayVec::new();
    if block_len(&block) <= 1372 {
        write_block(&mut out, &block);
    }
    out
}

/// The access point as it is.
const ACCESS_POINT: (u16, u32, &[(u16, u32)]) = (0, 1, &[(1, 1), (0x8000, 2), (0x8001, 3)]);

#[test]
fn lists_a_wrong_module_and_an_empty_slot() {
    let block = block_of(&[
        ACCESS_POINT,
        (1, 16, &[(1, 16)]),
        (2, 33, &[(1, 33)]),
        (3, 48, &[(1, 48)]),
    ]);
    assert_eq!(block.as_slice(), MODULE_DIFF.as_slice());
}

#[test]
fn lists_nothing_where_all_is_as_expected() {
    let modules: [(u16, u32, &[(u16, u32)]); 2] = [ACCESS_POINT, (2, 32, &[(1, 32)])];
    assert!(diff(&expected(&modules), &real()).is_empty());
}

/// Of a proper module the submodules that are not as expected: another one in subslot 0x8000, and none in subslot 2.
const PROPER: [u8; 40] = [
    0x81, 0x04, 0x00, 0x24, 0x01, 0x00, 0x00, 0x01, 0x00, 0x00, 0x00, 0x00, 0x00, 0x01, 0x00, 0x00,
    0x00, 0x00, 0x00, 0x01, 0x00, 0x02, 0x00, 0x02, 0x80, 0x00, 0x00, 0x00, 0x00, 0x02, 0x90, 0x00,
    0x00, 0x02, 0x00, 0x00, 0x00, 0x00, 0x98, 0x00,
];

#[test]
fn lists_of_a_proper_module_what_differs() {
    let block = block_of(&[
        (0, 1, &[(1, 1), (0x8000, 7), (0x8001, 3), (2, 9)]),
        (1, 16, &[(1, 16)]),
    ]);
    assert_eq!(block.as_slice(), PROPER.as_slice());
}

/// A wrong module with all that is expected of it: a submodule that has the expected ident number, and one that is not there.
const WRONG: [u8; 40] = [
    0x81, 0x04, 0x00, 0x24, 0x01, 0x00, 0x00, 0x01, 0x00, 0x00, 0x00, 0x00, 0x00, 0x01, 0x00, 0x01,
    0x00, 0x00, 0x00, 0x10, 0x00, 0x01, 0x00, 0x02, 0x00, 0x01, 0x00, 0x00, 0x00, 0x10, 0x90, 0x00,
    0x00, 0x02, 0x00, 0x00, 0x00, 0x00, 0x98, 0x00,
];

#[test]
fn lists_all_of_a_wrong_module() {
    let block = block_of(&[(1, 17, &[(1, 16), (2, 16)])]);
    assert_eq!(block.as_slice(), WRONG.as_slice());
}
