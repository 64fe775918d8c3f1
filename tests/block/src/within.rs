//! Records that are read within a relation.

use super::reads::{Asked, GOOD, plugged, sent};
use super::records::settings;
use wire::Uuid;
use pn_values::{Identity, Real, Settings, demo_identity};
use records::{
    Blocks, CallFault, Operation, listing_of, names_relation, read_request, request_within, serve, serve_listing,
    serve_within,
};

/// The ModuleDiffBlock, in any slot.
const DIFFERENCE: Asked = Asked {
    slot: 9,
    subslot: 9,
    index: 0xE002,
    ..GOOD
};

/// A Read Implicit of a device that has this record of its own, or none. Its answer is put into an empty list.
pub(crate) fn read_implicit(
    own: Option<&[u8]>,
    identity: &Identity,
    real: &Real,
    settings: &Settings,
    blocks: &[u8],
    answer: &mut Blocks,
) -> Result<(), CallFault> {
    let request = read_request(blocks)?;
    match listing_of(real, &request) {
        Some(listing) => serve_listing(false, real, own, &request, listing, answer),
        None => serve(identity, real, settings, &request, answer),
    }
}

/// The answer to a Read while a relation is active, whose ModuleDiffBlock is this. It has this record of its own, or none.
pub(crate) fn read_within(
    relation: &Uuid,
    differing: &[u8],
    own: Option<&[u8]>,
    real: &Real,
    blocks: &[u8],
) -> Result<Blocks, CallFault> {
    let mut answer = Blocks::new();
    let request = request_within(Some(relation), blocks)?;
    match listing_of(real, &request) {
        Some(listing) => serve_listing(true, real, own, &request, listing, &mut answer)?,
        None => serve_within(differing, &demo_identity(), real, &settings(), &request, &mut answer)?,
    }
    Ok(answer)
}

/// The answer to a Read while a relation is active. All octets of its ARUUID are `relation`, and its ModuleDiffBlock is this.
fn answered(relation: u8, differing: &[u8], asked: Asked) -> Result<Blocks, CallFault> {
    let uuid = Uuid::from_bytes([relation; 16]);
    read_within(&uuid, differing, None, &plugged(), &asked.octets())
}

/// Whether a ModuleDiffBlock of these octets is read, up to RecordDataLength `size`.
fn reads_difference(differing: &[u8; 5], size: u8) -> bool {
    let Some(differing) = differing.get(..usize::from(size)) else {
        return false;
    };
    let Ok(answer) = answered(7, differing, DIFFERENCE) else {
        return false;
    };
    match sent(&answer) {
        Some((told, record)) => told == [0, 0, 0, size].as_slice() && record == differing,
        None => false,
    }
}

#[test]
fn reads_what_differs() {
    for size in 0..=5 {
        assert!(reads_difference(&[1, 2, 3, 4, 5], size), "{size}");
    }
}

/// The four octets of the status by which a Read within a relation is answered.
fn refused_in(relation: u8, asked: Asked) -> Option<[u8; 4]> {
    let status = answered(relation, &[], asked)
        .err()?
        .number(Operation::Read);
    Some([status.code, status.decode, status.code1, status.code2])
}

#[test]
fn reads_within_its_relation_alone() {
    for asked in [DIFFERENCE, GOOD, Asked { api: 1, ..GOOD }] {
        assert_eq!(refused_in(8, asked), Some([0xDE, 0x81, 0x40, 0x05]));
    }
    assert!(answered(7, &[], GOOD).is_ok());
}

#[test]
fn knows_whose_relation_a_read_names() {
    let octets = GOOD.octets();
    assert!(names_relation(Some(&Uuid::from_bytes([7; 16])), &octets));
    assert!(!names_relation(Some(&Uuid::from_bytes([8; 16])), &octets));
    assert!(!names_relation(None, &octets));
}

#[test]
fn knows_no_relation_that_a_broken_read_names() {
    let mut octets = GOOD.octets();
    // another BlockLength
    octets[3] = 59;
    assert!(!names_relation(Some(&Uuid::from_bytes([7; 16])), &octets));
}
