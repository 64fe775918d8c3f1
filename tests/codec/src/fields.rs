//! The fields that all formats are made of.

use arrayvec::ArrayVec;
use wire::{
    append, append_u8, append_u16, append_u32, octets_at, skip, split, u8_at, u16_at, u32_at,
};

/// Octets that differ from each other.
const OCTETS: [u8; 7] = [0x12, 0x34, 0x56, 0x78, 0x9A, 0xBC, 0xDE];

#[test]
fn splits_octets() {
    let parts = (&OCTETS[..3], &OCTETS[3..]);
    assert_eq!(split(&OCTETS, 3, "short"), Ok(parts));
    assert_eq!(split(&OCTETS, 8, "short"), Err("short"));
}

#[test]
fn reads_a_number_of_one_octet() {
    assert_eq!(u8_at(&OCTETS, 1), Ok((0x12, &OCTETS[1..])));
    assert_eq!(u8_at(&[], 1), Err(1));
}

#[test]
fn reads_a_number_of_two_octets() {
    assert_eq!(u16_at(&OCTETS, 1), Ok((0x1234, &OCTETS[2..])));
    assert_eq!(u16_at(&OCTETS[..1], 1), Err(1));
}

#[test]
fn reads_a_number_of_four_octets() {
    assert_eq!(u32_at(&OCTETS, 1), Ok((0x1234_5678, &OCTETS[4..])));
    assert_eq!(u32_at(&OCTETS[..3], 1), Err(1));
}

#[test]
fn reads_octets() {
    let first = [0x12, 0x34, 0x56, 0x78, 0x9A, 0xBC];
    assert_eq!(octets_at::<6, u8>(&OCTETS, 1), Ok((first, &OCTETS[6..])));
    assert_eq!(octets_at::<8, u8>(&OCTETS, 1), Err(1));
}

#[test]
fn skips_what_is_there() {
    assert_eq!(*skip(&OCTETS, 1), OCTETS[1..]);
    assert_eq!(skip(&OCTETS, 0), OCTETS.as_slice());
    assert_eq!(skip(&OCTETS[6..], 1).len(), 0);
    assert_eq!(skip(&OCTETS[7..], 1).len(), 0);
}

#[test]
fn appends_fields() {
    let mut out: ArrayVec<u8, 9> = ArrayVec::new();
    append_u8(&mut out, 0x12);
    append_u16(&mut out, 0x3456);
    append_u32(&mut out, 0x789A_BCDE);
    append(&mut out, &[1, 2]);
    assert_eq!(out.as_slice()[..7], *OCTETS.as_slice());
    assert_eq!(out.as_slice()[7..], *[1, 2].as_slice());
}
