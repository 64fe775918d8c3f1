//! Which texts are station names, and what is wrong with the others.

use rattle_std::alloc::Global;
use rattle_std::format;
use station_names::{NameFault, check};

/// Texts, and what is wrong with each.
const TEXTS: [(&str, Option<NameFault>); 14] = [
    ("pump-1", None),
    ("a--b", None),
    ("1000.2.3.4", None),
    ("1.2.3.4.5", None),
    ("port-0011", None),
    ("x.port-001", None),
    ("", Some(NameFault::EmptyLabel)),
    ("a..b", Some(NameFault::EmptyLabel)),
    ("Port", Some(NameFault::BadByte)),
    ("a-.b", Some(NameFault::HyphenEnd)),
    ("1.2.3.4", Some(NameFault::LooksLikeAddress)),
    ("port-001", Some(NameFault::PortForm)),
    ("port-001-00002", Some(NameFault::PortForm)),
    ("port-001.x", Some(NameFault::PortForm)),
];

/// What is wrong with a text.
fn has_fault(text: &[u8], fault: Option<NameFault>) {
    assert_eq!(check(text).err(), fault, "{text:?}");
}

#[test]
fn tells_names_from_faults() {
    for (text, fault) in TEXTS {
        has_fault(text.as_bytes(), fault);
    }
}

#[test]
fn counts_bytes() {
    // labels of 63, 63, 63 and 49 bytes
    let mut text = [b'a'; 241];
    text[63] = b'.';
    text[127] = b'.';
    text[191] = b'.';
    has_fault(&text, Some(NameFault::TooLong));
    has_fault(&text[..240], None);
    has_fault(&[b'a'; 64], Some(NameFault::LabelTooLong));
}

#[test]
fn says_what_is_wrong() {
    let rows = [
        (NameFault::TooLong, "a station name has at most 240 bytes"),
        (NameFault::EmptyLabel, "a label of a station name is empty"),
        (
            NameFault::LabelTooLong,
            "a label of a station name has at most 63 bytes",
        ),
        (
            NameFault::BadByte,
            "a station name has only the letters a to z, digits, hyphens and dots",
        ),
        (
            NameFault::HyphenEnd,
            "a label of a station name neither begins nor ends with a hyphen",
        ),
        (
            NameFault::LooksLikeAddress,
            "a station name does not look like an IP address",
        ),
        (
            NameFault::PortForm,
            "a station name does not begin with the name of a port",
        ),
    ];
    for (fault, text) in rows {
        assert_eq!(format!(in Global; "{fault}").unwrap().as_str(), text);
    }
}

#[test]
fn faults_are_numbered() {
    let rows = [
        (NameFault::TooLong, 1),
        (NameFault::EmptyLabel, 2),
        (NameFault::LabelTooLong, 3),
        (NameFault::BadByte, 4),
        (NameFault::HyphenEnd, 5),
        (NameFault::LooksLikeAddress, 6),
        (NameFault::PortForm, 7),
    ];
    for (fault, number) in rows {
        assert_eq!(fault.number(), number, "{fault:?}");
    }
}
