//! What a station hears.

use super::{STATION, SWITCH, after, known, octets};
use lldp::{Heard, Neighbours};

/// The switch of `SWITCH`.
fn switch() -> Option<(String, String, [u8; 6])> {
    Some((
        "sw-1".to_string(),
        "port-003".to_string(),
        [2, 0, 0, 0, 0, 0xaa],
    ))
}

#[test]
fn a_neighbour() {
    assert_eq!(after(SWITCH), (Heard::Changed, switch()));
}

#[test]
fn with_a_tag() {
    assert_eq!(
        after(&SWITCH.replacen("88cc", "8100e00088cc", 1)),
        (Heard::Changed, switch())
    );
}

/// The end of the frame ends the message too.
#[test]
fn without_an_end() {
    assert_eq!(
        after(&SWITCH[..SWITCH.len() - 4]),
        (Heard::Changed, switch())
    );
}

/// What follows the end is padding.
#[test]
fn with_anything_after_the_end() {
    assert_eq!(
        after(&format!("{SWITCH}02ffff")),
        (Heard::Changed, switch())
    );
}

#[test]
fn unknown_tlvs_are_skipped() {
    let more = "0602001408020304fe04112233440e04001c00040000";
    assert_eq!(
        after(&SWITCH.replacen("060200140000", more, 1)),
        (Heard::Changed, switch())
    );
}

#[test]
fn the_time_to_live_may_have_more_octets() {
    assert_eq!(
        after(&SWITCH.replacen("06020014", "06040014abcd", 1)),
        (Heard::Changed, switch())
    );
}

#[test]
fn the_mac_address_of_the_chassis() {
    let with = |more: &str| after(&SWITCH.replacen("060200140000", &format!("06020014{more}0000"), 1));
    let mac = |found: (Heard, Option<(String, String, [u8; 6])>)| found.1.expect("a neighbour").2;
    assert_eq!(mac(with("fe0a000ecf050200000000ab")), [2, 0, 0, 0, 0, 0xab]);
    // Another subtype, another organization, or another length.
    assert_eq!(mac(with("fe0a000ecf060200000000ab")), [2, 0, 0, 0, 0, 0xaa]);
    assert_eq!(mac(with("fe0a00120f050200000000ab")), [2, 0, 0, 0, 0, 0xaa]);
    assert_eq!(mac(with("fe09000ecf0502000000ab")), [2, 0, 0, 0, 0, 0xaa]);
    // The first one counts.
    assert_eq!(
        mac(with("fe0a000ecf050200000000abfe0a000ecf050200000000ac")),
        [2, 0, 0, 0, 0, 0xab]
    );
}

#[test]
fn a_chassis_by_its_mac_address() {
    let frame = SWITCH.replacen("02050773772d31", "02070402000000ABcd", 1);
    assert_eq!(
        after(&frame).1.expect("a neighbour").0,
        "02-00-00-00-ab-cd"
    );
    // Another length is no MAC address. It is taken as it is.
    let frame = SWITCH.replacen("02050773772d31", "020404313233", 1);
    assert_eq!(after(&frame).1.expect("a neighbour").0, "123");
}

#[test]
fn the_longest_identifiers() {
    let long = "61".repeat(255);
    let frame = SWITCH
        .replacen("02050773772d31", &format!("030007{long}"), 1)
        .replacen("040907706f72742d303033", &format!("050007{long}"), 1);
    let neighbour = after(&frame).1.expect("a neighbour");
    assert_eq!((neighbour.0.len(), neighbour.1.len()), (255, 255));
}

/// Each of these frames is dropped as a whole.
#[test]
fn dropped_frames() {
    let chassis = "02050773772d31";
    let port = "040907706f72742d303033";
    let time = "06020014";
    let frame = |content: &str| format!("0180c200000e0200000000aa88cc{content}");
    for (what, digits) in [
        ("to another group", SWITCH.replacen("0180c200000e", "0180c2000000", 1)),
        ("to all", SWITCH.replacen("0180c200000e", "ffffffffffff", 1)),
        ("to the station", SWITCH.replacen("0180c200000e", "020000000001", 1)),
        ("from the station", SWITCH.replacen("0200000000aa", "020000000001", 1)),
        ("of another EtherType", SWITCH.replacen("88cc", "88cd", 1)),
        ("with two tags", SWITCH.replacen("88cc", "810000008100000088cc", 1)),
        ("of no octets", String::new()),
        ("of half a header", SWITCH[..20].to_string()),
        ("of a header alone", frame("")),
        ("of an end alone", frame("0000")),
        ("with another first", frame(&format!("{port}{chassis}{time}0000"))),
        ("with another second", frame(&format!("{chassis}{time}{port}0000"))),
        ("with another third", frame(&format!("{chassis}{port}080130{time}0000"))),
        ("without the time to live", frame(&format!("{chassis}{port}0000"))),
        ("of a chassis alone", frame(chassis)),
        ("with an empty chassis", frame(&format!("0200{port}{time}0000"))),
        ("with a chassis without an identifier", frame(&format!("020107{port}{time}0000"))),
        ("with a port without an identifier", frame(&format!("{chassis}040107{time}0000"))),
        ("with a long chassis", frame(&format!("030107{}{port}{time}0000", "61".repeat(256)))),
        ("with a short time to live", frame(&format!("{chassis}{port}0601140000"))),
        ("with a second chassis", frame(&format!("{chassis}{port}{time}{chassis}0000"))),
        ("with a second port", frame(&format!("{chassis}{port}{time}080130{port}0000"))),
        ("with a second time to live", frame(&format!("{chassis}{port}{time}{time}0000"))),
        ("with a TLV past the end", frame(&format!("{chassis}{port}{time}fe0a000ecf050200"))),
        ("with half a head", frame(&format!("{chassis}{port}{time}fe"))),
        ("with a port past the end", frame(&format!("{chassis}040907706f"))),
    ] {
        assert_eq!(after(&digits), (Heard::Nothing, None), "{what}");
    }
}

/// A frame may have 1,514 octets, and 1,518 with a tag.
#[test]
fn long_frames() {
    let filled = |digits: &str, size: usize| {
        let mut frame = octets(digits);
        frame.resize(size, 0);
        frame
    };
    let tagged = SWITCH.replacen("88cc", "8100000088cc", 1);
    for (digits, size, heard) in [
        (SWITCH, 1514, Heard::Changed),
        (SWITCH, 1515, Heard::Nothing),
        (tagged.as_str(), 1518, Heard::Changed),
        (tagged.as_str(), 1519, Heard::Nothing),
    ] {
        assert_eq!(
            Neighbours::new(STATION).hear(&filled(digits, size)),
            heard,
            "{size}"
        );
    }
}

/// The last neighbour that was heard is the known one. A time to live of 0 forgets this one and no other.
#[test]
fn the_last_one_counts() {
    let second = SWITCH.replacen("73772d31", "73772d32", 1);
    let farewell = SWITCH.replacen("06020014", "06020000", 1);
    let mut neighbours = Neighbours::new(STATION);
    assert_eq!(neighbours.hear(&octets(SWITCH)), Heard::Changed);
    assert_eq!(neighbours.hear(&octets(SWITCH)), Heard::Same);
    assert_eq!(neighbours.hear(&octets(&second)), Heard::Changed);
    assert_eq!(known(&neighbours).expect("a neighbour").0, "sw-2");
    assert_eq!(neighbours.hear(&octets(&farewell)), Heard::Same);
    assert_eq!(known(&neighbours).expect("a neighbour").0, "sw-2");
    assert_eq!(neighbours.hear(&octets(SWITCH)), Heard::Changed);
    assert_eq!(neighbours.hear(&octets(&farewell)), Heard::Changed);
    assert_eq!(known(&neighbours), None);
    assert_eq!(neighbours.hear(&octets(&farewell)), Heard::Same);
}

#[test]
fn the_name_by_the_place() {
    let mut neighbours = Neighbours::new(STATION);
    assert!(!neighbours.is_alias(b"port-003.sw-1"));
    assert!(!neighbours.is_alias(b""));
    neighbours.hear(&octets(SWITCH));
    assert!(neighbours.is_alias(b"port-003.sw-1"));
    for other in [&b"port-003"[..], b"port-003.sw-", b"port-003.sw-11", b"sw-1.port-003", b""] {
        assert!(!neighbours.is_alias(other));
    }
    // A PortID with a dot is the name by itself.
    let dotted = SWITCH.replacen("706f72742d303033", "706f72742d312e61", 1);
    neighbours.hear(&octets(&dotted));
    assert!(neighbours.is_alias(b"port-1.a"));
    assert!(!neighbours.is_alias(b"port-1.a.sw-1"));
}
