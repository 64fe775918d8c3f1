//! The records of the port and of the interface. The octets are those of a reference model that shares no line with the
//! sources; tshark read them.

use arrayvec::ArrayVec;
use lldp::Neighbour;
use pn_values::{IpSuite, Mac, Real, Settings, demo_identity, demo_modules};
use device_records::{put_interface, put_network, put_port};
use station_names::check;

/// PDPortDataReal without a neighbour.
const ALONE: &str = "020f0028010000000000800108706f72742d3030310000000000000000000000000000000001000000000000";

/// PDPortDataReal beside the port `port-003` of `sw-1`.
const BESIDE: &str = "020f0044010000000000800108706f72742d30303101000008706f72742d3030330473772d310000000000000200000000ab00000000000000000000000000000001000000000000";

/// PDInterfaceDataReal of `pump-1`.
const NAMED: &str = "0240002001000670756d702d310000000200000000010000c0a80002ffffff0000000000";

/// PDRealData of both.
const BOTH: &str = "040000300100000000000000000080000240002001000670756d702d310000000200000000010000c0a80002ffffff000000000004000054010000000000000000008001020f0044010000000000800108706f72742d30303101000008706f72742d3030330473772d310000000000000200000000ab00000000000000000000000000000001000000000000";

fn octets_of(digits: &str) -> Vec<u8> {
    digits
        .as_bytes()
        .chunks(2)
        .map(|pair| u8::from_str_radix(str::from_utf8(pair).unwrap(), 16).unwrap())
        .collect()
}

fn text<const N: usize>(bytes: &[u8]) -> ArrayVec<u8, N> {
    let mut text = ArrayVec::new();
    text.try_extend_from_slice(bytes).unwrap();
    text
}

fn neighbour(port: &[u8], chassis: &[u8]) -> Neighbour {
    Neighbour {
        chassis: text(chassis),
        port: text(port),
        mac: Mac {
            octets: [2, 0, 0, 0, 0, 0xAB],
        },
    }
}

fn named(name: &[u8]) -> Settings {
    Settings {
        name: check(name).ok().unwrap(),
        suite: IpSuite::new([192, 168, 0, 2], [255, 255, 255, 0], [0; 4]).unwrap(),
        ..Settings::factory()
    }
}

fn port_of(neighbour: Option<&Neighbour>) -> ArrayVec<u8, 574> {
    let mut out = ArrayVec::new();
    put_port(&mut out, neighbour);
    out
}

fn interface_of(settings: &Settings) -> ArrayVec<u8, 270> {
    let mut out = ArrayVec::new();
    put_interface(&mut out, &demo_identity(), settings);
    out
}

fn network_of(real: &Real, settings: &Settings, neighbour: Option<&Neighbour>) -> ArrayVec<u8, 876> {
    let mut out = ArrayVec::new();
    put_network(&mut out, &demo_identity(), real, settings, neighbour);
    out
}

#[test]
fn a_port_tells_its_neighbour() {
    assert_eq!(port_of(None).as_slice(), octets_of(ALONE));
    let beside = neighbour(b"port-003", b"sw-1");
    assert_eq!(port_of(Some(&beside)).as_slice(), octets_of(BESIDE));
}

#[test]
fn an_interface_tells_its_station() {
    assert_eq!(interface_of(&named(b"pump-1")).as_slice(), octets_of(NAMED));
}

// A station without a name goes by its MAC address.
#[test]
fn an_interface_without_a_name_tells_the_address() {
    let octets = interface_of(&Settings::factory());
    assert_eq!(octets[6], 17);
    assert_eq!(&octets[7..24], b"02-00-00-00-00-01");
    assert_eq!(octets.len(), 44);
}

#[test]
fn a_network_has_what_is_plugged() {
    let beside = neighbour(b"port-003", b"sw-1");
    let settings = named(b"pump-1");
    let whole = network_of(&demo_modules(), &settings, Some(&beside));
    assert_eq!(whole.as_slice(), octets_of(BOTH));
    let bare = Real {
        modules: ArrayVec::new(),
    };
    assert!(network_of(&bare, &settings, Some(&beside)).is_empty());
}

// The largest neighbour: each block stays a multiple of four octets.
#[test]
fn the_longest_texts_fit() {
    let beside = neighbour(&[b'p'; 255], &[b'c'; 255]);
    let port = port_of(Some(&beside));
    assert_eq!(port.len() % 4, 0);
    assert_eq!(port[22..25], [0, 0, 255]);
    let lone = neighbour(b"p", b"c");
    assert_eq!(port_of(Some(&lone)).len() % 4, 0);
}
