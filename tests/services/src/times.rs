//! When the address is announced and defended (RFC 5227). The numbers of ticks are those of its ANNOUNCE_INTERVAL of 2
//! seconds and its DEFEND_INTERVAL of 10 seconds, at 32,000 ticks a second.

use super::{ADDRESS, ANNOUNCEMENT, RIVAL, STATION, device, octets, padded, sent_in, tick};
use services::{Role, Services};

#[test]
fn an_address_is_announced_in_the_next_tick_and_64000_ticks_later() {
    let mut services = Services::new(Role::Device, STATION, ADDRESS);
    assert_eq!(sent_in(&mut services, 200_000), [1, 64_001]);
}

#[test]
fn a_station_without_an_address_announces_none() {
    let mut services = Services::new(Role::Device, STATION, [0; 4]);
    assert_eq!(sent_in(&mut services, 64_002), []);
    services.observe(ADDRESS);
    assert_eq!(sent_in(&mut services, 64_002), [1, 64_001]);
}

#[test]
fn the_same_address_is_not_announced_again() {
    let mut services = device();
    services.observe(ADDRESS);
    assert_eq!(sent_in(&mut services, 64_002), []);
}

/// Another change drops the second announcement of the old address.
#[test]
fn another_change_drops_the_second_announcement() {
    let mut services = Services::new(Role::Device, STATION, [192, 168, 0, 9]);
    assert!(tick(&mut services).is_some());
    for _ in 0..63_999 {
        assert_eq!(tick(&mut services), None);
    }
    services.observe(ADDRESS);
    assert_eq!(sent_in(&mut services, 130_000), [1, 64_001]);
    let mut services = Services::new(Role::Device, STATION, ADDRESS);
    assert_eq!(sent_in(&mut services, 64_000), [1]);
    services.observe([0; 4]);
    assert_eq!(sent_in(&mut services, 64_002), []);
}

/// A conflict is defended in the next tick, and another one not before 320,000 ticks have passed.
#[test]
fn a_conflict_is_defended_at_most_once_in_320000_ticks() {
    let mut services = device();
    services.hear(&octets(RIVAL));
    assert_eq!(sent_in(&mut services, 2), [1]);
    services.hear(&octets(RIVAL));
    assert_eq!(sent_in(&mut services, 319_997), []);
    // The 320,000th tick after the defence is the next but one.
    services.hear(&octets(RIVAL));
    assert_eq!(tick(&mut services), None);
    services.hear(&octets(RIVAL));
    assert_eq!(tick(&mut services), Some(padded(ANNOUNCEMENT)));
    assert_eq!(services.conflicts(), 4);
}

/// A conflict that was heard while a defence is not allowed is not defended later.
#[test]
fn a_conflict_does_not_wait() {
    let mut services = device();
    services.hear(&octets(RIVAL));
    assert_eq!(sent_in(&mut services, 2), [1]);
    services.hear(&octets(RIVAL));
    assert_eq!(sent_in(&mut services, 400_000), []);
}

/// Beside an announcement nothing else is sent: it says the same. It starts no guard.
#[test]
fn a_conflict_is_not_defended_beside_an_announcement() {
    let mut services = Services::new(Role::Device, STATION, ADDRESS);
    services.hear(&octets(RIVAL));
    assert_eq!(sent_in(&mut services, 2), [1]);
    services.hear(&octets(RIVAL));
    assert_eq!(sent_in(&mut services, 2), [1]);
    assert_eq!(services.conflicts(), 2);
}

/// A conflict over an address that the station has no more is not defended.
#[test]
fn a_change_ends_the_defence() {
    let mut services = device();
    services.hear(&octets(RIVAL));
    services.observe([0; 4]);
    assert_eq!(sent_in(&mut services, 10), []);
}
