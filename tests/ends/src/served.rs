//! A controller and what is beside it. The octets of each frame of ARP and ICMP are those that Scapy 2.5 makes of its
//! fields; those of LLDP were composed by hand from IEEE 802.1AB, 8.5, and IEC 61158-6-10, 4.11.

use super::PUMP;
use configurator::plan_from_json;
use controller_core::{Event, State};
use controller_station::{ServedController, ServedOutbox};
use frame_codec::Frame;
use rattle_std::alloc::Global;
use test_stations::octets;
use uuid::Uuid;

/// Who has the controller's address? The device asks all.
pub(crate) const REQUEST: &str =
    "ffffffffffff02000000000108060001080006040001020000000001c0a80002000000000000c0a80001";

/// The reply to it.
pub(crate) const REPLY: &str =
    "02000000000102000000000208060001080006040002020000000002c0a80001020000000001c0a80002";

/// An echo request of the device, and the reply to it.
pub(crate) const ECHO: &str = "020000000002020000000001080045000024000140004001b984c0a80002c0a800010800542f123400076162636465666768";

pub(crate) const ECHO_REPLY: &str = "020000000001020000000002080045000024000040004001b985c0a80001c0a8000200005c2f123400076162636465666768";

/// The announcement of the controller's address.
pub(crate) const ANNOUNCEMENT: &str =
    "ffffffffffff02000000000208060001080006040001020000000002c0a80001000000000000c0a80001";

/// What the controller says of itself to its neighbour: its name, port-001, 20 seconds, and its address.
pub(crate) const SAYS: &str = "0180c200000e02000000000288cc020407706c630409\
    07706f72742d30303106020014fe08000ecf0200000000\
    fe0a000ecf05020000000002100c0501c0a800010200000001000000";

/// What a neighbour says of itself: chassis `switch-a`, port `port-003`, for 2 seconds, and its MAC address.
pub(crate) const NEIGHBOUR: &str = "0180c200000e02000000004488cc0209077377697463682d61040907706f72742d30303306020002\
    fe0a000ecf050200000000440000000000000000";

/// It says goodbye: the same, for 0 seconds.
pub(crate) const GOODBYE: &str = "0180c200000e02000000004488cc0209077377697463682d61040907706f72742d303033060200000000\
    0000000000000000000000000000000000000000";

/// The question of another station that uses the controller's address.
pub(crate) const RIVAL: &str =
    "ffffffffffff02000000003308060001080006040001020000000033c0a80001000000000000c0a80002";

/// The device's answer to the Identify.
const FOUND: &str =
    "0200000000020200000000018892feff05010000000100000016020200080000\
    70756d702d3102030006000001230456";

/// The octets that these hexadecimal digits spell.
pub(crate) fn spelled(digits: &str) -> Vec<u8> {
    (0..digits.len())
        .step_by(2)
        .map(|place| u8::from_str_radix(&digits[place..place + 2], 16).expect("a digit"))
        .collect()
}

/// The frame of these octets, padded with zeros to 60.
pub(crate) fn padded(digits: &str) -> Vec<u8> {
    let mut frame = spelled(digits);
    frame.resize(frame.len().max(60), 0);
    frame
}

/// A controller that has announced its address twice.
fn served() -> ServedController {
    let plan = plan_from_json(Global, PUMP.as_bytes())
        .ok()
        .expect("there is a plan");
    let mut served =
        ServedController::new(plan, Uuid::from_bytes([1; 16]), Uuid::from_bytes([2; 16]));
    for _ in 0..64_001 {
        let _ = sent(&mut served, &Event::Tick);
    }
    served
}

/// What is sent at an event.
fn sent(served: &mut ServedController, event: &Event) -> Vec<Vec<u8>> {
    let mut outbox = ServedOutbox::new();
    served.step(event, &mut outbox);
    let octets = |frame: &Frame| frame.as_slice().to_vec();
    outbox
        .controller()
        .iter()
        .chain(outbox.services())
        .map(octets)
        .collect()
}

/// What is sent for this frame.
fn answers(served: &mut ServedController, digits: &str) -> Vec<Vec<u8>> {
    sent(served, &Event::Frame(octets(&spelled(digits))))
}

#[test]
fn a_served_controller_answers_arp_and_echo() {
    let mut served = served();
    assert_eq!(answers(&mut served, REQUEST), [padded(REPLY)]);
    assert_eq!(answers(&mut served, ECHO), [padded(ECHO_REPLY)]);
    assert_eq!(served.conflicts(), 0);
    assert_eq!(served.controller().state(), State::Looking);
}

#[test]
fn it_answers_for_no_other_address() {
    let mut served = served();
    for (what, frame) in [
        (
            "another address",
            "ffffffffffff02000000000108060001080006040001020000000001c0a80002000000000000c0a80003",
        ),
        (
            "the device's address",
            "ffffffffffff02000000000708060001080006040001020000000007c0a80007000000000000c0a80002",
        ),
        (
            "to another station",
            "02000000000302000000000108060001080006040001020000000001c0a80002000000000000c0a80001",
        ),
        ("a reply", REPLY),
        (
            "an echo request for another address",
            "020000000002020000000001080045000024000140004001b982c0a80002c0a800030800542f123400076162636465666768",
        ),
        (
            "an echo request to another station",
            "020000000003020000000001080045000024000140004001b984c0a80002c0a800010800542f123400076162636465666768",
        ),
        ("an echo reply", ECHO_REPLY),
    ] {
        assert_eq!(
            answers(&mut served, frame),
            Vec::<Vec<u8>>::new(),
            "{what}"
        );
    }
}

#[test]
fn it_announces_its_address_twice_beside_the_controllers_frames() {
    let plan = plan_from_json(Global, PUMP.as_bytes())
        .ok()
        .expect("there is a plan");
    let mut served =
        ServedController::new(plan, Uuid::from_bytes([1; 16]), Uuid::from_bytes([2; 16]));
    let identify = served.opening().as_slice().to_vec();
    for tick in 1..=96_000 {
        let mut wanted = Vec::new();
        // The request of the controller is repeated each second, and comes first.
        if tick % 32_000 == 0 {
            wanted.push(identify.clone());
        }
        if tick == 1 || tick == 64_001 {
            wanted.push(padded(ANNOUNCEMENT));
        }
        if tick == 1 {
            wanted.push(spelled(SAYS));
        }
        assert_eq!(sent(&mut served, &Event::Tick), wanted, "tick {tick}");
    }
}

/// Its ChassisID, PortID and MAC address.
fn known(served: &ServedController) -> Option<(Vec<u8>, Vec<u8>, [u8; 6])> {
    served.neighbour().map(|neighbour| {
        (
            neighbour.chassis.to_vec(),
            neighbour.port.to_vec(),
            neighbour.mac.octets,
        )
    })
}

/// Each five seconds, also after the controller was stopped.
#[test]
fn it_announces_itself_to_its_neighbour() {
    let mut served = served();
    let _ = sent(&mut served, &Event::Stop);
    let mut at = Vec::new();
    for tick in 64_002..=480_001 {
        if sent(&mut served, &Event::Tick).contains(&spelled(SAYS)) {
            at.push(tick);
        }
    }
    assert_eq!(at, [160_001, 320_001, 480_001]);
}

#[test]
fn it_hears_its_neighbour_as_long_as_that_one_says() {
    let mut served = served();
    let switch = Some((
        b"switch-a".to_vec(),
        b"port-003".to_vec(),
        [2, 0, 0, 0, 0, 0x44],
    ));
    assert_eq!(known(&served), None);
    // A message of a neighbour is not answered, and nothing of the controller changes.
    assert_eq!(answers(&mut served, NEIGHBOUR), Vec::<Vec<u8>>::new());
    assert_eq!(known(&served), switch);
    assert_eq!(served.controller().state(), State::Looking);
    assert_eq!(answers(&mut served, REQUEST), [padded(REPLY)]);
    for _ in 0..63_999 {
        let _ = sent(&mut served, &Event::Tick);
        assert_eq!(known(&served), switch);
    }
    let _ = sent(&mut served, &Event::Tick);
    assert_eq!(known(&served), None);
    let _ = answers(&mut served, NEIGHBOUR);
    assert_eq!(known(&served), switch);
    let _ = answers(&mut served, GOODBYE);
    assert_eq!(known(&served), None);
    // It does not hear itself.
    let _ = answers(&mut served, SAYS);
    assert_eq!(known(&served), None);
}

#[test]
fn a_frame_of_the_controller_is_the_controllers() {
    let mut served = served();
    let requests = answers(&mut served, FOUND);
    assert_eq!(requests.len(), 1);
    assert_eq!(served.controller().state(), State::Addressing);
    assert_eq!(answers(&mut served, REQUEST), [padded(REPLY)]);
    assert_eq!(sent(&mut served, &Event::Stop), Vec::<Vec<u8>>::new());
    assert_eq!(answers(&mut served, REQUEST), [padded(REPLY)]);
}

#[test]
fn another_station_with_its_address_is_a_conflict() {
    let mut served = served();
    assert_eq!(answers(&mut served, RIVAL), Vec::<Vec<u8>>::new());
    assert_eq!(served.conflicts(), 1);
    assert_eq!(sent(&mut served, &Event::Tick), [padded(ANNOUNCEMENT)]);
}
