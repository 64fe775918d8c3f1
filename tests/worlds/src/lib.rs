//! Rows of moves that were worked out by hand, each frame by its number, and that a world begins as the laws of both ends ask.
#![cfg(test)]

mod alarms;
mod anywhere;
mod diagnosis;
mod later;
mod lists;
mod memory;
mod octets;
mod otherwise;
mod patience;
mod played;
mod plugs;
mod requests;
mod rounds;
mod shown;
mod witness;

use controller_core::{Cause, State};
use pn_values::demo_identity;
use network_world::{End, Move};
use rattle_std::alloc::{AllocError, Global};
use relations::Phase;
use test_stations::octets;
use world_monitor::{Kind, Net, Told, fresh_world};

/// The catalogue of the demo station, with no records.
const PUMP: &str = r#"{"DeviceIdentity":{"VendorID":291,"DeviceID":1110},"DeviceAccessPointItem":{"ModuleIdentNumber":1,"PhysicalSlots":[0,1,2,3],"DNS_CompatibleName":"pn-demo","MinDeviceInterval":32,"VirtualSubmoduleItem":[{"Subslot":1,"SubmoduleIdentNumber":1},{"Subslot":32768,"SubmoduleIdentNumber":2},{"Subslot":32769,"SubmoduleIdentNumber":3}],"ModuleItemRef":[{"ModuleItemTarget":"IN2","AllowedInSlots":[1,2,3]},{"ModuleItemTarget":"OUT2","AllowedInSlots":[1,2,3]}]},"ModuleItem":[{"ID":"IN2","ModuleIdentNumber":16,"VirtualSubmoduleItem":[{"Subslot":1,"SubmoduleIdentNumber":16,"IOData":{"Input":[{"DataType":"Unsigned16"}]}}]},{"ID":"OUT2","ModuleIdentNumber":32,"VirtualSubmoduleItem":[{"Subslot":1,"SubmoduleIdentNumber":32,"IOData":{"Output":[{"DataType":"Unsigned16"}]}}]}],"Project":{"NameOfStation":"pump-1","IPAddress":"192.168.0.2","SubnetMask":"255.255.255.0","Gateway":"0.0.0.0","Controller":{"NameOfStation":"plc","MAC":"02-00-00-00-00-02","IPAddress":"192.168.0.1"},"SendClockFactor":32,"ReductionRatio":1,"DataHoldFactor":3,"Slots":[{"Slot":1,"ModuleItemTarget":"IN2"},{"Slot":2,"ModuleItemTarget":"OUT2"}]}}"#;

/// Up to the Connect, frame 4: Identify and the Set of the address are answered.
fn ask(net: &mut Net) -> Result<(), AllocError> {
    net.play(&[
        Move::Deliver(End::Device, 0),
        Move::Deliver(End::Controller, 1),
        Move::Deliver(End::Device, 2),
        Move::Deliver(End::Controller, 3),
    ])
}

/// The Connect is answered, by frame 5, and PrmEnd sent, frame 6.
fn connect(net: &mut Net) -> Result<(), AllocError> {
    net.play(&[
        Move::Deliver(End::Device, 4),
        Move::Deliver(End::Controller, 5),
    ])
}

/// PrmEnd is answered, by frame 7; ApplicationReady, frame 8, comes, and is answered by frame 9.
fn end_parameters(net: &mut Net) -> Result<(), AllocError> {
    net.play(&[
        Move::Deliver(End::Device, 6),
        Move::Deliver(End::Controller, 7),
        Move::Deliver(End::Controller, 8),
    ])
}

/// The answer to ApplicationReady comes.
fn confirm(net: &mut Net) -> Result<(), AllocError> {
    net.play(&[Move::Deliver(End::Device, 9)])
}

fn world(alloc: Global) -> Net {
    let fresh = fresh_world(alloc, PUMP, None).expect("there is a world");
    fresh.net
}

/// Both ends exchange data.
fn exchanging(alloc: Global) -> Net {
    let mut net = world(alloc);
    ask(&mut net).unwrap();
    connect(&mut net).unwrap();
    end_parameters(&mut net).unwrap();
    confirm(&mut net).unwrap();
    net
}

/// What the frame of this number is, if there is one.
fn kind_of(net: &Net, number: usize) -> Option<Kind> {
    match net.sent(number) {
        Some(frame) => Some(Kind::of(frame.as_slice())),
        None => None,
    }
}

/// Whether this many frames were sent.
fn are_sent(net: &Net, count: usize) -> bool {
    count != 0 && net.sent(count - 1).is_some() && net.sent(count).is_none()
}

/// Whether frames of two numbers are there, and are the same.
fn are_equal(net: &Net, one: usize, other: usize) -> bool {
    match (net.sent(one), net.sent(other)) {
        (Some(one), Some(other)) => one.as_slice() == other.as_slice(),
        _ => false,
    }
}

/// How far the controller is.
fn is_at(net: &Net, state: State) {
    assert_eq!(net.controller().state(), state);
}

/// What the relation of the device waits for, if there is one.
fn is_related(net: &Net, phase: Option<Phase>) {
    assert_eq!(net.device().phase(), phase);
}

/// What the frame of this number is.
fn is_kind(net: &Net, number: usize, kind: Kind) {
    assert_eq!(kind_of(net, number), Some(kind));
}

/// The first frame is the controller's Identify, which comes from its own address.
fn is_opened(net: &Net) {
    is_kind(net, 0, Kind::Identify);
    let frame = net.sent(0).expect("a frame");
    assert!(frame.as_slice() == net.controller().opening().as_slice());
    assert_eq!(
        frame.as_slice().get(6..12),
        Some([2, 0, 0, 0, 0, 2].as_slice())
    );
}

// What the laws ask of a world in which nothing happened: the controller was just made, of an ARUUID that is not zero, and nothing but its
// Identify was sent, from another address than that of the device; the device has no relation.
#[test]
fn a_world_begins_as_the_laws_ask() {
    let net = world(Global);
    is_at(&net, State::Looking);
    assert!(net.controller().alarm().is_none());
    assert!(*net.controller().ar().as_bytes() != [0; 16]);
    assert!(are_sent(&net, 1));
    is_opened(&net);
    assert_eq!(demo_identity().mac.octets, [2, 0, 0, 0, 0, 1]);
    is_related(&net, None);
    assert!(net.device().ar().is_none());
    assert_eq!(net.device().taken().len(), 0);
}

// The state of both ends after each part of a start-up, and what was sent.
#[test]
fn a_start_up_as_moves() {
    let mut net = world(Global);
    ask(&mut net).unwrap();
    is_at(&net, State::Connecting);
    is_kind(&net, 4, Kind::Connect);
    assert!(are_sent(&net, 5));
    connect(&mut net).unwrap();
    is_at(&net, State::Ending);
    is_related(&net, Some(Phase::Started));
    end_parameters(&mut net).unwrap();
    is_at(&net, State::Exchanging);
    is_related(&net, Some(Phase::Awaiting));
    confirm(&mut net).unwrap();
    is_at(&net, State::Exchanging);
    is_related(&net, Some(Phase::Exchanging));
    assert!(are_sent(&net, 10));
}

// A Connect that comes twice makes one relation, and is answered twice alike.
#[test]
fn a_connect_that_comes_twice() {
    let mut net = world(Global);
    ask(&mut net).unwrap();
    net.play(&[Move::Deliver(End::Device, 4), Move::Deliver(End::Device, 4)])
        .unwrap();
    assert!(are_sent(&net, 7));
    is_kind(&net, 5, Kind::Positive);
    assert!(are_equal(&net, 5, 6));
    is_related(&net, Some(Phase::Started));
    assert!(Told::by(&net).is_own);
}

// Each frame of a start-up comes again to both ends, the last one first.
#[test]
fn every_frame_comes_again() {
    let mut net = exchanging(Global);
    let taken = net.device().taken().len();
    for number in [9, 8, 7, 6, 5, 4, 3, 2, 1, 0] {
        net.play(&[
            Move::Deliver(End::Device, number),
            Move::Deliver(End::Controller, number),
        ])
        .unwrap();
    }
    is_at(&net, State::Exchanging);
    is_related(&net, Some(Phase::Exchanging));
    assert_eq!(net.device().taken().len(), taken);
}

/// An interval is over at both ends: the outputs are frame 10, the inputs 11.
fn cycle(net: &mut Net) -> Result<(), AllocError> {
    net.play(&[Move::Give(2, 1, octets(&[7, 9]))])?;
    for _ in 0..32 {
        net.play(&[Move::Tick(End::Controller)])?;
    }
    for _ in 0..32 {
        net.play(&[Move::Tick(End::Device)])?;
    }
    Ok(())
}

// A cyclic frame comes to nothing at an end that has left, and one that was never sent at any; before that it brought what was given.
#[test]
fn what_comes_to_an_end_that_left() {
    let mut net = exchanging(Global);
    cycle(&mut net).unwrap();
    assert!(are_sent(&net, 12));
    is_kind(&net, 10, Kind::Outputs);
    is_kind(&net, 11, Kind::Inputs);
    net.play(&[Move::Deliver(End::Device, 10)]).unwrap();
    assert_eq!(net.device().output(2, 1), Some([7, 9].as_slice()));
    net.play(&[Move::Stop, Move::Deliver(End::Device, 12)])
        .unwrap();
    is_kind(&net, 12, Kind::Release);
    is_at(&net, State::Ended(Cause::Stopped));
    is_related(&net, None);
    assert!(are_sent(&net, 14));
    let told = Told::by(&net);
    net.play(&[
        Move::Deliver(End::Device, 10),
        Move::Deliver(End::Controller, 11),
        Move::Deliver(End::Device, 14),
        Move::Deliver(End::Controller, 1_000),
    ])
    .unwrap();
    assert!(Told::by(&net) == told);
    assert!(are_sent(&net, 14));
}
