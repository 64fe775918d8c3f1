//! Modules that come and go at a port: what it is handed, what it reports then, and why it does nothing.
use crate::stations::{booted, busy, demo, kind, lost, made};
use device_abi::{Operation, play};
use device_core::{Event, Note, Sink};
use device_station::{Port, Refusal};
use flash_model::MemoryFlash;
use frame_codec::Frame;
use pn_values::RealSubmodule;

/// Frames that nobody looks at.
struct Dropped;

impl Sink for Dropped {
    fn take(&mut self, _: &Frame) {}
}

/// The submodule of slot 2 of the demo station.
fn second() -> RealSubmodule {
    demo().modules.as_slice()[2].submodules.as_slice()[0].copy()
}

/// Its module.
fn second_module() -> u32 {
    demo().modules.as_slice()[2].ident
}

/// How many submodules are plugged in slot 2, if a module is.
fn plugged_in_second(port: &Port) -> Option<usize> {
    let module = port.device().real().modules.as_slice().iter().find(|module| module.slot == 2)?;
    Some(module.submodules.as_slice().len())
}

/// What comes of each of the events: a pull, one of a module, a plug, and that the application is ready for one.
fn each(port: &mut Port) -> [Result<Note, Refusal>; 4] {
    [port.pull(2, 1), port.pull_module(2), port.plug(2, second_module(), second()), port.ready_at(2, 1)]
}

#[test]
fn an_output_goes_with_its_submodule_and_comes_back() {
    let mut port = booted();
    assert_eq!(port.output(2, 1), Ok(&[0, 0][..]));
    assert_eq!(port.pull(2, 1), Ok(Note::Done));
    assert_eq!((port.output(2, 1), plugged_in_second(&port)), (Err(Refusal::NoSlot), Some(0)));
    assert_eq!(port.plug(2, second_module(), second()), Ok(Note::Done));
    assert_eq!((port.output(2, 1), plugged_in_second(&port)), (Ok(&[0, 0][..]), Some(1)));
    assert_eq!(port.pull_module(2), Ok(Note::Done));
    assert_eq!((port.output(2, 1), plugged_in_second(&port)), (Err(Refusal::NoSlot), None));
    assert_eq!(kind(&port), 0, "without a relation nothing is sent");
    assert!(port.expected().expect("is reported").is_none(), "without a relation nothing is expected");
    assert_eq!(port.device().given().modules.as_slice().len(), demo().modules.as_slice().len());
}

#[test]
fn what_is_not_plugged_cannot_be_pulled() {
    let mut port = booted();
    assert_eq!(each(&mut port), [Ok(Note::Done), Ok(Note::Done), Ok(Note::Done), Ok(Note::Refused)]);
    assert_eq!(port.plug(2, second_module(), second()), Ok(Note::Refused));
    assert_eq!((port.pull(0, 1), port.pull(2, 2), port.pull_module(3)), (Ok(Note::Refused), Ok(Note::Refused), Ok(Note::Refused)));
}

#[test]
fn a_port_that_is_closed_or_busy_does_nothing() {
    for (mut port, refusal) in [(made(), Refusal::NotBooted), (busy(), Refusal::HasWork), (lost(), Refusal::PowerLost)] {
        assert_eq!(each(&mut port), [Err(refusal); 4]);
    }
    assert_eq!(made().expected().err(), Some(Refusal::NotBooted));
    assert_eq!(lost().expected().err(), Some(Refusal::PowerLost));
    assert!(busy().expected().is_ok());
}

#[test]
fn the_reference_host_hands_them_in() {
    let events = [
        (Event::pull(2, 1), Some(0)),
        (Event::plug(2, second_module(), second()), Some(1)),
        (Event::pull_module(2), None),
        (Event::ready_at(2, 1), None),
    ];
    let (mut port, mut chip) = (booted(), MemoryFlash::<4096>::blank());
    for (event, wanted) in events {
        assert!(play(&mut port, &mut chip, &[Operation::Happens(event)], &mut Dropped).is_ok());
        assert_eq!(plugged_in_second(&port), wanted);
    }
}
