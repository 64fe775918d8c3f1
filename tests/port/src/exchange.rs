//! A port that exchanges data, beside the device and its services event by event. While only the timers of an exchange run, a port asks no other
//! timer: it must send what the station sends with each unit, whatever happens between them, also when the data hold time is over.
use crate::confirmed::outputs;
use crate::operations::asked;
use crate::passed::BEFORE;
use crate::served::{Model, PING, SIGNAL, booted, hear, octets, pass, pass_each, sent};
use crate::stations::demo;
use device_abi::serve;
use device_core::{Event, Octets};
use device_station::Port;

/// A port and its model, which exchange data.
fn exchanging() -> (Port, Model) {
    let (mut port, mut model) = (booted(), Model::new());
    for frame in BEFORE {
        assert_eq!(hear(&mut port, frame), model.hear(frame));
    }
    assert!(exchanges(&mut port));
    (port, model)
}

fn exchanges(port: &mut Port) -> bool {
    let mut op = asked(9);
    assert_eq!(serve(port, &mut op, &[]), 0);
    op.phase == 3
}

/// Both hear a frame.
fn both_hear(port: &mut Port, model: &mut Model, frame: &[u8]) {
    assert_eq!(serve(port, &mut asked(3), frame), 0);
    assert_eq!(sent(port), model.step(&Event::Frame(Octets::of(frame))));
}

/// The same after units that bring nothing: fewer than are due.
fn both_hear_after(port: &mut Port, model: &mut Model, number: u32, frame: &[u8]) {
    let mut op = asked(24);
    let units = number % port.due().expect("an open port").min(1000);
    op.units = units;
    assert_eq!(serve(port, &mut op, frame), 0);
    assert_eq!(model.pass(units - op.units), (0, vec![]));
    assert_eq!(sent(port), model.step(&Event::Frame(Octets::of(frame))));
}

/// Both get an input of slot 1, or refuse it.
fn both_get(port: &mut Port, model: &mut Model, value: &[u8]) {
    let mut op = asked(5);
    (op.slot, op.subslot) = (1, 1);
    let _ = serve(port, &mut op, value);
    assert_eq!(sent(port), model.step(&Event::input(1, 1, value)));
}

/// Both let units pass, up to the first that sends something.
fn both_pass(port: &mut Port, model: &mut Model, units: u32, is_each: bool) {
    let (left, due, frames) = if is_each { pass_each(port, units) } else { pass(port, units) };
    assert_eq!((left, frames), model.pass(units));
    assert_eq!((due, port.due().ok()), (model.station.due(), Some(due)));
}

/// What the application says now and then: an alarm, bad inputs, a diagnosis, a stop, or a module that goes and comes.
fn said(number: u32) -> Event<'static> {
    let (is_good, real) = (number % 16 < 8, demo());
    let module = &real.modules.as_slice()[2];
    match number % 8 {
        0 => Event::alarm(1, 1, &[1, 2]),
        1 => Event::status(1, 1, is_good),
        2 => Event::diagnosis(1, 1, 0x8000, 1, is_good),
        3 => Event::provider_state(is_good),
        4 => Event::pull(2, 1),
        5 => Event::plug(2, module.ident, module.submodules.as_slice()[0].copy()),
        6 => Event::ready(),
        _ => Event::ready_at(2, 1),
    }
}

/// Something else than cyclic data happens: with the first seeds only what leaves no timer, later also what starts one.
fn both_do(port: &mut Port, model: &mut Model, number: u32, is_eventful: bool) {
    if !is_eventful {
        return both_hear(port, model, &octets(PING));
    }
    match number % 4 {
        0 => both_hear(port, model, &octets(PING)),
        1 => both_hear(port, model, &octets(SIGNAL)),
        _ => {
            let event = said(number / 4);
            assert!(port.apply(&event).is_ok());
            assert_eq!(sent(port), model.step(&event));
        }
    }
}

// Schedules from a generator with a fixed start. An interval has 32 units, and data hold is over after 96.
#[test]
fn an_exchange_is_the_station_event_by_event() {
    let mut last = 0;
    for seed in 1..80_u64 {
        let ((mut port, mut model), mut state, mut cycle) = (exchanging(), seed, 0_u16);
        for _ in 0..120 {
            state = state.wrapping_mul(6_364_136_223_846_793_005).wrapping_add(1_442_695_040_888_963_407);
            let number = (state >> 33) as u32;
            match number % 16 {
                0..=4 => {
                    cycle = cycle.wrapping_add(32);
                    both_hear(&mut port, &mut model, &outputs(cycle));
                }
                5 => {
                    cycle = cycle.wrapping_add(32);
                    both_hear_after(&mut port, &mut model, number / 16, &outputs(cycle));
                }
                6 => both_get(&mut port, &mut model, &[number as u8, seed as u8]),
                7 if number % 64 < 16 => both_do(&mut port, &mut model, number / 64, seed > 40),
                _ => {
                    let units = [1, 1, 2, 5, 30, 31, 32, 33, 64, 100][(number / 16) as usize % if seed % 2 == 0 { 8 } else { 10 }];
                    both_pass(&mut port, &mut model, units, seed % 5 == 0);
                }
            }
        }
        last += usize::from(exchanges(&mut port));
    }
    // Some exchanges lasted, and of some the data hold time was over.
    assert!((1..79).contains(&last), "{last}");
}
