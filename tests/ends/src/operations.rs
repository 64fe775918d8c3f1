//! A controller as a host in C calls it: numbers, answers, and where the reported values are.

use super::PUMP;
use super::served::{
    ANNOUNCEMENT, ECHO, ECHO_REPLY, NEIGHBOUR, REPLY, REQUEST, RIVAL, SAYS, padded, spelled,
};
use configurator::plan_from_json;
use controller_abi::{Port, serve};
use controller_core::ControllerOptions;
use c_layout::Op;
use rattle_std::alloc::Global;
use uuid::Uuid;

/// Units of time in a second: after this time a request is sent again.
const SECOND: u32 = 32000;

/// The controller of the demo station's plan, whose first frame waits.
pub(crate) fn begun(alloc: Global) -> Port {
    let plan = plan_from_json(alloc, PUMP.as_bytes())
        .ok()
        .expect("there is a plan");
    let mut port = Port::unstarted(
        plan,
        Uuid::from_bytes([0x11; 16]),
        Uuid::from_bytes([0x51; 16]),
        ControllerOptions::default(),
    );
    port.start();
    port
}

/// An operation of this number, with nothing else in it.
pub(crate) fn asked(what: u32) -> Op {
    Op {
        what,
        slot: 0,
        subslot: 0,
        index: 0,
        number: 0,
        channel: 0,
        error: 0,
        appears: 0,
        is_good: 0,
        is_up: 0,
        is_low: 0,
        units: 0,
        due: 0,
        note: 0,
        reason: 0,
        phase: 0,
        cause: 0,
        lamp: 0,
        iops: 0,
        data_status: 0,
        count: 0,
        left_out: 0,
        commits: 0,
        status: 0,
        block_error: 0,
        alarm_type: 0,
        specifier: 0,
        structure: 0,
        sequence: 0,
        confirmed: 0,
        progress: 0,
        wanted: 0,
        read_length: 0,
        port_length: 0,
        chassis_length: 0,
        work: 0,
        more: 0,
        sector: 0,
        place: 0,
        length: 0,
        octets: [0; 1520],
    }
}

/// The same, of a submodule.
fn asked_of(what: u32, slot: u32, subslot: u32) -> Op {
    let mut op = asked(what);
    op.slot = slot;
    op.subslot = subslot;
    op
}

/// What it is answered with.
fn answer(port: &mut Port, what: u32) -> u32 {
    let mut op = asked(what);
    serve(port, &mut op, &[])
}

/// The kind of the next piece of work, which is handed out.
fn next(port: &mut Port) -> u32 {
    let mut op = asked(7);
    let _ = serve(port, &mut op, &[]);
    op.work
}

/// The number of units until something is due.
fn due(port: &mut Port) -> u32 {
    let mut op = asked(15);
    assert_eq!(serve(port, &mut op, &[]), 0);
    op.due
}

/// How many conflicts were heard.
fn conflicts(port: &mut Port) -> u32 {
    let mut op = asked(19);
    assert_eq!(serve(port, &mut op, &[]), 0);
    op.count
}

/// Lets units pass, and how many of them remain.
fn pass(port: &mut Port, units: u32) -> u32 {
    let mut op = asked(4);
    op.units = units;
    assert_eq!(serve(port, &mut op, &[]), 0);
    op.units
}

/// All frames that wait, which are fetched.
pub(crate) fn taken(port: &mut Port) -> Vec<Vec<u8>> {
    let mut frames = Vec::new();
    let mut op = asked(7);
    loop {
        assert_eq!(serve(port, &mut op, &[]), 0);
        if op.work == 0 {
            return frames;
        }
        frames.push(op.octets[..op.length as usize].to_vec());
    }
}

/// What is sent while these units pass.
fn all_of(port: &mut Port, units: u32) -> Vec<Vec<u8>> {
    let mut frames = taken(port);
    let mut left = units;
    while left > 0 {
        left = pass(port, left);
        frames.extend(taken(port));
    }
    frames
}

/// What is sent for this frame.
fn heard(port: &mut Port, digits: &str) -> Vec<Vec<u8>> {
    let mut op = asked(3);
    assert_eq!(serve(port, &mut op, &spelled(digits)), 0);
    taken(port)
}

/// How far it is, and why it ended.
fn state(port: &mut Port) -> (u32, u32) {
    let mut op = asked(9);
    let _ = serve(port, &mut op, &[]);
    (op.phase, op.cause)
}

#[test]
fn events_wait_for_the_frames() {
    let mut port = begun(Global);
    for what in [3, 4, 5, 13, 16] {
        assert_eq!(answer(&mut port, what), 7);
    }
    let mut op = asked(7);
    assert_eq!(serve(&mut port, &mut op, &[]), 0);
    assert_eq!(op.work, 3);
    assert!(op.octets.starts_with(b"\x01\x0e\xcf\x00\x00\x00"));
    assert_eq!(next(&mut port), 0);
    for what in [3, 4] {
        assert_eq!(answer(&mut port, what), 0);
    }
}

#[test]
fn no_such_operation_or_slot() {
    let mut port = begun(Global);
    for what in [0, 1, 2, 6, 10, 11, 14, 17, 99, u32::MAX] {
        assert_eq!(answer(&mut port, what), 10);
    }
    assert_eq!(next(&mut port), 3);
    for what in [5, 8, 16] {
        let mut op = asked_of(what, 65536 + 1, 1);
        assert_eq!(serve(&mut port, &mut op, &[0, 0]), 9);
    }
    let mut op = asked_of(8, 3, 1);
    assert_eq!(serve(&mut port, &mut op, &[]), 9);
    assert_eq!(answer(&mut port, 12), 9);
}

// The demo station's plan has two octets of input in slot 1 and two of output in slot 2. Each value and its answer.
#[test]
fn a_value_is_set_where_the_plan_has_an_output_of_its_length() {
    let mut port = begun(Global);
    assert_eq!(next(&mut port), 3);
    for (slot, subslot, length, wanted) in [
        (2, 1, 2, 0),
        (2, 1, 1, 8),
        (2, 1, 3, 8),
        (2, 1, 0, 8),
        (2, 1, 1600, 8),
        (1, 1, 2, 9),
        (1, 1, 0, 9),
        (0, 1, 0, 9),
        (2, 2, 2, 9),
        (3, 1, 2, 9),
        (2, 65536 + 1, 2, 9),
    ] {
        let mut op = asked_of(5, slot, subslot);
        assert_eq!(serve(&mut port, &mut op, &vec![0; length]), wanted, "{slot} {subslot} {length}");
        assert_eq!((op.slot, op.subslot, op.work), (slot, subslot, 0));
    }
}

// A status is that of an output of the plan. Nothing is known of the device yet.
#[test]
fn a_status_is_given_where_the_plan_has_an_output() {
    let mut port = begun(Global);
    assert_eq!(next(&mut port), 3);
    for (slot, subslot, wanted) in [(2, 1, 0), (1, 1, 9), (0, 1, 9), (2, 2, 9), (3, 1, 9), (2, 65536 + 1, 9)] {
        for is_good in [0, 1, u32::MAX] {
            let mut op = asked_of(16, slot, subslot);
            op.is_good = is_good;
            assert_eq!(serve(&mut port, &mut op, &[]), wanted, "{slot} {subslot}");
            assert_eq!((op.is_good, op.work), (is_good, 0));
        }
    }
    for (slot, subslot) in [(1, 1), (2, 1), (65536 + 1, 1)] {
        let mut op = asked_of(18, slot, subslot);
        op.length = 5;
        assert_eq!(serve(&mut port, &mut op, &[]), 24);
        assert_eq!(op.length, 5);
    }
}

// With its first unit it announces its address, and itself to its neighbour. A request waits a second before it is sent again.
#[test]
fn what_is_due_is_told() {
    let mut port = begun(Global);
    assert_eq!(next(&mut port), 3);
    assert_eq!(due(&mut port), 1);
    assert_eq!(pass(&mut port, 12), 11);
    assert_eq!(due(&mut port), SECOND - 1);
    assert_eq!((next(&mut port), next(&mut port), next(&mut port)), (3, 3, 0));
    assert_eq!(pass(&mut port, 11), 0);
    let mut op = asked(15);
    op.work = 9;
    assert_eq!(serve(&mut port, &mut op, &[]), 0);
    assert_eq!((op.due, op.work, op.units), (SECOND - 12, 9, 0));
}

#[test]
fn an_input_is_told() {
    let mut port = begun(Global);
    let mut op = asked_of(8, 1, 1);
    op.octets = [0xFF; 1520];
    assert_eq!(serve(&mut port, &mut op, &[]), 0);
    assert_eq!(op.length, 2);
    assert!(op.octets.starts_with(&[0, 0, 0xFF]));
}

#[test]
fn time_stops_at_what_is_sent() {
    let mut port = begun(Global);
    assert_eq!(next(&mut port), 3);
    assert_eq!(pass(&mut port, SECOND + 7), SECOND + 6);
    assert_eq!(answer(&mut port, 4), 7);
    assert_eq!((next(&mut port), next(&mut port), next(&mut port)), (3, 3, 0));
    assert_eq!(pass(&mut port, SECOND + 6), 7);
    assert_eq!(answer(&mut port, 4), 7);
    assert_eq!((next(&mut port), next(&mut port)), (3, 0));
}

// What is beside it goes on: it announces the address and itself, and answers for the address.
#[test]
fn it_is_stopped() {
    let mut port = begun(Global);
    assert_eq!(state(&mut port), (1, 0));
    assert_eq!(next(&mut port), 3);
    assert_eq!(answer(&mut port, 13), 0);
    assert_eq!(state(&mut port), (8, 7));
    assert_eq!(pass(&mut port, 2 * SECOND + 7), 2 * SECOND + 6);
    assert_eq!(taken(&mut port), [padded(ANNOUNCEMENT), spelled(SAYS)]);
    assert_eq!(pass(&mut port, 2 * SECOND + 6), 6);
    assert_eq!(taken(&mut port), [padded(ANNOUNCEMENT)]);
    assert_eq!(due(&mut port), 3 * SECOND);
    for _ in 0..3 {
        assert_eq!(pass(&mut port, 5 * SECOND), 2 * SECOND);
        assert_eq!(taken(&mut port), [spelled(SAYS)]);
        assert_eq!(pass(&mut port, 2 * SECOND), 0);
    }
    assert_eq!(heard(&mut port, REQUEST), [padded(REPLY)]);
}

// A neighbour is reported as long as it is known: the lengths of its port and its chassis, its MAC address and both texts. The
// unit that forgets it is due, and sends nothing.
#[test]
fn a_neighbour_is_told() {
    let mut port = begun(Global);
    let _ = all_of(&mut port, 2 * SECOND + 1);
    let mut op = asked(37);
    (op.port_length, op.chassis_length, op.length) = (7, 8, 9);
    assert_eq!(serve(&mut port, &mut op, &[]), 9);
    assert_eq!((op.port_length, op.chassis_length, op.length), (7, 8, 9));
    assert_eq!(heard(&mut port, NEIGHBOUR), Vec::<Vec<u8>>::new());
    assert_eq!(serve(&mut port, &mut op, &[]), 0);
    assert_eq!((op.port_length, op.chassis_length, op.length), (8, 8, 22));
    assert_eq!(op.octets[..6], [2, 0, 0, 0, 0, 0x44]);
    assert_eq!(&op.octets[6..22], b"port-003switch-a");
    assert_eq!(answer(&mut port, 13), 0);
    assert_eq!(due(&mut port), 2 * SECOND);
    assert_eq!(pass(&mut port, 2 * SECOND - 1), 0);
    assert_eq!(due(&mut port), 1);
    assert_eq!(answer(&mut port, 37), 0);
    assert_eq!(all_of(&mut port, 1), Vec::<Vec<u8>>::new());
    assert_eq!(answer(&mut port, 37), 9);
}

#[test]
fn arp_and_echo_are_answered() {
    let mut port = begun(Global);
    let _ = taken(&mut port);
    for _ in 0..2 {
        assert_eq!(heard(&mut port, REQUEST), [padded(REPLY)]);
        assert_eq!(heard(&mut port, ECHO), [padded(ECHO_REPLY)]);
    }
    // For another address, and a reply.
    for digits in [
        "ffffffffffff02000000000108060001080006040001020000000001c0a80002000000000000c0a80003",
        REPLY,
    ] {
        assert_eq!(heard(&mut port, digits), Vec::<Vec<u8>>::new());
    }
    assert_eq!(state(&mut port), (1, 0));
    assert_eq!(conflicts(&mut port), 0);
}

// Each conflict is counted, and the next unit defends the address. Within 10 seconds it is not defended again.
#[test]
fn conflicts_are_counted() {
    let mut port = begun(Global);
    let _ = all_of(&mut port, 2 * SECOND + 1);
    for wanted in 1..=3 {
        assert_eq!(heard(&mut port, RIVAL), Vec::<Vec<u8>>::new());
        assert_eq!(conflicts(&mut port), wanted);
    }
    assert_eq!(due(&mut port), 1);
    assert_eq!(all_of(&mut port, 1), [padded(ANNOUNCEMENT)]);
    assert_eq!(heard(&mut port, RIVAL), Vec::<Vec<u8>>::new());
    assert_eq!(conflicts(&mut port), 4);
    assert_eq!(due(&mut port), SECOND - 2);
    assert_eq!(all_of(&mut port, 1), Vec::<Vec<u8>>::new());
}

// What it does over some seconds does not depend on how many units pass at once, conflicts among them.
#[test]
fn units_at_once_are_units_one_by_one() {
    let mut one_by_one = begun(Global);
    let mut at_once = begun(Global);
    assert_eq!(taken(&mut one_by_one), taken(&mut at_once));
    let mut sent = 0;
    for units in [0, 1, 1, 30_000, 2_000, 31_999, 1, 100_000, 250_000, 1] {
        let mut wanted = Vec::new();
        for _ in 0..units {
            assert_eq!(pass(&mut one_by_one, 1), 0);
            wanted.extend(taken(&mut one_by_one));
        }
        sent += wanted.len();
        assert_eq!(all_of(&mut at_once, units), wanted, "{units} units");
        assert_eq!(due(&mut at_once), due(&mut one_by_one));
        assert_eq!(heard(&mut at_once, RIVAL), heard(&mut one_by_one, RIVAL));
    }
    // Two announcements, a request each second, and LLDP each five seconds. Of the conflicts one is defended after the first
    // announcement, and one after another 10 seconds.
    assert_eq!(sent, 2 + 12 + 3 + 2);
}
