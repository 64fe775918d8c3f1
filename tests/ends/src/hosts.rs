//! A host of a controller: what it fetched and was told over a run, against the same controller event by event.

use super::operations::{asked, begun, taken};
use super::served::{ECHO, NEIGHBOUR, REQUEST, RIVAL, spelled};
use c_layout::Op;
use controller_abi::{Asked, Host, play, serve};
use controller_core::Event;
use frame_codec::Bytes;
use rattle_std::alloc::Global;

/// The number of an operation, what it returned, and the units that remain.
type Answer = (u32, u32, u32);

/// A host that gives up after some operations.
struct Patient {
    most: usize,
    answers: Vec<Answer>,
    events: Vec<Event>,
    fetched: Vec<Vec<u8>>,
    read: Vec<Read>,
}

/// What a host read: after how many events, with which operation, and the numbers and octets that it got.
#[derive(Clone, Debug, PartialEq)]
struct Read {
    after: usize,
    what: u32,
    answer: u32,
    phase: u32,
    cause: u32,
    octets: Vec<u8>,
}

fn read_of(after: usize, op: &Op, answer: u32) -> Read {
    let octets = op.octets.get(..op.length as usize).map_or(Vec::new(), <[u8]>::to_vec);
    Read { after, what: op.what, answer, phase: op.phase, cause: op.cause, octets }
}

impl Patient {
    fn new(most: usize) -> Patient {
        Patient {
            most,
            answers: Vec::new(),
            events: Vec::new(),
            fetched: Vec::new(),
            read: Vec::new(),
        }
    }
}

fn bytes(octets: &[u8]) -> Bytes {
    octets.iter().copied().take(1519).collect()
}

impl Host for Patient {
    fn tell(&mut self, asked: &Asked<'_>, answer: u32, reported: &Op) -> bool {
        self.answers.push((asked.op.what, answer, reported.units));
        let slot = asked.op.slot as u16;
        match (asked.op.what, answer) {
            (3, 0) => self.events.push(Event::Frame(bytes(asked.given))),
            (4, 0) => {
                for _ in reported.units..asked.op.units {
                    self.events.push(Event::Tick);
                }
            }
            (5, 0) => self.events.push(Event::Give(slot, 1, bytes(asked.given))),
            (7, 0) if reported.work == 3 => {
                self.fetched.push(reported.octets[..reported.length as usize].to_vec());
            }
            (13, 0) => self.events.push(Event::Stop),
            (8 | 9, _) => self.read.push(read_of(self.events.len(), reported, answer)),
            _ => {}
        }
        self.answers.len() < self.most
    }
}

fn operation(what: u32, units: u32) -> Op {
    let mut op = asked(what);
    (op.slot, op.subslot, op.units) = (2, 1, units);
    op
}

/// What the controller sends at these events, one by one, after its opening frame.
fn sent(events: &[Event]) -> Vec<Vec<u8>> {
    let mut port = begun(Global);
    let mut frames = taken(&mut port);
    for event in events {
        port.take(event);
        frames.extend(taken(&mut port));
    }
    frames
}

#[test]
fn events_wait_and_a_host_gives_up() {
    let operations: Vec<Asked<'_>> = [(4, 9), (7, 0), (7, 0), (4, 12), (4, 11), (7, 0), (7, 0), (7, 0), (4, 11), (99, 0)]
        .map(|(what, units)| Asked {
            op: operation(what, units),
            given: &[],
        })
        .into();
    let all = [
        (4, 7, 9),
        (7, 0, 0),
        (7, 0, 0),
        (4, 0, 11),
        (4, 7, 11),
        (7, 0, 0),
        (7, 0, 0),
        (7, 0, 0),
        (4, 0, 0),
        (99, 10, 0),
    ];
    for most in 1..=11 {
        let mut host = Patient::new(most);
        let is_whole = play(&mut begun(Global), &operations, &mut host);
        assert_eq!(is_whole, most > 10);
        assert_eq!(host.answers, all[..most.min(10)]);
    }
}

// Any operations, some of them while frames wait.
#[test]
fn a_run_is_that_of_its_events() {
    let frames = [ECHO, REQUEST, RIVAL, NEIGHBOUR].map(spelled);
    let mut number = 0x2545_F491_4F6C_DD1D_u64;
    let mut operations = Vec::new();
    for _ in 0..3_000 {
        number ^= number << 13;
        number ^= number >> 7;
        number ^= number << 17;
        let kind = [7, 7, 7, 4, 4, 3, 5, 9, 15, 16][(number >> 20) as usize % 10];
        let units = (number >> 40) as u32 % 1_000;
        operations.push(Asked {
            op: operation(kind, units),
            given: if kind == 3 { &frames[(number >> 30) as usize % 4] } else { &[0, 1][..(number >> 33) as usize % 3] },
        });
    }
    operations.push(Asked {
        op: operation(13, 0),
        given: &[],
    });
    let mut port = begun(Global);
    let mut host = Patient::new(usize::MAX);
    assert!(play(&mut port, &operations, &mut host));
    let waiting = taken(&mut port);
    assert!(host.fetched.len() > 100, "{}", host.fetched.len());
    assert!(are_all(&host, &waiting));
}

/// The law: what a host fetched, and then what still waits, is all that the accepted events sent, in order.
fn are_all(host: &Patient, waiting: &[Vec<u8>]) -> bool {
    [&host.fetched[..], waiting].concat() == sent(&host.events)
}

/// A host that hands in some frames and units, and fetches nothing at the end.
fn hosted() -> (Patient, Vec<Vec<u8>>) {
    let frame = spelled(ECHO);
    let steps: [(u32, u32); 9] = [(7, 0), (7, 0), (7, 0), (3, 0), (7, 0), (7, 0), (7, 0), (4, 32_000), (5, 0)];
    let operations: Vec<Asked<'_>> = steps
        .map(|(what, units)| Asked {
            op: operation(what, units),
            given: if what == 3 { &frame } else { &[] },
        })
        .into();
    let mut port = begun(Global);
    let mut host = Patient::new(usize::MAX);
    assert!(play(&mut port, &operations, &mut host));
    let waiting = taken(&mut port);
    assert!(are_all(&host, &waiting) && host.fetched.len() > 1 && !waiting.is_empty());
    assert_ne!(host.fetched[0], host.fetched[1]);
    (host, waiting)
}

/// The law: what a host reads is what the controller shows after the events accepted before.
fn are_shown(host: &Patient) -> bool {
    host.read.iter().all(|read| {
        let mut port = begun(Global);
        taken(&mut port);
        for event in &host.events[..read.after] {
            port.take(event);
            taken(&mut port);
        }
        let mut op = operation(read.what, 0);
        let answer = serve(&mut port, &mut op, &[]);
        read_of(read.after, &op, answer) == *read
    })
}

/// A host that reads the state and an input, stops the controller, and reads them again.
fn reader() -> Patient {
    let steps: [u32; 9] = [7, 7, 9, 8, 13, 7, 7, 9, 8];
    let operations: Vec<Asked<'_>> = steps.map(|what| Asked { op: operation(what, 0), given: &[] }).into();
    let mut host = Patient::new(usize::MAX);
    assert!(play(&mut begun(Global), &operations, &mut host));
    assert!(are_shown(&host) && host.read.len() == 4);
    assert_ne!(host.read[0].phase, host.read[2].phase);
    host
}

// The state of before, another cause, and octets of an input that the controller does not show.
#[test]
fn hosts_that_read_something_else() {
    let mut late = reader();
    late.read[2].phase = late.read[0].phase;
    assert!(!are_shown(&late));
    let mut other = reader();
    other.read[2].cause += 1;
    assert!(!are_shown(&other));
    let mut input = reader();
    input.read[1].octets.push(1);
    assert!(!are_shown(&input));
    let mut early = reader();
    early.read[2].after = 0;
    assert!(!are_shown(&early));
}

// A frame is fetched twice, one is lost, two come in another order, and one that still waits is gone.
#[test]
fn hosts_that_fetch_other_frames() {
    let (mut twice, waiting) = hosted();
    twice.fetched.insert(1, twice.fetched[0].clone());
    assert!(!are_all(&twice, &waiting));
    let (mut lost, waiting) = hosted();
    lost.fetched.remove(0);
    assert!(!are_all(&lost, &waiting));
    let (mut exchanged, waiting) = hosted();
    exchanged.fetched.swap(0, 1);
    assert!(!are_all(&exchanged, &waiting));
    let (whole, mut waiting) = hosted();
    waiting.pop();
    assert!(!are_all(&whole, &waiting));
}

// Units count that were refused, because frames waited; and an event does not count that was accepted.
#[test]
fn hosts_whose_refused_events_count() {
    let (mut refused, waiting) = hosted();
    refused.events.extend((0..32_001).map(|_| Event::Tick));
    assert!(!are_all(&refused, &waiting));
    let (mut accepted, waiting) = hosted();
    accepted.events.retain(|event| !matches!(event, Event::Frame(_)));
    assert!(!are_all(&accepted, &waiting));
}
