//! What a relation answers. Each line of `stdin` is one event at a device without an address, and one line must come of each:
//!
//! ```text
//! call OPERATION BLOCKS      a new call of this operation: `ok` and the blocks of its answer, after those of PrmEnd the block of
//!                            ApplicationReady; or PNIOStatus
//! answer STATUS ACTIVITY SEQUENCE OPERATION BLOCKS
//!                            a response of the controller: `confirmed`, `not-wanted`, `garbled`, or the reason of the ERR
//! tick UNITS                 what is due in them, in its order: `ready` for each ApplicationReady, the reason of an ERR; `-` for nothing
//! end, abort                 the device or the controller ends the relation: the reason of the ERR, or `-`
//! start, blank               the device starts again; its I&M texts become blank: `-`
//! phase                      `none`, `started`, `awaiting` or `exchanging`
//! ```
//!
//! Octets are in hex, and `-` means none. The lines and what they print come from the scripts of a reference model of the device
//! that shares no line with this repository: its calls and answers without what is around their blocks.

use crate::device::Device;
use crate::{hex, is_same, octets};
use pn_values::Command;
use records::{Blocks, Operation};
use relations::{Abort, Farewell, Phase, ReadyAnswer, Relation};
use rpc_core::{CallHeader, Response, Status};
use uuid::Uuid;

/// What becomes of a line.
fn row(device: &mut Device, line: &str) -> String {
    let (word, rest) = line.split_once(' ').unwrap_or((line, ""));
    match word {
        "call" => called(device, rest),
        "answer" => answered(device, rest),
        "tick" => due_in(device, rest.parse().expect("units")),
        "end" => reason(device.relation.end(Abort::Other)),
        "phase" => phase_word(device.relation.phase()).to_string(),
        "abort" => {
            let _unsent = device.relation.end(Abort::Other);
            "-".to_string()
        }
        "start" => {
            device.relation = Relation::new();
            "-".to_string()
        }
        "blank" => {
            device.carry(&Command::ResetApplication);
            "-".to_string()
        }
        _ => panic!("{line}: not a line of this table"),
    }
}

/// What is due in a number of units.
fn due_in(device: &mut Device, units: u32) -> String {
    let mut due = Vec::new();
    for _ in 0..units {
        let elapsed = device.relation.elapse();
        let farewell = elapsed
            .tick
            .ending()
            .and_then(|reason| device.relation.end(reason));
        if elapsed.is_ready {
            due.push("ready".to_string());
        }
        if farewell.is_some() {
            due.push(reason(farewell));
        }
    }
    if due.is_empty() {
        "-".to_string()
    } else {
        due.join(" ")
    }
}

/// The reason that an ERR gives, if there is one.
fn reason(farewell: Option<Farewell>) -> String {
    let reason = match farewell.map(|farewell| farewell.reason) {
        None => "-",
        Some(Abort::DataHold) => "5",
        Some(Abort::Activity) => "6",
        Some(Abort::Other) => "13",
    };
    reason.to_string()
}

/// The word for a phase.
fn phase_word(phase: Option<Phase>) -> &'static str {
    match phase {
        None => "none",
        Some(Phase::Started) => "started",
        Some(Phase::Preparing | Phase::Awaiting) => "awaiting",
        Some(Phase::Exchanging) => "exchanging",
    }
}

/// What a call is answered.
fn called(device: &mut Device, rest: &str) -> String {
    let (operation, digits) = rest.split_once(' ').expect("an operation and blocks");
    let operation = Operation::of(operation.parse().expect("a number")).expect("an operation");
    let mut answer = Blocks::new();
    match device.serve(operation, &octets(digits), &mut answer) {
        Err(fault) => {
            let status = fault.number(operation);
            hex(&[status.code, status.decode, status.code1, status.code2])
        }
        Ok(()) if operation == Operation::Control => {
            format!("ok {}{}", hex(answer.as_slice()), ready(&device.relation))
        }
        Ok(()) => format!("ok {}", hex(answer.as_slice())),
    }
}

/// The block of ApplicationReady, if there is a relation.
fn ready(relation: &Relation) -> String {
    let Some(ready) = relation.ready() else {
        return String::new();
    };
    let mut blocks = Blocks::new();
    ready.put_blocks(&mut blocks);
    format!(" {}", hex(blocks.as_slice()))
}

/// What a response of the controller comes to.
fn answered(device: &mut Device, rest: &str) -> String {
    let words: Vec<&str> = rest.split(' ').collect();
    let [status, activity, sequence, operation, blocks] = words[..] else {
        panic!("{rest}: a response has five words")
    };
    let [code, decode, code1, code2] = octets(status)[..] else {
        panic!("{status}: a status has four octets")
    };
    let activity: [u8; 16] = octets(activity).try_into().expect("16 octets");
    let blocks = octets(blocks);
    let response = Response {
        header: CallHeader {
            object: Uuid::nil(),
            interface: Uuid::nil(),
            activity: Uuid::from_bytes(activity),
            sequence: sequence.parse().expect("a number"),
            operation: operation.parse().expect("a number"),
        },
        status: Status {
            code,
            decode,
            code1,
            code2,
        },
        maximum_count: 0,
        blocks: &blocks,
    };
    match device.relation.hear_ready(&response) {
        ReadyAnswer::NotWanted => "not-wanted".to_string(),
        ReadyAnswer::Garbled => "garbled".to_string(),
        ReadyAnswer::Confirmed => "confirmed".to_string(),
        ReadyAnswer::Refused(farewell) => reason(Some(farewell)),
    }
}

#[test]
fn each_event_has_its_answer() {
    let mut device = Device::new();
    let rows = include_str!("../relations/stdin")
        .lines()
        .map(|line| row(&mut device, line) + "\n");
    let text: String = rows.collect();
    is_same(&text, include_str!("../relations/stdout"));
}
