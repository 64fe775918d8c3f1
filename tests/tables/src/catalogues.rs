//! What becomes of catalogues. Each line of `stdin` is a catalogue. Expected are the layouts of its plan, as `pnscript plan`
//! prints them, then the blocks of the plan's Connect and its records, or else its fault:
//!
//! ```text
//! config FAULT                        why it has no plan
//! connect HEX                         the blocks, with the ARUUID 11111111-2222-3333-4444-555555555555
//! record SLOT SUBSLOT INDEX HEX       a record, in the order in which they are written
//! continue                            the start-up goes on after a refused record
//! release                             the controller releases the relation when it ends after a refused record
//! lists                               the records are written in lists
//! identity VENDOR DEVICE HEX          what the controller says of itself to tools
//! ```
//!
//! Layouts and faults of the first 160 lines come from a reference model that was written from the rules of the catalogue alone
//! and shares no line with this repository; the two after them are those of `examples/catalogue`, and the next 42 are the demo
//! station with one thing changed. The Connects and the records are computed by `ci/catalogues.py`. The last lines are at
//! each bound of the rules and one past it; they, their faults and the keys of `places`, a line for each of them, are written by
//! `ci/catalogue_bounds.py` from the rules alone.

use crate::{hex, is_same};
use configurator::plan_from_json;
use plan_abi::show;
use plans::Plan;
use rattle_std::alloc::Global;
use script_runner::plan_text;
use uuid::Uuid;

/// The ARUUID of the Connects.
const AR: Uuid = Uuid::from_u128(0x11111111_2222_3333_4444_555555555555);

/// The Connect of a plan, its records, whether it goes on after a refused one, whether it releases the relation when it ends after a refused
/// one, whether it writes them in lists, whether it writes them again after a plug, and whether it releases a relation that the device holds
/// already.
fn plan_lines(plan: &Plan) -> String {
    let connect = format!("connect {}\n", hex(plan.connect(&AR).as_slice()));
    let records = plan.records().iter().map(|record| {
        let data = hex(record.data.as_slice());
        format!(
            "record {} {} {} {data}\n",
            record.slot, record.subslot, record.index
        )
    });
    let goes_on = match plan.continues_on_refused_record() {
        true => "continue\n",
        false => "",
    };
    let releases = match plan.release_on_refused_record() {
        true => "release\n",
        false => "",
    };
    let lists = match plan.has_multiple_write() {
        true => "lists\n",
        false => "",
    };
    let parameters = match plan.has_parameters_after_plug() {
        true => "parameters\n",
        false => "",
    };
    let persistent = match plan.persistent_start() {
        true => "persistent\n",
        false => "",
    };
    let identity = plan.identity().map_or(String::new(), |own| {
        format!("identity {} {} {}\n", own.vendor_id(), own.device_id(), hex(own.station_type()))
    });
    let said = [goes_on, releases, lists, parameters, persistent, &identity].concat();
    connect + &records.collect::<String>() + &said
}

/// What a catalogue comes to.
fn row(catalogue: &str) -> String {
    let mut text = Vec::new();
    match plan_text(Global, &mut catalogue.as_bytes(), &mut text) {
        Ok(()) => {
            let plan = plan_from_json(Global, catalogue.as_bytes())
                .ok()
                .expect("a plan");
            String::from_utf8(text).expect("text") + &plan_lines(&plan)
        }
        Err(fault) => format!("{fault}\n"),
    }
}

/// The key at which the fault of a catalogue is reported, if it is the fault of one key.
fn place(catalogue: &str) -> String {
    let mut room = [0xFF; 128];
    match show(Global, catalogue.as_bytes(), &mut room) {
        1 => {
            let end = room.iter().position(|octet| *octet == 0).expect("a zero");
            String::from_utf8(room[..end].to_vec()).expect("text")
        }
        2 => String::new(),
        other => panic!("there is memory, and {other} says that there is none"),
    }
}

#[test]
fn each_fault_is_told_at_its_key() {
    let catalogues: Vec<&str> = include_str!("../catalogues/stdin").lines().collect();
    let places = include_str!("../catalogues/places");
    let bounds = &catalogues[catalogues.len() - places.lines().count()..];
    let told: String = bounds
        .iter()
        .map(|catalogue| place(catalogue) + "\n")
        .collect();
    is_same(&told, places);
}

#[test]
fn each_catalogue_has_its_plan_or_its_fault() {
    let text: String = include_str!("../catalogues/stdin")
        .lines()
        .map(row)
        .collect();
    is_same(&text, include_str!("../catalogues/stdout"));
}
