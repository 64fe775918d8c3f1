//! A controller over the device: what whole scripts print. `both/stdin` has scripts one after another, each after a line
//! `script NAME`: those that begin with `small` show one thing each, the others were drawn at random, with and without
//! ParametersAfterPlug and ContinueOnRefusedRecord. `both/stdout` has that line, what the script prints, and how it ends: `status 0`,
//! or `status 3` if a line is at fault. It comes from the reference model of `device/stdout`.

use crate::{each, is_same};
use rattle_std::alloc::Global;
use script_runner::{RunFault, run};

/// The scripts.
const SCRIPTS: &str = include_str!("../both/stdin");

/// What they print.
const PRINTED: &str = include_str!("../both/stdout");

/// What a script prints, and how it ends.
fn printed(script: &str) -> String {
    let mut text = Vec::new();
    let status = match run(Global, &mut script.as_bytes(), &mut text) {
        Ok(()) => 0,
        Err(RunFault::Line(_)) => 3,
        Err(fault) => panic!("{fault}"),
    };
    let text = String::from_utf8(text).expect("text");
    format!("{text}status {status}\n")
}

/// What all scripts print.
fn all_printed(scripts: &str) -> String {
    each(scripts).map(|(name, lines)| format!("script {name}\n{}", printed(lines))).collect()
}

#[test]
fn each_script_of_both_ends_prints_what_the_model_prints() {
    is_same(&all_printed(SCRIPTS), PRINTED);
}

#[test]
fn leaps_of_both_ends_do_what_as_many_single_units_do() {
    is_same(&all_printed(&SCRIPTS.replace("\nelapse ", "\ntick ")), PRINTED);
    is_same(&all_printed(&SCRIPTS.replace("\ntick ", "\nelapse ")), PRINTED);
}
