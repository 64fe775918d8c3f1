//! What scripts print. `stdin` of each table has them one after another, each after a line `script NAME`; `stdout` has that
//! line, what the script prints, and the fault that ends it, if one does.
//!
//! In `scripts` the controller meets the demo device. In `application` the device's application is in charge: it says
//! whether inputs are good and when it is ready, it sets options, and time passes by leaps; in its last scripts a controller
//! meets that device. In `services` there are services beside the device: echo, endpoint mapper, pings and calls that nobody
//! serves, announcements and conflicts of the address, and neighbours; and a controller reads the records for engineering tools.
//!
//! In `diagnosis` diagnoses appear and disappear, before a relation, within it and after it. In `ends` a controller meets that
//! device, and lists the alarms that it accepted and the diagnoses that they reported. In `requests` its application reads and
//! writes records.
//!
//! `stdout` of `requests` is written by hand: I&M0 and I&M1 by IEC 61158-6-10, 5.2.22 and 5.2.23, and the PNIOStatus of an index
//! that does not exist, DE 80 B0 00 and DF 80 B0 00. Each other `stdout` comes from a reference model of both ends that was written from the rules alone and shares no line with
//! this repository. A script that a wrong line ends has the output of the lines before it. tshark read each answer of
//! `services` without a malformed field.

use crate::is_same;
use rattle_std::alloc::Global;
use script_runner::run;

/// What a script prints, with the fault that ends it.
fn printed(script: &str) -> String {
    let mut text = Vec::new();
    let ended = run(Global, &mut script.as_bytes(), &mut text);
    let mut text = String::from_utf8(text).expect("text");
    if let Err(fault) = ended {
        text += &format!("{fault}\n");
    }
    text
}

/// What the scripts of a table print.
fn all_printed(scripts: &str) -> String {
    let mut text = String::new();
    for script in scripts.split("script ").skip(1) {
        let (name, lines) = script.split_once('\n').expect("a name");
        text += &format!("script {name}\n{}", printed(lines));
    }
    text
}

#[test]
fn each_script_prints_what_the_model_prints() {
    let text = all_printed(include_str!("../scripts/stdin"));
    is_same(&text, include_str!("../scripts/stdout"));
}

#[test]
fn with_an_application_in_charge_each_script_prints_what_the_model_prints() {
    let scripts = include_str!("../application/stdin");
    let wanted = include_str!("../application/stdout");
    is_same(&all_printed(scripts), wanted);
    // Leaps do what as many single units do.
    is_same(&all_printed(&scripts.replace("\nelapse ", "\ntick ")), wanted);
    is_same(&all_printed(&scripts.replace("\ntick ", "\nelapse ")), wanted);
}

#[test]
fn with_services_each_script_prints_what_the_model_prints() {
    let scripts = include_str!("../services/stdin");
    let wanted = include_str!("../services/stdout");
    is_same(&all_printed(scripts), wanted);
    // Leaps do what as many single units do, also beside services.
    is_same(&all_printed(&scripts.replace("\ntick ", "\nelapse ")), wanted);
}

#[test]
fn with_diagnosis_each_script_prints_what_the_model_prints() {
    let scripts = include_str!("../diagnosis/stdin");
    let wanted = include_str!("../diagnosis/stdout");
    is_same(&all_printed(scripts), wanted);
    // Leaps do what as many single units do, with alarms of both priorities.
    is_same(&all_printed(&scripts.replace("\ntick ", "\nelapse ")), wanted);
}

#[test]
fn what_the_application_of_the_controller_reads_and_writes_is_answered() {
    let text = all_printed(include_str!("../requests/stdin"));
    is_same(&text, include_str!("../requests/stdout"));
}

#[test]
fn with_diagnosis_both_ends_print_what_the_model_prints() {
    let scripts = include_str!("../ends/stdin");
    let wanted = include_str!("../ends/stdout");
    is_same(&all_printed(scripts), wanted);
    is_same(&all_printed(&scripts.replace("\ntick ", "\nelapse ")), wanted);
}
