//! Modules that come and go at a device: what whole scripts print, what is plugged after a pull or a plug, how far a place is, and
//! which records are forgotten.
//!
//! `device/stdin` has scripts one after another, each after a line `script NAME`: a device alone, frames of a controller that were
//! made by hand, pulls and plugs in every phase, places with two submodules, slots that are empty at the Connect, options and
//! restarts. `device/stdout` has that line and what the script prints. It comes from a reference model that was written from the
//! rules alone and shares no line with this repository.
#![cfg(test)]

use rattle_std::alloc::Global;
use script_runner::run;

mod alarms;
mod answers;
mod both;
mod changes;
mod places;
mod records;

/// The scripts.
const SCRIPTS: &str = include_str!("../device/stdin");

/// What they print.
const PRINTED: &str = include_str!("../device/stdout");

/// What a script prints, with the fault that ends it.
fn printed(script: &str) -> String {
    let mut text = Vec::new();
    let ended = run(Global, &mut script.as_bytes(), &mut text);
    let mut text = String::from_utf8(text).expect("text");
    if let Err(fault) = ended {
        text += &format!("{fault}\n");
    }
    text
}

/// The scripts of a table, by their names.
fn each(scripts: &str) -> impl Iterator<Item = (&str, &str)> {
    scripts.split("script ").skip(1).map(|script| script.split_once('\n').expect("a name"))
}

/// What the scripts of a table print.
fn all_printed(scripts: &str) -> String {
    let mut text = String::new();
    for (name, lines) in each(scripts) {
        text += &format!("script {name}\n{}", printed(lines));
    }
    text
}

/// The text is the expected one. Names the first line that differs.
fn is_same(text: &str, expected: &str) {
    for (number, (line, wanted)) in text.lines().zip(expected.lines()).enumerate() {
        assert_eq!(line, wanted, "line {} of the output", number + 1);
    }
    assert_eq!(text.len(), expected.len(), "the length of the output");
}

#[test]
fn each_script_prints_what_the_model_prints() {
    is_same(&all_printed(SCRIPTS), PRINTED);
}

#[test]
fn leaps_do_what_as_many_single_units_do() {
    is_same(&all_printed(&SCRIPTS.replace("\nelapse ", "\ntick ")), PRINTED);
    is_same(&all_printed(&SCRIPTS.replace("\ntick ", "\nelapse ")), PRINTED);
}

/// A line that is no line of a script ends it: a number that is missing, one too many, one out of its range, a record without its
/// length.
#[test]
fn a_line_with_other_words_is_at_fault() {
    for line in [
        "pull",
        "pull 65536",
        "pull 1 65536",
        "pull 1 1 1",
        "pull a",
        "plug",
        "plug 1 1 16 16 2",
        "plug 1 1 16 16 2 0 5",
        "plug 1 1 16 16 2 0 5 2 6",
        "plug 1 1 16 16 2 0 5 2 6 1 7",
        "plug 1 1 16 16 2 0 5 2 6 1 7 1",
        "plug 1 1 4294967296 16 2 0",
        "plug 1 1 16 4294967296 2 0",
        "plug 1 1 16 16 65536 0",
        "plug 1 1 16 16 2 0 ",
        "plug 1  1 16 16 2 0",
        "ready 1",
        "ready 1 1 1",
        "ready 65536 1",
        "expected 1",
    ] {
        assert_eq!(printed(&format!("{line}\n")), "boot ok\nline 1\n", "{line}");
    }
}

/// What prints a note, and changes nothing there.
#[test]
fn what_cannot_be_pulled_or_plugged_is_refused() {
    for line in [
        "pull 0",
        "pull 0 1",
        "pull 3",
        "pull 3 1",
        "pull 1 2",
        "pull 16",
        "ready 1 1",
        "plug 0 2 1 2 0 0",
        "plug 1 1 16 16 2 0",
        "plug 1 2 17 16 2 0",
        "plug 16 1 16 16 2 0",
        "plug 3 0 16 16 2 0",
        "plug 3 36864 16 16 2 0",
        "plug 3 1 0 16 2 0",
        "plug 3 1 16 16 1441 0",
        "plug 3 1 16 16 0 1441",
        "plug 3 1 16 16 2 0 32768 1",
        "plug 3 1 16 16 2 0 5 0",
        "plug 3 1 16 16 2 0 5 65",
        "plug 3 1 16 16 2 0 5 1 5 2",
    ] {
        assert_eq!(printed(&format!("{line}\n")), "boot ok\nnote refused\n", "{line}");
    }
    for line in [
        "pull 1",
        "pull 1 1",
        "plug 3 36863 4294967295 4294967295 1440 1440 32767 64 0 1",
        "plug 15 1 1 0 0 0",
        "plug 1 2 16 0 0 0",
    ] {
        assert_eq!(printed(&format!("{line}\n")), "boot ok\nnote done\n", "{line}");
    }
}

#[test]
fn without_a_relation_nothing_is_expected() {
    assert_eq!(printed("pull 1\nexpected\n"), "boot ok\nnote done\nexpected -\n");
}
