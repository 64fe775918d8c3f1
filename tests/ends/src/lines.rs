//! The lines of a controller, and when a script may not have them.

use super::{PUMP, SET_DONE, SET_PUMP_1, START, joined, output, prints, prints_behind};
use rattle_std::alloc::Global;
use script_runner::RunFault;

#[test]
fn lines_that_need_others_before_them() {
    let cases = [
        (START, 1),
        ("deliver", 1),
        ("stop", 1),
        ("stands", 1),
        ("stands 1", 1),
        ("give 2 1 0011", 1),
        ("output-status 2 1 bad", 1),
        ("config", 1),
        ("config ", 1),
        ("start 0 0", 1),
        ("show\ndeliver", 2),
    ];
    for (script, line) in cases {
        let (result, _) = output(Global, script.as_bytes());
        assert_eq!(result, Err(RunFault::Line(line)));
    }
}

#[test]
fn a_plan_is_no_controller() {
    let script = joined(Global, &["config ", PUMP, "\ndeliver\n"]).unwrap();
    let (result, text) = output(Global, script.as_bytes());
    assert_eq!(result, Err(RunFault::Line(2)));
    assert_eq!(text.as_slice(), b"boot ok\nplan ok\n".as_slice());
}

#[test]
fn a_controller_knows_of_no_diagnosis() {
    let script = joined(Global, &["config ", PUMP, "\n", START, "\nstands\nstop\nstands\n"]).unwrap();
    let (result, text) = output(Global, script.as_bytes());
    assert_eq!(result, Ok(()));
    let wanted = b"boot ok\nplan ok\nstate looking\nstands -\nstate ended 7\nstands -\n";
    assert_eq!(text.as_slice(), wanted.as_slice());
}

#[test]
fn a_catalogue_without_a_plan_ends_the_run() {
    let cases = [("config {", 1), ("config {}", 2), ("config []", 3)];
    for (line, number) in cases {
        let script = joined(Global, &["tick 1\n", line, "\ntick 1\n"]).unwrap();
        let (result, text) = output(Global, script.as_bytes());
        assert_eq!(result, Err(RunFault::Config(number)));
        assert_eq!(text.as_slice(), b"boot ok\nnote done\n".as_slice());
    }
}

#[test]
fn a_second_controller_stands_behind_what_waits() {
    let alloc = Global;
    let script = joined(
        alloc,
        &[
            SET_PUMP_1,
            "\nconfig ",
            PUMP,
            "\n",
            START,
            "\n",
            START,
            "\ndeliver\n",
        ],
    )
    .unwrap();
    let wanted = joined(
        alloc,
        &[
            "boot ok\n",
            SET_DONE,
            "plan ok\nstate looking\nstate looking\nmoved 2 2\nstate addressing\n",
        ],
    )
    .unwrap();
    prints(alloc, script.as_str(), wanted.as_str())
}

#[test]
fn what_waits_is_lost_in_a_restart() {
    let lines = "tick 32\nrestart\ndeliver\n";
    prints_behind(
        Global,
        lines,
        "note done\nboot ok\nmoved 0 0\nstate exchanging\n",
    )
}

#[test]
fn power_is_lost_in_what_is_handed_over() {
    let alloc = Global;
    let script = joined(
        alloc,
        &[
            SET_PUMP_1,
            "\nconfig ",
            PUMP,
            "\n",
            START,
            "\ndeliver\ncut 0 ff\ndeliver\ndeliver\nrestart\ndeliver\n",
        ],
    )
    .unwrap();
    let wanted = joined(
            alloc,
            &[
                "boot ok\n",
                SET_DONE,
                "plan ok\nstate looking\nmoved 1 1\nstate addressing\npower lost\noff\nboot ok\nmoved 0 0\nstate addressing\n",
            ],
        ).unwrap();
    prints(alloc, script.as_str(), wanted.as_str())
}
