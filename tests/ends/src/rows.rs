//! Start-ups, and what may follow them.

use super::{
    BLANK, OTHER_MODULES, SET_DONE, SET_PUMP_1, START, TEXTS, joined, prints, prints_behind, shown,
};
use rattle_std::alloc::Global;

/// The suite that the plan gives.
const SUITE: &str = "192.168.0.2 255.255.255.0 0.0.0.0";

/// A Write of I&M1 in the relation, by a call of an activity of its own, and the text that it writes.
const WRITE_IM1: &str = "frame 0200000000010200000000020800450000fc000040004011b89dc0a80001c0a800028894889400e800000400200000000000dea000006c9711d182710001045\
        60123dea000016c9711d1827100a02442df7d312233445566778899aabbccddeeff010000000000000001000000000003ffffffff0090000000000000055c00000\
        07c0000055c000000000000007c0008003c01000000112233445566778899aabbccddeeff0100000000000000010000aff10000003c00000000000000000000000\
        000000000000000000000000000210038010070756d70206f66207468652077656c6c20202020202020202020202020202020626568696e642074686520686f757\
        365202020202020";

const IM1: &str = "70756d70206f66207468652077656c6c20202020202020202020202020202020626568696e642074686520686f757365202020202020";

/// The same of I&M2.
const WRITE_IM2: &str = "frame 0200000000010200000000020800450000d6000040004011b8c3c0a80001c0a800028894889400c200000400200000000000dea000006c9711d182710001045\
        60123dea000016c9711d1827100a02442df7d312233445566778899aabbccddeeff010000000000000001000000000003ffffffff006a000000000000055c00000\
        0560000055c00000000000000560008003c01000000112233445566778899aabbccddeeff0100000000000000010000aff20000001600000000000000000000000\
        0000000000000000000000000002200120100323032342d30352d30362030373a3038";

/// A cyclic frame of the controller, up to its CycleCounter.
const CYCLE: &str = "frame 0200000000010200000000028100c0008892c00000000000000000000000000000000000000000000000000000000000000000000000000000000000";

#[test]
fn a_start_up() {
    let wanted = shown(Global, "pump-1", SUITE, BLANK, "exchanging", "exchanging").unwrap();
    prints_behind(Global, "show\n", wanted.as_str())
}

// ResetToFactory of the communication, after a Write of I&M1, which stays.
#[test]
fn a_reset_ends_both_ends() {
    let alloc = Global;
    let lines = joined(
            alloc,
            &[
                WRITE_IM1,
                "\ndeliver\nframe 0200000000010200000000028892fefd04000000000200000006050600020004\ndeliver\nshow\n",
            ],
        ).unwrap();
    let after = shown(
        alloc,
        "-",
        "0.0.0.0 0.0.0.0 0.0.0.0",
        IM1,
        "none",
        "ended 5",
    )
    .unwrap();
    let wanted = joined(
        alloc,
        &[
            "note done\nmoved 0 1\nstate exchanging\nnote done\nmoved 0 2\nstate ended 5\n",
            after.as_str(),
        ],
    )
    .unwrap();
    prints_behind(alloc, lines.as_str(), wanted.as_str())
}

// ResetToFactory of a kind that does not exist.
#[test]
fn a_reset_that_is_refused_ends_nothing() {
    let alloc = Global;
    let lines =
        "frame 0200000000010200000000028892fefd0400000000020000000605060002000e\ndeliver\nshow\n";
    let after = shown(alloc, "pump-1", SUITE, BLANK, "exchanging", "exchanging").unwrap();
    let wanted = joined(
        alloc,
        &["note done\nmoved 0 1\nstate exchanging\n", after.as_str()],
    )
    .unwrap();
    prints_behind(alloc, lines, wanted.as_str())
}

#[test]
fn a_name_is_set_behind_a_stop_alone() {
    let alloc = Global;
    let set = "frame 0200000000010200000000028892fefd0400000000020000000c02020008000170756d702d39";
    let lines = joined(alloc, &[set, "\nshow\nstop\ndeliver\n", set, "\nshow\n"]).unwrap();
    let before = shown(alloc, "pump-1", SUITE, BLANK, "exchanging", "exchanging").unwrap();
    let after = shown(alloc, "pump-9", SUITE, BLANK, "none", "ended 7").unwrap();
    let wanted = joined(
        alloc,
        &[
            "note done\n",
            before.as_str(),
            "state ended 7\nmoved 1 2\nstate ended 7\nnote done\n",
            after.as_str(),
        ],
    )
    .unwrap();
    prints_behind(alloc, lines.as_str(), wanted.as_str())
}

#[test]
fn other_modules_end_the_controller() {
    let alloc = Global;
    let script = joined(
        alloc,
        &[
            SET_PUMP_1,
            "\nconfig ",
            OTHER_MODULES,
            "\n",
            START,
            "\ndeliver\ndeliver\ndeliver\ndeliver\nshow\n",
        ],
    )
    .unwrap();
    let after = shown(alloc, "pump-1", SUITE, BLANK, "none", "ended 3").unwrap();
    let wanted = joined(
            alloc,
            &[
                "boot ok\n",
                SET_DONE,
                "plan ok\nstate looking\nmoved 1 1\nstate addressing\nmoved 1 1\nstate connecting\nmoved 1 1\nstate ended 3\nmo\
            ved 1 1\nstate ended 3\n",
                after.as_str(),
            ],
        ).unwrap();
    prints(alloc, script.as_str(), wanted.as_str())
}

// An older frame is stale. After three intervals without a frame both ends have sent two cyclic frames and an ERR, which wait.
#[test]
fn data_hold_runs_out() {
    let alloc = Global;
    let lines = joined(
        alloc,
        &[
            CYCLE,
            "fff03500\n",
            CYCLE,
            "00103500\n",
            CYCLE,
            "fff03500\ntick 95\nshow\ntick 1\nshow\ndeliver\n",
        ],
    )
    .unwrap();
    let before = shown(alloc, "pump-1", SUITE, BLANK, "exchanging", "exchanging").unwrap();
    let after = shown(alloc, "pump-1", SUITE, BLANK, "none", "ended 4").unwrap();
    let wanted = joined(
        alloc,
        &[
            "note done\nnote done\nnote stale-cycle\nnote done\n",
            before.as_str(),
            "note done\n",
            after.as_str(),
            "moved 3 3\nstate ended 4\n",
        ],
    )
    .unwrap();
    prints_behind(alloc, lines.as_str(), wanted.as_str())
}

// A Write whose flash call fails stores nothing; cyclic frames go on, each way.
#[test]
fn a_fault_of_the_flash_ends_nothing() {
    let alloc = Global;
    let lines = joined(
        alloc,
        &[
            "fault 0 ff\n",
            WRITE_IM2,
            "\n",
            CYCLE,
            "fff03500\n",
            CYCLE,
            "00103500\n",
            CYCLE,
            "fff03500\ntick 32\ndeliver\nshow\n",
        ],
    )
    .unwrap();
    let after = shown(alloc, "pump-1", SUITE, BLANK, "exchanging", "exchanging").unwrap();
    let wanted = joined(
            alloc,
            &[
                "note done\nnote done\nnote done\nnote stale-cycle\nnote done\nmoved 1 2\nstate exchanging\n",
                after.as_str(),
            ],
        ).unwrap();
    prints_behind(alloc, lines.as_str(), wanted.as_str())
}

#[test]
fn an_alarm_is_over_with_its_answer() {
    let lines = "alarm 1 1 aabb\nalarm 1 1 cc\ndeliver\ndeliver\ndeliver\nalarm 1 1 cc\n";
    let wanted = "note done\nnote refused\nmoved 0 1\nstate exchanging\nmoved 2 1\nstate exchanging\nmoved 0 0\nstate exchanging\nnote done\n";
    prints_behind(Global, lines, wanted)
}

#[test]
fn values_go_both_ways() {
    let alloc = Global;
    let lines = "give 2 1 0011\ninput 1 1 1234\ntick 32\ndeliver\nshow\n";
    let wanted = joined(
        alloc,
        &[
            "state exchanging\nnote done\nnote done\nmoved 1 1\nstate exchanging\nname pump-1\nip ",
            SUITE,
            "\nstored-name pump-1\nstored-ip 0.0.0\
            .0 0.0.0.0 0.0.0.0\nim1 ",
            BLANK,
            "\n",
            TEXTS,
            "phase exchanging\nlamp 0\noutput 2 1 0011\nstate exchanging\n",
        ],
    )
    .unwrap();
    prints_behind(alloc, lines, wanted.as_str())
}
