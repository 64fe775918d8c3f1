//! What a station is asked by DCP and answers, byte by byte.

use super::{means, prints};
use rattle_std::alloc::{AllocError, Global};
use rattle_std::{String, format};

#[test]
fn a_station_is_found_by_its_stored_name_alone() {
    let script = "set pump-1\nrestart\n\
        frame 010ecf0000000200000000028892fefe0500000000010001000a0202000670756d702d31\n\
        frame 010ecf0000000200000000028892fefe0500000000010001000a0202000670756d702d32";
    let wanted = "boot ok\nis set\nboot ok\nidentified pump-1\nnote filter";
    means(Global, script, wanted)
}

#[test]
fn a_temporary_name_runs_until_the_restart_and_empties_the_stored_one() {
    let script = "set pump-1\nset 02020006000074657374\nget 0202\nshow\nrestart\nget 0202\nshow";
    let wanted = "boot ok\nis set\nis set\ngot 02020006000074657374\nrunning test\nboot ok\ngot 020200020000\nnamed -";
    means(Global, script, wanted)
}

// A suite whose mask has a hole is refused, while the name beside it is accepted.
#[test]
fn blocks_are_carried_out_each_by_itself() {
    let script =
        "set 02020008000170756d702d310102000e0001c0a80002ff00ff0000000000\nshow\nrestart\nshow";
    let wanted =
        "boot ok\nanswer 05040003020200000504000301020300\nnamed pump-1\nboot ok\nnamed pump-1";
    means(Global, script, wanted)
}

/// The blocks of a name and a suite, which are set in one frame by two commits, of three flash calls and of two.
const BOTH: &str = "02020008000170756d702d310102000e0001c0a80002ffffff0000000000";

/// Power is lost after this many calls, at this mask.
fn loss(alloc: Global, calls: usize, mask: &str) -> Result<String, AllocError> {
    format!(in alloc; "cut {calls} {mask}\nset {BOTH}\nshow\nrestart\nshow")
}

/// What is printed of it after none of the two commits, the first, and both.
const LEFT: [&str; 3] = [
    "boot ok\npower lost\noff\nboot ok\nnamed -",
    "boot ok\npower lost\noff\nboot ok\nnamed pump-1",
    "boot ok\npower lost\noff\nboot ok\naddressed pump-1",
];

/// Power is lost in each of the five calls. What is left is that of the commits whose last call, the one that opens the gate,
/// left no bit of the gate as it was.
fn lose(alloc: Global, mask: &str, commits: [usize; 5]) {
    for (calls, done) in commits.iter().enumerate() {
        let script = loss(alloc, calls, mask).unwrap();
        means(alloc, script.as_str(), LEFT[done % 3]);
    }
}

#[test]
fn power_is_lost_and_no_bit_is_changed() {
    lose(Global, "00", [0, 0, 0, 1, 1])
}

#[test]
fn power_is_lost_and_every_other_bit_is_changed() {
    lose(Global, "55", [0, 0, 0, 1, 1])
}

#[test]
fn power_is_lost_and_each_bit_is_changed() {
    lose(Global, "ff", [0, 0, 1, 1, 2])
}

#[test]
fn a_loss_behind_both_commits_does_not_strike() {
    let script = loss(Global, 5, "ff").unwrap();
    let wanted = "boot ok\nanswer 05040003020200000504000301020000\naddressed pump-1\nboot ok\naddressed pump-1";
    means(Global, script.as_str(), wanted)
}

#[test]
fn a_get_is_answered_in_the_order_asked_for() {
    let script = "frame 0200000000010200000000028892fefd030000000003000000080202010202020301";
    let wanted = "boot ok\nout 0200000000020200000000018892fefd030100000003000000200202000200000102000e00000000000000000000000000000504000303010100\
0000\nnote done\n";
    prints(Global, script, wanted);
}

// ResetToFactory keeps the name in mode 1, empties it in mode 2 and has no mode 7; FactoryReset empties it.
const RESETS: &str = "set pump-1\nshow\nrestart\nshow\n\
    set 050600020002\nshow\nrestart\nshow\n\
    set 050600020004\nshow\nrestart\nshow\n\
    set 05060002000e\nshow\nrestart\nshow\n\
    set pump-1\nshow\nrestart\nshow\n\
    set 05060002000e\nshow\nrestart\nshow\n\
    set 050500020000\nshow\nrestart\nshow\n\
    set 0102000e0001c0a80002ffffff0000000000\nshow\nrestart\nshow\n\
    set 050600020004\nshow\nrestart\nshow\n";

const LEFT_BY_RESETS: &str = "boot ok\n\
    is set\nnamed pump-1\nboot ok\nnamed pump-1\n\
    answer 0504000305060000\nnamed pump-1\nboot ok\nnamed pump-1\n\
    answer 0504000305060000\nnamed -\nboot ok\nnamed -\n\
    answer 0504000305060200\nnamed -\nboot ok\nnamed -\n\
    is set\nnamed pump-1\nboot ok\nnamed pump-1\n\
    answer 0504000305060200\nnamed pump-1\nboot ok\nnamed pump-1\n\
    answer 0504000305050000\nnamed -\nboot ok\nnamed -\n\
    answer 0504000301020000\naddressed -\nboot ok\naddressed -\n\
    answer 0504000305060000\nnamed -\nboot ok\nnamed -\n";

#[test]
fn resets() {
    means(Global, RESETS, LEFT_BY_RESETS)
}
