//! The lines of a script, and what each prints.

use super::{IDENTIFY, SET_PUMP_1, is_refused, meaning, means, output, prints};
use rattle_std::alloc::{AllocError, Global};
use rattle_std::{String, Vec, format};

// The last line of a script may have no end.
#[test]
fn an_identify_request_is_answered() {
    let wanted = meaning(Global, "boot ok\nidentified").unwrap();
    prints(Global, IDENTIFY, wanted.as_str());
}

#[test]
fn a_tag_that_bears_no_priority_is_read_over() {
    let script = "frame 010ecf000000020000000002810000008892fefe05000000000100010004ffff0000";
    means(Global, script, "boot ok\nidentified")
}

/// A line that ends with CR and LF, lines that are read over, and a last one that has no end.
fn ends_of_lines(alloc: Global) -> Result<String, AllocError> {
    format!(in alloc; "{SET_PUMP_1}\r\nrestart\n# a comment\n\n{IDENTIFY}")
}

#[test]
fn a_name_is_kept_over_a_restart() {
    let script = ends_of_lines(Global).unwrap();
    let wanted = meaning(Global, "boot ok\nis set\nboot ok\nidentified pump-1").unwrap();
    prints(Global, script.as_str(), wanted.as_str());
}

const SHORT: [(&str, &str); 18] = [
    ("", "boot ok\n"),
    (
        "frame 010ecf00000002000000000281000000\n",
        "boot ok\nnote fault\n",
    ),
    (
        "frame 010ecf00000002000000000288\nframe 010ecf0000000200000000028892fefe05000000\n",
        "boot ok\nnote fault\nnote fault\n",
    ),
    (
        "frame 0200000000030200000000028892fefe05000000000100010004ffff0000",
        "boot ok\nnote not-mine\n",
    ),
    (
        "frame 010ECF0000000200000000028892FEFE0500000000010001000A0202000670756D702D32\n",
        "boot ok\nnote filter\n",
    ),
    (
        "frame 0200000000010200000000028892c000\n",
        "boot ok\nnote no-relation\n",
    ),
    ("input 01 1 0A", "boot ok\nnote refused\n"),
    ("alarm 1 65535 aa", "boot ok\nnote refused\n"),
    ("tick 0001000000", "boot ok\nnote done\n"),
    ("elapse 1", "boot ok\nnote done\n"),
    ("due", "boot ok\ndue 4294967295\n"),
    ("cut 0004294967295 Ff", "boot ok\n"),
    (
        "option inputs-bad on\noption ready off\noption interval 065536",
        "boot ok\n",
    ),
    ("option reads-not-kept on\noption own-first off", "boot ok\n"),
    ("status 01 1 bad\nstatus 1 1 good", "boot ok\nnote done\nnote done\n"),
    ("status 1 2 good", "boot ok\nnote refused\n"),
    ("option ready on\nready\nrestart\nready", "boot ok\nnote refused\nboot ok\nnote refused\n"),
    ("provider 002 1\nprovider 65535 65535", "boot ok\nprovider 2 1 -\nprovider 65535 65535 -\n"),
];

#[test]
fn short_outputs() {
    for (script, wanted) in SHORT {
        prints(Global, script, wanted);
    }
}

/// A line `frame` whose hex has this byte at a place.
fn frame_with(alloc: Global, byte: u8, place: usize) -> Result<Vec<u8>, AllocError> {
    let mut script = Vec::new(alloc);
    script.extend_from_slice(b"frame ")?;
    script.resize(126, b'0')?;
    if let Some(there) = script.as_mut_slice().get_mut(place) {
        *there = byte;
    }
    Ok(script)
}

/// It is read where the byte is a digit, and is a fault; else the line is refused.
fn is_digit(alloc: Global, byte: u8, place: usize) {
    let script = frame_with(alloc, byte, place).unwrap();
    let is_digit = u8::is_ascii_hexdigit(&byte);
    let (result, text) = output(alloc, script.as_slice());
    let is_read = text.as_slice().ends_with(b"note fault\n");
    assert_eq!((byte, result.is_ok(), is_read), (byte, is_digit, is_digit));
}

// Each byte that is no hex digit, in each of the two places of a pair, far from the front; and each that is one.
#[test]
fn hex_digits() {
    for byte in 0x21..0x7F {
        is_digit(Global, byte, 106);
        is_digit(Global, byte, 107);
    }
}

const REFUSED: [&str; 79] = [
    "x",
    " ",
    "\r",
    "frame",
    "frame ",
    "frame 0",
    "frame zz",
    "frame  00",
    "frame 00 00",
    "restart ",
    " restart",
    "RESTART",
    "tick",
    "tick 0",
    "tick 1000001",
    "tick +1",
    "tick 99999999999999999999999",
    "elapse",
    "elapse 0",
    "elapse 1000001",
    "due 1",
    "due ",
    "ready ",
    "ready 1",
    "status",
    "status 1 1",
    "status 1 1 ",
    "status 1 1 Good",
    "status 1 1 1",
    "status 1 1 good bad",
    "status 1 65536 good",
    "status 65536 1 bad",
    "provider",
    "provider 1",
    "provider 1 ",
    "provider 65536 1",
    "provider 1 65536",
    "provider 1 1 1",
    "option",
    "option ready",
    "option ready ",
    "option ready On",
    "option ready on on",
    "option inputs-bad 1",
    "option inputs_bad on",
    "option interval 0",
    "option interval 65537",
    "option interval off",
    "option speed 1",
    "option reads-not-kept",
    "option reads_not_kept on",
    "option own-first yes",
    "option own-first on off",
    "output-status 2 1 good",
    "show 1",
    "cut",
    "cut 0",
    "cut 0 ",
    "cut 0 5",
    "cut 0 555555",
    "cut 4294967296 55",
    "cut 0 55 1",
    "input",
    "input ",
    "input 1",
    "input 1 1",
    "input 1 1 ",
    "input 1 1 0",
    "input 1 1 zz",
    "input 1 1 00 00",
    "input  1 1 00",
    "input 65536 1 00",
    "input 1 65536 00",
    "input +1 1 00",
    "input -1 1 00",
    "alarm 1 1",
    "alarm 1 1 0",
    "alarm 1 1 00 00",
    "# \u{e4}",
];

#[test]
fn refused_lines() {
    for script in REFUSED {
        is_refused(Global, script.as_bytes(), 1, b"boot ok\n");
    }
    is_refused(Global, b"\x80", 1, b"boot ok\n");
}

#[test]
fn a_refused_line_is_counted_with_the_skipped_ones() {
    let script = b"# one\r\n\nrestart\nx\nrestart\n";
    is_refused(Global, script, 4, b"boot ok\nboot ok\n");
}

#[test]
fn flashing_lamp() {
    let script = "set 0503000400000100\nshow\ntick 1\nshow\nrestart\nshow";
    let wanted = "boot ok\nanswer 0504000305030000\nflashing 96000\nnote done\nflashing 95999\nboot ok\nflashing 0";
    means(Global, script, wanted)
}

// What is due of a lamp that flashes: its end.
#[test]
fn the_end_of_the_lamp_is_due() {
    let script = "set 0503000400000100\ndue\nelapse 95999\ndue\nshow\nelapse 1\ndue\nshow";
    let wanted = "boot ok\nanswer 0504000305030000\ndue 96000\nnote done\ndue 1\nflashing 1\nnote done\ndue 4294967295\nflashing 0";
    means(Global, script, wanted);
}
