//! The lines of records that the application answers.

use super::{SET_PUMP_1, SET_PUMP_2, is_refused, output, prints};
use rattle_std::alloc::Global;

/// A controller that reads and writes such records.
const EXAMPLE: &str = include_str!("../../../examples/records.txt");

/// The option, a Set of the address 192.168.0.2, to be kept, and a start with both.
const BEGUN: &str = "option records on\nframe 0200000000010200000000028892fefd040000000002000000120102000e0001c0a80002ffffff0000000000\nrestart\n";

/// A Read Implicit of four octets of record 0x2000 in slot 1, subslot 1. Its activity UUID is sixteen octets 07.
const READ: &str = "frame 0200000000010200000000020800450000c0000040004011b8d9c0a80001c0a800028894889400ac00000400200000000000dea000006c9711d18271000104560123dea000016c9711d1827100a02442df7d070707070707070707070707070707070000000000000001000000010005ffffffff0054000000000000055c000000400000055c00000000000000400009003c010000091111111111111111111111111111111100000000000100010000200000000004000000000000000000000000000000000000000000000000";

/// The same Read, by a call with another activity UUID.
fn other_read() -> String {
    READ.replace(&"07".repeat(16), &"08".repeat(16))
}

/// What a script prints, line by line. A response is shown as `out` with its PNIOStatus and the octets after the IODReadResHeader.
fn printed(script: &str) -> Vec<String> {
    let (ran, text) = output(Global, script.as_bytes());
    assert!(ran.is_ok());
    let text = std::str::from_utf8(text.as_slice()).expect("text");
    text.lines().map(shown).collect()
}

/// A line that is not a frame is itself.
fn shown(line: &str) -> String {
    match line.strip_prefix("out ") {
        Some(frame) if frame.len() >= 252 => format!("out {}{}", &frame[244..252], frame.get(412..).map_or(String::new(), |rest| format!(" {rest}"))),
        Some(_) => "out".to_owned(),
        None => line.to_owned(),
    }
}

/// What is printed of the lines after the start with the option.
fn after_start(lines: &str) -> Vec<String> {
    let mut all = printed(&format!("{BEGUN}{lines}"));
    assert_eq!(all[..4], ["boot ok", "out", "note done", "boot ok"]);
    all.drain(..4);
    all
}

// The lines of the controller are `moved` and `state`; they are left out here.
#[test]
fn a_controller_reads_and_writes() {
    let lines = printed(EXAMPLE);
    let told: Vec<&str> = lines.iter().map(String::as_str).filter(|line| !line.starts_with("moved") && !line.starts_with("state")).collect();
    let wanted = [
        "boot ok", "boot ok", "out", "note done", "plan ok", "asked -",
        "asked 1 1 1 8192 read 1308", "note done", "asked -", "reply read 1 1 8192 00112233",
        "asked 2 1 1 8192 write 0a0b0c", "note done", "reply write 1 1 8192 done",
        "asked 3 2 1 8192 read 1308", "note done", "reply read 2 1 8192 refused de80a007",
        "note refused", "note refused", "note refused", "note refused", "note done", "reply read 2 1 8192 0011",
        "asked -", "reply write 2 1 8192 refused df80b600",
        "asked 5 2 1 8192 read 1308", "note done", "asked -", "note refused",
    ];
    assert_eq!(told, wanted);
}

// Of the octets that are answered, as many are sent as the Read asks for.
#[test]
fn the_worked_cases() {
    let other = other_read();
    let cases: [(String, &[&str]); 9] = [
        ("asked\nanswer 0 00\nanswer 1\nrefuse 1 160 0".into(), &["asked -", "note refused", "note refused", "note refused"]),
        (format!("{READ}\nasked\nanswer 1 0102030405"), &["note done", "asked 1 1 1 8192 read 4", "out 00000000 01020304", "note done"]),
        (format!("{READ}\nanswer 1 01\n{READ}"), &["note done", "out 00000000 01", "note done", "out 00000000 01", "note done"]),
        (format!("{READ}\nanswer 2 01\nanswer 1\nrefuse 1 159 0\nrefuse 1 176 0"), &["note done", "note refused", "note refused", "note refused", "note refused"]),
        (format!("{READ}\nrefuse 1 175 255\nanswer 1 01"), &["note done", "out de80afff", "note done", "note refused"]),
        (format!("{READ}\n{READ}\n{other}\n{other}\nasked"), &["note done", "note done", "out de80c200", "note done", "out de80c200", "note done", "asked 1 1 1 8192 read 4"]),
        (format!("{READ}\nelapse 63999\nasked\ndue\nelapse 1\nasked\nanswer 1 01\n{READ}"), &[
            "note done", "note done", "asked 1 1 1 8192 read 4", "due 1", "out de80a700", "note done", "asked -", "note refused", "out de80a700", "note done",
        ]),
        (format!("{READ}\npull 1 1\nasked\nanswer 1 01\nelapse 64000"), &["note done", "note done", "asked -", "note refused", "note done"]),
        (format!("{READ}\nanswer 1 01\n{other}\nasked\nrestart\nasked\n{other}\nasked"), &[
            "note done", "out 00000000 01", "note done", "note done", "asked 2 1 1 8192 read 4", "boot ok", "asked -", "note done", "asked 1 1 1 8192 read 4",
        ]),
    ];
    for (lines, wanted) in cases {
        assert_eq!(after_start(&lines), wanted, "{lines}");
    }
}

// A record that the application does not answer does not exist.
#[test]
fn without_the_option_nothing_is_asked() {
    let without = |lines: &str| printed(&format!("{BEGUN}{lines}").replacen("option records on", "#", 1));
    assert_eq!(without(&format!("{READ}\nasked\nrefuse 1 160 0"))[4..], ["out de80b000", "note done", "asked -", "note refused"]);
    // The option counts from the next restart on.
    let late = format!("{READ}\nasked\noption records on\n{}\nasked\nrestart\n{READ}\nasked\noption records off\nrestart\n{READ}\nasked", other_read());
    let wanted = [
        "out de80b000", "note done", "asked -", "out de80b000", "note done", "asked -", "boot ok", "note done", "asked 1 1 1 8192 read 4",
        "boot ok", "out de80b000", "note done", "asked -",
    ];
    assert_eq!(without(&late)[4..], wanted);
}

// The first option is off; each repeat of a Read Implicit is asked again if it is on.
#[test]
fn a_read_implicit_is_handled_again() {
    let again = format!("{READ}\nanswer 1 01\n{READ}\nasked");
    assert_eq!(after_start(&again)[3..], ["out 00000000 01", "note done", "asked -"]);
    let on = format!("option reads-not-kept on\n{BEGUN}{again}");
    assert_eq!(printed(&on)[4..], ["note done", "out 00000000 01", "note done", "note done", "asked 2 1 1 8192 read 4"]);
    assert_eq!(printed(&on.replacen("not-kept on", "not-kept off", 1)), printed(&format!("{BEGUN}{again}")));
}

/// A Read Implicit is asked, and then the controller writes the record. What is asked is shown after each, and the answer to the controller.
fn displaced(option: &str) -> Vec<String> {
    let start = EXAMPLE.lines().take_while(|line| !line.starts_with("# A Read:")).collect::<Vec<&str>>().join("\n");
    let begun = start.replacen("option records on", &format!("option records on\n{option}"), 1);
    let lines = printed(&format!("{begun}\n{READ}\nasked\nwrite 1 1 8192 0a\ndeliver\nasked\nanswer 2\ndeliver\nreply"));
    lines.into_iter().filter(|line| line.starts_with("asked") || line.starts_with("reply")).collect()
}

#[test]
fn a_controller_is_asked_before_a_stranger() {
    let stranger = "asked 1 1 1 8192 read 4";
    assert_eq!(displaced("option own-first on"), [stranger, "asked 2 1 1 8192 write 0a", "reply write 1 1 8192 done"]);
    for option in ["option own-first off", "#"] {
        assert_eq!(displaced(option), [stranger, stranger, "reply write 1 1 8192 refused df80c200"]);
    }
}

#[test]
fn without_power_nothing_is_asked() {
    let lost = format!("{SET_PUMP_1}\ncut 0 ff\n{SET_PUMP_2}\nasked\nanswer 1 00\nanswer 1\nrefuse 1 160 0\nrestart\nasked\n");
    let lines = printed(&lost);
    assert_eq!(lines[lines.len() - 7..], ["power lost", "off", "off", "off", "off", "boot ok", "asked -"]);
}

#[test]
fn leading_zeros_are_allowed() {
    prints(Global, "answer 0004294967295 00\nanswer 04294967295\nrefuse 00 0255 0000\n", "boot ok\nnote refused\nnote refused\nnote refused\n");
}

#[test]
fn other_words_are_refused() {
    let wrong = [
        "asked 1", "answer", "answer ", "answer x", "answer -1", "answer 4294967296", "answer 1 ", "answer 1 0", "answer 1 -", "answer 1 00 00", "refuse", "refuse 1",
        "refuse 1 160", "refuse 1 160 ", "refuse 1 256 0", "refuse 1 160 256", "refuse 4294967296 160 0", "refuse 1 0xA0 0", "refuse 1 160 0 0", "option records", "option records yes",
        "option records on off",
    ];
    for line in wrong {
        is_refused(Global, format!("due\n{line}\n").as_bytes(), 2, b"boot ok\ndue 4294967295\n");
    }
}
