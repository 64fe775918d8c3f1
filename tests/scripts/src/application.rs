//! Lines of an application in charge: options of the device, the status of inputs, and the moment when the application is ready.
//! What a whole script of them prints comes from a reference model in `tests/tables/application`.

use super::{IDENTIFY, SET_PUMP_1, SET_PUMP_2, meaning, output};
use rattle_std::alloc::Global;

/// A script that goes from Connect to a sensor that fails.
const EXAMPLE: &str = include_str!("../../../examples/application.txt");

/// What a script prints.
fn printed(script: &str) -> String {
    let (result, text) = output(Global, script.as_bytes());
    assert_eq!(result, Ok(()));
    std::str::from_utf8(text.as_slice()).unwrap().to_owned()
}

/// The first octets after the FrameID of each cyclic frame that is printed: the IOPS of the access point, the input of slot 1 with its IOPS,
/// and the IOCS of slot 2.
fn cyclic_data(text: &str) -> std::vec::Vec<&str> {
    text.lines()
        .filter_map(|line| line.split_once("8892c001"))
        .map(|(_, data)| &data[..14])
        .collect()
}

/// How many calls ApplicationReady are printed, by the operation and the type of their header.
fn ready_calls(text: &str) -> usize {
    text.lines().filter(|line| line.contains("dea000026c9711d1")).count()
}

/// The example without its line of an option.
fn without(option: &str) -> String {
    EXAMPLE.replace(option, "# no option")
}

#[test]
fn an_input_is_bad_until_it_is_given_and_while_its_sensor_fails() {
    let text = printed(EXAMPLE);
    let wanted = ["80808000000080", "80808012348080", "80808012340080", "80808012348080"];
    assert_eq!(cyclic_data(&text), wanted);
    assert_eq!(ready_calls(&text), 1);
    assert!(text.contains("provider 2 1 -\nnote done\nprovider 2 1 80 run\n"));
    assert!(text.ends_with("due 32\n"));
}

#[test]
fn without_the_option_an_input_begins_good() {
    let text = printed(&without("option inputs-bad on"));
    let wanted = ["80808000008080", "80808012348080", "80808012340080", "80808012348080"];
    assert_eq!(cyclic_data(&text), wanted);
}

#[test]
fn without_the_option_a_device_is_ready_by_itself() {
    let text = printed(&without("option ready on"));
    assert_eq!(ready_calls(&text), 1);
    assert!(text.contains("note refused\n"));
}

#[test]
fn a_shorter_interval_than_the_smallest_is_refused() {
    let text = printed(&EXAMPLE.replace("option interval 32", "option interval 33"));
    assert!(cyclic_data(&text).is_empty());
    let wanted = printed(EXAMPLE);
    assert_eq!(printed(&without("option interval 32")), wanted);
}

#[test]
fn an_option_counts_from_the_next_restart_on() {
    let late = EXAMPLE.replace("option interval 32\nrestart", "option interval 33");
    let plain = printed(&without("option inputs-bad on").replace("option ready on", "#").replace("restart\n", ""));
    assert_eq!(printed(&late), plain);
    // It is kept over further restarts.
    let again = EXAMPLE.replace("restart\n", "restart\nrestart\n");
    assert_eq!(printed(&again), printed(EXAMPLE).replacen("boot ok\n", "boot ok\nboot ok\n", 1));
}

// While the power is off no line changes anything, and an option is not set.
#[test]
fn no_option_is_set_while_the_power_is_off() {
    let lost = format!("{SET_PUMP_1}\ncut 0 ff\n{SET_PUMP_2}\n");
    let lines = "option inputs-bad on\noption ready on\noption interval 33\nstatus 1 1 bad\nready\nprovider 2 1\noutput-status 2 1 bad\n";
    let begun = EXAMPLE.split_once("restart\n").unwrap().1;
    let text = printed(&format!("{lost}{lines}restart\n{begun}"));
    let off = "off\n".repeat(7);
    let plain = printed(&format!("{lost}restart\n{begun}"));
    assert_eq!(text, plain.replacen("power lost\n", &format!("power lost\n{off}"), 1));
    assert!(plain.contains("power lost\n"));
}

// A restart forgets what the application said.
#[test]
fn a_status_is_forgotten_with_the_power() {
    let begun = EXAMPLE.split_once("restart\n").unwrap().1;
    let text = printed(&format!("status 1 1 bad\nrestart\n{begun}"));
    assert_eq!(cyclic_data(&text)[0], "80808000008080");
    let kept = printed(&format!("status 1 1 bad\n{begun}"));
    assert_eq!(cyclic_data(&kept)[0], "80808000000080");
}

#[test]
fn other_lines_go_on_after_an_option() {
    let script = format!("option ready on\n{IDENTIFY}\n");
    let wanted = meaning(Global, "boot ok\nidentified").unwrap();
    assert_eq!(printed(&script), wanted.as_str());
}
