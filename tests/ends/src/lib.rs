//! Tests of scripts in which the controller meets the demo device, from what is read to what is written.
//!
//! Scripts in which both ends meet. Here is what the tests share; they stand in the modules below by what they are about.
#![cfg(test)]

use rattle_std::alloc::{AllocError, Global};
use rattle_std::{String, Vec};
use script_runner::{RunFault, run};

mod ends;
mod failing;
mod hosts;
mod intervals;
mod lines;
mod makers;
mod operations;
mod rows;
mod served;
mod tool;

/// The Set of the station's name, permanent, and what is printed of one that is done, as long as there is no controller.
const SET_PUMP_1: &str =
    "frame 0200000000010200000000028892fefd0400000000020000000c02020008000170756d702d31";

const SET_DONE: &str = "out 0200000000020200000000018892fefd0401000000020000000805040003020200000000000000000000000000000000000000000000000000000000\nnote do\
        ne\n";

/// The catalogue of the demo station.
const PUMP: &str = r#"{"DeviceIdentity":{"VendorID":291,"DeviceID":1110},"DeviceAccessPointItem":{"ModuleIdentNumber":1,"PhysicalSlots":[0,1,2,3],"DNS_CompatibleName":"pn-demo","MinDeviceInterval":32,"VirtualSubmoduleItem":[{"Subslot":1,"SubmoduleIdentNumber":1},{"Subslot":32768,"SubmoduleIdentNumber":2},{"Subslot":32769,"SubmoduleIdentNumber":3}],"ModuleItemRef":[{"ModuleItemTarget":"IN2","AllowedInSlots":[1,2,3]},{"ModuleItemTarget":"OUT2","AllowedInSlots":[1,2,3]}]},"ModuleItem":[{"ID":"IN2","ModuleIdentNumber":16,"VirtualSubmoduleItem":[{"Subslot":1,"SubmoduleIdentNumber":16,"IOData":{"Input":[{"DataType":"Unsigned16"}]}}]},{"ID":"OUT2","ModuleIdentNumber":32,"VirtualSubmoduleItem":[{"Subslot":1,"SubmoduleIdentNumber":32,"IOData":{"Output":[{"DataType":"Unsigned16"}]}}]}],"Project":{"NameOfStation":"pump-1","IPAddress":"192.168.0.2","SubnetMask":"255.255.255.0","Gateway":"0.0.0.0","Controller":{"NameOfStation":"plc","MAC":"02-00-00-00-00-02","IPAddress":"192.168.0.1"},"SendClockFactor":32,"ReductionRatio":1,"DataHoldFactor":3,"Slots":[{"Slot":1,"ModuleItemTarget":"IN2"},{"Slot":2,"ModuleItemTarget":"OUT2"}]}}"#;

/// The catalogue of a station with another module in slot 2, and one in slot 3, where the demo station has none.
const OTHER_MODULES: &str = r#"{"DeviceIdentity":{"VendorID":291,"DeviceID":1110},"DeviceAccessPointItem":{"ModuleIdentNumber":1,"PhysicalSlots":[0,1,2,3],"DNS_CompatibleName":"pn-demo","MinDeviceInterval":32,"VirtualSubmoduleItem":[{"Subslot":1,"SubmoduleIdentNumber":1},{"Subslot":32768,"SubmoduleIdentNumber":2},{"Subslot":32769,"SubmoduleIdentNumber":3}],"ModuleItemRef":[{"ModuleItemTarget":"IN2","AllowedInSlots":[1,2,3]},{"ModuleItemTarget":"OUT2","AllowedInSlots":[1,2,3]},{"ModuleItemTarget":"NONE","AllowedInSlots":[3]}]},"ModuleItem":[{"ID":"IN2","ModuleIdentNumber":16,"VirtualSubmoduleItem":[{"Subslot":1,"SubmoduleIdentNumber":16,"IOData":{"Input":[{"DataType":"Unsigned16"}]}}]},{"ID":"OUT2","ModuleIdentNumber":33,"VirtualSubmoduleItem":[{"Subslot":1,"SubmoduleIdentNumber":33,"IOData":{"Output":[{"DataType":"Unsigned16"}]}}]},{"ID":"NONE","ModuleIdentNumber":48,"VirtualSubmoduleItem":[{"Subslot":1,"SubmoduleIdentNumber":48}]}],"Project":{"NameOfStation":"pump-1","IPAddress":"192.168.0.2","SubnetMask":"255.255.255.0","Gateway":"0.0.0.0","Controller":{"NameOfStation":"plc","MAC":"02-00-00-00-00-02","IPAddress":"192.168.0.1"},"SendClockFactor":32,"ReductionRatio":1,"DataHoldFactor":3,"Slots":[{"Slot":1,"ModuleItemTarget":"IN2"},{"Slot":2,"ModuleItemTarget":"OUT2"},{"Slot":3,"ModuleItemTarget":"NONE"}]}}"#;

/// Its controller.
const START: &str =
    "start 11223344-5566-7788-99aa-bbccddeeff01 21223344-5566-7788-99aa-bbccddeeff01";

/// What is printed of the start-up: five times what waits is handed over.
const STARTED_UP: &str = "plan ok\nstate looking\nmoved 1 1\nstate addressing\nmoved 1 1\nstate connecting\nmoved 1 1\nstate ending\nmoved 1 2\nstate exchangin\
        g\nmoved 1 0\nstate exchanging\n";

/// I&M1 of a device that has none, as it is shown.
const BLANK: &str = "202020202020202020202020202020202020202020202020202020202020202020202020202020202020202020202020202020202020";

/// The I&M texts that follow it.
const TEXTS: &str = "im2 20202020202020202020202020202020\nim3 2020202020202020202020202020202020202020202020202020202020202020202020202020202020202020202\
        02020202020202020\nim4 00000000000000000000000000000000000000000000000000000000000000000000000000000000000000000000000000000000000\
        0\n";

/// These texts, one after another.
fn joined(alloc: Global, parts: &[&str]) -> Result<String, AllocError> {
    let mut text = String::new(alloc);
    for part in parts {
        text.push_str(part)?;
    }
    Ok(text)
}

fn output(alloc: Global, script: &[u8]) -> (Result<(), RunFault>, Vec<u8>) {
    let mut reader = script;
    let mut writer = Vec::new(alloc);
    let result = run(alloc, &mut reader, &mut writer);
    (result, writer)
}

/// The script has no line that is refused, and prints this text.
fn prints(alloc: Global, script: &str, wanted: &str) {
    let (result, text) = output(alloc, script.as_bytes());
    assert_eq!(result, Ok(()));
    assert_eq!(text.as_slice(), wanted.as_bytes());
}

/// A start-up to the exchange of data, followed by these lines.
fn started_up(alloc: Global, lines: &str) -> Result<String, AllocError> {
    joined(
        alloc,
        &[
            SET_PUMP_1,
            "\nconfig ",
            PUMP,
            "\n",
            START,
            "\ndeliver\ndeliver\ndeliver\ndeliver\ndeliver\n",
            lines,
        ],
    )
}

/// Behind a start-up these lines print this text.
fn prints_behind(alloc: Global, lines: &str, wanted: &str) {
    let script = started_up(alloc, lines).unwrap();
    let text = joined(alloc, &["boot ok\n", SET_DONE, STARTED_UP, wanted]).unwrap();
    prints(alloc, script.as_str(), text.as_str())
}

/// What `show` prints of a device that runs by this name and suite, has no address stored and this I&M1, and whose relation and
/// controller are at this.
fn shown(
    alloc: Global,
    name: &str,
    suite: &str,
    im1: &str,
    phase: &str,
    state: &str,
) -> Result<String, AllocError> {
    joined(
        alloc,
        &[
            "name ",
            name,
            "\nip ",
            suite,
            "\nstored-name ",
            name,
            "\nstored-ip 0.0.0.0 0.0.0.0 0.0.0.0\nim1 ",
            im1,
            "\n",
            TEXTS,
            "phase ",
            phase,
            "\nlamp 0\noutput 2 \
            1 0000\nstate ",
            state,
            "\n",
        ],
    )
}
