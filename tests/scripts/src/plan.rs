//! The plan of a catalogue as text: what is read and written. What it is of which catalogue is in `table_plan`.

use super::input::{Broken, Narrow, Repeated};
use arrayvec::ArrayVec;
use rattle_std::Vec;
use rattle_std::alloc::Global;
use rattle_std::io::{self, Read, Write};
use script_runner::{RunFault, plan_text};

/// The demo station, and the layouts of its plan.
const PUMP: &str = r#"{"DeviceIdentity":{"VendorID":291,"DeviceID":1110},"DeviceAccessPointItem":{"ModuleIdentNumber":1,"PhysicalSlots":[0,1,2,3],"DNS_CompatibleName":"pn-demo","MinDeviceInterval":32,"VirtualSubmoduleItem":[{"Subslot":1,"SubmoduleIdentNumber":1},{"Subslot":32768,"SubmoduleIdentNumber":2},{"Subslot":32769,"SubmoduleIdentNumber":3}],"ModuleItemRef":[{"ModuleItemTarget":"IN2","AllowedInSlots":[1,2,3]},{"ModuleItemTarget":"OUT2","AllowedInSlots":[1,2,3]}]},"ModuleItem":[{"ID":"IN2","ModuleIdentNumber":16,"VirtualSubmoduleItem":[{"Subslot":1,"SubmoduleIdentNumber":16,"IOData":{"Input":[{"DataType":"Unsigned16"}]}}]},{"ID":"OUT2","ModuleIdentNumber":32,"VirtualSubmoduleItem":[{"Subslot":1,"SubmoduleIdentNumber":32,"IOData":{"Output":[{"DataType":"Unsigned16"}]}}]}],"Project":{"NameOfStation":"pump-1","IPAddress":"192.168.0.2","SubnetMask":"255.255.255.0","Gateway":"0.0.0.0","Controller":{"NameOfStation":"plc","MAC":"02-00-00-00-00-02","IPAddress":"192.168.0.1"},"SendClockFactor":32,"ReductionRatio":1,"DataHoldFactor":3,"Slots":[{"Slot":1,"ModuleItemTarget":"IN2"},{"Slot":2,"ModuleItemTarget":"OUT2"}]}}"#;

const LAYOUTS: &str = "input 40\ndata 0 1 0 1\ndata 0 32768 1 1\ndata 0 32769 2 1\ndata 1 1 3 3\niocs 2 1 6\noutput 40\ndata 2 1 0 3\niocs 0 1 3\niocs 0 32768 4\niocs 0 32769 5\niocs 1 1 6\n";

/// A reader that gives at most 10 bytes at a time.
struct Dripping<'a> {
    rest: &'a [u8],
}

impl<'a> Read for Dripping<'a> {
    fn read(&mut self, buf: &mut [u8]) -> io::Result<usize> {
        let most = buf.len().min(10);
        self.rest.read(&mut buf[..most])
    }
}

/// A writer that takes at most 10 bytes at a time.
struct Sipping {
    taken: Vec<u8>,
}

impl Write for Sipping {
    fn write(&mut self, buf: &[u8]) -> io::Result<usize> {
        let most = buf.len().min(10);
        self.taken.write(&buf[..most])
    }

    fn flush(&mut self) -> io::Result<()> {
        Ok(())
    }
}

/// A catalogue of this text ends in this way, and this is written.
fn plans(alloc: Global, text: &str, wanted: Result<(), RunFault>, written: &str) {
    let mut reader = text.as_bytes();
    let mut writer = Vec::new(alloc);
    let result = plan_text(alloc, &mut reader, &mut writer);
    assert_eq!(result, wanted);
    assert_eq!(writer.as_slice(), written.as_bytes());
}

#[test]
fn pump() {
    plans(Global, PUMP, Ok(()), LAYOUTS);
}

#[test]
fn no_plan() {
    for (text, fault) in [("{", 1), ("{}", 2), ("[]", 3), ("", 1)] {
        plans(Global, text, Err(RunFault::Config(fault)), "");
    }
}

#[test]
fn a_reader_that_fails() {
    let mut writer = Vec::new(Global);
    let mut broken = Broken { is_first: true };
    let result = plan_text(Global, &mut broken, &mut writer);
    assert_eq!(result, Err(RunFault::Read));
    assert_eq!(writer.len(), 0);
}

#[test]
fn a_writer_that_fails() {
    let mut narrow = Narrow {
        taken: ArrayVec::new(),
    };
    let mut reader = PUMP.as_bytes();
    let result = plan_text(Global, &mut reader, &mut narrow);
    assert_eq!(result, Err(RunFault::Write));
    assert_eq!(narrow.taken.as_slice(), b"input 40\nd".as_slice());
}

#[test]
fn few_bytes_at_a_time() {
    let mut reader = Dripping {
        rest: PUMP.as_bytes(),
    };
    let mut writer = Sipping {
        taken: Vec::new(Global),
    };
    let result = plan_text(Global, &mut reader, &mut writer);
    assert_eq!(result, Ok(()));
    assert_eq!(writer.taken.as_slice(), LAYOUTS.as_bytes());
}

/// A catalogue of this many spaces has this fault.
fn has_fault(alloc: Global, left: u64, fault: RunFault) {
    let mut reader = Repeated {
        byte: b' ',
        left,
        at_once: 4096,
        reads: 0,
    };
    let mut writer = Vec::new(alloc);
    let result = plan_text(alloc, &mut reader, &mut writer);
    assert_eq!(result, Err(fault));
    assert_eq!(writer.len(), 0);
}

#[test]
fn endless_catalogue() {
    has_fault(Global, 16_777_216, RunFault::Config(1));
    has_fault(Global, 16_777_217, RunFault::EndlessInput);
}
