//! What is read and written: long and endless input, readers and writers that fail, and the texts of the faults.

use super::IDENTIFY;
use arrayvec::ArrayVec;
use rattle_std::alloc::Global;
use rattle_std::io::{self, ErrorKind, Read, Write};
use rattle_std::{Vec, format};
use script_runner::{RunFault, run};

/// A reader of one byte, over and over.
pub(super) struct Repeated {
    pub(super) byte: u8,
    pub(super) left: u64,
    pub(super) at_once: usize,
    pub(super) reads: u64,
}

impl Read for Repeated {
    fn read(&mut self, buf: &mut [u8]) -> io::Result<usize> {
        self.reads = self.reads.saturating_add(1);
        let most = self.at_once.min(buf.len());
        let read = if self.left < most as u64 {
            self.left as usize
        } else {
            most
        };
        for place in &mut buf[..read] {
            *place = self.byte;
        }
        self.left -= read as u64;
        Ok(read)
    }
}

/// A reader that fails at its second read.
pub(super) struct Broken {
    pub(super) is_first: bool,
}

impl Read for Broken {
    fn read(&mut self, buf: &mut [u8]) -> io::Result<usize> {
        if !self.is_first || buf.is_empty() {
            return Err(io::Error::from(ErrorKind::Interrupted));
        }
        self.is_first = false;
        buf[0] = b'#';
        Ok(1)
    }
}

/// A writer with room for 10 bytes.
pub(super) struct Narrow {
    pub(super) taken: ArrayVec<u8, 10>,
}

impl Write for Narrow {
    fn write(&mut self, buf: &[u8]) -> io::Result<usize> {
        match buf {
            [first, ..] => match self.taken.try_push(*first) {
                Ok(()) => Ok(1),
                Err(_) => Err(io::Error::from(ErrorKind::Other)),
            },
            [] => Ok(0),
        }
    }

    fn flush(&mut self) -> io::Result<()> {
        Ok(())
    }
}

/// How a script ends that repeats this byte this many times, and whether it prints that the device started.
fn reads_long(alloc: Global, (byte, left): (u8, u64), wanted: Result<(), RunFault>, starts: bool) {
    let mut reader = Repeated {
        byte,
        left,
        at_once: 4096,
        reads: 0,
    };
    let mut writer = Vec::new(alloc);
    let result = run(alloc, &mut reader, &mut writer);
    assert_eq!(result, wanted);
    assert_eq!(writer.as_slice() == b"boot ok\n".as_slice(), starts);
}

#[test]
fn long_input() {
    reads_long(Global, (b'\n', 16_777_216), Ok(()), true);
    reads_long(
        Global,
        (b'\n', 16_777_217),
        Err(RunFault::EndlessInput),
        false,
    );
    reads_long(Global, (b'#', 65_536), Ok(()), true);
    reads_long(Global, (b'#', 65_537), Err(RunFault::Line(1)), true);
}

#[test]
fn endless_input() {
    let mut reader = Repeated {
        byte: b'\n',
        left: u64::MAX,
        at_once: 1,
        reads: 0,
    };
    let mut writer = Vec::new(Global);
    let result = run(Global, &mut reader, &mut writer);
    assert_eq!(result, Err(RunFault::EndlessInput));
    assert_eq!(reader.reads, 16_777_217);
    assert_eq!(writer.len(), 0);
}

#[test]
fn a_reader_that_fails() {
    let mut writer = Vec::new(Global);
    let result = run(Global, &mut Broken { is_first: true }, &mut writer);
    assert_eq!(result, Err(RunFault::Read));
    assert_eq!(writer.len(), 0);
}

#[test]
fn a_writer_that_fails() {
    let mut narrow = Narrow {
        taken: ArrayVec::new(),
    };
    let mut reader = IDENTIFY.as_bytes();
    let result = run(Global, &mut reader, &mut narrow);
    assert_eq!(result, Err(RunFault::Write));
    assert_eq!(narrow.taken.as_slice(), b"boot ok\nou".as_slice());
}

/// The number of a fault, and its text.
const FAULTS: [(RunFault, u8, &str); 6] = [
    (RunFault::Read, 1, "read"),
    (RunFault::Write, 2, "write"),
    (RunFault::Line(70_000), 3, "line 70000"),
    (RunFault::OutOfMemory, 4, "out of memory"),
    (RunFault::Config(11), 5, "config 11"),
    (RunFault::EndlessInput, 6, "endless input"),
];

/// A fault has this number and this text.
fn is_told(alloc: Global, (fault, number, text): (RunFault, u8, &str)) {
    let shown = format!(in alloc; "{fault}").unwrap();
    assert_eq!(shown.as_str(), text);
    assert_eq!(fault.number(), number);
}

#[test]
fn texts() {
    for fault in FAULTS {
        is_told(Global, fault);
    }
}
