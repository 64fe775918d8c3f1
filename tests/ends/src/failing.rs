//! Readers and writers that fail somewhere in a start-up.

use super::{output, started_up};
use rattle_std::alloc::Global;
use rattle_std::io::{self, ErrorKind, Read, Write};
use rattle_std::{String, Vec};
use script_runner::{RunFault, run};

/// How many octets a reader gives at a time.
const AT_ONCE: usize = 100;

/// A reader that gives 100 octets at a time, and fails at a later read.
struct Breaking<'a> {
    rest: &'a [u8],
    reads: usize,
}

impl<'a> Read for Breaking<'a> {
    fn read(&mut self, buf: &mut [u8]) -> io::Result<usize> {
        if self.reads == 0 {
            return Err(io::Error::from(ErrorKind::Other));
        }
        self.reads = self.reads.saturating_sub(1);
        let most = buf.len().min(AT_ONCE);
        self.rest.read(&mut buf[..most])
    }
}

/// A writer with room for some more octets, which fails after them.
struct Filling {
    taken: Vec<u8>,
    room: usize,
}

impl Write for Filling {
    fn write(&mut self, buf: &[u8]) -> io::Result<usize> {
        let most = buf.len().min(self.room);
        if most == 0 {
            return Err(io::Error::from(ErrorKind::Other));
        }
        self.room = self.room.saturating_sub(most);
        self.taken.write(&buf[..most])
    }

    fn flush(&mut self) -> io::Result<()> {
        Ok(())
    }
}

/// A start-up whose output has more octets than the writers below have room for.
fn long(alloc: Global) -> String {
    started_up(alloc, "show\nshow\nshow\nshow\nstop\ndeliver\n").unwrap()
}

#[test]
fn each_of_the_first_reads_fails() {
    let alloc = Global;
    let script = long(alloc);
    let most = (script.len() / AT_ONCE).wrapping_add(1);
    for reads in 0..most {
        let mut reader = Breaking {
            rest: script.as_bytes(),
            reads,
        };
        let mut writer = Vec::new(alloc);
        assert_eq!(run(alloc, &mut reader, &mut writer), Err(RunFault::Read));
        assert_eq!(writer.len(), 0);
    }
}

/// With this room the first octets of the output are written, and then a write fails.
fn fills(alloc: Global, script: &[u8], whole: &[u8], room: usize) {
    let mut writer = Filling {
        taken: Vec::new(alloc),
        room,
    };
    let mut reader = script;
    assert_eq!(run(alloc, &mut reader, &mut writer), Err(RunFault::Write));
    assert_eq!(Some(writer.taken.as_slice()), whole.get(..room));
}

/// The writer fails after `first` octets, after one more, and so on up to `last`.
fn refused_between(alloc: Global, first: usize, last: usize) {
    let script = long(alloc);
    let (result, whole) = output(alloc, script.as_bytes());
    assert_eq!(result, Ok(()));
    assert!(whole.len() > last);
    for room in first..last {
        fills(alloc, script.as_bytes(), whole.as_slice(), room);
    }
}

#[test]
fn each_of_the_first_500_octets_is_refused() {
    refused_between(Global, 0, 500)
}

#[test]
fn each_of_the_next_500_octets_is_refused() {
    refused_between(Global, 500, 1000)
}

#[test]
fn each_octet_from_1000_on_is_refused() {
    refused_between(Global, 1000, 1500)
}

#[test]
fn each_octet_from_1500_on_is_refused() {
    refused_between(Global, 1500, 2000)
}
