//! The standard streams.

use crate::alloc::Global;
use crate::{HostRuntime, String, Vec};
use rust::io::{Stdin, Stdout};
pub use rust::io::{Error, ErrorKind, Read, Result, Write};

/// Standard input.
pub struct Reader(pub(crate) Stdin);

impl Reader {
    /// Appends all that there is.
    pub fn read_to_end(&mut self, bytes: &mut Vec<u8>) -> Result<usize> {
        let mut all = memory::vec::Vec::new();
        let read = self.0.read_to_end(&mut all)?;
        bytes.extend_from_slice(&all)?;
        Ok(read)
    }
}

impl Read for Reader {
    fn read(&mut self, room: &mut [u8]) -> Result<usize> {
        self.0.read(room)
    }
}

/// Standard output.
pub fn writer(_: &HostRuntime) -> Stdout {
    rust::io::stdout()
}

/// All that a reader gives, which has to be text.
pub fn read_to_string<R: Read>(_: Global, mut reader: R) -> Result<String> {
    let mut text = memory::string::String::new();
    reader.read_to_string(&mut text)?;
    Ok(String::from(text))
}

/// A writer that collects what is written.
pub struct BufWriter<W: Write> {
    writer: rust::io::BufWriter<W>,
}

impl<W: Write> BufWriter<W> {
    /// Collects what is written to this writer, and hands on this many bytes at a time.
    pub fn with_capacity(_: Global, capacity: usize, writer: W) -> Result<BufWriter<W>> {
        Ok(BufWriter {
            writer: rust::io::BufWriter::with_capacity(capacity, writer),
        })
    }
}

impl<W: Write> Write for BufWriter<W> {
    fn write(&mut self, bytes: &[u8]) -> Result<usize> {
        self.writer.write(bytes)
    }

    fn flush(&mut self) -> Result<()> {
        self.writer.flush()
    }
}

impl Write for Vec<u8> {
    fn write(&mut self, bytes: &[u8]) -> Result<usize> {
        self.extend_from_slice(bytes)?;
        Ok(bytes.len())
    }

    fn flush(&mut self) -> Result<()> {
        Ok(())
    }
}
