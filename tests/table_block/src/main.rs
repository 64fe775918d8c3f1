//! Prints what octets are as blocks. Each line of standard input is a block in hex. For each line the program prints the
//! result of `block_codec`: the fault, or the type, the number of octets after the block, the block as it is written
//! again, and its fields.
//!
//! The first 936 lines of `stdin`, and their lines of `stdout`, come from a reference model that was written from the
//! rules of the blocks alone and shares no line with this repository. 16 more lines were changed by hand, each in a field
//! that is not wrong in any of the 936. So these lines pin what a definition and its code could get wrong in the same
//! way: a constant, the number of a field, the position of a bit.
//!
//! ```text
//! fault NUMBER                          why the line is not a block
//! fault NUMBER field NUMBER             the same, for a version or a field
//! block TYPE rest OCTETS written HEX    the type, the number of octets after the block, and the block as it is written again
//!   NAME VALUE                          a field; octets are in hex, and a list has a line for each entry
//! ```
#![forbid(unsafe_code)]

use rattle_std::HostRuntime;

mod connect;
mod modules;
mod records;
mod row;
mod table;

use rattle_std::io::{self, ErrorKind, Write};
use row::{Octets, row};
use table::Table;

fn main() -> io::Result<()> {
    let rt = HostRuntime;
    let lines = io::read_to_string(rt.alloc(), rt.reader())?;
    let mut table = Table::new(rt.alloc());
    let mut written = Octets::new();
    for line in lines.lines() {
        let Ok(octets) = hex::decode(rt.alloc(), line) else {
            return Err(io::Error::from(ErrorKind::InvalidData));
        };
        row(octets.as_slice(), &mut written, &mut table)?;
    }
    io::writer(&rt).write_all(table.as_bytes())
}
