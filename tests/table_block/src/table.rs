// The text that is printed.

use itoa::{Buffer, Integer};
use rattle_std::Vec;
use rattle_std::alloc::{AllocError, Global};

/// Lines of text.
pub(crate) struct Table {
    alloc: Global,
    text: Vec<u8>,
}

impl Table {
    /// An empty table.
    pub(crate) fn new(alloc: Global) -> Table {
        Table {
            alloc,
            text: Vec::new(alloc),
        }
    }

    /// The text of the table.
    pub(crate) fn as_bytes(&self) -> &[u8] {
        self.text.as_slice()
    }

    /// Appends text.
    pub(crate) fn put(&mut self, words: &str) -> Result<(), AllocError> {
        self.text.extend_from_slice(words.as_bytes())
    }

    /// Appends a number, in decimal.
    pub(crate) fn number<I: Integer>(&mut self, number: I) -> Result<(), AllocError> {
        let mut buffer = Buffer::new();
        self.put(buffer.format(number))
    }

    /// Appends octets in hex, or `-` for none.
    pub(crate) fn octets(&mut self, octets: &[u8]) -> Result<(), AllocError> {
        if octets.is_empty() {
            return self.put("-");
        }
        self.put(hex::encode(self.alloc, octets)?.as_str())
    }

    /// Appends the line of a field that is a number.
    pub(crate) fn count<I: Integer>(&mut self, name: &str, number: I) -> Result<(), AllocError> {
        self.name(name)?;
        self.number(number)?;
        self.put("\n")
    }

    /// Appends the line of a field that is octets.
    pub(crate) fn field(&mut self, name: &str, octets: &[u8]) -> Result<(), AllocError> {
        self.name(name)?;
        self.octets(octets)?;
        self.put("\n")
    }

    /// Appends the line of a list entry, which is numbers.
    pub(crate) fn entry<I: Integer>(
        &mut self,
        name: &str,
        numbers: &[I],
    ) -> Result<(), AllocError> {
        self.put("  ")?;
        self.put(name)?;
        for number in numbers {
            self.put(" ")?;
            self.number(*number)?;
        }
        self.put("\n")
    }

    /// Appends the start of a field's line: its name.
    fn name(&mut self, name: &str) -> Result<(), AllocError> {
        self.put("  ")?;
        self.put(name)?;
        self.put(" ")
    }
}

/// Appends the lines of fields that are numbers, under their own names.
macro_rules! numbers {
    ($table:ident $block:ident $($field:ident)*) => {{
        $($table.count(stringify!($field), $block.$field)?;)*
        Ok(())
    }};
}

pub(crate) use numbers;
