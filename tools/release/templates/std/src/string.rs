//! A text whose growth can fail.

use crate::alloc::{AllocError, Global};
use core::borrow::Borrow;
use core::fmt;
use core::ops::Deref;

/// A text: Rust's own, but for calls that allocate, which return an error if there is no memory.
#[derive(Debug, PartialEq, Eq, PartialOrd, Ord)]
pub struct String {
    text: memory::string::String,
}

impl String {
    /// The empty text. It allocates nothing.
    pub const fn new(_: Global) -> String {
        String {
            text: memory::string::String::new(),
        }
    }

    /// A copy of this text.
    #[allow(clippy::should_implement_trait, reason = "a copy can fail here")]
    pub fn from_str(alloc: Global, text: &str) -> Result<String, AllocError> {
        let mut copy = String::new(alloc);
        copy.push_str(text)?;
        Ok(copy)
    }

    /// A text that is put together.
    pub fn of_words(alloc: Global, words: fmt::Arguments<'_>) -> Result<String, AllocError> {
        let mut text = String::new(alloc);
        fmt::Write::write_fmt(&mut text, words).map_err(|_| AllocError)?;
        Ok(text)
    }

    /// Appends a text.
    pub fn push_str(&mut self, text: &str) -> Result<(), AllocError> {
        self.text.try_reserve(text.len())?;
        self.text.push_str(text);
        Ok(())
    }

    /// Appends a character.
    pub fn push(&mut self, character: char) -> Result<(), AllocError> {
        self.text.try_reserve(character.len_utf8())?;
        self.text.push(character);
        Ok(())
    }

    /// Takes all away.
    pub fn clear(&mut self) {
        self.text.clear();
    }

    /// The text.
    pub fn as_str(&self) -> &str {
        &self.text
    }

    /// A copy.
    #[allow(clippy::should_implement_trait, reason = "a copy can fail here")]
    pub fn clone(&self) -> Result<String, AllocError> {
        String::from_str(Global, &self.text)
    }
}

/// A text that is put together, as Rust's `format!`: `format!(in alloc; "{number}")`.
#[macro_export]
macro_rules! format {
    (in $alloc:expr; $($words:tt)*) => {
        $crate::String::of_words($alloc, ::core::format_args!($($words)*))
    };
}

impl Deref for String {
    type Target = str;

    fn deref(&self) -> &str {
        &self.text
    }
}

impl Borrow<str> for String {
    fn borrow(&self) -> &str {
        &self.text
    }
}

impl AsRef<str> for String {
    fn as_ref(&self) -> &str {
        &self.text
    }
}

impl AsRef<[u8]> for String {
    fn as_ref(&self) -> &[u8] {
        self.text.as_bytes()
    }
}

impl fmt::Display for String {
    fn fmt(&self, f: &mut fmt::Formatter<'_>) -> fmt::Result {
        f.write_str(&self.text)
    }
}

impl fmt::Write for String {
    fn write_str(&mut self, text: &str) -> fmt::Result {
        self.push_str(text).map_err(|_| fmt::Error)
    }
}

impl From<memory::string::String> for String {
    fn from(text: memory::string::String) -> String {
        String { text }
    }
}
