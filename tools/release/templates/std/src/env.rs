//! The words of the command line.

use crate::alloc::{AllocError, Global};
use crate::io;
use crate::{HostRuntime, String, Vec};

/// The words of the command line, the program's name the first of them.
pub struct Args {
    words: Vec<String>,
}

/// The words, or an error where one of them is no text.
pub fn args(rt: &HostRuntime) -> io::Result<Args> {
    let mut words = Vec::new(rt.alloc());
    for word in rust::env::args_os() {
        let Ok(word) = word.into_string() else {
            return Err(io::ErrorKind::InvalidInput.into());
        };
        words.push(String::from(word))?;
    }
    Ok(Args { words })
}

impl Args {
    /// All of them.
    pub fn collect(self, _: Global) -> Result<Vec<String>, AllocError> {
        Ok(self.words)
    }
}
