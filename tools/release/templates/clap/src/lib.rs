//! The command line by clap, as the proved sources call it: with the allocator, and an error for want of memory.
#![forbid(unsafe_code)]

use rattle_std::alloc::{AllocError, Global};

pub mod error {
    //! Why words are not a command line.

    /// Why words are not a command line.
    #[derive(Clone, Copy, Debug, PartialEq, Eq)]
    pub enum ErrorKind {
        /// There was no memory.
        OutOfMemory,
        /// What clap says.
        Refused(clap::error::ErrorKind),
    }
}

/// Why words are not a command line.
#[derive(Debug)]
pub struct Error {
    kind: error::ErrorKind,
}

impl Error {
    /// Which kind of error it is.
    pub fn kind(&self) -> error::ErrorKind {
        self.kind
    }
}

impl From<AllocError> for Error {
    fn from(_: AllocError) -> Error {
        Error {
            kind: error::ErrorKind::OutOfMemory,
        }
    }
}

/// A command and the commands below it.
pub struct Command {
    command: clap::Command,
}

impl Command {
    /// A command of this name.
    pub fn new(_: Global, name: &'static str) -> Command {
        Command {
            command: clap::Command::new(name),
        }
    }

    /// Adds a command below it.
    pub fn subcommand(self, below: Command) -> Result<Command, AllocError> {
        Ok(Command {
            command: self.command.subcommand(below.command),
        })
    }

    /// What the words ask for, the program's name the first of them.
    pub fn try_get_matches_from<S: AsRef<str>>(self, words: &[S]) -> Result<ArgMatches, Error> {
        let words = words.iter().map(|word| String::from(word.as_ref()));
        match self.command.try_get_matches_from(words) {
            Ok(matches) => Ok(ArgMatches { matches }),
            Err(error) => Err(Error {
                kind: error::ErrorKind::Refused(error.kind()),
            }),
        }
    }
}

/// What the words ask for.
pub struct ArgMatches {
    matches: clap::ArgMatches,
}

impl ArgMatches {
    /// The name of the command below, if one is asked for.
    pub fn subcommand_name(&self) -> Option<&str> {
        self.matches.subcommand_name()
    }
}
