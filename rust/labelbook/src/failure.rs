//! Why the program ends without having done what was asked: the message, and the exit status.
use label_book::Refusal;
use std::fmt::Display;
use std::io;

/// The numbers of `sysexits.h` for wrong usage, wrong data, and trouble with a file.
const USAGE_STATUS: u8 = 64;
const DATA_STATUS: u8 = 65;
const FILE_STATUS: u8 = 74;
/// What a shell says of a program that the signal of a closed pipe (13) has ended.
const PIPE_STATUS: u8 = 128 + 13;

pub enum Failure {
    /// Arguments that make no sense, and the command whose help says more.
    Usage { words: String, command: Option<&'static str> },
    /// The library declines.
    Refused { place: String, refusal: Refusal, hint: &'static str },
    /// Lines of text that no book can be built from.
    Data { place: String, words: String },
    /// A file that cannot be read or written.
    File { place: String, words: String },
    /// Whoever reads our output has gone: nothing is left to be said.
    PipeClosed,
}

impl Failure {
    pub fn refused(place: impl Display, refusal: Refusal) -> Failure {
        Failure::Refused { place: place.to_string(), refusal, hint: "" }
    }

    /// A refused book, with what it seems to be or what can be done, if that is known.
    pub fn no_book(place: impl Display, refusal: Refusal, hint: &'static str) -> Failure {
        Failure::Refused { place: place.to_string(), refusal, hint }
    }

    /// Whether the library declined, for this cause.
    pub fn is(&self, cause: Refusal) -> bool {
        matches!(self, Failure::Refused { refusal, .. } if *refusal == cause)
    }

    pub fn data(place: impl Display, words: impl Into<String>) -> Failure {
        Failure::Data { place: place.to_string(), words: words.into() }
    }

    pub fn file(place: impl Display, error: io::Error) -> Failure {
        Failure::File { place: place.to_string(), words: error.to_string() }
    }

    /// What is said on standard error.
    pub fn message(&self) -> Option<String> {
        match self {
            Failure::Usage { words, command: None } => {
                Some(format!("{words}\n`labelbook help` lists the commands"))
            }
            Failure::Usage { words, command: Some(command) } => {
                Some(format!("{command}: {words}\n`labelbook help {command}` says more"))
            }
            Failure::Refused { place, refusal, hint } => {
                let joint = if hint.is_empty() { "" } else { "; " };
                Some(format!("{place}: refused, {}: {refusal}{joint}{hint}", refusal.number()))
            }
            Failure::Data { place, words } | Failure::File { place, words } => {
                Some(format!("{place}: {words}"))
            }
            Failure::PipeClosed => None,
        }
    }

    pub fn status(&self) -> u8 {
        match self {
            Failure::Usage { .. } => USAGE_STATUS,
            Failure::Refused { refusal, .. } => refusal.number(),
            Failure::Data { .. } => DATA_STATUS,
            Failure::File { .. } => FILE_STATUS,
            Failure::PipeClosed => PIPE_STATUS,
        }
    }
}
