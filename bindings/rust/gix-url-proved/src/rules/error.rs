//! Errors of the calls over a configuration, and over texts that Git reads.

use super::reasons::reasons;
use super::{NoTransport, SshRefusal, Unread, Unresolved};
use std::fmt;

reasons! {
    /// A flaw in the text of a configuration.
    Flaw {
        PartialMark = "a part of a byte order mark",
        NoStart = "a byte that begins neither a header nor a name",
        NoSection = "a header without a section",
        BadSection = "a byte that can't be in a section",
        NoQuote = "a subsection without a quote",
        OpenSubsection = "a subsection without an end",
        OpenHeader = "a header without an end",
        NoEquals = "a name without an equals sign",
        BadEscape = "an unknown escape",
        OpenQuote = "a value without its last quote",
        ZeroByte = "a byte 0",
        NoKey = "a key without a section or without a name",
        NoEnd = "an entry without an end",
    }
}

/// Why a call has no result. It holds no byte of a text, so it is safe to log.
///
/// ```
/// use gix_url_proved::rules::{Configuration, Error, Flaw};
///
/// let error = Configuration::from_file(b"[core]\n\tsshCommand = \"ssh\n").unwrap_err();
/// assert_eq!(error, Error::NoConfiguration { flaw: Flaw::OpenQuote, at: 25, line: Some(2) });
/// assert_eq!(error.to_string(), "line 2: a value without its last quote");
/// ```
#[derive(Clone, Copy, Debug, PartialEq, Eq)]
pub enum Error {
    /// Memory was refused.
    Memory,
    /// Git stops at an entry without a value.
    NoValue {
        /// The position of the entry: [`Entry::at`](super::Entry::at).
        at: usize,
    },
    /// Git stops at an entry whose value isn't a boolean value.
    NoBoolean {
        /// The position of the entry: [`Entry::at`](super::Entry::at).
        at: usize,
    },
    /// The text isn't a configuration.
    NoConfiguration {
        /// The flaw.
        flaw: Flaw,
        /// How many bytes of the text come before the flaw.
        at: usize,
        /// The line of the flaw in a file, from 1; `None` in a listing.
        line: Option<usize>,
    },
    /// Git has no transport for the text.
    NoTransport(NoTransport),
    /// Git finds no place in the text.
    Unread(Unread),
    /// There is no command of Secure Shell for the location.
    NoCommand(SshRefusal),
    /// Git doesn't resolve the URL of the submodule.
    Unresolved(Unresolved),
}

impl Error {
    /// The position of the entry at which Git stops, or of the flaw in a text; `None` for any other error.
    pub fn at(&self) -> Option<usize> {
        match *self {
            Error::NoValue { at } | Error::NoBoolean { at } | Error::NoConfiguration { at, .. } => Some(at),
            _ => None,
        }
    }
}

impl fmt::Display for Error {
    fn fmt(&self, f: &mut fmt::Formatter<'_>) -> fmt::Result {
        match self {
            Error::Memory => f.write_str("out of memory"),
            Error::NoValue { at } => write!(f, "the setting at byte {at} has no value"),
            Error::NoBoolean { at } => write!(f, "the setting at byte {at} has no boolean value"),
            Error::NoConfiguration { flaw: Flaw::NoKey, at, .. } => {
                write!(f, "the key at byte {at} has no section or no name")
            }
            Error::NoConfiguration { flaw: Flaw::NoEnd, at, .. } => write!(f, "the entry at byte {at} has no end"),
            Error::NoConfiguration { flaw, line: Some(line), .. } => write!(f, "line {line}: {flaw}"),
            Error::NoConfiguration { flaw, at, line: None } => write!(f, "byte {at}: {flaw}"),
            Error::NoTransport(why) => why.fmt(f),
            Error::Unread(why) => why.fmt(f),
            Error::NoCommand(why) => why.fmt(f),
            Error::Unresolved(why) => why.fmt(f),
        }
    }
}

impl std::error::Error for Error {}

/// A conversion from a reason, by the variant that holds it.
macro_rules! from {
    ($($reason:ident => $variant:ident;)*) => {
        $(impl From<$reason> for Error {
            fn from(why: $reason) -> Error {
                Error::$variant(why)
            }
        })*
    };
}

from! {
    NoTransport => NoTransport;
    Unread => Unread;
    SshRefusal => NoCommand;
    Unresolved => Unresolved;
}
