//! The parser, and the errors of calls over locations.

use crate::bstr::BString;
use crate::expand_path::ForUser;
use crate::ffi;
use crate::{Refusal, Url};
use std::fmt;

/// Parses a location, from a text, bytes or a byte string. Allocates the parts, and memory for the library.
///
/// ```
/// use gix_url_proved::{Scheme, parse};
///
/// let url = parse("git@host:path/to/repo")?;
/// assert_eq!(url.scheme, Scheme::Ssh);
/// assert_eq!(url.path, "path/to/repo");
/// assert!(parse(b"http://").is_err());
/// # Ok::<(), parse::Error>(())
/// ```
///
/// # Errors
///
/// Returns an error exactly if the bytes are not a location. The error names a flaw in them, and [`Error::refusal`] its
/// position.
pub fn parse(input: impl AsRef<[u8]>) -> Result<Url, Error> {
    ffi::read(input.as_ref())
}

/// The form that a text was taken for.
#[derive(Clone, Copy, Debug, PartialEq, Eq)]
pub enum UrlKind {
    /// A URL: it has a `://`.
    Url,
    /// The form `user@host:path` of `scp`.
    Scp,
    /// A path of the local file system.
    Local,
}

/// A flaw in a URL, or in the host of the scp form.
#[derive(Clone, Copy, Debug, PartialEq, Eq)]
pub enum UrlFault {
    /// The text before `://` isn't a scheme.
    NoScheme,
    /// The text in place of a port isn't a port.
    BadPort,
    /// A byte or a character is in a place that doesn't allow it, or an escape is broken or doesn't decode to text.
    BadCharacter,
    /// The scheme, or the scp form, needs a host.
    HostRequired,
}

/// Why a location has no text.
#[derive(Clone, Copy, Debug, PartialEq, Eq)]
pub enum WriteFault {
    /// The name of the remote helper isn't valid.
    HelperName,
    /// A remote helper has a user, a password, a host or a port.
    HelperParts,
    /// A relative path of Secure Shell has no host, or has a password or a port.
    RelativeSsh,
    /// There is a user without a host.
    UserWithoutHost,
}

/// Why a text or a value was refused. The refused text may have a password. The fields hold it; neither `Display` nor
/// `Debug` shows a byte of it.
#[derive(Clone, PartialEq, Eq)]
pub enum Error {
    /// Memory was refused.
    Memory,
    /// The text is empty.
    EmptyLocal,
    /// A path is required and there is none.
    MissingPath {
        /// The form that the text was taken for.
        kind: UrlKind,
        /// The text.
        input: BString,
    },
    /// The text is not UTF-8.
    NotUtf8 {
        /// The form that the text was taken for.
        kind: UrlKind,
        /// The text.
        input: BString,
    },
    /// The scheme or the authority is too long.
    TooLong {
        /// The beginning of the text.
        shown: BString,
        /// The length of the text, in bytes.
        total: usize,
    },
    /// The text isn't a URL, or the host of the scp form isn't valid.
    BadUrl {
        /// The form that the text was taken for.
        kind: UrlKind,
        /// The flaw.
        fault: UrlFault,
        /// The text.
        input: BString,
    },
    /// The name of a remote helper isn't valid.
    HelperName {
        /// The name.
        name: BString,
    },
    /// The location has no text.
    Unwritable(WriteFault),
    /// There is no home folder for the user. Only the module [`expand_path`](mod@crate::expand_path) returns this.
    NoHome(ForUser),
    /// The path can't be resolved on this file system. Only [`Url::canonicalize`] returns this.
    Unresolved,
}

impl Error {
    /// The reason and the position of a parse error. A text that is too long has them as well, although the error keeps
    /// only its beginning. `None` for any other error, and for one that a program built with a text that is a location.
    /// Parses the text again, and allocates nothing.
    ///
    /// ```
    /// use gix_url_proved::{parse, Reason};
    ///
    /// let refusal = parse("https://user@/repo").unwrap_err().refusal().unwrap();
    /// assert_eq!((refusal.reason, refusal.at, refusal.len), (Reason::HostBehindUser, 13, 0));
    /// ```
    pub fn refusal(&self) -> Option<Refusal> {
        match self {
            Error::EmptyLocal => ffi::refusal(b""),
            Error::MissingPath { input, .. } | Error::NotUtf8 { input, .. } | Error::BadUrl { input, .. } => {
                ffi::refusal(input)
            }
            Error::TooLong { shown, .. } => ffi::refusal_of_front(shown),
            Error::Memory | Error::HelperName { .. } | Error::Unwritable(_) | Error::NoHome(_) | Error::Unresolved => {
                None
            }
        }
    }
}

impl fmt::Display for UrlKind {
    fn fmt(&self, f: &mut fmt::Formatter<'_>) -> fmt::Result {
        f.write_str(match self {
            UrlKind::Url => "URL",
            UrlKind::Scp => "scp form",
            UrlKind::Local => "local path",
        })
    }
}

impl fmt::Display for UrlFault {
    fn fmt(&self, f: &mut fmt::Formatter<'_>) -> fmt::Result {
        f.write_str(match self {
            UrlFault::NoScheme => "no valid scheme",
            UrlFault::BadPort => "an invalid port",
            UrlFault::BadCharacter => "a character or an escape that is not allowed",
            UrlFault::HostRequired => "no host where one is required",
        })
    }
}

impl fmt::Display for WriteFault {
    fn fmt(&self, f: &mut fmt::Formatter<'_>) -> fmt::Result {
        f.write_str(match self {
            WriteFault::HelperName => "the remote helper has no valid name",
            WriteFault::HelperParts => "a remote helper comes with a user, a password, a host or a port",
            WriteFault::RelativeSsh => {
                "a relative path of Secure Shell comes without a host, or with a password or a port"
            }
            WriteFault::UserWithoutHost => "a user comes without a host",
        })
    }
}

impl fmt::Display for Error {
    fn fmt(&self, f: &mut fmt::Formatter<'_>) -> fmt::Result {
        match self {
            Error::Memory => f.write_str("out of memory"),
            Error::EmptyLocal => f.write_str("the location is empty"),
            Error::MissingPath { kind, .. } => write!(f, "the {kind} has no path"),
            Error::NotUtf8 { kind, .. } => write!(f, "the {kind} is not UTF-8"),
            Error::TooLong { total, .. } => {
                write!(
                    f,
                    "the scheme or the authority of the URL is longer than 1024 bytes, in a text of {total} bytes"
                )
            }
            Error::BadUrl { kind, fault, .. } => write!(f, "the {kind} has {fault}"),
            Error::HelperName { .. } => f.write_str("the remote helper has no valid name"),
            Error::Unwritable(fault) => write!(f, "the location can't be written: {fault}"),
            Error::NoHome(_) => f.write_str("no home folder is known for the user"),
            Error::Unresolved => f.write_str("the path can't be resolved"),
        }
    }
}

impl std::error::Error for Error {}
