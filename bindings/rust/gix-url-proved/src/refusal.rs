//! The reasons and positions of parse errors.

use crate::ffi;
use crate::parse::{UrlFault, UrlKind};
use crate::words::worded;
use std::fmt;

/// The reason why a text is not a location. `Display` writes it in one sentence, which has no byte of the text.
///
/// ```
/// use gix_url_proved::{parse, Reason};
///
/// let refusal = parse("http://h:abc/").unwrap_err().refusal().unwrap();
/// assert_eq!(refusal.reason, Reason::PortNotANumber);
/// assert_eq!(refusal.reason.name(), "PortNotANumber");
/// assert_eq!(refusal.reason.words(), "a port must be a decimal number");
/// ```
#[derive(Clone, Copy, Debug, PartialEq, Eq)]
pub enum Reason {
    /// The text is empty.
    Empty,
    /// The scheme is longer than 1,024 bytes.
    SchemeTooLong,
    /// More than 1,024 bytes follow `://` before the path.
    AuthorityTooLong,
    /// The text is not UTF-8.
    NotUtf8,
    /// White space is in a URL.
    WhiteSpace,
    /// A `%` doesn't begin an escape.
    BrokenEscape,
    /// Nothing is before `://`.
    SchemeMissing,
    /// A scheme doesn't begin with an ASCII letter.
    SchemeStart,
    /// A character in a scheme isn't a letter, a digit, `+`, `-` or `.`.
    SchemeCharacter,
    /// White space is in the host of the scp form.
    WhiteSpaceInHost,
    /// A backslash is in an authority.
    Backslash,
    /// A backslash is in the host of the scp form.
    BackslashInHost,
    /// Bytes or escapes don't decode to UTF-8.
    EscapesNotUtf8,
    /// A bracket is not closed.
    UnclosedBracket,
    /// Something other than a colon follows a closed bracket.
    BehindBracket,
    /// The text between the brackets of HTTP isn't an IPv6 literal.
    NotAnAddress,
    /// An IPv6 address of HTTP is not in brackets.
    AddressWithoutBrackets,
    /// The host of HTTP has a second colon.
    SecondColon,
    /// Nothing is before the colon of a port of HTTP.
    HostBeforePort,
    /// A port isn't a decimal number.
    PortNotANumber,
    /// The host of HTTP has a character that isn't allowed.
    HostCharacter,
    /// A port is greater than 65,535.
    PortTooLarge,
    /// The port of HTTP is 0.
    PortZero,
    /// No host follows the user information.
    HostBehindUser,
    /// The scheme, or the scp form, needs a host.
    HostMissing,
    /// A URL of Git's own transports has no path.
    PathMissing,
    /// A file URL has no path.
    FilePathMissing,
    /// Nothing follows the colon of the scp form.
    ScpPathMissing,
}

impl Reason {
    /// The reasons in the order of their numbers in the library, which begin at 1.
    const ALL: [Reason; 28] = [
        Reason::Empty,
        Reason::SchemeTooLong,
        Reason::AuthorityTooLong,
        Reason::NotUtf8,
        Reason::WhiteSpace,
        Reason::BrokenEscape,
        Reason::SchemeMissing,
        Reason::SchemeStart,
        Reason::SchemeCharacter,
        Reason::WhiteSpaceInHost,
        Reason::Backslash,
        Reason::BackslashInHost,
        Reason::EscapesNotUtf8,
        Reason::UnclosedBracket,
        Reason::BehindBracket,
        Reason::NotAnAddress,
        Reason::AddressWithoutBrackets,
        Reason::SecondColon,
        Reason::HostBeforePort,
        Reason::PortNotANumber,
        Reason::HostCharacter,
        Reason::PortTooLarge,
        Reason::PortZero,
        Reason::HostBehindUser,
        Reason::HostMissing,
        Reason::PathMissing,
        Reason::FilePathMissing,
        Reason::ScpPathMissing,
    ];
}

worded!(Reason, ffi::reason_name, ffi::reason_words);

/// Why a text is not a location, and the place of the flaw: the `len` bytes after the first `at` bytes of the
/// text. If a text has several flaws, this is the first in the order of checks, so a text has one refusal. It
/// holds no byte of the text, and `Display` writes the words of the reason.
///
/// ```
/// let text = "http://h:abc/";
/// let refusal = gix_url_proved::parse(text).unwrap_err().refusal().unwrap();
/// assert_eq!(&text[refusal.at..refusal.at + refusal.len], "abc");
/// assert_eq!(refusal.to_string(), "a port must be a decimal number");
/// ```
#[derive(Clone, Copy, Debug, PartialEq, Eq)]
pub struct Refusal {
    /// The form that the text was taken for. It is a local path for the empty text.
    pub form: UrlKind,
    /// The reason.
    pub reason: Reason,
    /// How many bytes of the text come before the flaw.
    pub at: usize,
    /// The length of the flaw, in bytes. It is 0 if something is missing.
    pub len: usize,
    pub(crate) fault: Option<UrlFault>,
}

impl Refusal {
    /// The flaw in the URL, or in the host of the scp form; `None` if the error isn't `BadUrl`.
    pub fn fault(&self) -> Option<UrlFault> {
        self.fault
    }
}

impl fmt::Display for Refusal {
    fn fmt(&self, f: &mut fmt::Formatter<'_>) -> fmt::Result {
        f.write_str(self.reason.words())
    }
}

impl std::error::Error for Refusal {}
