//! `Debug` of locations and errors, for logs: without the field `password` and without refused texts.
//!
//! A location shows every part except that field. An error shows the length of a refused text, and never its bytes.
//! Otherwise the output is that of a derived `Debug`, with bytes as a text. Nothing else is hidden: a secret in a part
//! other than the password, such as the user of `https://token@h/p`, is shown.

use crate::chunks::chunks;
use crate::expand_path::ForUser;
use crate::parse::Error;
use crate::Url;
use std::fmt::{self, Write};

impl fmt::Debug for Url {
    /// Writes all parts, with `redacted` in place of the field `password`.
    fn fmt(&self, f: &mut fmt::Formatter<'_>) -> fmt::Result {
        f.debug_struct("Url")
            .field("scheme", &self.scheme)
            .field("user", &self.user)
            .field("password", &self.password.as_ref().map(|_| "redacted"))
            .field("host", &self.host)
            .field("serialize_alternative_form", &self.serialize_alternative_form)
            .field("port", &self.port)
            .field("path", &Text(&self.path))
            .field("spelling", &self.spelling.as_ref().map(|spelling| Text(spelling)))
            .finish()
    }
}

impl fmt::Debug for Error {
    /// Writes the fields, with the length of a text in place of its bytes.
    ///
    /// ```
    /// let error = gix_url_proved::parse("ssh://user:secret@h:99999/p").unwrap_err();
    /// assert_eq!(format!("{error:?}"), "BadUrl { kind: Url, fault: BadPort, input: 27 bytes }");
    /// ```
    fn fmt(&self, f: &mut fmt::Formatter<'_>) -> fmt::Result {
        match self {
            Error::Memory => f.write_str("Memory"),
            Error::EmptyLocal => f.write_str("EmptyLocal"),
            Error::MissingPath { kind, input } => {
                f.debug_struct("MissingPath").field("kind", kind).field("input", &Length::of(input)).finish()
            }
            Error::NotUtf8 { kind, input } => {
                f.debug_struct("NotUtf8").field("kind", kind).field("input", &Length::of(input)).finish()
            }
            Error::TooLong { shown, total } => {
                f.debug_struct("TooLong").field("shown", &Length::of(shown)).field("total", total).finish()
            }
            Error::BadUrl { kind, fault, input } => f
                .debug_struct("BadUrl")
                .field("kind", kind)
                .field("fault", fault)
                .field("input", &Length::of(input))
                .finish(),
            Error::HelperName { name } => f.debug_struct("HelperName").field("name", &Length::of(name)).finish(),
            Error::Unwritable(fault) => f.debug_tuple("Unwritable").field(fault).finish(),
            Error::NoHome(user) => f.debug_tuple("NoHome").field(&Hidden(user)).finish(),
            Error::Unresolved => f.write_str("Unresolved"),
        }
    }
}

/// Writes the number of bytes in place of the bytes.
pub(crate) struct Length(usize);

impl Length {
    pub(crate) fn of(bytes: &[u8]) -> Length {
        Length(bytes.len())
    }
}

impl fmt::Debug for Length {
    fn fmt(&self, f: &mut fmt::Formatter<'_>) -> fmt::Result {
        write!(f, "{} bytes", self.0)
    }
}

/// Writes a user without the bytes of the name.
struct Hidden<'a>(&'a ForUser);

impl fmt::Debug for Hidden<'_> {
    fn fmt(&self, f: &mut fmt::Formatter<'_>) -> fmt::Result {
        match self.0 {
            ForUser::Current => f.write_str("Current"),
            ForUser::Name(name) => f.debug_tuple("Name").field(&Length::of(name)).finish(),
        }
    }
}

/// Writes bytes as a text in quotes, with an escape for each character that doesn't print and each byte that isn't part
/// of a character.
pub(crate) struct Text<'a>(pub(crate) &'a [u8]);

impl fmt::Debug for Text<'_> {
    fn fmt(&self, f: &mut fmt::Formatter<'_>) -> fmt::Result {
        f.write_char('"')?;
        for (text, invalid) in chunks(self.0) {
            for character in text.chars() {
                match u8::try_from(character) {
                    Ok(b'\0') => f.write_str("\\0")?,
                    Ok(byte) if byte.is_ascii() => write!(f, "{}", byte.escape_ascii())?,
                    _ => write!(f, "{}", character.escape_debug())?,
                }
            }
            write!(f, "{}", invalid.escape_ascii())?;
        }
        f.write_char('"')
    }
}
