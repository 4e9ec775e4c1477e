//! Conversions from texts, bytes and file names to locations, each by [`parse()`] of the bytes.

use crate::bstr::{BStr, BString};
use crate::parse::{parse, Error};
use crate::Url;
use std::borrow::Cow;
use std::convert::Infallible;
use std::ffi::OsStr;
use std::os::unix::ffi::OsStrExt;
use std::path::{Path, PathBuf};
use std::str::FromStr;

/// A conversion from a type, by an expression for its bytes.
macro_rules! try_from {
    ($($given:ty, $it:ident => $bytes:expr;)*) => {
        $(impl TryFrom<$given> for Url {
            type Error = Error;

            fn try_from($it: $given) -> Result<Url, Error> {
                parse($bytes)
            }
        })*
    };
}

try_from! {
    &str, text => text;
    String, text => text;
    &[u8], bytes => bytes;
    Vec<u8>, bytes => bytes;
    &BStr, bytes => bytes;
    BString, bytes => bytes;
    Cow<'_, BStr>, bytes => bytes.as_ref();
    &OsStr, name => name.as_bytes();
    &Path, path => path.as_os_str().as_bytes();
    PathBuf, path => path.as_os_str().as_bytes();
}

impl<const COUNT: usize> TryFrom<&[u8; COUNT]> for Url {
    type Error = Error;

    fn try_from(bytes: &[u8; COUNT]) -> Result<Url, Error> {
        parse(bytes)
    }
}

impl From<Infallible> for Error {
    /// Lets a location meet a bound `Error: From<E>` on values that become a location.
    fn from(never: Infallible) -> Error {
        match never {}
    }
}

impl FromStr for Url {
    type Err = Error;

    /// Parses the text.
    ///
    /// ```
    /// use gix_url_proved::Url;
    ///
    /// let url: Url = "git@host:path".parse()?;
    /// assert_eq!(url.user(), Some("git"));
    /// # Ok::<(), gix_url_proved::parse::Error>(())
    /// ```
    fn from_str(text: &str) -> Result<Url, Error> {
        parse(text)
    }
}
