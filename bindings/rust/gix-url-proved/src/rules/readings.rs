//! Reads texts as Git's own transports and its credential code do.

use super::reasons::reasons;
use super::Error;
use crate::bstr::BString;
use crate::debug::Text;
use crate::ffi;
use std::fmt;

reasons! {
    /// Why Git finds no place in a text.
    Unread {
        ByteZero = "byte 0 ends the argument of a command",
        Option = "the text begins with `-`: Git takes it for an option",
        RemoteHelper = "Git passes the text to a remote helper",
        HomeOrHere = "a local path begins with `~`, which commands of Git read differently",
        SecureShellUrl = "OpenSSH reads the word that Git passes to it as a URL",
        Refused = "Git, or Secure Shell, refuses the text",
    }
}

/// One of Git's own transports.
#[derive(Clone, Copy, Debug, PartialEq, Eq, Hash)]
pub enum Protocol {
    /// Secure Shell.
    Ssh,
    /// Git's own protocol.
    Git,
    /// A path of this machine.
    File,
}

/// The place that Git's own transports find in a text. `Debug` shows the user up to a `:`.
#[derive(Clone, PartialEq, Eq, Hash)]
pub struct GitPlace {
    /// The transport.
    pub protocol: Protocol,
    /// The user, if there is one. Git takes a password for a part of it.
    pub user: Option<BString>,
    /// The host without brackets; `None` if there is none or it is empty.
    pub host: Option<BString>,
    /// The port, if there is one.
    pub port: Option<u16>,
    /// The path, decoded if the text is a URL.
    pub path: BString,
}

impl fmt::Debug for GitPlace {
    fn fmt(&self, f: &mut fmt::Formatter<'_>) -> fmt::Result {
        let user = self.user.as_ref().and_then(|user| user.split(|byte| *byte == b':').next());
        f.debug_struct("GitPlace")
            .field("protocol", &self.protocol)
            .field("user", &user.map(Text))
            .field("host", &self.host.as_ref().map(|host| Text(host)))
            .field("port", &self.port)
            .field("path", &Text(&self.path))
            .finish()
    }
}

/// Reads a text as Git's own transports do. Allocates the parts, and memory for the library.
///
/// ```
/// use gix_url_proved::rules::{git_reading, Protocol};
///
/// let place = git_reading("ssh://u@h:22/~a/b")?;
/// assert_eq!((place.protocol, place.user, place.port), (Protocol::Ssh, Some("u".into()), Some(22)));
/// assert_eq!(place.path, "~a/b");
/// # Ok::<(), gix_url_proved::rules::Error>(())
/// ```
///
/// # Errors
///
/// [`Error::Unread`] if they find no place; [`Error::Memory`].
pub fn git_reading(text: impl AsRef<[u8]>) -> Result<GitPlace, Error> {
    ffi::git_reading(text.as_ref())
}

/// The request that Git's credential code makes to helpers for a URL. `Debug` shows `redacted` in place of the
/// password.
#[derive(Clone, PartialEq, Eq, Hash)]
pub struct CredentialRequest {
    /// The protocol: the text before `://`.
    pub protocol: BString,
    /// The user, decoded, if there is one.
    pub user: Option<BString>,
    /// The password, decoded, if there is one.
    pub password: Option<BString>,
    /// The host, decoded, with the port.
    pub host: BString,
    /// The path, decoded, if there is one.
    pub path: Option<BString>,
}

impl fmt::Debug for CredentialRequest {
    fn fmt(&self, f: &mut fmt::Formatter<'_>) -> fmt::Result {
        f.debug_struct("CredentialRequest")
            .field("protocol", &Text(&self.protocol))
            .field("user", &self.user.as_ref().map(|user| Text(user)))
            .field("password", &self.password.as_ref().map(|_| "redacted"))
            .field("host", &Text(&self.host))
            .field("path", &self.path.as_ref().map(|path| Text(path)))
            .finish()
    }
}

/// Reads a text as Git's credential code does; `None` if it finds nothing. Allocates the parts, and memory for the
/// library.
///
/// ```
/// use gix_url_proved::rules::credential_reading;
///
/// let request = credential_reading("https://u%40x@h:8443/a.git")?.unwrap();
/// assert_eq!((request.user, request.host), (Some("u@x".into()), "h:8443".into()));
/// assert!(credential_reading("/srv/a")?.is_none());
/// # Ok::<(), gix_url_proved::rules::Error>(())
/// ```
///
/// # Errors
///
/// [`Error::Memory`].
pub fn credential_reading(text: impl AsRef<[u8]>) -> Result<Option<CredentialRequest>, Error> {
    ffi::credential_reading(text.as_ref())
}
